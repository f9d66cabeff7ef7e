//! A job of a device.

use crate::{File, Number, Refusal};
use std::fmt;

/// A job of a device: 1 or 2.
///
/// ```
/// use abwakiris::{Job, Number};
///
/// assert_eq!(Job::try_from(2u64), Ok(Job::TWO));
/// assert_eq!(Job::TWO.number(), 2);
/// assert_eq!(Job::try_from(257u64).unwrap_err().number, Number::Job);
/// ```
#[derive(Clone, Copy, Debug, PartialEq, Eq, PartialOrd, Ord, Hash)]
pub struct Job(u8);

impl Job {
    /// Job 1.
    pub const ONE: Job = Job(1);
    /// Job 2.
    pub const TWO: Job = Job(2);
    /// Every job, in order.
    pub const ALL: &'static [Job] = &[Job::ONE, Job::TWO];

    /// The number itself.
    #[must_use]
    pub const fn number(self) -> u8 {
        self.0
    }
}

/// The job of a number. The whole number counts: 257 is no job. Another number is refused as the calls of the library refuse it: by 25, at 0 in no file.
impl TryFrom<u64> for Job {
    type Error = Refusal;

    fn try_from(number: u64) -> Result<Job, Refusal> {
        let job = Job::ALL.iter().find(|job| u64::from(job.0) == number);
        job.copied().ok_or(Refusal { number: Number::Job, place: 0, file: File::NoFile })
    }
}

impl fmt::Display for Job {
    fn fmt(&self, f: &mut fmt::Formatter<'_>) -> fmt::Result {
        write!(f, "job {}", self.0)
    }
}
