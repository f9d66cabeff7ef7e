//! The schedule of a run.

use crate::Job;
use std::ops::Deref;

/// A schedule: the steps of a run in order, each of a job and with the outcome that a measurement in it binds.
///
/// It is built step by step or from an iterator of jobs and outcomes, and is lent as its bytes, one a step: `&schedule` is what [`run`](crate::run)
/// takes, as it takes any other bytes.
///
/// ```
/// use abwakiris::{Job, Schedule};
///
/// let mut schedule = Schedule::new().step(Job::ONE, false).repeat(2);
/// schedule.push(Job::TWO, true);
/// assert_eq!(schedule.as_bytes(), [0x10, 0x10, 0x21]);
/// assert_eq!(schedule.len(), 3);
///
/// let in_turn: Schedule = Job::ALL.iter().map(|&job| (job, false)).collect();
/// assert_eq!(in_turn.repeat(2).as_bytes(), [0x10, 0x20, 0x10, 0x20]);
/// ```
#[derive(Clone, Debug, Default, PartialEq, Eq, Hash)]
pub struct Schedule {
    bytes: Vec<u8>,
}

impl Schedule {
    /// A schedule of no steps.
    #[must_use]
    pub const fn new() -> Schedule {
        Schedule { bytes: Vec::new() }
    }

    /// Adds a step at the end.
    pub fn push(&mut self, job: Job, outcome: bool) {
        self.bytes.push(16 * job.number() + u8::from(outcome));
    }

    /// This schedule with a step more at the end.
    #[must_use]
    pub fn step(mut self, job: Job, outcome: bool) -> Schedule {
        self.push(job, outcome);
        self
    }

    /// This schedule so many times in a row.
    ///
    /// # Panics
    ///
    /// Where it would have more steps than a `Vec` can hold bytes. A run takes 4,096.
    #[must_use]
    pub fn repeat(&self, times: usize) -> Schedule {
        Schedule { bytes: self.bytes.repeat(times) }
    }

    /// The bytes that a run takes, one a step: 0x10, 0x11 for job 1 with outcome 0, 1, and 0x20, 0x21 for job 2.
    #[must_use]
    pub fn as_bytes(&self) -> &[u8] {
        &self.bytes
    }
}

impl Deref for Schedule {
    type Target = [u8];

    fn deref(&self) -> &[u8] {
        self.as_bytes()
    }
}

impl AsRef<[u8]> for Schedule {
    fn as_ref(&self) -> &[u8] {
        self.as_bytes()
    }
}

impl Extend<(Job, bool)> for Schedule {
    fn extend<I: IntoIterator<Item = (Job, bool)>>(&mut self, steps: I) {
        for (job, outcome) in steps {
            self.push(job, outcome);
        }
    }
}

impl FromIterator<(Job, bool)> for Schedule {
    fn from_iter<I: IntoIterator<Item = (Job, bool)>>(steps: I) -> Schedule {
        let mut schedule = Schedule::new();
        schedule.extend(steps);
        schedule
    }
}
