//! What a call answers where it refuses: why, where and in which file; and how an answer is taken apart.

use crate::{Job, Number};
use std::fmt;

/// The file that a place is in.
///
/// Later versions of the library name more files, so a `match` needs an arm for others.
#[derive(Clone, Copy, Debug, PartialEq, Eq, Hash)]
#[non_exhaustive]
pub enum File {
    /// The place is in no file.
    NoFile,
    /// The device file.
    Device,
    /// The schedule.
    Schedule,
    /// The text that was read as a listing.
    Listing,
    /// The program of this job; of none where it was read for no job.
    Program(Option<Job>),
    /// A file that this crate has no name for, by its code in an answer, from a library that is newer than the crate.
    Unknown(u8),
}

impl File {
    /// The file that an answer's bits 40 to 47 name.
    fn of(code: u8) -> File {
        match code {
            0 => File::NoFile,
            1 => File::Device,
            2 => File::Schedule,
            3 => File::Listing,
            16 => File::Program(None),
            _ => program_of(code).unwrap_or(File::Unknown(code)),
        }
    }
}

/// The program of a job, whose code is 16 + job.
fn program_of(code: u8) -> Option<File> {
    let job = Job::try_from(u64::from(code.checked_sub(16)?)).ok()?;
    Some(File::Program(Some(job)))
}

impl fmt::Display for File {
    fn fmt(&self, f: &mut fmt::Formatter<'_>) -> fmt::Result {
        match self {
            File::NoFile => write!(f, "no file"),
            File::Device => write!(f, "the device"),
            File::Schedule => write!(f, "the schedule"),
            File::Listing => write!(f, "the listing"),
            File::Program(None) => write!(f, "the program"),
            File::Program(Some(job)) => write!(f, "the program of {job}"),
            File::Unknown(code) => write!(f, "file {code}, which has no name here"),
        }
    }
}

/// Why a call refuses, and where.
#[derive(Clone, Copy, Debug, PartialEq, Eq, Hash)]
pub struct Refusal {
    /// Why.
    pub number: Number,
    /// A byte offset in the file; 0 where it is in none, but a route's end outside the region has the end, 0 or 1.
    pub place: u32,
    /// The file that the place is in.
    pub file: File,
}

impl fmt::Display for Refusal {
    fn fmt(&self, f: &mut fmt::Formatter<'_>) -> fmt::Result {
        write!(f, "{} (at {} in {})", self.number, self.place, self.file)
    }
}

impl std::error::Error for Refusal {}

/// An answer taken apart: the value, or the refusal. Bits 0 to 31 hold the value or the place, 32 to 39 the number (0 accepted), 40 to 47 the file.
pub(crate) fn unpack(answer: u64) -> Result<u32, Refusal> {
    let number = (answer >> 32) as u8;
    if number == 0 {
        return Ok(answer as u32);
    }
    Err(Refusal { number: Number::of(number), place: answer as u32, file: File::of((answer >> 40) as u8) })
}

#[cfg(test)]
mod tests {
    use super::*;

    /// The number, the place and the file of a refusal that is packed so.
    fn refusal(number: u64, place: u64, file: u64) -> (Number, u32, File) {
        let refusal = unpack(place | number << 32 | file << 40).unwrap_err();
        (refusal.number, refusal.place, refusal.file)
    }

    #[test]
    fn answers() {
        assert_eq!(unpack(0), Ok(0));
        assert_eq!(unpack(0xFFFF_FFFF), Ok(0xFFFF_FFFF));
        assert_eq!(refusal(26, 0, 0), (Number::OccupancyLength, 0, File::NoFile));
        assert_eq!(refusal(5, 0, 1), (Number::DeviceLength, 0, File::Device));
        assert_eq!(refusal(23, 4095, 2), (Number::ScheduleByte, 4095, File::Schedule));
        assert_eq!(refusal(27, 65536, 3), (Number::Listing, 65536, File::Listing));
        assert_eq!(refusal(8, 4096, 16), (Number::Fit, 4096, File::Program(None)));
        assert_eq!(refusal(8, 8, 17), (Number::Fit, 8, File::Program(Some(Job::ONE))));
        assert_eq!(refusal(8, 8, 18), (Number::Fit, 8, File::Program(Some(Job::TWO))));
    }

    #[test]
    fn newer_answers() {
        assert_eq!(refusal(28, 3, 4), (Number::Unknown(28), 3, File::Unknown(4)));
        assert_eq!(refusal(8, 3, 15), (Number::Fit, 3, File::Unknown(15)));
        assert_eq!(refusal(8, 3, 19), (Number::Fit, 3, File::Unknown(19)));
        assert_eq!(refusal(255, 3, 255), (Number::Unknown(255), 3, File::Unknown(255)));
        assert_eq!(File::of(19).to_string(), "file 19, which has no name here");
    }
}
