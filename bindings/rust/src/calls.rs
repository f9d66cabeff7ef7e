//! The calls of the library, as safe functions; those of listings are in `listing.rs`.
//!
//! Safety of each: a pointer and its length are those of a slice that is lent for the call. What is written is lent by `&mut`, so that it overlaps
//! nothing else.

use crate::exports;
use crate::refusal::unpack;
use crate::{Job, Refusal};

/// Whether a device file reads.
///
/// # Errors
///
/// The device's refusals, 1 to 7, at a byte of the device.
///
/// ```
/// use abwakiris::{read_device, Number};
///
/// assert_eq!(read_device(b"QLG\x00\x01\x00\x01\x00\x00\x01"), Ok(()));
/// assert_eq!(read_device(b"QLG").unwrap_err().number, Number::FileTooShort);
/// ```
pub fn read_device(device: &[u8]) -> Result<(), Refusal> {
    locations(device).map(|_| ())
}

/// The number of locations of a device, 1 to 256: what [`route`] needs of occupancy bytes, and [`run`] of the map's bytes.
///
/// # Errors
///
/// The device's refusals, 1 to 7, at a byte of the device.
///
/// ```
/// assert_eq!(abwakiris::locations(b"QLG\x00\x01\x00\x02\x00\x01\x01\x02\x00\x01"), Ok(2));
/// ```
pub fn locations(device: &[u8]) -> Result<usize, Refusal> {
    let answer = unsafe { exports::abwakiris_read_device(device.as_ptr(), device.len()) };
    unpack(answer).map(|locations| locations as usize)
}

/// Whether a program file reads, for no job.
///
/// # Errors
///
/// The program's refusals, 1 to 4 and 8 to 10, at a byte of the program.
///
/// ```
/// use abwakiris::{read_program, Number};
///
/// assert_eq!(read_program(b"QLS\x00\x01\x00\x00\x00"), Ok(()));
/// assert_eq!(read_program(b"QLS\x00\x01\x00\x00\x00\x00").unwrap_err().number, Number::Fit);
/// ```
pub fn read_program(program: &[u8]) -> Result<(), Refusal> {
    let answer = unsafe { exports::abwakiris_read_program(program.as_ptr(), program.len()) };
    unpack(answer).map(|_| ())
}

/// What a check of an accepted program answers.
#[derive(Clone, Copy, Debug, PartialEq, Eq, Hash)]
pub struct Counted {
    /// The command count, at most [`MOST_COUNT`](crate::MOST_COUNT).
    pub count: u16,
    /// The number left live: how many of main's slots hold a qubit at its end, at most [`MOST_LIVE`](crate::MOST_LIVE).
    pub live: u16,
}

/// Whether a program can be loaded for a job and never halts the machine it is loaded on. Answers its command count and the number of qubits that it leaves
/// live: where the job is finished in a [`run`], it occupies so many locations.
///
/// # Errors
///
/// In this order: the device's refusals, the program's, those of typing (11 to 19), 20 for the count, 21 for a merge without a path.
///
/// ```
/// use abwakiris::{check, Counted, Job, Number};
///
/// let device = b"QLG\x00\x01\x00\x01\x00\x00\x01"; // one location, job 1's
/// let program = b"QLS\x00\x01\x00\x00\x05\x01\x00\x00\x03\x00"; // an init there and its free
/// assert_eq!(check(device, program, Job::ONE), Ok(Counted { count: 2, live: 0 }));
/// assert_eq!(check(device, program, Job::TWO).unwrap_err().number, Number::OutsideRegion);
///
/// let hands_on = b"QLS\x00\x01\x00\x00\x03\x01\x00\x00"; // the init alone
/// assert_eq!(check(device, hands_on, Job::ONE)?.live, 1);
/// # Ok::<(), abwakiris::Refusal>(())
/// ```
pub fn check(device: &[u8], program: &[u8], job: Job) -> Result<Counted, Refusal> {
    let job = u64::from(job.number());
    let answer = unsafe { exports::abwakiris_check(device.as_ptr(), device.len(), program.as_ptr(), program.len(), job) };
    unpack(answer).map(halves).map(|(count, live)| Counted { count, live })
}

/// The low and the high half of a value that holds two numbers.
fn halves(value: u32) -> (u16, u16) {
    (value as u16, (value >> 16) as u16)
}

/// The route between two locations of a job's region: the shortest path over free locations, and among those the smallest from the first end
/// on. The occupancy has one byte a location, 0 free; the ends' own bytes don't matter. The route is written from the buffer's start. Answers
/// its number of locations.
///
/// # Errors
///
/// In this order, all but the device's in no file: the device's refusals, 26 for the occupancy's length, 13 for an end outside the region (at 0 or 1,
/// which end), 15 for equal ends, 21 for no path, 24 for a route that is longer than the buffer. The buffer then holds what it held before.
///
/// ```
/// use abwakiris::{locations, route, Job};
///
/// let device = b"QLG\x00\x01\x00\x03\x00\x02\x01\x01\x01\x00\x01\x01\x02"; // three locations in a row
/// let free = vec![0; locations(device)?];
/// let mut buffer = [0; 256];
/// let length = route(device, Job::ONE, &free, 2, 0, &mut buffer)?;
/// assert_eq!(buffer[..length], [2, 1, 0]);
/// # Ok::<(), abwakiris::Refusal>(())
/// ```
pub fn route(device: &[u8], job: Job, occupancy: &[u8], first: u64, second: u64, buffer: &mut [u8]) -> Result<usize, Refusal> {
    let answer = unsafe {
        exports::abwakiris_route(
            device.as_ptr(),
            device.len(),
            u64::from(job.number()),
            occupancy.as_ptr(),
            occupancy.len(),
            first,
            second,
            buffer.as_mut_ptr(),
            buffer.len(),
        )
    };
    unpack(answer).map(|locations| locations as usize)
}

/// How many steps each job moved in a run.
#[derive(Clone, Copy, Debug, PartialEq, Eq, Hash)]
pub struct Moved {
    /// Steps of job 1.
    pub first: u16,
    /// Steps of job 2.
    pub second: u16,
}

/// A run of two jobs from a fresh start.
///
/// The schedule is a [`Schedule`](crate::Schedule), or any bytes: 0x10, 0x11 (job 1, outcome 0, 1) and 0x20, 0x21 (job 2). Each step writes a record
/// of four bytes, which [`Records`](crate::Records) takes apart: 0 moved, 1 finished or the reason that it is stuck; the edges of the route of a moved
/// merge, else 0; the statement's offset, big-endian (0xFFFF finished). The map gets one byte a location, 0 or the occupying job. Records need 4 bytes
/// a step, the map one a location. Answers how many steps each job moved.
///
/// # Errors
///
/// In this order: the device's refusals, the first program's, the second's, 22 for a schedule of more than 4,096 bytes, 23 at a byte of it that is no
/// step, 24 for records or a map that are too short. Records and map then hold what they held before.
///
/// ```
/// use abwakiris::{locations, run, Job, Moved, Records, Schedule, Told, RECORD_BYTES};
///
/// let device = b"QLG\x00\x01\x00\x02\x00\x00\x01\x02"; // a location for each job
/// let first = b"QLS\x00\x01\x00\x00\x03\x01\x00\x00"; // an init at 0
/// let second = b"QLS\x00\x01\x00\x00\x03\x01\x00\x01"; // an init at 1
/// let schedule = Schedule::new().step(Job::TWO, false).step(Job::ONE, false).step(Job::TWO, false);
///
/// let (mut records, mut map) = (vec![0; RECORD_BYTES * schedule.len()], vec![0; locations(device)?]);
/// assert_eq!(run(device, first, second, &schedule, &mut records, &mut map), Ok(Moved { first: 1, second: 1 }));
/// let told: Vec<Told> = Records::new(&records).map(|record| record.told).collect();
/// assert_eq!(told, [Told::Moved, Told::Moved, Told::Finished]);
/// assert_eq!(map, [1, 2]);
/// # Ok::<(), abwakiris::Refusal>(())
/// ```
pub fn run(
    device: &[u8],
    first_program: &[u8],
    second_program: &[u8],
    schedule: &[u8],
    records: &mut [u8],
    map: &mut [u8],
) -> Result<Moved, Refusal> {
    let answer = unsafe {
        exports::abwakiris_run(
            device.as_ptr(),
            device.len(),
            first_program.as_ptr(),
            first_program.len(),
            second_program.as_ptr(),
            second_program.len(),
            schedule.as_ptr(),
            schedule.len(),
            records.as_mut_ptr(),
            records.len(),
            map.as_mut_ptr(),
            map.len(),
        )
    };
    unpack(answer).map(halves).map(|(first, second)| Moved { first, second })
}
