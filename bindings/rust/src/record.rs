//! The records that a run writes, taken apart.

use crate::{Number, RECORD_BYTES};
use std::iter::FusedIterator;
use std::slice::ChunksExact;

/// What a record tells of its step.
#[derive(Clone, Copy, Debug, PartialEq, Eq, Hash)]
pub enum Told {
    /// The job moved.
    Moved,
    /// The job had finished before.
    Finished,
    /// The job is stuck, for this reason: a number of 11 to 16, or 21.
    Stuck(Number),
}

impl Told {
    fn of(byte: u8) -> Told {
        match byte {
            0 => Told::Moved,
            1 => Told::Finished,
            reason => Told::Stuck(Number::of(reason)),
        }
    }
}

/// The record of a step.
#[derive(Clone, Copy, Debug, PartialEq, Eq, Hash)]
pub struct Record {
    /// What it tells.
    pub told: Told,
    /// The edges of the route of a moved merge, else 0.
    pub edges: u8,
    /// The statement's byte offset in the job's program, a return's being its call's. None where the bytes are FF FF, as for a finished job.
    pub offset: Option<u16>,
}

impl From<[u8; RECORD_BYTES]> for Record {
    fn from([told, edges, high, low]: [u8; RECORD_BYTES]) -> Record {
        let offset = u16::from_be_bytes([high, low]);
        Record { told: Told::of(told), edges, offset: (offset != 0xFFFF).then_some(offset) }
    }
}

/// The records in the bytes that a run wrote, in the schedule's order.
///
/// Bytes after the last four that make a record are ignored. A run writes four bytes a step and leaves the others as they were, so of a longer buffer
/// give only the part that was written.
///
/// ```
/// use abwakiris::{Number, Records, Told};
///
/// let mut records = Records::new(&[0, 2, 0, 14, 1, 0, 0xFF, 0xFF, 21, 0, 0, 20]);
/// assert_eq!(records.len(), 3);
/// let merge = records.next().unwrap();
/// assert_eq!((merge.told, merge.edges, merge.offset), (Told::Moved, 2, Some(14)));
/// let told: Vec<Told> = records.map(|record| record.told).collect();
/// assert_eq!(told, [Told::Finished, Told::Stuck(Number::NoPath)]);
/// ```
#[derive(Clone, Debug)]
#[must_use = "records are taken apart when they are iterated over"]
pub struct Records<'a> {
    left: ChunksExact<'a, u8>,
}

impl<'a> Records<'a> {
    /// The records in these bytes, four a record.
    pub fn new(bytes: &'a [u8]) -> Records<'a> {
        Records { left: bytes.chunks_exact(RECORD_BYTES) }
    }
}

/// The record of four bytes.
fn record(bytes: &[u8]) -> Record {
    Record::from([bytes[0], bytes[1], bytes[2], bytes[3]])
}

impl Iterator for Records<'_> {
    type Item = Record;

    fn next(&mut self) -> Option<Record> {
        self.left.next().map(record)
    }

    fn size_hint(&self) -> (usize, Option<usize>) {
        self.left.size_hint()
    }
}

impl DoubleEndedIterator for Records<'_> {
    fn next_back(&mut self) -> Option<Record> {
        self.left.next_back().map(record)
    }
}

impl ExactSizeIterator for Records<'_> {}

impl FusedIterator for Records<'_> {}
