//! The library's exports, called with bytes that stand between margins, so that a byte read for a buffer's own or written past its end shows.

#![allow(dead_code, unexpected_cfgs)]

#[path = "../bindings/rust/src/exports.rs"]
mod exports;
#[cfg(selftest)]
#[path = "stub.rs"]
mod stub;

pub use exports::*;
use std::time::{Duration, Instant};

/// The file codes of an answer; the program of job j is `PROGRAM` + j.
pub const NONE: u64 = 0;
pub const DEVICE: u64 = 1;
pub const SCHEDULE: u64 = 2;
pub const LISTING: u64 = 3;
pub const PROGRAM: u64 = 16;

/// A refusal as the exports pack it.
pub fn no(number: u64, place: u64, file: u64) -> u64 {
    place | number << 32 | file << 40
}

/// The refusal's number in an answer, 0 where nothing is refused.
pub fn number_of(packed: u64) -> usize {
    (packed >> 32 & 0xFF) as usize
}

#[derive(Clone, Copy, PartialEq, Eq)]
pub enum Export {
    ReadDevice,
    ReadProgram,
    Check,
    Route,
    Run,
    WriteListing,
    ReadListing,
}

/// A call: the files and other bytes it reads and the numbers it takes, each in the order of the export, and the first contents of its buffers.
pub struct Call<'a> {
    pub export: Export,
    pub inputs: Vec<&'a [u8]>,
    pub numbers: Vec<u64>,
    pub buffers: Vec<&'a [u8]>,
}

impl<'a> Call<'a> {
    pub fn read_device(device: &'a [u8]) -> Call<'a> {
        Call { export: Export::ReadDevice, inputs: vec![device], numbers: vec![], buffers: vec![] }
    }

    pub fn read_program(program: &'a [u8]) -> Call<'a> {
        Call { export: Export::ReadProgram, inputs: vec![program], numbers: vec![], buffers: vec![] }
    }

    pub fn check(device: &'a [u8], program: &'a [u8], job: u64) -> Call<'a> {
        Call { export: Export::Check, inputs: vec![device, program], numbers: vec![job], buffers: vec![] }
    }

    pub fn route(device: &'a [u8], job: u64, occupancy: &'a [u8], first: u64, second: u64, buffer: &'a [u8]) -> Call<'a> {
        Call { export: Export::Route, inputs: vec![device, occupancy], numbers: vec![job, first, second], buffers: vec![buffer] }
    }

    pub fn run(device: &'a [u8], one: &'a [u8], two: &'a [u8], schedule: &'a [u8], records: &'a [u8], map: &'a [u8]) -> Call<'a> {
        Call { export: Export::Run, inputs: vec![device, one, two, schedule], numbers: vec![], buffers: vec![records, map] }
    }

    pub fn write_listing(program: &'a [u8], text: &'a [u8]) -> Call<'a> {
        Call { export: Export::WriteListing, inputs: vec![program], numbers: vec![], buffers: vec![text] }
    }

    pub fn read_listing(text: &'a [u8], program: &'a [u8]) -> Call<'a> {
        Call { export: Export::ReadListing, inputs: vec![text], numbers: vec![], buffers: vec![program] }
    }
}

/// What a call came to: its answer and all bytes of its buffers afterwards.
#[derive(PartialEq, Eq)]
pub struct Outcome {
    pub packed: u64,
    pub buffers: Vec<Vec<u8>>,
}

/// The pointer that goes with a length of 0: every one must do.
#[derive(Clone, Copy, PartialEq, Eq)]
pub enum Empty {
    Null,
    Dangling,
    BetweenMargins,
}

pub const EMPTY: [Empty; 3] = [Empty::Null, Empty::Dangling, Empty::BetweenMargins];

/// Bytes lent to the library, with a margin on both sides that no call may touch.
struct Lent {
    bytes: Vec<u8>,
    length: usize,
    empty: Empty,
}

const MARGIN: usize = 64;

fn margin(i: usize) -> u8 {
    (i * 37 + 11) as u8
}

impl Lent {
    fn new(contents: &[u8], empty: Empty) -> Lent {
        let mut bytes: Vec<u8> = (0..MARGIN).map(margin).collect();
        bytes.extend(contents);
        bytes.extend((0..MARGIN).map(margin));
        Lent { bytes, length: contents.len(), empty }
    }

    fn pointer(&mut self) -> *mut u8 {
        match self.empty {
            Empty::Null if self.length == 0 => std::ptr::null_mut(),
            Empty::Dangling if self.length == 0 => std::ptr::NonNull::dangling().as_ptr(),
            _ => self.bytes[MARGIN..].as_mut_ptr(),
        }
    }

    fn contents(&self) -> &[u8] {
        &self.bytes[MARGIN..MARGIN + self.length]
    }

    fn margins_intact(&self) -> bool {
        let after = MARGIN + self.length;
        (0..MARGIN).all(|i| self.bytes[i] == margin(i) && self.bytes[after + i] == margin(i))
    }
}

impl Call<'_> {
    /// The library's outcome and the time it took; or what it touched that was not its own.
    pub fn perform(&self, empty: Empty) -> Result<(Outcome, Duration), String> {
        let mut inputs: Vec<Lent> = self.inputs.iter().map(|bytes| Lent::new(bytes, empty)).collect();
        let mut buffers: Vec<Lent> = self.buffers.iter().map(|bytes| Lent::new(bytes, empty)).collect();
        let (packed, time) = self.export(&mut inputs, &mut buffers);
        if inputs.iter().zip(&self.inputs).any(|(after, before)| after.contents() != *before) {
            return Err("an input was changed".to_string());
        }
        if !inputs.iter().chain(&buffers).all(Lent::margins_intact) {
            return Err("bytes outside a buffer were changed".to_string());
        }
        let buffers = buffers.iter().map(|buffer| buffer.contents().to_vec()).collect();
        Ok((Outcome { packed, buffers }, time))
    }

    fn export(&self, inputs: &mut [Lent], buffers: &mut [Lent]) -> (u64, Duration) {
        let input: Vec<(*const u8, usize)> = inputs.iter_mut().map(|i| (i.pointer() as *const u8, i.length)).collect();
        let buffer: Vec<(*mut u8, usize)> = buffers.iter_mut().map(|b| (b.pointer(), b.length)).collect();
        let start = Instant::now();
        // Every pointer is followed by its own length and lives until after the call.
        let packed = unsafe {
            match (self.export, &input[..], &self.numbers[..], &buffer[..]) {
                (Export::ReadDevice, [device], [], []) => abwakiris_read_device(device.0, device.1),
                (Export::ReadProgram, [program], [], []) => abwakiris_read_program(program.0, program.1),
                (Export::Check, [device, program], [job], []) => abwakiris_check(device.0, device.1, program.0, program.1, *job),
                (Export::Route, [device, occupancy], [job, first, second], [route]) => {
                    abwakiris_route(device.0, device.1, *job, occupancy.0, occupancy.1, *first, *second, route.0, route.1)
                }
                (Export::Run, [device, one, two, schedule], [], [records, map]) => abwakiris_run(
                    device.0, device.1, one.0, one.1, two.0, two.1, schedule.0, schedule.1, records.0, records.1, map.0, map.1,
                ),
                (Export::WriteListing, [program], [], [text]) => abwakiris_write_listing(program.0, program.1, text.0, text.1),
                (Export::ReadListing, [text], [], [program]) => abwakiris_read_listing(text.0, text.1, program.0, program.1),
                _ => panic!("a call without its inputs, numbers and buffers"),
            }
        };
        (packed, start.elapsed())
    }
}
