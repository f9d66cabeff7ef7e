//! Cases of random bytes: as they come, behind a true mark, behind mark and version, and behind a whole good header.
//!
//! Bytes as they come are refused early. Behind a good header some are therefore kept small (owners, ends of edges, statements and their operands), so
//! that they are read further, and some of the files are even accepted. Of a call's inputs at least one is made of random bytes; the others come from the
//! rest of the generator, for a call looks at an input only after it has read the ones before it.

use super::cases::Case;
use super::devices::device;
use super::inputs::{filled, job, schedule};
use super::programs::program;
use super::random::Random;
use super::sizes::Size;

/// A case in which random bytes stand for a file, a schedule or an occupancy.
pub fn case(random: &mut Random) -> Case {
    match random.below(10) {
        0 => Case::ReadDevice { device: device_file(random) },
        1 | 2 => Case::ReadProgram { program: program_file(random) },
        3..=5 => check_case(random),
        6 | 7 => route_case(random),
        _ => run_case(random),
    }
}

/// A length from 0 to some KB, more often a short one.
fn length(random: &mut Random) -> usize {
    let most = random.pick(&[12, 12, 60, 300, 1_000, 5_000]);
    random.between(0, most)
}

/// So many bytes, each below the limit.
fn small(random: &mut Random, length: usize, limit: usize) -> Vec<u8> {
    (0..length).map(|_| random.below(limit) as u8).collect()
}

/// Random bytes behind these.
fn behind(random: &mut Random, bytes: &[u8]) -> Vec<u8> {
    let length = length(random);
    [bytes, &random.bytes(length)].concat()
}

/// Any number, or one of a byte's size.
fn number(random: &mut Random) -> u64 {
    if random.one_in(4) { random.next() } else { random.below(256) as u64 }
}

// ---------------------------------------------------------------------------------------------
// Devices
// ---------------------------------------------------------------------------------------------

fn device_file(random: &mut Random) -> Vec<u8> {
    let most = random.pick(&[4, 10, 10, 40, 256]);
    let n = random.between(1, most);
    let most = random.pick(&[0, 3, n, 2 * n, 1_024]);
    let e = random.between(0, most);
    let header = [b"QLG\0\x01", &(n as u16).to_be_bytes()[..], &(e as u16).to_be_bytes()].concat();
    match random.below(16) {
        0 | 1 => behind(random, b""),
        2 => behind(random, b"QLG"),
        3 => behind(random, b"QLG\0\x01"),
        4 => behind(random, &header),
        _ => [header, owners_and_edges(random, n, e)].concat(),
    }
}

/// The right number of bytes for n owners and e edges.
fn owners_and_edges(random: &mut Random, n: usize, e: usize) -> Vec<u8> {
    let owners = match random.below(6) {
        0 => random.bytes(n),
        1 => small(random, n, 4),
        2 => vec![random.pick(&[1, 2]); n],
        _ => small(random, n, 3),
    };
    let mut ends = match random.below(5) {
        0 => random.bytes(2 * e),
        _ => small(random, 2 * e, n),
    };
    // In order, which leaves only an edge that comes twice or joins a location with itself.
    if !random.one_in(4) {
        let mut edges: Vec<(u8, u8)> = ends.chunks(2).map(|edge| (edge[0].min(edge[1]), edge[0].max(edge[1]))).collect();
        edges.sort();
        ends = edges.into_iter().flat_map(|(a, b)| [a, b]).collect();
    }
    [owners, ends].concat()
}

/// The number of locations in a device file's header, wrong or right, but at least 1 and not too many to make a buffer for.
fn locations(device: &[u8]) -> usize {
    match device.get(5..7) {
        Some(n) => (usize::from(n[0]) * 256 + usize::from(n[1])).clamp(1, 1_000),
        None => 1,
    }
}

// ---------------------------------------------------------------------------------------------
// Programs
// ---------------------------------------------------------------------------------------------

pub(super) fn program_file(random: &mut Random) -> Vec<u8> {
    match random.below(16) {
        0 | 1 => behind(random, b""),
        2 => behind(random, b"QLS"),
        3 => behind(random, b"QLS\0\x01"),
        4 => {
            let functions = random.below(16) as u8;
            behind(random, &[b"QLS\0\x01", &[functions][..]].concat())
        }
        _ => behind_program_headers(random),
    }
}

/// What fills the blocks of a program.
#[derive(Clone, Copy)]
enum Filling {
    /// Bytes below the limit, 256 for any.
    Bytes(usize),
    /// Statements whose operands are small bytes.
    Statements,
}

/// The operands of the statements 1 to 13: slots, locations, bits, blocks and what is a call's own.
const OPERANDS: [&str; 13] = ["sl", "sl", "s", "bs", "sbs", "sbsbs", "ss", "ss", "ss", "s{{", "s{", "c", "sb"];

struct Filler<'a> {
    random: &'a mut Random,
    filling: Filling,
    /// Slots, and in main locations, are bytes below these.
    slots: usize,
    locations: usize,
    /// k and m of the functions so far.
    functions: Vec<(usize, usize)>,
}

/// A program whose header, function headers and bodies' lengths are good, with random bytes in the bodies.
fn behind_program_headers(random: &mut Random) -> Vec<u8> {
    let count = random.pick(&[0, 0, 0, 0, 1, 1, 2, 3, 15]);
    let filling = match random.below(8) {
        0 => Filling::Bytes(256),
        1 => Filling::Bytes(14),
        2 => Filling::Bytes(4),
        _ => Filling::Statements,
    };
    let room = random.pick(&[8, 20, 20, 60, 400, 5_000]) / (count + 1);
    let slots = random.pick(&[1, 2, 3, 3, 5, 32]);
    let locations = random.pick(&[1, 2, 4, 8, 256]);
    let mut filler = Filler { random, filling, slots, locations, functions: Vec::new() };
    let mut bytes = [b"QLS\0\x01", &[count as u8][..]].concat();
    for _ in 0..count {
        let most = filler.random.pick(&[0, 2, 2, 4, 16]);
        let k = filler.random.between(0, most);
        let m = filler.random.between(0, k.min(8));
        bytes.extend([k as u8, m as u8]);
        bytes.extend(filler.block(room, k));
        filler.functions.push((k, m));
    }
    bytes.extend(filler.block(room, filler.locations));
    bytes
}

impl Filler<'_> {
    /// A block of at most so many bytes, its length word before it. Location bytes are below `locations`.
    fn block(&mut self, room: usize, locations: usize) -> Vec<u8> {
        let length = self.random.between(0, room);
        let bytes = match self.filling {
            Filling::Bytes(limit) => small(self.random, length, limit),
            Filling::Statements => self.statements(length, locations),
        };
        [&(bytes.len() as u16).to_be_bytes()[..], &bytes].concat()
    }

    /// Statements up to this length. The last one is cut off there, or left out.
    fn statements(&mut self, length: usize, locations: usize) -> Vec<u8> {
        let mut bytes = Vec::new();
        loop {
            let statement = self.statement(length - bytes.len(), locations);
            if bytes.len() + statement.len() > length {
                let rest = if self.random.one_in(12) { length - bytes.len() } else { 0 };
                bytes.extend(&statement[..rest]);
                return bytes;
            }
            bytes.extend(statement);
        }
    }

    fn statement(&mut self, room: usize, locations: usize) -> Vec<u8> {
        // Inits and bools more often, without which there is little to go on with.
        let kind = if self.random.one_in(4) { self.random.pick(&[1, 2, 13]) } else { self.random.between(1, 13) };
        let mut bytes = vec![kind as u8];
        for operand in OPERANDS[kind - 1].bytes() {
            match operand {
                b's' => bytes.push(self.random.below(self.slots) as u8),
                b'l' => bytes.push(self.random.below(locations.max(1)) as u8),
                b'b' => bytes.push(self.random.below(2) as u8),
                b'{' => bytes.extend(self.block(room / 2, locations)),
                _ => self.call(locations, &mut bytes),
            }
        }
        // One byte of any value now and then, the statement's first or an operand.
        if self.random.one_in(60) {
            let at = self.random.below(bytes.len());
            bytes[at] = self.random.next() as u8;
        }
        bytes
    }

    /// A call's function, its k and m, locations and slots.
    fn call(&mut self, locations: usize, bytes: &mut Vec<u8>) {
        let f = self.random.below(self.functions.len().max(1));
        let (k, m) = match self.functions.get(f) {
            Some(&function) => function,
            None => (self.random.below(3), 0),
        };
        bytes.extend([f as u8, k as u8, m as u8]);
        // Each location after the one before it most times, so that they differ.
        let first = self.random.below(locations.max(1));
        for i in 0..k {
            let location = if self.random.one_in(8) { self.random.below(256) } else { first + i };
            bytes.push((location % locations.max(1)) as u8);
        }
        for i in 0..m {
            let slot = if self.random.one_in(4) { self.random.below(self.slots) } else { i };
            bytes.push(slot as u8);
        }
    }
}

// ---------------------------------------------------------------------------------------------
// Calls
// ---------------------------------------------------------------------------------------------

fn random_job(random: &mut Random) -> u64 {
    if random.one_in(60) { number(random) } else { job(random) }
}

fn check_case(random: &mut Random) -> Case {
    let plan = device(random, Size::Small);
    let job = random_job(random);
    let (device, program) = match random.below(6) {
        0 => (device_file(random), program_file(random)),
        1 => (device_file(random), program(random, &plan, (job as u8).clamp(1, 2), Size::Small, 24).0),
        _ => (plan.encode(), program_file(random)),
    };
    Case::Check { device, program, job, claim: None }
}

fn route_case(random: &mut Random) -> Case {
    let random_device = random.one_in(2);
    let device = if random_device { device_file(random) } else { device(random, Size::Small).encode() };
    let job = random_job(random);
    let n = locations(&device);
    let region: Vec<usize> = (0..n).filter(|l| device.get(9 + l) == Some(&(job as u8))).collect();
    let length = if random.one_in(8) { length(random) } else { n };
    // On random edges every location may also be free.
    let limit = if random_device { random.pick(&[1, 2, 4, 256]) } else { random.pick(&[2, 4, 256]) };
    let occupancy = small(random, length, limit);
    let end = |random: &mut Random| match random.below(12) {
        0 => number(random),
        1 | 2 => random.below(n) as u64,
        _ => random.pick_if_any(&region).unwrap_or(0) as u64,
    };
    let (first, second) = (end(random), end(random));
    let room = random.below(12);
    let buffer = filled(random, room);
    Case::Route { device, job, occupancy, first, second, buffer }
}

/// A schedule of any bytes, of good ones and then any, or of good ones.
fn random_schedule(random: &mut Random) -> Vec<u8> {
    let length = length(random);
    let good = match random.below(4) {
        0 => 0,
        1 => random.between(0, length),
        _ => length,
    };
    let mut bytes: Vec<u8> = (0..good).map(|_| random.pick(&[0x10, 0x11, 0x20, 0x21])).collect();
    bytes.extend(random.bytes(length - good));
    bytes
}

fn run_case(random: &mut Random) -> Case {
    let plan = device(random, Size::Small);
    // Which of device, programs and schedule are random bytes: one of them, or all, or both programs.
    let which = random.below(8);
    let is_random = |input: usize| which == input || which == 4 || which > 4 && matches!(input, 1 | 2);
    let device = if is_random(0) { device_file(random) } else { plan.encode() };
    let mut of_job = |input: usize| {
        if is_random(input) { program_file(random) } else { program(random, &plan, input as u8, Size::Small, 24).0 }
    };
    let (one, two) = (of_job(1), of_job(2));
    let schedule = if is_random(3) { random_schedule(random) } else { schedule(random, Size::Small) };
    let records = if random.one_in(8) { length(random) } else { 4 * schedule.len() };
    let map = if random.one_in(8) { length(random) } else { locations(&device) };
    Case::Run { device, one, two, schedule, records: filled(random, records), map: filled(random, map) }
}
