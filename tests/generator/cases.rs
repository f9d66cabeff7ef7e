//! Cases: which of the calls, with the files, numbers and buffers that it is given.

use super::device_damage::device_bytes;
use super::devices::{device, Device};
use super::inputs::{around, end, filled, job_with_region, occupancy, schedule};
use super::listings::{read_case, write_case};
use super::programs::program;
use super::random::Random;
use super::random_case;
use super::sizes::{size, Size};
use crate::library::Call;
use crate::reference;

/// The inputs of one call. Buffers are given as their first contents. `claim` is the number
/// that the check must answer by the way the program was built.
pub enum Case {
    ReadDevice { device: Vec<u8> },
    ReadProgram { program: Vec<u8> },
    Check {
        device: Vec<u8>,
        program: Vec<u8>,
        job: u64,
        // The comparison reads it, the threads do not.
        #[allow(dead_code)]
        claim: Option<u8>,
    },
    Route {
        device: Vec<u8>,
        job: u64,
        occupancy: Vec<u8>,
        first: u64,
        second: u64,
        buffer: Vec<u8>,
    },
    Run {
        device: Vec<u8>,
        one: Vec<u8>,
        two: Vec<u8>,
        schedule: Vec<u8>,
        records: Vec<u8>,
        map: Vec<u8>,
    },
    WriteListing { program: Vec<u8>, text: Vec<u8> },
    ReadListing { text: Vec<u8>, program: Vec<u8> },
}

impl Case {
    pub fn call(&self) -> Call<'_> {
        match self {
            Case::ReadDevice { device } => Call::read_device(device),
            Case::ReadProgram { program } => Call::read_program(program),
            Case::Check { device, program, job, .. } => Call::check(device, program, *job),
            Case::Route { device, job, occupancy, first, second, buffer } => {
                Call::route(device, *job, occupancy, *first, *second, buffer)
            }
            Case::Run { device, one, two, schedule, records, map } => {
                Call::run(device, one, two, schedule, records, map)
            }
            Case::WriteListing { program, text } => Call::write_listing(program, text),
            Case::ReadListing { text, program } => Call::read_listing(text, program),
        }
    }
}

/// A case of any call; one in five is of random bytes.
pub fn case(random: &mut Random) -> Case {
    if random.one_in(5) {
        return random_case(random);
    }
    if random.one_in(20) {
        return listing_case(random);
    }
    let size = size(random);
    let plan = device(random, size);
    match random.below(20) {
        0 => Case::ReadDevice { device: device_bytes(random, &plan, 2) },
        1 | 2 => {
            let (program, _) = program(random, &plan, 1, size, 2);
            Case::ReadProgram { program }
        }
        3..=9 => check_case(random, &plan, size),
        10..=12 => route_case(random, &plan),
        _ => run_case(random, &plan, size),
    }
}

fn listing_case(random: &mut Random) -> Case {
    if random.one_in(2) {
        let (program, text) = write_case(random);
        Case::WriteListing { program, text }
    } else {
        let (text, program) = read_case(random);
        Case::ReadListing { text, program }
    }
}

fn check_case(random: &mut Random, plan: &Device, size: Size) -> Case {
    let job = job_with_region(random, plan);
    // Sometimes a program that was built for the other job's region.
    let built_for = if random.one_in(16) { 1 + random.below(2) as u8 } else { (job as u8).clamp(1, 2) };
    let (program, claim) = program(random, plan, built_for, size, 7);
    let device = device_bytes(random, plan, 14);
    let sound = job == u64::from(built_for) && device == plan.encode();
    Case::Check { device, program, job, claim: if sound { claim } else { None } }
}

fn route_case(random: &mut Random, plan: &Device) -> Case {
    let n = plan.owner.len();
    let job = job_with_region(random, plan);
    let region = plan.region(job as u8);
    let device = device_bytes(random, plan, 14);
    let occupancy = occupancy(random, n);
    let first = end(random, n, &region);
    let mut second = end(random, n, &region);
    if second == first && !random.one_in(4) {
        second = end(random, n, &region);
    }
    let mut all = [0; 256];
    let needed = match reference::route(&device, job, &occupancy, first, second, &mut all) {
        Ok(locations) => locations,
        Err(_) => random.below(12),
    };
    let length = around(random, needed);
    let buffer = filled(random, length);
    Case::Route { device, job, occupancy, first, second, buffer }
}

fn run_case(random: &mut Random, plan: &Device, size: Size) -> Case {
    let (one, _) = program(random, plan, 1, size, 24);
    let (two, _) = program(random, plan, 2, size, 24);
    let schedule = schedule(random, size);
    let (mut records, mut map) = (4 * schedule.len(), plan.owner.len());
    match random.below(4) {
        0 => records = around(random, records),
        1 => map = around(random, map),
        2 => {
            records = around(random, records);
            map = around(random, map);
        }
        _ => {}
    }
    let device = device_bytes(random, plan, 24);
    let records = filled(random, records);
    let map = filled(random, map);
    Case::Run { device, one, two, schedule, records, map }
}
