//! What calls are given beside files: jobs, occupancies and ends of routes, schedules, buffers. Some are wrong.

use super::devices::Device;
use super::random::Random;
use super::sizes::Size;

/// A job, right or wrong.
pub(super) fn job(random: &mut Random) -> u64 {
    match random.below(24) {
        0 => random.pick(&[0, 3, 255, 256, 257, 258, 1 << 32 | 1, 1 << 63, u64::MAX]),
        n => 1 + (n as u64 % 2),
    }
}

/// In an empty region little can be tried, so it is left for the other one most times.
pub(super) fn job_with_region(random: &mut Random, plan: &Device) -> u64 {
    let job = job(random);
    if matches!(job, 1 | 2) && plan.region(job as u8).is_empty() && !random.one_in(4) {
        3 - job
    } else {
        job
    }
}

/// An occupancy for n locations, or one of another length.
pub(super) fn occupancy(random: &mut Random, n: usize) -> Vec<u8> {
    let length = match random.below(16) {
        0 => random.pick(&[0, n - 1, n + 1, 256, 2 * n]),
        _ => n,
    };
    let one_in = random.pick(&[2, 4, 8, 1000]);
    (0..length).map(|_| if random.one_in(one_in) { random.pick(&[1, 2, 255, 128]) } else { 0 }).collect()
}

/// An end of a route: in the region most times, and often its first or last location.
pub(super) fn end(random: &mut Random, n: usize, region: &[usize]) -> u64 {
    match random.below(16) {
        0 => random.below(n) as u64,
        1 => random.pick(&[n as u64, 255, 256, 257, 1 << 32, u64::MAX, 1 << 16]),
        2 => region.first().copied().unwrap_or(0) as u64,
        3 => region.last().copied().unwrap_or(0) as u64,
        _ => random.pick_if_any(region).unwrap_or(0) as u64,
    }
}

/// A schedule, some too long or with a bad byte.
pub(super) fn schedule(random: &mut Random, size: Size) -> Vec<u8> {
    let length = match size {
        Size::Limit => random.pick(&[4096, 4096, 4096, 4095, 2000]),
        _ => match random.below(12) {
            0 => random.below(4),
            1 => random.between(200, 600),
            _ => random.between(10, 120),
        },
    };
    // How often it is job 1's turn, and how often the outcome is 1.
    let turns = random.pick(&[1, 2, 2, 2, 3, 4]);
    let ones = random.pick(&[1, 2, 2, 4]);
    let swap = random.one_in(2);
    let mut schedule: Vec<u8> = (0..length)
        .map(|_| {
            let job = if random.one_in(turns) != swap { 0x10 } else { 0x20 };
            job + u8::from(random.one_in(ones))
        })
        .collect();
    match random.below(32) {
        0 => schedule.resize(random.pick(&[4097, 4098, 5000]), 0x10),
        1 | 2 if !schedule.is_empty() => {
            let at = random.below(schedule.len());
            schedule[at] = random.pick(&[0x00, 0x01, 0x12, 0x22, 0x30, 0x0F, 0x1F, 0x2F, 0xFF]);
            // Over the limit as well, to see which fault is found first.
            if random.one_in(6) {
                schedule.resize(4097, 0x21);
            }
        }
        _ => {}
    }
    schedule
}

/// A length around the one needed: shorter, exact or longer.
pub(super) fn around(random: &mut Random, needed: usize) -> usize {
    match random.below(10) {
        0 => needed.saturating_sub(1),
        1 => random.below(needed + 1),
        2 => needed + 1,
        3 | 4 => needed + random.below(40),
        5 => needed + 300,
        _ => needed,
    }
}

/// The first contents of a buffer: AA as in the outside cases, or something else at each place.
pub(super) fn filled(random: &mut Random, length: usize) -> Vec<u8> {
    if random.one_in(2) { vec![0xAA; length] } else { random.bytes(length) }
}
