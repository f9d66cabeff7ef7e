//! Programs for a case: which of the kinds that the other parts make, and its file, as it is or with its bytes damaged.

use super::byte_damage::damage_bytes;
use super::corridors::{corridor_program, looping_program, merging_program};
use super::devices::Device;
use super::limits::{counted_program, nest, overflowing_program, pad, register_program, silent_program};
use super::made::{thin_out, Made};
use super::random::Random;
use super::sizes::Size;
use super::tree_damage::{damage_shape, damage_tree};
use super::typed::{careless_program, typed_program, LOOSE};
use super::wild::wild_program;
use crate::reference::{DEEPEST_BLOCK, LONGEST_PROGRAM, SLOTS};

/// A program file for the job, one in `damaged_one_in` with its bytes damaged; and the number that its check answers, if it is known.
pub(super) fn program(random: &mut Random, plan: &Device, job: u8, size: Size, damaged_one_in: usize) -> (Vec<u8>, Option<u8>) {
    let made = made_program(random, plan, job, size);
    let (mut bytes, marks) = made.program.encode();
    // A file too long is refused for that before anything else.
    let mut claim = if bytes.len() > LONGEST_PROGRAM { Some(4) } else { made.claim };
    if random.one_in(damaged_one_in) {
        claim = None;
        let length = bytes.len();
        damage_bytes(random, &made.program, &mut bytes, &marks);
        // A second fault shows which one is found first.
        if random.one_in(3) && bytes.len() == length {
            damage_bytes(random, &made.program, &mut bytes, &marks);
        }
    }
    (bytes, claim)
}

fn made_program(random: &mut Random, plan: &Device, job: u8, size: Size) -> Made {
    let region = plan.region(job);
    // Only larger devices have a location for every slot.
    if region.len() >= SLOTS && random.one_in(8) {
        return register_program(random, &region);
    }
    match random.below(52) {
        0..=14 => accepted_program(random, plan, job, size),
        15..=23 => {
            let wanted = random.between(11, 19) as u8;
            let mut made = typed_program(random, &region, size, wanted);
            if made.claim == Some(0) {
                thin_out(&mut made, &plan.encode(), job);
            }
            made
        }
        24..=29 => typed_program(random, &region, size, LOOSE).unclaimed(),
        // Typed, but merges may lack a path.
        30..=32 => typed_program(random, &region, size, 0).unclaimed(),
        33..=36 => {
            let mut made = typed_program(random, &region, size, 0).unclaimed();
            for _ in 0..random.between(1, 3) {
                damage_tree(random, &mut made.program, &region);
            }
            made
        }
        37..=39 => careless_program(random, &region, size),
        40 | 46 | 47 if size != Size::Limit => match corridor_program(random, plan, job) {
            Some(program) if random.one_in(4) => {
                let mut made = Made { program, claim: Some(0) };
                thin_out(&mut made, &plan.encode(), job);
                made
            }
            Some(program) => Made { program, claim: None },
            None => careless_program(random, &region, size),
        },
        41 | 42 => Made { program: wild_program(random, &region), claim: None },
        43 => {
            let mut made = typed_program(random, &region, Size::Small, 0);
            nest(random, &mut made.program, DEEPEST_BLOCK + 1);
            made.claim = Some(4);
            made
        }
        44 => {
            let mut made = typed_program(random, &region, Size::Small, 0).unclaimed();
            if random.one_in(2) {
                nest(random, &mut made.program, DEEPEST_BLOCK);
            }
            damage_shape(random, &mut made.program);
            made
        }
        45 => match random.below(3) {
            0 => overflowing_program(random),
            1 => silent_program(random),
            _ => counted_program(random),
        },
        50 | 51 => register_program(random, &region),
        46 if size == Size::Limit && region.len() >= 2 => merging_program(random, &region),
        _ if size == Size::Limit && region.len() >= 2 => looping_program(&region),
        48 if region.len() >= 2 => looping_program(&region),
        _ => typed_program(random, &region, size, LOOSE).unclaimed(),
    }
}

/// A typed program whose merges have a path, some as deep or about as long as there may be.
fn accepted_program(random: &mut Random, plan: &Device, job: u8, size: Size) -> Made {
    let region = plan.region(job);
    let mut made = typed_program(random, &region, size, 0);
    match random.below(16) {
        0 => nest(random, &mut made.program, DEEPEST_BLOCK),
        1 if size != Size::Small => {
            let length = random.pick(&[4096, 4096, 4095, 4097]);
            pad(random, &mut made.program, &region, length);
        }
        _ => {}
    }
    thin_out(&mut made, &plan.encode(), job);
    made
}
