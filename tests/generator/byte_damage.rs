//! Damage in the bytes of a program's file: in its header, a function's header, a block's length or a statement, or in how long it is.

use super::random::Random;
use super::trees::{Marks, Program, StatementMark};
use crate::reference::SLOTS;

/// One change in the bytes of an encoded program.
pub(super) fn damage_bytes(random: &mut Random, program: &Program, bytes: &mut Vec<u8>, marks: &Marks) {
    let statement = any_statement(random, program, bytes, marks);
    let header = random.pick_if_any(&marks.headers);
    let length = random.pick(&marks.lengths);
    match random.below(24) {
        kind @ 0..=3 => damage_header(random, kind, bytes),
        kind @ 4..=6 => {
            if let Some(at) = header {
                damage_function_header(random, kind, at, bytes);
            }
        }
        // A file that ends in or before a length word.
        7 => bytes.truncate((length.at + random.below(2)).max(8)),
        kind @ 8..=12 => damage_length(random, kind, length.at, bytes),
        // The deepest block, which the depth may forbid as well.
        13 => {
            let deepest = marks.lengths.iter().max_by_key(|mark| mark.depth).unwrap();
            set_word(bytes, deepest.at, random.pick(&[1, 7, 0x0200, 0xFFFF]));
        }
        14 => {
            let more = random.between(1, 4);
            bytes.extend(random.bytes(more));
        }
        15 => bytes.truncate(bytes.len() - random.between(1, bytes.len() - 7)),
        16 | 17 => {
            if let Some(mark) = statement {
                bytes[mark.at] = random.pick(&[0, 14, 15, 255, 128, 10, 11, 12, 6]);
            }
        }
        18..=20 => {
            // One operand, or two in one statement.
            for _ in 0..random.between(1, 2) {
                if let Some(mark) = statement {
                    damage_operand(random, program, mark, bytes);
                }
            }
        }
        // A wrong operand and, right behind it, a wrong length.
        21 => {
            if let Some(mark) = statement {
                if matches!(bytes[mark.at], 10 | 11) && mark.length == 2 {
                    bytes[mark.at + 1] = 32;
                    if mark.at + 2 < bytes.len() {
                        bytes[mark.at + 2] = 1;
                    }
                }
            }
        }
        22 => {
            let at = random.below(bytes.len());
            bytes[at] = random.next() as u8;
        }
        _ => {
            // Longer than any program may be, whatever stands in it.
            let length = random.pick(&[4097, 4098, 5000]);
            if random.one_in(2) {
                bytes[0] = 0;
            }
            bytes.resize(length, 0);
        }
    }
}

/// A statement with operands. Each body has the same chance, and in it each kind of statement that is there.
fn any_statement(random: &mut Random, program: &Program, bytes: &[u8], marks: &Marks) -> Option<StatementMark> {
    let body = random.below(program.functions.len() + 1);
    let mut candidates: Vec<StatementMark> = marks.statements.clone();
    candidates.retain(|mark| mark.body == body && mark.length > 1);
    let mut kinds: Vec<u8> = candidates.iter().map(|mark| bytes[mark.at]).collect();
    kinds.sort();
    kinds.dedup();
    let kind = random.pick_if_any(&kinds);
    candidates.retain(|mark| Some(bytes[mark.at]) == kind);
    random.pick_if_any(&candidates)
}

/// A file that ends in its header, or another mark, version or number of functions.
fn damage_header(random: &mut Random, kind: usize, bytes: &mut Vec<u8>) {
    match kind {
        0 => {
            if random.one_in(2) {
                bytes[random.below(3)] = 0;
            }
            bytes.truncate(random.below(8));
        }
        1 => bytes[random.below(3)] = random.next() as u8,
        2 => bytes[random.between(3, 4)] = random.next() as u8,
        _ => bytes[5] = random.pick(&[16, 17, 255, 15, 0, 1, bytes[5].wrapping_add(1)]),
    }
}

/// Other parameters or arguments, or a file that ends in or before the header.
fn damage_function_header(random: &mut Random, kind: usize, at: usize, bytes: &mut Vec<u8>) {
    match kind {
        4 => bytes[at] = random.pick(&[17, 18, 255, 16, 0]),
        5 => {
            let k = bytes[at];
            // Nine arguments of a function that has parameters enough.
            let (k, m) = random.pick(&[(16, 9), (k, 9), (k, k.wrapping_add(1)), (k, 255), (16, 8)]);
            bytes[at] = k;
            bytes[at + 1] = m;
        }
        _ => {
            if random.one_in(2) {
                bytes[at] = random.pick(&[17, 255]);
            }
            bytes.truncate((at + random.below(2)).max(8));
        }
    }
}

fn set_word(bytes: &mut [u8], at: usize, word: u16) {
    bytes[at..at + 2].copy_from_slice(&word.to_be_bytes());
}

/// A block that says it is a little longer or shorter, or of quite another length.
fn damage_length(random: &mut Random, kind: usize, at: usize, bytes: &mut [u8]) {
    let word = u16::from_be_bytes([bytes[at], bytes[at + 1]]);
    let word = match kind {
        8 => word.wrapping_add(1),
        9 => word.wrapping_sub(1),
        10 => word.wrapping_add(random.between(2, 12) as u16),
        11 => word.wrapping_sub(random.between(2, 12) as u16),
        _ => random.pick(&[0, 0xFFFF, 0x0100, 0x8000]),
    };
    set_word(bytes, at, word);
}

fn damage_operand(random: &mut Random, program: &Program, mark: StatementMark, bytes: &mut [u8]) {
    let operand = random.between(1, mark.length - 1);
    let limit = operand_limit(program, bytes, mark, operand);
    bytes[mark.at + operand] = match random.below(4) {
        0 => random.next() as u8,
        1 => 255,
        _ => limit as u8,
    };
}

/// The first value that an operand may not have, unless every byte reads. `operand` counts from
/// the statement's first byte.
fn operand_limit(program: &Program, bytes: &[u8], mark: StatementMark, operand: usize) -> usize {
    let location = match program.functions.get(mark.body) {
        Some(function) => function.parameters,
        None => 256,
    };
    let kind = bytes[mark.at];
    // A call that was cut off may not have its k.
    let k = if kind == 12 && mark.length > 3 { usize::from(bytes[mark.at + 2]) } else { 0 };
    match (kind, operand) {
        (1 | 2, 2) => location,
        (4, 1) => 4,
        (5, 2) | (6, 2 | 4) | (13, 2) => 2,
        (12, 1) => mark.body,
        // Not limits but the one right value each; one more is wrong.
        (12, 2 | 3) => usize::from(bytes[mark.at + operand]) + 1,
        (12, _) if operand < 4 + k => location,
        _ => SLOTS,
    }
}
