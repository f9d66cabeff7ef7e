//! Programs that read, for their listings: functions with and without locations, blocks empty and deep, some about as long as there may be. Whether they are
//! typed doesn't matter.

use super::limits::nest;
use super::random::Random;
use super::sizes::Size;
use super::trees::{blocks_of, simple, Block, Function, Program};
use super::wild::{wild_block, wild_statement};
use crate::reference::{DEEPEST_BLOCK, LONGEST_PROGRAM, MOST_ARGUMENTS, MOST_FUNCTIONS, MOST_LOCATIONS, MOST_PARAMETERS, SLOTS};

/// A program that reads, of at most so many bytes less than there may be; at the limit of exactly so many less.
pub(super) fn listed_program(random: &mut Random, size: Size, less: usize) -> Program {
    loop {
        let mut program = any_program(random);
        if size == Size::Limit {
            fill(random, &mut program, LONGEST_PROGRAM - less);
        }
        if program.encode().0.len() + less <= LONGEST_PROGRAM {
            return program;
        }
    }
}

fn any_program(random: &mut Random) -> Program {
    let count = match random.below(12) {
        0 => MOST_FUNCTIONS,
        1 => random.between(4, MOST_FUNCTIONS),
        2..=7 => random.between(1, 3),
        _ => 0,
    };
    let mut callable = Vec::new();
    let mut functions = Vec::new();
    for _ in 0..count {
        let parameters = match random.below(4) {
            0 => 0,
            1 => random.between(1, MOST_PARAMETERS),
            _ => random.between(1, 3),
        };
        let arguments = random.below(parameters.min(MOST_ARGUMENTS) + 1);
        let locations: Vec<usize> = (0..parameters).collect();
        let block = any_block(random, &locations, &callable);
        callable.push((parameters, arguments));
        functions.push(Function { parameters, arguments, block });
    }
    let locations: Vec<usize> = (0..MOST_LOCATIONS).collect();
    let main = any_block(random, &locations, &callable);
    let mut program = Program { functions, main };
    if random.one_in(8) {
        let depth = random.between(2, DEEPEST_BLOCK);
        nest(random, &mut program, depth);
    }
    program
}

/// None, one or some statements. Calls are rare among all kinds, so one is put in now and then.
fn any_block(random: &mut Random, locations: &[usize], callable: &[(usize, usize)]) -> Block {
    let statements = random.pick(&[0, 0, 1, 1, 2, 3, 6]);
    let mut block = wild_block(random, locations, callable, 1, statements);
    if random.one_in(3) {
        let tries: Vec<_> = (0..40).map(|_| wild_statement(random, locations, callable, DEEPEST_BLOCK)).collect();
        block.extend(tries.into_iter().find(|statement| statement.bytes[0] == 12));
    }
    block
}

/// Makes the program longer until its file has exactly `length` bytes, by simple statements at the end of one of its blocks. Needs two bytes or more to fill.
/// Some have all of it in their last function and nothing in main.
fn fill(random: &mut Random, program: &mut Program, length: usize) {
    let without_main = random.one_in(3) && !program.functions.is_empty();
    if without_main {
        program.main.clear();
    }
    let mut missing = length.saturating_sub(program.encode().0.len());
    let mut filling = Vec::new();
    let short = random.one_in(4);
    while missing >= 2 {
        let (a, b) = (random.below(SLOTS) as u8, random.below(SLOTS) as u8);
        let bit = random.below(2) as u8;
        let statement = match random.below(if short { 1 } else { 6 }) {
            1 => simple(&[4, random.below(4) as u8, a]),
            2 => simple(&[5, a, bit, b]),
            3 => simple(&[6, a, bit, b, 1 - bit, a]),
            4 => simple(&[13, a, bit]),
            5 => simple(&[7 + bit, a, b]),
            _ => simple(&[3, a]),
        };
        let left = missing as isize - statement.bytes.len() as isize;
        // One byte can't be filled.
        if left == 0 || left >= 2 {
            missing = left as usize;
            filling.push(statement);
        } else if missing == 3 {
            missing = 0;
            filling.push(simple(&[4, bit, a]));
        }
    }
    let count = program.functions.len();
    let body = if without_main { count - 1 } else { random.below(count + 1) };
    let mut bodies = program.bodies();
    let mut blocks = 0;
    blocks_of(bodies[body], 1, &mut |_, _| blocks += 1);
    let chosen = random.below(blocks);
    let mut at = 0;
    blocks_of(bodies[body], 1, &mut |block, _| {
        if at == chosen {
            block.append(&mut filling);
        }
        at += 1;
    });
}
