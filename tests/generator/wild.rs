//! Programs that only read well; whether they are typed is left to chance.

use super::random::Random;
use super::trees::{simple, Block, Function, Program, Statement};
use crate::reference::{DEEPEST_BLOCK, SLOTS};

pub(super) fn wild_program(random: &mut Random, region: &[usize]) -> Program {
    let mut functions = Vec::new();
    let mut callable = Vec::new();
    for _ in 0..random.below(4) {
        let parameters = random.below(4);
        let arguments = random.below(parameters + 1);
        let inside: Vec<usize> = (0..parameters).collect();
        let statements = random.below(6);
        let block = wild_block(random, &inside, &callable, 1, statements);
        callable.push((parameters, arguments));
        functions.push(Function { parameters, arguments, block });
    }
    let statements = random.between(1, 12);
    let main = wild_block(random, &main_locations(region), &callable, 1, statements);
    Program { functions, main }
}

pub(super) fn wild_block(random: &mut Random, locations: &[usize], callable: &[(usize, usize)], depth: usize, statements: usize) -> Block {
    (0..statements).map(|_| wild_statement(random, locations, callable, depth)).collect()
}

/// A statement that reads well; whether it is typed is left to chance. `locations` are those
/// to draw from, `callable` the parameters and arguments of each function that may be called.
pub(super) fn wild_statement(random: &mut Random, locations: &[usize], callable: &[(usize, usize)], depth: usize) -> Statement {
    let slots = if random.one_in(6) { SLOTS } else { 5 };
    let slot = |random: &mut Random| random.below(slots) as u8;
    let (a, b, c) = (slot(random), slot(random), slot(random));
    let (p, q) = (random.below(2) as u8, random.below(2) as u8);
    let kind = random.between(1, 13) as u8;
    match kind {
        1 | 2 => match random.pick_if_any(locations) {
            Some(l) => simple(&[kind, a, l as u8]),
            None => simple(&[13, a, p]),
        },
        3 => simple(&[3, a]),
        4 => simple(&[4, random.below(4) as u8, a]),
        5 => simple(&[5, a, p, b]),
        6 => simple(&[6, a, p, b, q, c]),
        7..=9 => simple(&[kind, a, b]),
        10 | 11 if depth < DEEPEST_BLOCK => {
            let mut blocks = Vec::new();
            for _ in kind..12 {
                let statements = random.below(3);
                blocks.push(wild_block(random, locations, callable, depth + 1, statements));
            }
            Statement { bytes: vec![kind, a], blocks }
        }
        12 if !callable.is_empty() => wild_call(random, locations, callable, slots).unwrap_or(simple(&[13, a, p])),
        _ => simple(&[13, a, p]),
    }
}

/// A call of any function, with slots below the limit; none if it needs locations and there are none.
fn wild_call(random: &mut Random, locations: &[usize], callable: &[(usize, usize)], slots: usize) -> Option<Statement> {
    let f = random.below(callable.len());
    let (k, m) = callable[f];
    if k > 0 && locations.is_empty() {
        return None;
    }
    let mut bytes = vec![12, f as u8, k as u8, m as u8];
    let first = random.below(locations.len().max(1));
    for i in 0..k {
        // In a row, so that they differ often.
        let location = if random.one_in(4) { random.pick(locations) } else { locations[(first + i) % locations.len()] };
        bytes.push(location as u8);
    }
    for i in 0..m {
        let slot = if random.one_in(4) { random.below(slots) } else { i };
        bytes.push(slot as u8);
    }
    Some(simple(&bytes))
}

/// What main's locations are drawn from: the region, and some that may lie outside.
pub(super) fn main_locations(region: &[usize]) -> Vec<usize> {
    let mut locations = region.to_vec();
    locations.truncate(6);
    locations.extend([0, 1, 2]);
    if region.is_empty() {
        locations.push(255);
    }
    locations
}
