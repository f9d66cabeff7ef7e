//! Damage in the tree of a program: a change after which the file still reads well, or something cut off at the end of a block.

use super::random::Random;
use super::trees::{blocks_of, simple, Block, Program, Statement};
use super::wild::{main_locations, wild_statement};

/// The parameters and arguments of each function that a body may call.
fn callable(program: &Program, body: usize) -> Vec<(usize, usize)> {
    program.functions[..body].iter().map(|f| (f.parameters, f.arguments)).collect()
}

/// One change in the tree; the file still reads well.
pub(super) fn damage_tree(random: &mut Random, program: &mut Program, region: &[usize]) {
    // Main often, since a fault there leaves the functions for the run to go through.
    let count = program.functions.len();
    let body = if random.one_in(2) { count } else { random.below(count + 1) };
    let locations = match program.functions.get(body) {
        Some(function) => (0..function.parameters).collect(),
        None => main_locations(region),
    };
    let callable = callable(program, body);
    let kind = random.below(12);
    let mut bodies = program.bodies();
    let mut candidates = 0;
    blocks_of(bodies[body], 1, &mut |block, _| candidates += usize::from(fits(kind, block)));
    if candidates == 0 {
        return;
    }
    let chosen = random.below(candidates);
    let mut index = 0;
    blocks_of(bodies[body], 1, &mut |block, depth| {
        if !fits(kind, block) {
            return;
        }
        index += 1;
        if index - 1 != chosen {
            return;
        }
        match kind {
            // Something put in.
            0 | 1 => {
                let at = random.below(block.len() + 1);
                block.insert(at, wild_statement(random, &locations, &callable, depth));
            }
            _ => change(random, kind, block, &locations),
        }
    });
}

/// Whether a change of this kind can be made in the block.
fn fits(kind: usize, block: &Block) -> bool {
    match kind {
        0 | 1 | 10 => true,
        2 => block.len() >= 2,
        3 => block.iter().any(|statement| statement.bytes[0] == 3),
        4 | 5 => block.iter().any(|statement| statement.bytes[0] == 12),
        6 => block.iter().any(|statement| statement.bytes[0] == 6),
        7 => block.iter().any(|statement| !statement.blocks.is_empty()),
        _ => !block.is_empty(),
    }
}

/// A change among the statements that a block has. `locations` are those to draw from.
fn change(random: &mut Random, kind: usize, block: &mut Block, locations: &[usize]) {
    let of_kind = |block: &Block, kind: u8| -> Vec<usize> { (0..block.len()).filter(|&i| block[i].bytes[0] == kind).collect() };
    match kind {
        // Two neighbours in the other order.
        2 => {
            let at = random.below(block.len() - 1);
            block.swap(at, at + 1);
        }
        // A free left out.
        3 => {
            let at = random.pick(&of_kind(block, 3));
            block.remove(at);
        }
        4 => {
            let at = random.pick(&of_kind(block, 12));
            list_twice(random, &mut block[at].bytes);
        }
        5 => {
            let at = random.pick(&of_kind(block, 12));
            change_locations(random, &mut block[at].bytes, locations);
        }
        // A merge of a qubit with itself.
        6 => {
            let at = random.pick(&of_kind(block, 6));
            block[at].bytes[5] = block[at].bytes[3];
        }
        // A free put into one block of an if or into a loop.
        7 => {
            let with_blocks: Vec<usize> = (0..block.len()).filter(|&i| !block[i].blocks.is_empty()).collect();
            let statement = &mut block[random.pick(&with_blocks)];
            let inner = random.below(statement.blocks.len());
            statement.blocks[inner].push(simple(&[3, random.below(4) as u8]));
        }
        // A statement left out.
        8 => {
            block.remove(random.below(block.len()));
        }
        // A statement twice.
        9 => {
            let at = random.below(block.len());
            let again = block[at].clone();
            block.insert(random.between(at, block.len()), again);
        }
        // An init that nothing frees, at the block's end.
        10 => {
            if let Some(l) = random.pick_if_any(locations) {
                block.push(simple(&[1, random.between(16, 31) as u8, l as u8]));
            }
        }
        _ => {
            let at = random.below(block.len());
            change_operand(random, &mut block[at].bytes, locations);
        }
    }
}

/// A location or slot of a call listed twice.
fn list_twice(random: &mut Random, bytes: &mut [u8]) {
    if bytes.len() > 5 {
        let (from, to) = (random.between(4, bytes.len() - 1), random.between(4, bytes.len() - 1));
        // A location byte must stay below the function's parameters.
        let k = usize::from(bytes[2]);
        if (from < 4 + k) == (to < 4 + k) {
            bytes[to] = bytes[from];
        }
    }
}

/// Two locations of a call changed about, or one replaced.
fn change_locations(random: &mut Random, bytes: &mut [u8], locations: &[usize]) {
    let k = usize::from(bytes[2]);
    if k >= 2 && random.one_in(2) {
        let (i, j) = (random.below(k), random.below(k));
        bytes.swap(4 + i, 4 + j);
    } else if k >= 1 && !locations.is_empty() {
        bytes[4 + random.below(k)] = random.pick(locations) as u8;
    }
}

/// One operand of a statement that is no call.
fn change_operand(random: &mut Random, bytes: &mut [u8], locations: &[usize]) {
    let kind = bytes[0];
    if kind == 12 {
        return;
    }
    let at = random.between(1, bytes.len() - 1);
    bytes[at] = match (kind, at) {
        (1 | 2, 2) => random.pick_if_any(locations).unwrap_or(0) as u8,
        (4, 1) | (5, 2) | (6, 2 | 4) | (13, 2) => random.below(2) as u8,
        _ => random.below(6) as u8,
    };
}

/// Cuts something off at the end of a block, which itself stays whole: what is missing would
/// have to be looked for outside the block.
pub(super) fn damage_shape(random: &mut Random, program: &mut Program) {
    let body = random.below(program.functions.len() + 1);
    let callable = callable(program, body);
    let mut bodies = program.bodies();
    let mut blocks = Vec::new();
    blocks_of(bodies[body], 1, &mut |_, depth| blocks.push(depth));
    // The deepest block often, where a missing length word and the depth come together.
    let deepest = blocks.iter().copied().max().unwrap();
    let chosen = if random.one_in(2) {
        blocks.iter().position(|&depth| depth == deepest).unwrap()
    } else {
        random.below(blocks.len())
    };
    let mut index = 0;
    blocks_of(bodies[body], 1, &mut |block, _| {
        index += 1;
        if index - 1 == chosen {
            cut_off(random, block, &callable);
        }
    });
}

/// A last statement that is not whole.
fn cut_off(random: &mut Random, block: &mut Block, callable: &[(usize, usize)]) {
    let limit = if random.one_in(4) { 34 } else { 3 };
    let slot = random.below(limit) as u8;
    match random.below(7) {
        // A loop or an if without its block, or with one byte of it.
        0 => block.push(simple(&[11, slot])),
        1 => block.push(simple(&[10, slot])),
        2 => block.push(simple(&[10 + random.below(2) as u8, slot, 0])),
        3 => block.push(Statement { bytes: vec![10, slot], blocks: vec![Vec::new()] }),
        // A call whose list is cut off.
        4 | 5 if !callable.is_empty() => {
            let f = random.below(callable.len());
            let (k, m) = callable[f];
            let mut bytes = vec![12, f as u8, k as u8, m as u8];
            bytes.extend(vec![0; random.below(k + m + 1)]);
            if random.one_in(4) {
                let at = random.between(1, bytes.len() - 1);
                bytes[at] = bytes[at].wrapping_add(1);
            }
            block.push(simple(&bytes));
        }
        // The last statement without its last bytes.
        _ => match block.last_mut() {
            Some(statement) => {
                statement.blocks.clear();
                let length = random.between(1, statement.bytes.len() - 1);
                statement.bytes.truncate(length);
            }
            None => block.push(simple(&[random.between(1, 13) as u8])),
        },
    }
}
