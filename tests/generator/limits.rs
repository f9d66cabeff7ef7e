//! Programs at the limits: the length of the file, the depth of blocks, the command count, the qubits that main leaves live.

use super::made::Made;
use super::random::Random;
use super::trees::{simple, Block, Function, Program, Statement};
use crate::reference::{MOST_FUNCTIONS, SLOTS};

/// Makes main longer until the file has exactly `length` bytes, with inits, gates and frees at
/// its start, where every slot is unbound. Needs a region and eight bytes or more to fill.
pub(super) fn pad(random: &mut Random, program: &mut Program, region: &[usize], length: usize) {
    let missing = length as isize - program.encode().0.len() as isize;
    if missing < 8 || region.is_empty() {
        return;
    }
    // 3 * gates + 5 * pairs, with at least one pair for the gates to stand in.
    let gates = (0..5).find(|g| (missing - 3 * g) % 5 == 0).unwrap();
    let pairs = (missing - 3 * gates) / 5;
    if pairs < 1 {
        return;
    }
    let mut start = Vec::new();
    for i in 0..pairs {
        let (x, l) = (random.below(SLOTS) as u8, random.pick(region) as u8);
        start.push(simple(&[1, x, l]));
        if i == 0 {
            for _ in 0..gates {
                start.push(simple(&[4, random.below(4) as u8, x]));
            }
        }
        start.push(simple(&[3, x]));
    }
    start.append(&mut program.main);
    program.main = start;
}

/// Nested blocks, the innermost one at the given depth: as main, or as one more function, so
/// that no slot of the rest is touched.
pub(super) fn nest(random: &mut Random, program: &mut Program, depth: usize) {
    let mut inner = if random.one_in(2) { vec![simple(&[13, 2, 0])] } else { Vec::new() };
    for _ in 1..depth {
        let statement = if random.one_in(2) {
            Statement { bytes: vec![11, 1], blocks: vec![inner] }
        } else if random.one_in(2) {
            Statement { bytes: vec![10, 0], blocks: vec![inner, Vec::new()] }
        } else {
            Statement { bytes: vec![10, 0], blocks: vec![Vec::new(), inner] }
        };
        inner = vec![statement];
    }
    let mut block = vec![simple(&[13, 0, random.below(2) as u8]), simple(&[7, 1, 0])];
    block.append(&mut inner);
    let count = program.functions.len();
    if count < MOST_FUNCTIONS && random.one_in(2) {
        program.functions.push(Function { parameters: 0, arguments: 0, block });
        program.main.push(call_through(count, 0, 0));
    } else {
        program.main = block;
    }
}

/// A chain of functions: the first one is `block`, each other calls the one before as often as
/// `times` says.
pub(super) fn chain(parameters: usize, arguments: usize, block: Block, times: &[usize]) -> Program {
    let mut functions = vec![Function { parameters, arguments, block }];
    for (f, &times) in times.iter().enumerate() {
        let call = call_through(f, parameters, arguments);
        functions.push(Function { parameters, arguments, block: vec![call; times] });
    }
    Program { functions, main: Vec::new() }
}

/// A call that hands on all parameters, and as arguments the slots 0 and up.
fn call_through(f: usize, parameters: usize, arguments: usize) -> Statement {
    let mut bytes = vec![12, f as u8, parameters as u8, arguments as u8];
    bytes.extend(0..parameters as u8);
    bytes.extend(0..arguments as u8);
    simple(&bytes)
}

/// A block with one command and no location: an if whose blocks are empty.
fn one_command() -> Block {
    vec![
        simple(&[13, 0, 1]),
        Statement { bytes: vec![10, 0], blocks: vec![Vec::new(), Vec::new()] },
    ]
}

/// Main with a given count, out of functions that count 1, 2, 4 and so on up to 16,384.
pub(super) fn counted_program(random: &mut Random) -> Made {
    let total = match random.below(4) {
        0 => 65_535,
        1 => 65_536,
        2 => random.between(65_500, 65_600),
        _ => random.between(30_000, 98_000),
    };
    let mut program = chain(0, 0, one_command(), &[2; 14]);
    let mut order: Vec<usize> = (0..14).filter(|bit| total >> bit & 1 == 1).collect();
    order.extend(vec![14; total >> 14]);
    random.shuffle(&mut order);
    program.main = order.into_iter().map(|f| call_through(f, 0, 0)).collect();
    Made { program, claim: Some(if total > 65_535 { 20 } else { 0 }) }
}

/// Counts that are far too large, many of them powers of two: a count that wraps around would
/// look small.
pub(super) fn overflowing_program(random: &mut Random) -> Made {
    // 16 to the power 14, called 256 times, is 2 to the power 64.
    let (base, depth, calls) = match random.below(5) {
        0 => (16, 14, 256),
        1 => (16, 8, 1),
        2 => (4, 14, 16),
        3 => (60, 14, random.between(1, 60)),
        _ => (random.between(2, 8), random.between(3, 14), random.between(1, 20)),
    };
    let mut program = chain(0, 0, one_command(), &vec![base; depth]);
    // What is never called may count as much as it likes.
    let called = if random.one_in(4) { random.below(depth + 1) } else { depth };
    let total = (base as f64).powi(called as i32) * calls as f64;
    program.main = vec![call_through(called, 0, 0); calls];
    Made { program, claim: Some(if total > 65_535.0 { 20 } else { 0 }) }
}

/// Fifteen functions that each call the one before 65 times, without any command.
pub(super) fn silent_program(random: &mut Random) -> Made {
    let block = if random.one_in(2) { vec![simple(&[13, 0, 0])] } else { Vec::new() };
    let mut program = chain(0, 0, block, &[65; 14]);
    program.main = vec![call_through(14, 0, 0); random.pick(&[1, 65])];
    Made { program, claim: Some(0) }
}

/// Main with a register: a qubit in each slot, as far as there are locations for them, or in some. Then some are freed, in main or in a call, and some are
/// freed and made again in a call. All that main still has is left live.
pub(super) fn register_program(random: &mut Random, region: &[usize]) -> Made {
    let (mut slots, mut locations): (Vec<u8>, Vec<u8>) = ((0..SLOTS as u8).collect(), region.iter().map(|&l| l as u8).collect());
    random.shuffle(&mut slots);
    random.shuffle(&mut locations);
    if random.one_in(4) {
        slots.truncate(random.below(SLOTS));
    }
    let register: Vec<(u8, u8)> = slots.into_iter().zip(locations).collect();
    let mut main: Block = register.iter().map(|&(x, l)| simple(&[random.between(1, 2) as u8, x, l])).collect();
    let freed_one_in = random.pick(&[3, 8, 1000, 1000]);
    for &(x, l) in &register {
        if random.one_in(freed_one_in) {
            main.push(if random.one_in(2) { simple(&[3, x]) } else { simple(&[12, 0, 1, 1, l, x]) });
        } else if random.one_in(4) {
            main.push(simple(&[12, 1, 1, 1, l, x]));
        }
    }
    let function = |bytes: &[&[u8]]| Function { parameters: 1, arguments: 1, block: bytes.iter().map(|bytes| simple(bytes)).collect() };
    let functions = vec![function(&[&[3, 0]]), function(&[&[3, 0], &[1, 0, 0]])];
    Made { program: Program { functions, main }, claim: Some(0) }
}
