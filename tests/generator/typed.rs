//! Programs that are typed by construction, but for one fault where one is wanted.
//!
//! The builder keeps the environment of the body it is in and adds statements that typing accepts there, until a fault is put in: nothing after it can be
//! met first. This file has the program as a whole, its functions and main; the parts make blocks with ifs and loops, simple statements, calls and faults.

mod blocks;
mod body;
mod calls;
mod faults;
mod loose;
mod statements;

use super::made::Made;
use super::random::Random;
use super::sizes::Size;
use super::trees::{Block, Function, Program, Statement};
use crate::reference::SLOTS;
use body::{Body, Known, Slot};

/// What `wanted` and `put_in` say of a statement whose operands are right or wrong by chance.
pub(super) const LOOSE: u8 = 100;

/// Builds a program that is typed over the region, but for the one fault wanted (0 for none).
pub(super) fn typed_program(random: &mut Random, region: &[usize], size: Size, wanted: u8) -> Made {
    built_program(random, region, size, wanted, false)
}

/// Builds a program that typing refuses in most cases, yet steps can go a long way through.
pub(super) fn careless_program(random: &mut Random, region: &[usize], size: Size) -> Made {
    built_program(random, region, size, 0, true).unclaimed()
}

fn built_program(random: &mut Random, region: &[usize], size: Size, wanted: u8, careless: bool) -> Made {
    let budget = match size {
        Size::Small => random.between(20, 160),
        Size::Middle => random.between(100, 600),
        Size::Limit => random.between(1500, 3500),
    };
    let count = match random.below(8) {
        0..=2 if wanted < 16 && !careless => 0,
        6 | 7 if size != Size::Small => random.between(4, 15),
        _ => random.between(1, 3),
    };
    let with_arguments = matches!(wanted, 16 | LOOSE) || careless;
    let mut builder = Builder { random, known: Vec::new(), left: 0, count: 0, most: 0, wanted, put_in: 0, careless };
    let mut functions = Vec::new();
    for _ in 0..count {
        let (parameters, arguments) = function_header(builder.random, with_arguments);
        functions.push(builder.function(parameters, arguments, budget, budget / (count + 1)));
    }
    let main = builder.main(region, budget, if count == 0 { budget } else { budget / 2 });
    let claim = if builder.put_in == LOOSE { None } else { Some(builder.put_in) };
    Made { program: Program { functions, main }, claim }
}

/// How many parameters and arguments a function has; `with_arguments` one argument at least, where there is a parameter.
fn function_header(random: &mut Random, with_arguments: bool) -> (usize, usize) {
    let parameters = match random.below(12) {
        0 => random.between(0, 16),
        1 => 0,
        2..=5 => random.between(2, 3),
        _ => random.between(1, 4),
    };
    let mut arguments = random.below(parameters.min(8) + 1);
    if random.one_in(3) {
        arguments = parameters.min(random.between(1, 8));
    }
    if with_arguments {
        arguments = arguments.max(1).min(parameters);
    }
    (parameters, arguments)
}

struct Builder<'a> {
    random: &'a mut Random,
    known: Vec<Known>,
    /// Bytes that may still be spent; ends of blocks may overdraw it a little.
    left: isize,
    /// The command count of the body so far, and where calls stop being added to it.
    count: u64,
    most: u64,
    /// The fault that is still to be put in, 0 for none, and the one that is in.
    wanted: u8,
    put_in: u8,
    /// Whether blocks may end in ways that typing refuses but no step minds, and slots with bools or references may be bound again.
    careless: bool,
}

/// Which of the qubits live on entry a block ends without.
type Lost = [bool; SLOTS];

/// A block that is being built: its depth, the slots on entry to it, which of their qubits it ends without, and whether it is main's own, whose qubits may
/// stay.
struct Opened {
    depth: usize,
    entry: [Slot; SLOTS],
    lost: Lost,
    is_mains: bool,
}

impl Builder<'_> {
    /// One more function. `share` is what it may spend of the budget.
    fn function(&mut self, parameters: usize, arguments: usize, budget: usize, share: usize) -> Function {
        let mut body = Body::of_function(parameters, arguments);
        let mut lost: Lost = [false; SLOTS];
        for argument in &mut lost[..arguments] {
            *argument = self.random.one_in(3);
        }
        self.begin(share, 400);
        let tries = self.random.between(0, 4 + budget / 12);
        let block = self.block(&mut body, 1, tries, &lost);
        self.known.push(Known {
            parameters,
            arguments,
            keeps: (0..arguments).map(|i| body.slots[i] == Slot::Qubit(i)).collect(),
            frees: body.free,
            count: self.count,
        });
        Function { parameters, arguments, block }
    }

    fn main(&mut self, region: &[usize], budget: usize, share: usize) -> Block {
        self.begin(share, 1500);
        self.block(&mut Body::of_main(region), 1, 3 + budget / 3, &[false; SLOTS])
    }

    /// Begins a body with these bytes to spend and this many commands.
    fn begin(&mut self, bytes: usize, most: u64) {
        self.left = bytes as isize;
        self.count = 0;
        self.most = most;
    }

    fn emit(&mut self, out: &mut Block, bytes: &[usize]) {
        let bytes: Vec<u8> = bytes.iter().map(|&byte| byte as u8).collect();
        self.left -= bytes.len() as isize;
        if matches!(bytes[0], 1 | 2 | 3 | 6) {
            self.count += 1;
        }
        out.push(Statement { bytes, blocks: Vec::new() });
    }

    /// Low slots most of the time: faults in one operand then hit bound slots often.
    fn pick_slot(&mut self, slots: &[usize]) -> Option<usize> {
        if slots.is_empty() {
            None
        } else if self.random.one_in(8) {
            Some(self.random.pick(slots))
        } else {
            Some(slots[self.random.below(slots.len().min(4))])
        }
    }

    fn init_kind(&mut self) -> usize {
        if self.random.one_in(3) { 2 } else { 1 }
    }
}
