// The check of a well-typed program, written plainly: adjacency lists, a tree of statements, and for each merge a breadth-first search of its own.
// It reads both files, counts the commands, and walks them from the front: a call enters its function at the actual locations, an if takes the
// then-block and the else-block each from where the if stands and goes on with the then-block's, a loop is gone over once. It answers the count,
// 20 or 21 with its place. It types nothing and takes well-formed files for granted, so the library does more. plain.rs reads and searches.

use crate::plain::{Block, Form, Kept, Program, Region, Search, Statement};

// Where a call's locations are kept: in a list made for each call, or in an array on the stack.
#[derive(Clone, Copy, PartialEq)]
pub enum Locations {
    List,
    Array,
}

const LIMIT: usize = 65535;

pub struct Refusal {
    pub number: u8,
    pub place: usize,
}

pub fn check(device: &[u8], program: &[u8], job: u8, locations: Locations) -> Result<usize, Refusal> {
    let region = Region::read(device, job);
    let program = Program::read(program, Kept::Commands);
    let counts = counts(&program.functions);
    let count = count(&program.main, &counts);
    if count > LIMIT {
        return Err(Refusal { number: 20, place: 0 });
    }
    let mut walk = Walk::new(&program, &counts, &region, locations);
    match walk.block(&program.main, None, &mut [0; 32]) {
        Ok(()) => Ok(count),
        Err(place) => Err(Refusal { number: 21, place }),
    }
}

// The commands of each function, which calls earlier ones only.
fn counts(functions: &[Block]) -> Vec<usize> {
    let mut counts = vec![];
    for body in functions {
        counts.push(count(body, &counts));
    }
    counts
}

// The commands of a block; one more than the limit stands for any more.
fn count(block: &[Statement], functions: &[usize]) -> usize {
    let one = |statement: &Statement| match &statement.form {
        Form::Init { .. } | Form::Free { .. } | Form::Merge { .. } => 1,
        Form::If { chosen, other, .. } => 1 + count(chosen, functions) + count(other, functions),
        Form::While { body, .. } => 1 + count(body, functions),
        Form::Call { function, .. } => functions[*function],
        _ => 0,
    };
    block.iter().map(one).sum::<usize>().min(LIMIT + 1)
}

// The walk: what is free now, and the search.
struct Walk<'a> {
    program: &'a Program,
    counts: &'a [usize],
    near: &'a [Vec<usize>],
    locations: Locations,
    free: Vec<bool>,
    search: Search,
}

impl<'a> Walk<'a> {
    fn new(program: &'a Program, counts: &'a [usize], region: &'a Region, locations: Locations) -> Walk<'a> {
        let (free, search) = (region.owned.clone(), Search::new(region.owned.len()));
        Walk { program, counts, near: &region.near, locations, free, search }
    }

    // The actual locations of a function's parameters, none in main; slots hold the locations of qubits. Err is the place of a merge without a path.
    fn block(&mut self, block: &'a [Statement], actual: Option<&[usize]>, slots: &mut [usize; 32]) -> Result<(), usize> {
        let location = |at: usize| actual.map_or(at, |actual| actual[at]);
        for statement in block {
            match &statement.form {
                Form::Init { slot, at } => {
                    slots[*slot] = location(*at);
                    self.free[slots[*slot]] = false;
                }
                Form::Free { slot } => self.free[slots[*slot]] = true,
                Form::Merge { first, second, .. } => {
                    if !self.joined(slots[*first], slots[*second]) {
                        return Err(statement.place);
                    }
                }
                Form::If { chosen, other, .. } => {
                    let mut free = self.free.clone();
                    self.block(chosen, actual, &mut slots.clone())?;
                    std::mem::swap(&mut self.free, &mut free);
                    self.block(other, actual, &mut slots.clone())?;
                    self.free = free;
                }
                Form::While { body, .. } => {
                    let free = self.free.clone();
                    self.block(body, actual, &mut slots.clone())?;
                    self.free = free;
                }
                // else functions without commands that call each other many times would never end
                Form::Call { function, .. } if self.counts[*function] == 0 => {}
                Form::Call { function, at, arguments } if self.locations == Locations::List => {
                    let inner: Vec<usize> = at.iter().map(|&at| location(at)).collect();
                    self.call(*function, &inner, arguments.len())?;
                }
                Form::Call { function, at, arguments } => {
                    let mut inner = [0; 16];
                    for (inner, &at) in inner.iter_mut().zip(at) {
                        *inner = location(at);
                    }
                    self.call(*function, &inner, arguments.len())?;
                }
                _ => {}
            }
        }
        Ok(())
    }

    fn call(&mut self, function: usize, actual: &[usize], arguments: usize) -> Result<(), usize> {
        let mut slots = [0; 32];
        slots[..arguments].copy_from_slice(&actual[..arguments]);
        let program = self.program;
        self.block(&program.functions[function], Some(actual), &mut slots)
    }

    // Whether a path over free locations joins a and b.
    fn joined(&mut self, a: usize, b: usize) -> bool {
        let free = &self.free;
        self.search.distance(self.near, |l| free[l], a, b).is_some()
    }
}
