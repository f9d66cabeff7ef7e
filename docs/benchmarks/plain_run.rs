// The run of two jobs, written plainly: each program a tree of statements, a job's frames and the rests of its blocks on lists, and for each merge a
// breadth-first search of its own. It makes each test that belongs to a step, in the document's order, and writes records, map and moved counts.
// It takes well-formed files, a good schedule and room in the buffers for granted, so the library does more. plain.rs reads and searches.

use crate::plain::{word, Block, Form, Kept, Program, Region, Search, Statement};

// Answers how many steps each job moved.
pub fn run(device: &[u8], programs: [&[u8]; 2], schedule: &[u8], records: &mut [u8], map: &mut [u8]) -> [usize; 2] {
    let [first, second] = programs.map(|file| Program::read(file, Kept::All));
    let mut jobs = [Job::new(1, device, &first), Job::new(2, device, &second)];
    let map = &mut map[..word(device, 5)];
    map.fill(0);
    for (turn, record) in schedule.iter().zip(records.chunks_exact_mut(4)) {
        let job = &mut jobs[*turn as usize / 16 - 1];
        record.copy_from_slice(&job.step(map, turn % 16 == 1));
    }
    jobs.map(|job| job.moved)
}

#[derive(Clone, Copy, PartialEq)]
enum Slot {
    Unbound,
    Qubit(u8),
    Bool(bool),
    Reference(bool),
}

// The slots of a body, and the actual locations of its parameters, none in main.
struct Frame {
    slots: [Slot; 32],
    actual: Option<[u8; 16]>,
}

// Err is the reason why a slot is not fit.
impl Frame {
    fn location(&self, at: usize) -> usize {
        self.actual.map_or(at, |actual| actual[at] as usize)
    }

    fn bindable(&self, slot: usize) -> Result<(), u8> {
        if let Slot::Qubit(_) = self.slots[slot] { Err(12) } else { Ok(()) }
    }

    fn qubit(&self, slot: usize) -> Result<usize, u8> {
        if let Slot::Qubit(at) = self.slots[slot] { Ok(at as usize) } else { Err(11) }
    }

    fn bool(&self, slot: usize) -> Result<bool, u8> {
        if let Slot::Bool(value) = self.slots[slot] { Ok(value) } else { Err(11) }
    }

    fn reference(&self, slot: usize) -> Result<bool, u8> {
        if let Slot::Reference(value) = self.slots[slot] { Ok(value) } else { Err(11) }
    }
}

// What is to come: the rest of a block, which is not empty, or the return from a call.
enum Item<'a> {
    Rest(&'a [Statement]),
    Return { place: usize, arguments: &'a [usize] },
}

struct Job<'a> {
    number: u8,
    region: Region,
    functions: &'a [Block],
    frames: Vec<Frame>,
    items: Vec<Item<'a>>,
    search: Search,
    stuck: Option<[u8; 4]>,
    moved: usize,
}

impl<'a> Job<'a> {
    fn new(number: u8, device: &[u8], program: &'a Program) -> Job<'a> {
        let region = Region::read(device, number);
        let search = Search::new(region.owned.len());
        let frames = vec![Frame { slots: [Slot::Unbound; 32], actual: None }];
        let mut job = Job { number, region, functions: &program.functions, frames, items: vec![], search, stuck: None, moved: 0 };
        job.put(&program.main);
        job
    }

    // The record of one step.
    fn step(&mut self, map: &mut [u8], outcome: bool) -> [u8; 4] {
        if let Some(record) = self.stuck {
            return record;
        }
        let (place, result) = match self.items.last() {
            None => return [1, 0, 255, 255],
            Some(&Item::Rest(rest)) => (rest[0].place, self.perform(&rest[0], map, outcome)),
            Some(&Item::Return { place, arguments }) => (place, Ok(self.give_back(arguments))),
        };
        let [high, low] = (place as u16).to_be_bytes();
        match result {
            Ok(edges) => {
                self.moved += 1;
                [0, edges, high, low]
            }
            Err(reason) => {
                self.stuck = Some([reason, 0, high, low]);
                [reason, 0, high, low]
            }
        }
    }

    // A block before what is to come.
    fn put(&mut self, block: &'a [Statement]) {
        if !block.is_empty() {
            self.items.push(Item::Rest(block));
        }
    }

    // The statement to come has been performed.
    fn pass(&mut self) {
        match self.items.last_mut() {
            Some(Item::Rest(rest)) if rest.len() > 1 => *rest = &rest[1..],
            _ => drop(self.items.pop()),
        }
    }

    // The edges of a merge's route, else 0; or the reason why the statement to come is stuck, and then nothing has changed.
    fn perform(&mut self, statement: &'a Statement, map: &mut [u8], outcome: bool) -> Result<u8, u8> {
        let frame = self.frames.last_mut().unwrap();
        let mut edges = 0;
        match &statement.form {
            Form::Init { slot, at } => {
                let at = frame.location(*at);
                frame.bindable(*slot)?;
                inside(&self.region, at)?;
                unoccupied(map, at)?;
                map[at] = self.number;
                frame.slots[*slot] = Slot::Qubit(at as u8);
            }
            Form::Free { slot } => {
                map[frame.qubit(*slot)?] = 0;
                frame.slots[*slot] = Slot::Unbound;
            }
            Form::Gate { qubit } => {
                frame.qubit(*qubit)?;
            }
            Form::Measure { slot, qubit } => {
                frame.bindable(*slot)?;
                frame.qubit(*qubit)?;
                frame.slots[*slot] = Slot::Bool(outcome);
            }
            Form::Merge { slot, first, second } => {
                frame.bindable(*slot)?;
                let (a, b) = (frame.qubit(*first)?, frame.qubit(*second)?);
                if first == second {
                    return Err(15);
                }
                edges = self.search.distance(&self.region.near, |l| map[l] == 0, a, b).ok_or(21)?;
                frame.slots[*slot] = Slot::Bool(outcome);
            }
            Form::Refer { slot, value } => {
                frame.bindable(*slot)?;
                frame.slots[*slot] = Slot::Reference(frame.bool(*value)?);
            }
            Form::Get { slot, reference } => {
                frame.bindable(*slot)?;
                frame.slots[*slot] = Slot::Bool(frame.reference(*reference)?);
            }
            Form::Set { reference, value } => {
                frame.reference(*reference)?;
                frame.slots[*reference] = Slot::Reference(frame.bool(*value)?);
            }
            Form::Bool { slot, value } => {
                frame.bindable(*slot)?;
                frame.slots[*slot] = Slot::Bool(*value);
            }
            Form::If { value, chosen, other } => {
                let block = if frame.bool(*value)? { chosen } else { other };
                self.pass();
                self.put(block);
                return Ok(0);
            }
            Form::While { reference, body } => {
                if frame.reference(*reference)? {
                    self.put(body);
                    return Ok(0);
                }
            }
            Form::Call { function, at, arguments } => {
                let callee = callee(frame, &self.region, map, at, arguments)?;
                self.frames.push(callee);
                self.pass();
                self.items.push(Item::Return { place: statement.place, arguments });
                self.put(&self.functions[*function]);
                return Ok(0);
            }
        }
        self.pass();
        Ok(edges)
    }

    // The callee's frame goes; an argument that is not in its slot at its location is unbound.
    fn give_back(&mut self, arguments: &[usize]) -> u8 {
        self.items.pop();
        let callee = self.frames.pop().unwrap();
        let caller = self.frames.last_mut().unwrap();
        for (i, &slot) in arguments.iter().enumerate() {
            if callee.slots[i] != Slot::Qubit(callee.location(i) as u8) {
                caller.slots[slot] = Slot::Unbound;
            }
        }
        0
    }
}

// The frame of a call's callee, or the reason why the call is stuck.
fn callee(caller: &Frame, region: &Region, map: &[u8], at: &[usize], arguments: &[usize]) -> Result<Frame, u8> {
    let mut actual = [0; 16];
    for (actual, &at) in actual.iter_mut().zip(at) {
        let at = caller.location(at);
        inside(region, at)?;
        *actual = at as u8;
    }
    if repeats(actual[..at.len()].iter().map(|&at| at as usize)) || repeats(arguments.iter().copied()) {
        return Err(15);
    }
    let mut slots = [Slot::Unbound; 32];
    for (i, &slot) in arguments.iter().enumerate() {
        if caller.qubit(slot)? != actual[i] as usize {
            return Err(16);
        }
        slots[i] = Slot::Qubit(actual[i]);
    }
    for &at in &actual[arguments.len()..at.len()] {
        unoccupied(map, at as usize)?;
    }
    Ok(Frame { slots, actual: Some(actual) })
}

fn inside(region: &Region, at: usize) -> Result<(), u8> {
    if region.owned.get(at) == Some(&true) { Ok(()) } else { Err(13) }
}

fn unoccupied(map: &[u8], at: usize) -> Result<(), u8> {
    if map[at] == 0 { Ok(()) } else { Err(14) }
}

// Whether some number below 256 comes twice.
fn repeats(mut list: impl Iterator<Item = usize>) -> bool {
    let mut seen = [0u64; 4];
    list.any(|x| {
        let again = seen[x / 64] >> (x % 64) & 1 == 1;
        seen[x / 64] |= 1 << (x % 64);
        again
    })
}
