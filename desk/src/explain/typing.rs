//! Typing, followed as `docs/FORMAT.md` has it up to where it refuses, to say what was found there.
//!
//! The verdict is the library's. This walk keeps beside each slot how it came to be what it is, which a verdict does not tell. Each function is judged once, at
//! its parameters, in file order, then main; no call is gone into.

use crate::device::Device;
use crate::program::{Block, Body, Kind, Program, Statement};
use abwakiris::Job;

/// What a slot holds. A location is main's location byte, in a function the number of a parameter.
#[derive(Clone, Copy, Debug, Default, PartialEq, Eq)]
pub enum Holds {
    #[default]
    Unbound,
    Qubit(u8),
    Bool,
    Reference,
}

/// How a slot came to be what it is, by the offset of the statement.
#[derive(Clone, Copy, Debug, Default, PartialEq, Eq)]
pub enum Since {
    /// It was so when the body began: unbound, or an argument.
    #[default]
    Start,
    Bound(usize),
    Freed(usize),
    /// This call ended without it.
    Called(usize),
    /// What this statement had bound went at the end of the block with this length word.
    Ended {
        bound: usize,
        block: usize,
    },
}

/// A slot: what it holds, and how that came about.
#[derive(Clone, Copy, Debug, Default, PartialEq, Eq)]
pub struct Slot {
    pub holds: Holds,
    pub since: Since,
    /// How the last qubit in it went, where one did: by a free or in a call.
    pub lost: Option<Since>,
}

/// All slots of a body.
pub type Slots = [Slot; 32];

/// What typing found at a place.
#[derive(Clone, Debug)]
pub struct Found {
    /// The statement; for a qubit that outlives its block the block's length word.
    pub place: usize,
    pub body: Body,
    /// The slots before the statement; at the end of the block for 17 and 19, of the first block for 18.
    pub slots: Slots,
    pub why: Why,
}

/// Why it stopped.
#[derive(Clone, Debug)]
pub enum Why {
    /// 11: the slot does not hold this; of a qubit, whatever its location.
    Kind { slot: u8, needed: Holds },
    /// 12: the slot is bound.
    Bound { slot: u8 },
    /// 13: the location is not in the region; of a call, the one for this parameter.
    Outside { location: u8, parameter: Option<usize> },
    /// 14: the slot has a qubit at the location; of a call, the one for this parameter.
    Taken { location: u8, by: u8, parameter: Option<usize> },
    /// 15: a merge of a slot with itself.
    Itself { slot: u8 },
    /// 15: locations and slots that a call names twice, each with the two positions.
    Twice { locations: Vec<(u8, usize, usize)>, slots: Vec<(u8, usize, usize)> },
    /// 16: the qubit of this argument is not at the location that the call names for it.
    Elsewhere { argument: usize, slot: u8, wanted: u8 },
    /// 17: these slots have a qubit that they did not have when the block began.
    Outlives { slots: Vec<u8>, began: Box<Slots> },
    /// 18: these slots differ from those after the second block.
    Differ { slots: Vec<u8>, otherwise: Box<Slots> },
    /// 19: these slots had a qubit when the block began and have none.
    Loses { slots: Vec<u8>, began: Box<Slots> },
}

impl Why {
    /// The number of the refusal.
    pub fn number(&self) -> u8 {
        match self {
            Why::Kind { .. } => 11,
            Why::Bound { .. } => 12,
            Why::Outside { .. } => 13,
            Why::Taken { .. } => 14,
            Why::Itself { .. } | Why::Twice { .. } => 15,
            Why::Elsewhere { .. } => 16,
            Why::Outlives { .. } => 17,
            Why::Differ { .. } => 18,
            Why::Loses { .. } => 19,
        }
    }
}

/// What typing finds where it refuses this program; none where it does not.
pub fn at_refusal(device: &Device, program: &Program, job: Job) -> Option<Found> {
    Walk::new(device, program, job).judged()
}

/// The slots at the end of a function's body, whose typing is accepted: how each argument went that it ends without.
pub fn at_end(device: &Device, program: &Program, job: Job, function: usize) -> Option<Slots> {
    let mut walk = Walk::new(device, program, job);
    let _ = walk.judged();
    walk.ends.get(function).copied()
}

struct Walk<'a> {
    device: &'a Device,
    program: &'a Program,
    job: Job,
    /// The slots at the end of each function that is judged.
    ends: Vec<Slots>,
}

/// The slots of a body.
#[derive(Clone)]
struct State {
    body: Body,
    slots: Slots,
}

type Judged = Result<(), Box<Found>>;

impl<'a> Walk<'a> {
    fn new(device: &'a Device, program: &'a Program, job: Job) -> Walk<'a> {
        Walk { device, program, job, ends: vec![] }
    }

    /// Judges the functions, then main.
    fn judged(&mut self) -> Option<Found> {
        for body in self.program.bodies() {
            let mut state = State { body, slots: Slots::default() };
            if let Body::Function(number) = body {
                let arguments = self.program.functions.get(number).map_or(0, |function| function.arguments);
                for (slot, location) in state.slots.iter_mut().zip(0..).take(arguments) {
                    slot.holds = Holds::Qubit(location);
                }
            }
            if let Err(found) = self.block(self.program.body(body), &mut state) {
                return Some(*found);
            }
            self.ends.push(state.slots);
        }
        None
    }

    fn block(&self, block: &Block, state: &mut State) -> Judged {
        let began = state.slots;
        for statement in &block.statements {
            self.statement(statement, state)?;
        }
        if block.at != self.program.main.at {
            state.outlived(block.at, &began)?;
        }
        state.close(block.at, &began);
        Ok(())
    }

    fn statement(&self, statement: &Statement, state: &mut State) -> Judged {
        if let Some(why) = self.needs(&statement.kind, state) {
            return state.refused(statement.at, why);
        }
        match &statement.kind {
            &Kind::Init { slot, location } => state.bind(slot, Holds::Qubit(location), statement.at),
            &Kind::Free { slot } => state.lose(slot, Since::Freed(statement.at)),
            &Kind::Measure { into, .. } | &Kind::Merge { into, .. } | &Kind::Get { into, .. } | &Kind::Bool { into, .. } => {
                state.bind(into, Holds::Bool, statement.at);
            }
            &Kind::Ref { into, .. } => state.bind(into, Holds::Reference, statement.at),
            Kind::Gate { .. } | Kind::Set { .. } => {}
            Kind::If { then, otherwise, .. } => return self.both(statement.at, then, otherwise, state),
            Kind::While { body, .. } => return self.again(statement.at, body, state),
            Kind::Call { function, slots, .. } => self.call(statement.at, *function, slots, state),
        }
        Ok(())
    }

    /// The blocks of an if.
    fn both(&self, at: usize, then: &Block, otherwise: &Block, state: &mut State) -> Judged {
        let began = state.slots;
        let mut other = state.clone();
        self.block(then, state)?;
        self.block(otherwise, &mut other)?;
        let slots = state.where_not(|slot, holds| other.slots[slot].holds == holds);
        if !slots.is_empty() {
            return state.refused(at, Why::Differ { slots, otherwise: Box::new(other.slots) });
        }
        // what happened to a slot may have happened in the second block only
        for (i, slot) in state.slots.iter_mut().enumerate().filter(|(i, slot)| **slot == began[*i]) {
            *slot = other.slots[i];
        }
        Ok(())
    }

    /// The block of a while.
    fn again(&self, at: usize, body: &Block, state: &mut State) -> Judged {
        let began = state.slots;
        self.block(body, state)?;
        let slots = state.where_not(|slot, holds| !matches!(began[slot].holds, Holds::Qubit(_)) || began[slot].holds == holds);
        if slots.is_empty() {
            return Ok(());
        }
        state.refused(at, Why::Loses { slots, began: Box::new(began) })
    }

    /// The callee may have ended without some of its arguments.
    fn call(&self, at: usize, function: usize, slots: &[u8], state: &mut State) {
        let ends = self.ends.get(function).copied().unwrap_or_default();
        for (end, (&slot, location)) in ends.iter().zip(slots.iter().zip(0..)) {
            if end.holds != Holds::Qubit(location) {
                state.lose(slot, Since::Called(at));
            }
        }
    }

    /// What a statement needs and has not, of several the first.
    fn needs(&self, kind: &Kind, state: &State) -> Option<Why> {
        match kind {
            &Kind::Init { slot, location } => state.unbound(slot).or_else(|| self.inside(location, None, state)).or_else(|| state.vacant(location, None)),
            &Kind::Free { slot } | &Kind::Gate { slot } => state.qubit(slot),
            &Kind::Measure { into, slot } => state.unbound(into).or_else(|| state.qubit(slot)),
            &Kind::Merge { into, first, second } => {
                let itself = || (first == second).then_some(Why::Itself { slot: first });
                state.unbound(into).or_else(|| state.qubit(first)).or_else(|| state.qubit(second)).or_else(itself)
            }
            &Kind::Ref { into, from } => state.unbound(into).or_else(|| state.is(from, Holds::Bool)),
            &Kind::Get { into, from } => state.unbound(into).or_else(|| state.is(from, Holds::Reference)),
            &Kind::Set { reference, from } => state.is(reference, Holds::Reference).or_else(|| state.is(from, Holds::Bool)),
            &Kind::If { guard, .. } => state.is(guard, Holds::Bool),
            &Kind::While { guard, .. } => state.is(guard, Holds::Reference),
            &Kind::Bool { into, .. } => state.unbound(into),
            Kind::Call { locations, slots, .. } => self.call_needs(locations, slots, state),
        }
    }

    fn call_needs(&self, locations: &[u8], slots: &[u8], state: &State) -> Option<Why> {
        if let Some(why) = locations.iter().enumerate().find_map(|(i, &location)| self.inside(location, Some(i), state)) {
            return Some(why);
        }
        let (twice, slots_twice) = (twice(locations), twice(slots));
        if !twice.is_empty() || !slots_twice.is_empty() {
            return Some(Why::Twice { locations: twice, slots: slots_twice });
        }
        let arguments = slots.iter().zip(locations).enumerate();
        let wrong = arguments.map(|(i, (&slot, &wanted))| state.argument(i, slot, wanted)).find_map(|why| why);
        let others = || locations.iter().enumerate().skip(slots.len()).find_map(|(i, &location)| state.vacant(location, Some(i)));
        wrong.or_else(others)
    }

    fn inside(&self, location: u8, parameter: Option<usize>, state: &State) -> Option<Why> {
        let inside = state.body != Body::Main || self.device.has(self.job, usize::from(location));
        (!inside).then_some(Why::Outside { location, parameter })
    }
}

/// What comes twice in a list, with the first two positions of each.
fn twice(list: &[u8]) -> Vec<(u8, usize, usize)> {
    let seconds = list.iter().enumerate().filter(|(i, entry)| list[..*i].iter().filter(|other| other == entry).count() == 1);
    seconds.filter_map(|(second, &entry)| list.iter().position(|&other| other == entry).map(|first| (entry, first, second))).collect()
}

impl State {
    fn holds(&self, slot: u8) -> Holds {
        self.slots.get(usize::from(slot)).map_or(Holds::Unbound, |slot| slot.holds)
    }

    fn bind(&mut self, slot: u8, holds: Holds, at: usize) {
        if let Some(slot) = self.slots.get_mut(usize::from(slot)) {
            let lost = if matches!(holds, Holds::Qubit(_)) { None } else { slot.lost };
            *slot = Slot { holds, since: Since::Bound(at), lost };
        }
    }

    /// The qubit in a slot goes.
    fn lose(&mut self, slot: u8, how: Since) {
        if let Some(slot) = self.slots.get_mut(usize::from(slot)) {
            *slot = Slot { holds: Holds::Unbound, since: how, lost: Some(how) };
        }
    }

    /// No qubit of a block may outlive it, but for main's own block.
    fn outlived(&self, block: usize, began: &Slots) -> Judged {
        let slots = self.where_not(|slot, holds| !matches!(holds, Holds::Qubit(_)) || began[slot].holds == holds);
        if slots.is_empty() {
            return Ok(());
        }
        self.refused(block, Why::Outlives { slots, began: Box::new(*began) })
    }

    /// What the block has bound goes at its end.
    fn close(&mut self, block: usize, began: &Slots) {
        for (slot, before) in self.slots.iter_mut().zip(began) {
            let bound_here = matches!(slot.holds, Holds::Bool | Holds::Reference) && matches!(before.holds, Holds::Unbound | Holds::Qubit(_));
            if let (true, Since::Bound(bound)) = (bound_here, slot.since) {
                *slot = Slot { holds: Holds::Unbound, since: Since::Ended { bound, block }, lost: slot.lost };
            }
        }
    }

    fn refused(&self, place: usize, why: Why) -> Judged {
        Err(Box::new(Found { place, body: self.body, slots: self.slots, why }))
    }

    /// The slots of which this is not so, by number and by what each holds.
    fn where_not(&self, so: impl Fn(usize, Holds) -> bool) -> Vec<u8> {
        self.slots.iter().zip(0..).filter(|(slot, i)| !so(usize::from(*i), slot.holds)).map(|(_, i)| i).collect()
    }

    // Each of these gives what is wrong where it is not so.

    fn unbound(&self, slot: u8) -> Option<Why> {
        (self.holds(slot) != Holds::Unbound).then_some(Why::Bound { slot })
    }

    fn is(&self, slot: u8, needed: Holds) -> Option<Why> {
        (self.holds(slot) != needed).then_some(Why::Kind { slot, needed })
    }

    fn qubit(&self, slot: u8) -> Option<Why> {
        (!matches!(self.holds(slot), Holds::Qubit(_))).then_some(Why::Kind { slot, needed: Holds::Qubit(0) })
    }

    /// A location is free where no slot has a qubit there.
    fn vacant(&self, location: u8, parameter: Option<usize>) -> Option<Why> {
        let by = self.slots.iter().position(|slot| slot.holds == Holds::Qubit(location))?;
        Some(Why::Taken { location, by: by as u8, parameter })
    }

    fn argument(&self, argument: usize, slot: u8, wanted: u8) -> Option<Why> {
        match self.holds(slot) {
            Holds::Qubit(at) if at == wanted => None,
            Holds::Qubit(_) => Some(Why::Elsewhere { argument, slot, wanted }),
            _ => self.qubit(slot),
        }
    }
}
