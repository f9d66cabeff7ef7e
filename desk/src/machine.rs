//! A job's own state, moved on as document 01's steps say.
//!
//! Whether a step moves is not decided here: the library's records say so, or the library's check has accepted the program's typing. What is here only keeps
//! track of slots, locations and what is to come, for programs that read. Where a slot does not hold what a moved step needs, nothing happens.

use crate::program::{Block, Body, Kind, Program, Statement};

/// What a slot holds.
#[derive(Clone, Copy, Debug, Default, PartialEq, Eq, Hash)]
pub enum Slot {
    #[default]
    Unbound,
    /// A qubit at this location.
    Qubit(usize),
    Bool(bool),
    /// A reference that holds this.
    Reference(bool),
}

/// The slots of a body that is being run.
#[derive(Clone, Debug)]
pub struct Frame<'a> {
    pub body: Body,
    /// The call that it was entered by; none for main.
    pub call: Option<&'a Statement>,
    /// The actual location of each parameter; none for main, where a location byte names a location.
    pub locations: Vec<usize>,
    pub slots: [Slot; 32],
}

impl Frame<'_> {
    /// The location that a location byte of this body means.
    pub fn location(&self, byte: u8) -> usize {
        match self.body {
            Body::Main => usize::from(byte),
            Body::Function(_) => self.locations.get(usize::from(byte)).copied().unwrap_or(usize::MAX),
        }
    }

    /// Where the qubit in a slot is.
    pub fn qubit(&self, slot: u8) -> Option<usize> {
        match self.slots[usize::from(slot)] {
            Slot::Qubit(location) => Some(location),
            _ => None,
        }
    }

    /// The bool in a slot, or that in its reference.
    pub fn value(&self, slot: u8) -> Option<bool> {
        match self.slots[usize::from(slot)] {
            Slot::Bool(value) | Slot::Reference(value) => Some(value),
            _ => None,
        }
    }
}

/// What is to come: the rest of a block, or a return from the top frame.
#[derive(Clone, Copy, Debug)]
enum Rest<'a> {
    Statements(&'a [Statement]),
    Return,
}

/// The next item of a job.
#[derive(Clone, Copy, Debug)]
pub enum Next<'a> {
    Statement(&'a Statement),
    /// The return of this call.
    Return(&'a Statement),
    Finished,
}

impl Next<'_> {
    /// The offset that the library's record of this step has.
    pub fn offset(&self) -> Option<usize> {
        match self {
            Next::Statement(statement) | Next::Return(statement) => Some(statement.at),
            Next::Finished => None,
        }
    }
}

/// What a step that moved does to the device.
#[derive(Clone, Copy, Debug, PartialEq, Eq)]
pub enum Effect {
    Nothing,
    /// A qubit is put down at this location.
    Takes(usize),
    /// The qubit at this location goes.
    Gives(usize),
    /// The qubits at these locations are merged.
    Merges(usize, usize),
}

/// A job's frames of slots and what is to come.
#[derive(Clone, Debug)]
pub struct Machine<'a> {
    program: &'a Program,
    /// Main's first, that of the body that is being run last.
    pub frames: Vec<Frame<'a>>,
    rest: Vec<Rest<'a>>,
}

impl<'a> Machine<'a> {
    /// A fresh start.
    pub fn new(program: &'a Program) -> Machine<'a> {
        let main = Frame { body: Body::Main, call: None, locations: vec![], slots: [Slot::Unbound; 32] };
        let mut machine = Machine { program, frames: vec![main], rest: vec![] };
        machine.put(&program.main);
        machine
    }

    /// The frame of the body that is being run.
    pub fn frame(&self) -> &Frame<'a> {
        &self.frames[self.frames.len() - 1]
    }

    /// The next item.
    pub fn next(&self) -> Next<'a> {
        match (self.rest.last(), self.frame().call) {
            (Some(Rest::Statements(statements)), _) => Next::Statement(&statements[0]),
            (Some(Rest::Return), Some(call)) => Next::Return(call),
            _ => Next::Finished,
        }
    }

    /// The next item moves, and a measurement in it has this outcome.
    pub fn moves(&mut self, outcome: bool) -> Effect {
        match self.next() {
            Next::Statement(statement) => self.does(statement, outcome),
            Next::Return(call) => {
                self.rest.pop();
                self.returns(call);
                Effect::Nothing
            }
            Next::Finished => Effect::Nothing,
        }
    }

    fn does(&mut self, statement: &'a Statement, outcome: bool) -> Effect {
        let effect = self.effect(&statement.kind);
        let is_true = |guard: u8| self.frame().value(guard) == Some(true);
        match &statement.kind {
            Kind::While { guard, body } if is_true(*guard) => self.put(body), // and the loop itself stays
            Kind::If { guard, then, otherwise } => {
                let block = if is_true(*guard) { then } else { otherwise };
                self.advance();
                self.put(block);
            }
            Kind::Call { function, locations, .. } => {
                self.advance();
                self.enter(statement, *function, locations);
            }
            kind => {
                self.bind(kind, outcome);
                self.advance();
            }
        }
        effect
    }

    /// What a statement that moves does to the device.
    fn effect(&self, kind: &Kind) -> Effect {
        let frame = self.frame();
        match *kind {
            Kind::Init { location, .. } => Effect::Takes(frame.location(location)),
            Kind::Free { slot } => frame.qubit(slot).map_or(Effect::Nothing, Effect::Gives),
            Kind::Merge { first, second, .. } => match (frame.qubit(first), frame.qubit(second)) {
                (Some(first), Some(second)) => Effect::Merges(first, second),
                _ => Effect::Nothing,
            },
            _ => Effect::Nothing,
        }
    }

    /// What a statement that moves does to a slot, where it does.
    fn bind(&mut self, kind: &Kind, outcome: bool) {
        let frame = self.frame();
        let (slot, holds) = match *kind {
            Kind::Init { slot, location } => (slot, Slot::Qubit(frame.location(location))),
            Kind::Free { slot } => (slot, Slot::Unbound),
            Kind::Measure { into, .. } | Kind::Merge { into, .. } => (into, Slot::Bool(outcome)),
            Kind::Ref { into, from } | Kind::Set { reference: into, from } => (into, frame.value(from).map_or(Slot::Unbound, Slot::Reference)),
            Kind::Get { into, from } => (into, frame.value(from).map_or(Slot::Unbound, Slot::Bool)),
            Kind::Bool { into, value } => (into, Slot::Bool(value)),
            Kind::Gate { .. } | Kind::If { .. } | Kind::While { .. } | Kind::Call { .. } => return,
        };
        let last = self.frames.len() - 1;
        self.frames[last].slots[usize::from(slot)] = holds;
    }

    /// Puts a block's statements next.
    fn put(&mut self, block: &'a Block) {
        if !block.statements.is_empty() {
            self.rest.push(Rest::Statements(&block.statements));
        }
    }

    /// Leaves the next statement behind.
    fn advance(&mut self) {
        if let Some(Rest::Statements(statements)) = self.rest.pop() {
            if statements.len() > 1 {
                self.rest.push(Rest::Statements(&statements[1..]));
            }
        }
    }

    fn enter(&mut self, call: &'a Statement, function: usize, locations: &[u8]) {
        let callee = &self.program.functions[function];
        let locations: Vec<usize> = locations.iter().map(|&byte| self.frame().location(byte)).collect();
        let mut slots = [Slot::Unbound; 32];
        for (slot, &location) in slots.iter_mut().zip(&locations).take(callee.arguments) {
            *slot = Slot::Qubit(location);
        }
        self.frames.push(Frame { body: Body::Function(function), call: Some(call), locations, slots });
        self.rest.push(Rest::Return);
        self.put(&callee.body);
    }

    /// Drops the frame and gives the arguments back.
    fn returns(&mut self, call: &'a Statement) {
        if let (Some(left), Some(caller)) = (self.frames.pop(), self.frames.last_mut()) {
            give_back(&mut caller.slots, call, &left.slots, &left.locations);
        }
    }

    /// The qubits of the job as locations with the slots that hold them, those of the innermost body first. A slot that a call was given is left out where
    /// the callee no longer holds its qubit.
    pub fn held(&self) -> Vec<(usize, u8)> {
        let mut held = vec![];
        let mut inner: Option<(&Frame, [Slot; 32])> = None;
        for frame in self.frames.iter().rev() {
            let mut slots = frame.slots;
            if let Some((callee, left)) = inner {
                if let Some(call) = callee.call {
                    give_back(&mut slots, call, &left, &callee.locations);
                }
            }
            let qubits = slots.iter().zip(0..).filter_map(|(holds, slot)| if let Slot::Qubit(location) = holds { Some((*location, slot)) } else { None });
            held.extend(qubits);
            inner = Some((frame, slots));
        }
        held
    }
}

/// What a return does to the caller's slots: the one given for argument i stays bound where callee slot i holds a qubit at the call's location i.
fn give_back(caller: &mut [Slot; 32], call: &Statement, callee: &[Slot; 32], locations: &[usize]) {
    if let Kind::Call { slots, .. } = &call.kind {
        for ((&slot, holds), &location) in slots.iter().zip(callee).zip(locations) {
            if *holds != Slot::Qubit(location) {
                caller[usize::from(slot)] = Slot::Unbound;
            }
        }
    }
}
