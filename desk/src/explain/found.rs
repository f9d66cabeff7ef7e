//! What typing found where it refused, in words: slots, locations, and the lines of the listing that made them what they are.

use super::part::Values;
use super::typing::{at_end, Found, Holds, Since, Slot, Why};
use super::words::Of;
use crate::device::Device;
use crate::program::{Body, Kind, Program};
use abwakiris::Job;
use std::cell::RefCell;
use std::collections::BTreeSet;

/// What the words are about.
pub struct Words<'a> {
    pub device: &'a Device,
    pub program: &'a Program,
    pub job: Job,
    pub body: Body,
    /// The lines of the listing that were named.
    pub named: RefCell<BTreeSet<usize>>,
}

/// The case of the refusal.
pub fn case(found: &Found, program: &Program) -> Of {
    match &found.why {
        Why::Kind { needed: Holds::Bool, .. } => Of::Bool,
        Why::Kind { needed: Holds::Reference, .. } => Of::Reference,
        Why::Kind { .. } => Of::Qubit,
        Why::Outside { .. } => Of::Program,
        Why::Taken { parameter: Some(_), .. } | Why::Twice { .. } => Of::Call,
        Why::Taken { .. } => Of::Init,
        Why::Itself { .. } => Of::Merge,
        Why::Outlives { .. } if program.body(found.body).at == found.place => Of::Function,
        Why::Outlives { .. } => Of::Block,
        _ => Of::Only,
    }
}

impl<'a> Words<'a> {
    /// Words for what was found in this body, with no line named yet.
    pub fn new(device: &'a Device, program: &'a Program, job: Job, body: Body) -> Words<'a> {
        Words { device, program, job, body, named: RefCell::default() }
    }

    /// The words in braces of what is asked.
    pub fn values(&self, found: &Found) -> Values {
        let slot = |slot: u8| ("{slot}", format!("slot {slot}"));
        let location = |byte: u8| ("{location}", self.location(byte));
        match found.why {
            Why::Kind { slot: number, .. } | Why::Bound { slot: number } => vec![slot(number)],
            Why::Outside { location: byte, .. } | Why::Taken { location: byte, .. } => vec![location(byte)],
            Why::Elsewhere { slot: number, wanted, .. } => vec![slot(number), location(wanted)],
            _ => vec![],
        }
    }

    /// A line for each thing that was found.
    pub fn lines(&self, found: &Found) -> Vec<String> {
        match &found.why {
            &Why::Kind { slot, .. } | &Why::Bound { slot } => vec![self.held(found, slot)],
            &Why::Outside { location, parameter } => vec![self.outside(location, parameter)],
            &Why::Taken { location, by, parameter } => vec![self.taken(found, location, by, parameter)],
            Why::Itself { slot } => vec![format!("slot {slot} is named for both qubits")],
            Why::Twice { locations, slots } => self.twice(locations, slots),
            &Why::Elsewhere { argument, slot, wanted } => self.elsewhere(found, argument, slot, wanted),
            Why::Outlives { slots, began } => slots.iter().map(|&slot| self.outlives(slot, &found.slots, &began[..])).collect(),
            Why::Differ { slots, otherwise } => slots.iter().map(|&slot| self.differs(slot, &found.slots, &otherwise[..])).collect(),
            Why::Loses { slots, began } => slots.iter().map(|&slot| self.loses(slot, &found.slots, &began[..])).collect(),
        }
    }

    /// The line of an offset.
    pub fn line(&self, at: usize) -> String {
        let number = self.program.listing.number(at);
        self.named.borrow_mut().insert(number);
        format!("line {number}")
    }

    /// What a location byte means in this body.
    pub fn location(&self, byte: u8) -> String {
        match self.body {
            Body::Main => format!("location {byte}"),
            Body::Function(_) => format!("parameter {byte}"),
        }
    }

    /// What a slot holds and since when.
    fn held(&self, found: &Found, slot: u8) -> String {
        let held = of(&found.slots, slot);
        match held.holds {
            Holds::Unbound => format!("slot {slot} is unbound: {}", self.gone(held.since)),
            _ => format!("slot {slot} holds {}", self.state(slot, held)),
        }
    }

    /// A slot that is bound: what it holds and since when.
    fn state(&self, slot: u8, held: Slot) -> String {
        let what = match held.holds {
            Holds::Unbound => return format!("nothing: {}", self.gone(held.since)),
            Holds::Qubit(location) => format!("a qubit at {}", self.location(location)),
            Holds::Bool => "a bool".to_string(),
            Holds::Reference => "a reference".to_string(),
        };
        match (held.holds, held.since) {
            (Holds::Qubit(_), Since::Bound(at)) => format!("{what}, made at {}", self.line(at)),
            (_, Since::Bound(at)) => format!("{what}, bound at {}", self.line(at)),
            (Holds::Qubit(_), Since::Start) => format!("{what}, argument {slot} of {}", self.body),
            _ => what,
        }
    }

    /// How a slot came to be unbound.
    fn gone(&self, since: Since) -> String {
        match since {
            Since::Start | Since::Bound(_) => format!("nothing in {} binds it on the way to this line", self.body),
            Since::Freed(at) => format!("its qubit was freed at {}", self.line(at)),
            Since::Called(at) => format!("its qubit went in the call of {}", self.line(at)),
            Since::Ended { bound, block } => format!("what {} bound went at the end of the block of {}", self.line(bound), self.line(block)),
        }
    }

    fn outside(&self, location: u8, parameter: Option<usize>) -> String {
        let given = parameter.map_or(String::new(), |parameter| format!(", given for parameter {parameter},"));
        format!("location {location}{given} {}", whose(self.device, u64::from(location)))
    }

    fn taken(&self, found: &Found, location: u8, by: u8, parameter: Option<usize>) -> String {
        let given = parameter.map_or(String::new(), |parameter| format!(", given for parameter {parameter},"));
        let since = match of(&found.slots, by).since {
            Since::Bound(at) => format!("since {}", self.line(at)),
            _ => format!("as argument {by} of {}", self.body),
        };
        format!("{}{given} has the qubit in slot {by}, {since}", self.location(location))
    }

    fn twice(&self, locations: &[(u8, usize, usize)], slots: &[(u8, usize, usize)]) -> Vec<String> {
        let own = if self.body == Body::Main { String::new() } else { format!(" of {}", self.body) };
        let of_locations = locations.iter().map(|&(byte, first, second)| {
            let named = self.location(byte);
            format!("{named}{own} is named twice, for parameters {first} and {second} of the function that is called")
        });
        let of_slots = slots.iter().map(|(slot, first, second)| format!("slot {slot} is named twice, for arguments {first} and {second}"));
        of_locations.chain(of_slots).collect()
    }

    fn elsewhere(&self, found: &Found, argument: usize, slot: u8, wanted: u8) -> Vec<String> {
        let held = self.state(slot, of(&found.slots, slot));
        let mut lines = vec![format!("slot {slot} holds {held}, and the call wants argument {argument} at {}", self.location(wanted))];
        let there = found.slots.iter().position(|other| other.holds == Holds::Qubit(wanted));
        lines.push(match there {
            Some(other) => format!("the qubit at {} is in slot {other}", self.location(wanted)),
            None => format!("no qubit is at {}", self.location(wanted)),
        });
        lines
    }

    fn outlives(&self, slot: u8, ended: &[Slot], began: &[Slot]) -> String {
        let (ended, began) = (of(ended, slot), of(began, slot));
        let before = match began.holds {
            Holds::Qubit(location) => format!("; when the block began its qubit was at {}", self.location(location)),
            _ => String::new(),
        };
        format!("at the block's end slot {slot} holds {}{before}", self.state(slot, ended))
    }

    fn differs(&self, slot: u8, then: &[Slot], otherwise: &[Slot]) -> String {
        let after = |held: Slot| match held.holds {
            Holds::Qubit(location) => (format!("a qubit at {}", self.location(location)), String::new()),
            _ => ("unbound".to_string(), format!(" ({})", self.lost(slot, held))),
        };
        let ((first, how), (second, or)) = (after(of(then, slot)), after(of(otherwise, slot)));
        format!("slot {slot}: {first} after the first block{how}, {second} after the second{or}")
    }

    fn loses(&self, slot: u8, ended: &[Slot], began: &[Slot]) -> String {
        let held = self.state(slot, of(began, slot));
        format!("slot {slot} begins with {held}, and ends unbound: {}", self.lost(slot, of(ended, slot)))
    }

    /// How the qubit of a slot went.
    fn lost(&self, slot: u8, held: Slot) -> String {
        match held.lost {
            Some(Since::Freed(at)) => format!("freed at {}", self.line(at)),
            Some(Since::Called(at)) => format!("it went in the call of {}{}", self.line(at), self.in_callee(slot, at)),
            _ => "it is gone".to_string(),
        }
    }

    /// Which function ends without the argument that a call gives in this slot, and where it went there.
    fn in_callee(&self, slot: u8, call: usize) -> String {
        let called = self.program.statement(call).and_then(|(_, statement)| match &statement.kind {
            Kind::Call { function, slots, .. } => slots.iter().position(|&given| given == slot).map(|argument| (*function, argument)),
            _ => None,
        });
        called.map_or(String::new(), |(function, argument)| {
            let ends = at_end(self.device, self.program, self.job, function).unwrap_or_default();
            let how = match of(&ends, argument as u8).lost {
                Some(Since::Freed(at)) => format!(", freed at {}", self.line(at)),
                Some(Since::Called(at)) => format!(", gone in its call of {}", self.line(at)),
                _ => String::new(),
            };
            format!(": function {function} ends without its argument {argument}{how}")
        })
    }
}

/// A slot by its number.
pub fn of(slots: &[Slot], number: u8) -> Slot {
    slots.get(usize::from(number)).copied().unwrap_or_default()
}

/// Whose a location is, or that there is no such location.
pub fn whose(device: &Device, location: u64) -> String {
    let owner = usize::try_from(location).ok().and_then(|location| device.owners.get(location));
    match owner {
        Some(0) => "is nobody's".to_string(),
        Some(job) => format!("is job {job}'s"),
        None if device.locations() == 1 => "does not exist: the device has location 0 only".to_string(),
        None => format!("does not exist: the device has locations 0 to {}", device.locations() - 1),
    }
}
