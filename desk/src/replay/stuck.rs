//! Words for a job that got stuck: what its statement met. That it is stuck, and for which reason, is the library's record.

use crate::device::Device;
use crate::explain::path::reach;
use crate::machine::{Frame, Machine, Slot};
use crate::program::{Kind, Statement};
use crate::region::{Locations, Region};
use abwakiris::{Job, Number};

/// How a job got stuck.
#[derive(Clone, Debug)]
pub struct Stuck {
    /// The first step that was stuck, counted from 1.
    pub step: usize,
    pub number: Number,
    /// The offset of the statement.
    pub at: usize,
    /// What it met, in words.
    pub found: String,
    /// The locations that it is about; for a merge without a path its two ends.
    pub about: Vec<usize>,
    /// The free locations that are reached from the first end of a merge without a path, rising.
    pub reached: Vec<usize>,
}

/// What there was before the step.
pub struct Before<'a> {
    pub device: &'a Device,
    pub map: &'a [u8],
    pub job: Job,
    pub machine: &'a Machine<'a>,
}

impl Stuck {
    /// The words for a statement that is stuck at this step, for this reason.
    pub fn of(step: usize, number: Number, statement: &Statement, before: &Before) -> Stuck {
        let mut stuck = Stuck { step, number, at: statement.at, found: String::new(), about: vec![], reached: vec![] };
        match number {
            Number::Kind => stuck.found = before.wrong_kind(statement).unwrap_or_default(),
            Number::SlotBound => stuck.about(before.bound(statement)),
            Number::OutsideRegion => stuck.about(before.outside(statement)),
            Number::NotFree => stuck.about(before.taken(statement)),
            Number::Twice => stuck.found = before.twice(statement).unwrap_or_default(),
            Number::ArgumentPlace => stuck.about(before.misplaced(statement)),
            Number::NoPath => stuck.apart(statement, before),
            _ => {}
        }
        stuck
    }

    fn about(&mut self, found: Option<(Vec<usize>, String)>) {
        if let Some((about, found)) = found {
            (self.about, self.found) = (about, found);
        }
    }

    /// A merge whose ends no path joins.
    fn apart(&mut self, statement: &Statement, before: &Before) {
        if let Kind::Merge { first, second, .. } = statement.kind {
            let frame = before.machine.frame();
            if let (Some(from), Some(to)) = (frame.qubit(first), frame.qubit(second)) {
                self.reached = before.reached(from);
                self.about = vec![from, to];
                self.found = format!("slot {first} is at location {from}, slot {second} at location {to}; {}", reach(from, &self.reached));
            }
        }
    }
}

impl<'a> Before<'a> {
    fn frame(&self) -> &Frame<'a> {
        self.machine.frame()
    }

    fn holds(&self, slot: u8) -> Slot {
        self.frame().slots.get(usize::from(slot)).copied().unwrap_or_default()
    }

    /// The first slot that is not of the kind that the statement needs.
    fn wrong_kind(&self, statement: &Statement) -> Option<String> {
        let (slot, needed) = needs(&statement.kind).into_iter().find(|&(slot, needed)| !needed.met(self.holds(slot)))?;
        Some(format!("slot {slot} {}, and {} is needed", held(self.holds(slot)), needed.words()))
    }

    /// The slot to be bound, which holds a qubit.
    fn bound(&self, statement: &Statement) -> Option<(Vec<usize>, String)> {
        let slot = match statement.kind {
            Kind::Init { slot, .. } => slot,
            Kind::Measure { into, .. } | Kind::Merge { into, .. } | Kind::Ref { into, .. } | Kind::Get { into, .. } | Kind::Bool { into, .. } => into,
            _ => return None,
        };
        Some((self.frame().qubit(slot).into_iter().collect(), format!("slot {slot} {}", held(self.holds(slot)))))
    }

    /// The locations that a statement names, as they are on the device.
    fn named(&self, statement: &Statement) -> Vec<usize> {
        match &statement.kind {
            Kind::Init { location, .. } => vec![self.frame().location(*location)],
            Kind::Call { locations, .. } => locations.iter().map(|&byte| self.frame().location(byte)).collect(),
            _ => vec![],
        }
    }

    fn outside(&self, statement: &Statement) -> Option<(Vec<usize>, String)> {
        let location = self.named(statement).into_iter().find(|&location| !self.device.has(self.job, location))?;
        let words = match self.device.owners.get(location) {
            None => return Some((vec![], format!("the device has no location {location}"))),
            Some(0) => "nobody's".to_string(),
            Some(job) => format!("job {job}'s"),
        };
        Some((vec![location], format!("location {location} is {words}")))
    }

    fn taken(&self, statement: &Statement) -> Option<(Vec<usize>, String)> {
        let given = if let Kind::Call { slots, .. } = &statement.kind { slots.len() } else { 0 };
        let is_taken = |location: &usize| self.map.get(*location).map_or(false, |&job| job != 0);
        let location = self.named(statement).into_iter().skip(given).find(is_taken)?;
        let slot = self.machine.held().into_iter().find(|(at, _)| *at == location);
        let holder = slot.map_or("a qubit that no slot holds".to_string(), |(_, slot)| format!("the qubit in slot {slot}"));
        Some((vec![location], format!("location {location} is occupied by {holder}")))
    }

    fn twice(&self, statement: &Statement) -> Option<String> {
        match &statement.kind {
            Kind::Merge { first, .. } => Some(format!("slot {first} is merged with itself")),
            Kind::Call { slots, .. } => {
                let named = self.named(statement);
                let location = repeated(&named).map(|location| format!("location {location} is listed twice"));
                location.or_else(|| repeated(slots).map(|slot| format!("slot {slot} is listed twice")))
            }
            _ => None,
        }
    }

    fn misplaced(&self, statement: &Statement) -> Option<(Vec<usize>, String)> {
        if let Kind::Call { slots, .. } = &statement.kind {
            let pairs = slots.iter().zip(self.named(statement));
            let mut wrong = pairs.filter_map(|(&slot, wanted)| self.frame().qubit(slot).filter(|&at| at != wanted).map(|at| (slot, at, wanted)));
            return wrong.next().map(|(slot, at, wanted)| (vec![at, wanted], format!("slot {slot} is at location {at}, and the call has {wanted} for it")));
        }
        None
    }

    /// The free locations of the region that are reached from this one, rising.
    fn reached(&self, from: usize) -> Vec<usize> {
        let occupied: Locations = (0..self.map.len()).filter(|&location| self.map[location] != 0).collect();
        Region::of(self.device, self.job).reached(&occupied, from).list()
    }
}

/// The first value that comes again.
fn repeated<T: PartialEq>(values: &[T]) -> Option<&T> {
    values.iter().enumerate().find(|(i, value)| values[..*i].contains(value)).map(|(_, value)| value)
}

/// The kind that a slot must be of.
#[derive(Clone, Copy)]
enum Needed {
    Qubit,
    Bool,
    Reference,
}

impl Needed {
    fn met(self, holds: Slot) -> bool {
        matches!((self, holds), (Needed::Qubit, Slot::Qubit(_)) | (Needed::Bool, Slot::Bool(_)) | (Needed::Reference, Slot::Reference(_)))
    }

    fn words(self) -> &'static str {
        match self {
            Needed::Qubit => "a qubit",
            Needed::Bool => "a bool",
            Needed::Reference => "a reference",
        }
    }
}

/// The slots that a statement reads, in the order in which they are tested.
fn needs(kind: &Kind) -> Vec<(u8, Needed)> {
    match kind {
        Kind::Free { slot } | Kind::Gate { slot } | Kind::Measure { slot, .. } => vec![(*slot, Needed::Qubit)],
        Kind::Merge { first, second, .. } => vec![(*first, Needed::Qubit), (*second, Needed::Qubit)],
        Kind::Ref { from, .. } => vec![(*from, Needed::Bool)],
        Kind::Get { from, .. } => vec![(*from, Needed::Reference)],
        Kind::Set { reference, from } => vec![(*reference, Needed::Reference), (*from, Needed::Bool)],
        Kind::If { guard, .. } => vec![(*guard, Needed::Bool)],
        Kind::While { guard, .. } => vec![(*guard, Needed::Reference)],
        Kind::Call { slots, .. } => slots.iter().map(|&slot| (slot, Needed::Qubit)).collect(),
        Kind::Init { .. } | Kind::Bool { .. } => vec![],
    }
}

/// What a slot holds, in words.
fn held(holds: Slot) -> String {
    match holds {
        Slot::Unbound => "is unbound".to_string(),
        Slot::Qubit(location) => format!("holds a qubit, at location {location}"),
        Slot::Bool(_) => "holds a bool".to_string(),
        Slot::Reference(_) => "holds a reference".to_string(),
    }
}
