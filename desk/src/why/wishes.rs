//! Wishes: what slots must hold for a run to go on from a step to where it is to come.
//!
//! A search goes backward from that place. A guard on the way is a wish for its slot; a copy passes the wish on to the slot that is copied; a `bool` grants it
//! or ends this way; and a measurement grants it by its outcome. What is not wished for does not matter.

use super::flow::{Does, Step};

/// A value for some of the slots.
#[derive(Clone, Copy, Debug, Default, PartialEq, Eq, Hash)]
pub struct Wishes {
    /// The slots with a wish, a bit each.
    slots: u32,
    /// The values wished for, in the same bits, others 0.
    values: u32,
}

/// Wishes one step earlier.
#[derive(Clone, Copy, Debug)]
pub struct Earlier {
    pub wishes: Wishes,
    /// The outcome that the step must have; none where it does not matter or is not asked for.
    pub outcome: Option<bool>,
}

impl Wishes {
    fn for_slot(&self, slot: u8) -> Option<bool> {
        (self.slots >> slot & 1 == 1).then_some(self.values >> slot & 1 == 1)
    }

    /// Whether one of these slots has a wish.
    pub fn touch(&self, slots: u32) -> bool {
        self.slots & slots != 0
    }

    /// Whether these values of the slots are as wished.
    pub fn granted_by(&self, values: u32) -> bool {
        values & self.slots == self.values
    }

    /// Whether what is wished for is possible where these slots may be false and those true.
    pub fn are_within(&self, zero: u32, one: u32) -> bool {
        self.slots & (self.values & !one | !self.values & !zero) == 0
    }

    /// Whether all that is wished here is wished there too.
    pub fn are_among(&self, others: &Wishes) -> bool {
        self.slots & !others.slots == 0 && others.values & self.slots == self.values
    }

    /// With one wish more; none where there is a contrary one.
    fn with(self, slot: u8, value: bool) -> Option<Wishes> {
        let more = Wishes { slots: self.slots | 1 << slot, values: self.values | u32::from(value) << slot };
        (self.for_slot(slot) != Some(!value)).then_some(more)
    }

    fn without(self, slot: u8) -> Wishes {
        Wishes { slots: self.slots & !(1 << slot), values: self.values & !(1 << slot) }
    }

    /// What must be wished before a step so that these wishes hold after it; none where they cannot. `taken` says by which value of a guard it goes on.
    pub fn before(self, step: &Step, taken: bool) -> Option<Earlier> {
        let same = |wishes: Wishes| Earlier { wishes, outcome: None };
        match step.does {
            Does::Measures { into } => Some(Earlier { wishes: self.without(into), outcome: self.for_slot(into) }),
            Does::Copies { into, from } => match self.for_slot(into) {
                Some(value) => self.without(into).with(from, value).map(same),
                None => Some(same(self)),
            },
            Does::Makes { into, value } => (self.for_slot(into) != Some(!value)).then(|| same(self.without(into))),
            Does::Guards { guard, .. } => self.with(guard, taken).map(same),
            Does::Nothing | Does::Calls { .. } | Does::Ends => Some(same(self)),
        }
    }
}

/// The values of slots after a step.
pub fn after(values: u32, step: &Step, outcome: bool) -> u32 {
    let put = |slot: u8, value: bool| values & !(1 << slot) | u32::from(value) << slot;
    match step.does {
        Does::Measures { into } => put(into, outcome),
        Does::Copies { into, from } => put(into, values >> from & 1 == 1),
        Does::Makes { into, value } => put(into, value),
        _ => values,
    }
}
