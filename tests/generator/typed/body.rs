//! What the builder knows at a point of a body: its slots and locations. And what a caller must know of a function.

use crate::reference::SLOTS;

#[derive(Clone, Copy, PartialEq, Eq)]
pub(super) enum Slot {
    Unbound,
    Qubit(usize),
    Bool,
    Reference,
}

/// The environment at the point of building.
#[derive(Clone, PartialEq, Eq)]
pub(super) struct Body {
    pub(super) slots: [Slot; SLOTS],
    /// The locations inside (the region, or the parameters) and whether each is free.
    pub(super) inside: Vec<usize>,
    pub(super) free: Vec<bool>,
    /// Location bytes that may be written but lie outside the region; none in a function.
    pub(super) outside: Vec<usize>,
    pub(super) is_main: bool,
}

impl Body {
    /// On entry to a function, whose arguments are qubits at its first parameters.
    pub(super) fn of_function(parameters: usize, arguments: usize) -> Body {
        let mut body = Body {
            slots: [Slot::Unbound; SLOTS],
            inside: (0..parameters).collect(),
            free: vec![true; parameters],
            outside: Vec::new(),
            is_main: false,
        };
        for i in 0..arguments {
            body.take(i, i);
        }
        body
    }

    pub(super) fn of_main(region: &[usize]) -> Body {
        let mut free = vec![false; 256];
        for &l in region {
            free[l] = true;
        }
        let outside = (0..256).filter(|&l| !free[l]).collect();
        Body { slots: [Slot::Unbound; SLOTS], inside: region.to_vec(), free, outside, is_main: true }
    }

    pub(super) fn slots_where(&self, wanted: impl Fn(Slot) -> bool) -> Vec<usize> {
        (0..SLOTS).filter(|&s| wanted(self.slots[s])).collect()
    }

    pub(super) fn unbound(&self) -> Vec<usize> {
        self.slots_where(|slot| slot == Slot::Unbound)
    }

    pub(super) fn qubits(&self) -> Vec<usize> {
        self.slots_where(|slot| matches!(slot, Slot::Qubit(_)))
    }

    pub(super) fn bools(&self) -> Vec<usize> {
        self.slots_where(|slot| slot == Slot::Bool)
    }

    pub(super) fn references(&self) -> Vec<usize> {
        self.slots_where(|slot| slot == Slot::Reference)
    }

    pub(super) fn location(&self, slot: usize) -> usize {
        match self.slots[slot] {
            Slot::Qubit(location) => location,
            _ => unreachable!(),
        }
    }

    pub(super) fn locations_free(&self, free: bool) -> Vec<usize> {
        self.inside.iter().copied().filter(|&l| self.free[l] == free).collect()
    }

    /// What an init does.
    pub(super) fn take(&mut self, slot: usize, location: usize) {
        self.slots[slot] = Slot::Qubit(location);
        self.free[location] = false;
    }

    /// What a free does.
    pub(super) fn release(&mut self, slot: usize) {
        let location = self.location(slot);
        self.free[location] = true;
        self.slots[slot] = Slot::Unbound;
    }
}

/// What a caller must know of a function.
pub(super) struct Known {
    pub(super) parameters: usize,
    pub(super) arguments: usize,
    /// For each argument whether it is still there at the end.
    pub(super) keeps: Vec<bool>,
    /// For each parameter whether it is free at the end.
    pub(super) frees: Vec<bool>,
    pub(super) count: u64,
}
