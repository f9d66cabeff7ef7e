//! Calls of the functions built so far.

use super::body::{Body, Slot};
use super::Builder;
use crate::generator::trees::Block;

/// What a call names: the function, locations and slots.
pub(super) struct Called {
    pub(super) f: usize,
    pub(super) locations: Vec<usize>,
    pub(super) slots: Vec<usize>,
}

impl Builder<'_> {
    /// A call that typing accepts, if it is possible here and the count stays below its end.
    pub(super) fn call(&mut self, body: &mut Body, out: &mut Block) {
        let Some(called) = self.callable(body) else { return };
        if self.count + self.known[called.f].count > self.most {
            return;
        }
        self.emit_call(&called, out);
        let known = &self.known[called.f];
        self.count += known.count;
        for (&slot, &keeps) in called.slots.iter().zip(&known.keeps) {
            if !keeps {
                body.slots[slot] = Slot::Unbound;
            }
        }
        for (&location, &free) in called.locations.iter().zip(&known.frees) {
            body.free[location] = free;
        }
    }

    /// A function that can be called here, with right locations and slots for it.
    pub(super) fn callable(&mut self, body: &Body) -> Option<Called> {
        let mut slots = body.qubits();
        let mut free = body.locations_free(true);
        let possible: Vec<usize> = (0..self.known.len())
            .filter(|&f| {
                let known = &self.known[f];
                slots.len() >= known.arguments && free.len() >= known.parameters - known.arguments
            })
            .collect();
        let f = self.random.pick_if_any(&possible)?;
        let known = &self.known[f];
        self.random.shuffle(&mut slots);
        self.random.shuffle(&mut free);
        slots.truncate(known.arguments);
        let mut locations: Vec<usize> = slots.iter().map(|&s| body.location(s)).collect();
        locations.extend(&free[..known.parameters - known.arguments]);
        Some(Called { f, locations, slots })
    }

    pub(super) fn emit_call(&mut self, called: &Called, out: &mut Block) {
        let mut bytes = vec![12, called.f, called.locations.len(), called.slots.len()];
        bytes.extend(&called.locations);
        bytes.extend(&called.slots);
        self.emit(out, &bytes);
    }
}
