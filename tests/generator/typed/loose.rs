//! A statement whose operands are right or wrong by chance.

use super::body::Body;
use super::calls::Called;
use super::{Builder, LOOSE};
use crate::generator::trees::Block;
use crate::reference::SLOTS;

impl Builder<'_> {
    /// Puts in one statement in which each operand is right or wrong by chance. Several tests
    /// may fail at once, and the question is which one is made first.
    pub(super) fn loose(&mut self, body: &Body, out: &mut Block) {
        if self.loose_statement(body, out).is_some() {
            self.put_in = LOOSE;
            self.wanted = 0;
        }
    }

    /// None if there is no location byte that could be read here.
    fn loose_statement(&mut self, body: &Body, out: &mut Block) -> Option<()> {
        let (b, c) = (self.random.below(2), self.random.below(2));
        let y = self.right_or_not(&body.unbound());
        let x = self.right_or_not(&body.qubits());
        match self.random.pick(&[1, 1, 2, 3, 5, 5, 6, 6, 6, 7, 8, 9, 10, 11, 12, 12, 12, 12, 12]) {
            3 => self.emit(out, &[3, x]),
            5 => self.emit(out, &[5, y, b, x]),
            6 => {
                let second = if self.random.one_in(4) { x } else { self.right_or_not(&body.qubits()) };
                self.emit(out, &[6, y, b, x, c, second]);
            }
            7 => {
                let value = self.right_or_not(&body.bools());
                self.emit(out, &[7, y, value]);
            }
            8 => {
                let r = self.right_or_not(&body.references());
                self.emit(out, &[8, y, r]);
            }
            9 => {
                let (r, value) = (self.right_or_not(&body.references()), self.right_or_not(&body.bools()));
                self.emit(out, &[9, r, value]);
            }
            10 => {
                let y = self.right_or_not(&body.bools());
                self.empty_branch(y, out);
            }
            11 => {
                let r = self.right_or_not(&body.references());
                self.empty_repeat(r, out);
            }
            12 if !self.known.is_empty() => {
                let called = self.loose_call(body)?;
                self.emit_call(&called, out);
            }
            kind => {
                let kind = if kind == 2 { 2 } else { 1 };
                let location = self.location_or_not(body, &body.locations_free(true))?;
                self.emit(out, &[kind, y, location]);
            }
        }
        Some(())
    }

    /// A call whose locations and slots are right or wrong; how wrong the lists are differs from call to call.
    fn loose_call(&mut self, body: &Body) -> Option<Called> {
        let free = body.locations_free(true);
        let Called { f, mut locations, mut slots } = match self.callable(body) {
            Some(called) => called,
            None => {
                let f = self.random.below(self.known.len());
                Called { f, locations: vec![0; self.known[f].parameters], slots: vec![0; self.known[f].arguments] }
            }
        };
        let one_in = self.random.pick(&[2, 4, 8]);
        for i in 0..locations.len() {
            if self.random.one_in(one_in) {
                let twice = self.random.one_in(4);
                locations[i] = if twice { self.random.pick(&locations) } else { self.location_or_not(body, &free)? };
            }
        }
        if slots.len() >= 2 && self.random.one_in(3) {
            // An argument elsewhere, and a later one that is no qubit.
            locations.swap(0, 1);
            let last = slots.len() - 1;
            slots[last] = self.right_or_not(&body.unbound());
        }
        for i in 0..slots.len() {
            if self.random.one_in(one_in) {
                let twice = self.random.one_in(4);
                slots[i] = if twice { self.random.pick(&slots) } else { self.right_or_not(&body.qubits()) };
            }
        }
        Some(Called { f, locations, slots })
    }

    /// A slot that is right more often than not.
    fn right_or_not(&mut self, right: &[usize]) -> usize {
        let limit = if self.random.one_in(6) { SLOTS } else { 6 };
        match self.pick_slot(right) {
            Some(slot) if !self.random.one_in(3) => slot,
            _ => self.random.below(limit),
        }
    }

    /// A location byte that can be read here and is right more often than not.
    fn location_or_not(&mut self, body: &Body, right: &[usize]) -> Option<usize> {
        let right = self.random.pick_if_any(right);
        let inside = self.random.pick_if_any(&body.inside);
        let outside = self.random.pick_if_any(&body.outside);
        match self.random.below(6) {
            0 => inside.or(outside),
            1 => outside.or(inside),
            _ => right.or(inside).or(outside),
        }
    }
}
