//! Statements that typing accepts: which one is chosen, and the simple ones, which have no blocks and call nothing.

use super::body::{Body, Slot};
use super::{Builder, Opened, LOOSE};
use crate::generator::trees::Block;

impl Builder<'_> {
    /// A statement that brings the block nearer to a fault that needs several things at once:
    /// a live qubit, and a bool for an if or a reference for a loop.
    pub(super) fn make_way(&mut self, body: &mut Body, opened: &Opened, out: &mut Block) {
        let kind = if body.qubits().is_empty() {
            1
        } else if matches!(self.wanted, 16 | LOOSE) {
            return;
        } else if !body.slots.contains(&Slot::Bool) {
            23
        } else if self.wanted == 18 {
            18
        } else if !body.slots.contains(&Slot::Reference) {
            14
        } else {
            21
        };
        self.statement(kind, body, opened, out);
    }

    /// One statement that typing accepts, if it is possible here. How many of the numbers 1 to
    /// 28 stand for a kind says how often it comes up.
    pub(super) fn statement(&mut self, kind: usize, body: &mut Body, opened: &Opened, out: &mut Block) {
        let bindable = self.bindable(body);
        let to_stay = self.bindable_to_stay(&bindable, opened);
        let basis = self.random.below(2);
        match kind {
            1..=5 => self.init(&bindable, body, out),
            6 | 7 => self.free(body, out),
            8 => self.gate(body, out),
            9 | 10 => self.measure(&to_stay, basis, body, out),
            11..=13 => self.merge(&to_stay, basis, body, out),
            14 | 15 => self.new_reference(&to_stay, body, out),
            16 => self.value(&to_stay, body, out),
            17 => self.assign(body, out),
            18..=20 => self.branch(body, opened.depth, out),
            21 | 22 => self.repeat(body, opened.depth, out),
            25..=28 => self.call(body, out),
            _ => self.new_bool(&to_stay, body, out),
        }
    }

    /// The slots that may be bound: a careless builder doesn't mind a bool or a reference in them.
    fn bindable(&self, body: &Body) -> Vec<usize> {
        body.slots_where(|slot| slot == Slot::Unbound || self.careless && !matches!(slot, Slot::Qubit(_)))
    }

    /// Those that may be bound to a bool or a reference, which would stay: not a slot whose qubit must come back.
    fn bindable_to_stay(&self, bindable: &[usize], opened: &Opened) -> Vec<usize> {
        let may = |&s: &usize| self.careless || opened.lost[s] || !matches!(opened.entry[s], Slot::Qubit(_));
        bindable.iter().copied().filter(may).collect()
    }

    fn init(&mut self, bindable: &[usize], body: &mut Body, out: &mut Block) {
        let free = body.locations_free(true);
        // Both ends of the list often, which lie far from each other on a line.
        let location = match self.random.below(6) {
            0 => free.first().copied(),
            1 => free.last().copied(),
            _ => self.random.pick_if_any(&free),
        };
        if let (Some(x), Some(l)) = (self.pick_slot(bindable), location) {
            let kind = self.init_kind();
            self.emit(out, &[kind, x, l]);
            body.take(x, l);
        }
    }

    fn free(&mut self, body: &mut Body, out: &mut Block) {
        if let Some(x) = self.random.pick_if_any(&body.qubits()) {
            self.emit(out, &[3, x]);
            body.release(x);
        }
    }

    fn gate(&mut self, body: &Body, out: &mut Block) {
        if let Some(x) = self.random.pick_if_any(&body.qubits()) {
            let gate = self.random.below(4);
            self.emit(out, &[4, gate, x]);
        }
    }

    fn measure(&mut self, bindable: &[usize], basis: usize, body: &mut Body, out: &mut Block) {
        if let (Some(y), Some(x)) = (self.pick_slot(bindable), self.random.pick_if_any(&body.qubits())) {
            self.emit(out, &[5, y, basis, x]);
            body.slots[y] = Slot::Bool;
        }
    }

    fn merge(&mut self, bindable: &[usize], basis: usize, body: &mut Body, out: &mut Block) {
        let mut ends = body.qubits();
        if ends.len() < 2 {
            return;
        }
        if let Some(y) = self.pick_slot(bindable) {
            self.random.shuffle(&mut ends);
            let other = self.random.below(2);
            self.emit(out, &[6, y, basis, ends[0], other, ends[1]]);
            body.slots[y] = Slot::Bool;
        }
    }

    fn new_reference(&mut self, bindable: &[usize], body: &mut Body, out: &mut Block) {
        if let (Some(r), Some(y)) = (self.pick_slot(bindable), self.random.pick_if_any(&body.bools())) {
            self.emit(out, &[7, r, y]);
            body.slots[r] = Slot::Reference;
        }
    }

    /// A bool with a reference's value.
    fn value(&mut self, bindable: &[usize], body: &mut Body, out: &mut Block) {
        if let (Some(y), Some(r)) = (self.pick_slot(bindable), self.random.pick_if_any(&body.references())) {
            self.emit(out, &[8, y, r]);
            body.slots[y] = Slot::Bool;
        }
    }

    fn assign(&mut self, body: &Body, out: &mut Block) {
        let r = self.random.pick_if_any(&body.references());
        let y = self.random.pick_if_any(&body.bools());
        if let (Some(r), Some(y)) = (r, y) {
            self.emit(out, &[9, r, y]);
        }
    }

    fn new_bool(&mut self, bindable: &[usize], body: &mut Body, out: &mut Block) {
        if let Some(y) = self.pick_slot(bindable) {
            let value = self.random.below(2);
            self.emit(out, &[13, y, value]);
            body.slots[y] = Slot::Bool;
        }
    }
}
