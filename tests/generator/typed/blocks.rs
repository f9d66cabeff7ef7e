//! Blocks: what is tried in them and how they end; ifs and loops.

use super::body::{Body, Slot};
use super::{Builder, Lost, Opened, LOOSE};
use crate::generator::trees::{Block, Statement};
use crate::reference::{DEEPEST_BLOCK, SLOTS};

impl Builder<'_> {
    /// A block that ends with the qubits it began with, but for the `lost` ones; main's own with any others beside.
    pub(super) fn block(&mut self, body: &mut Body, depth: usize, tries: usize, lost: &Lost) -> Block {
        let opened = Opened { depth, entry: body.slots, lost: *lost, is_mains: depth == 1 && body.is_main };
        let mut out = Vec::new();
        self.left -= 2;
        if depth == 1 && self.left > 60 && self.random.one_in(2) {
            // Something of every kind, so that much is possible from the start.
            for kind in [1, 23, 14, 1, 1] {
                self.statement(kind, body, &opened, &mut out);
            }
        }
        for _ in 0..tries {
            if self.left < 8 {
                break;
            }
            if matches!(self.wanted, 11..=16) && self.random.one_in(4) {
                self.fault(body, &mut out);
            } else if self.wanted == LOOSE && self.random.one_in(5) {
                self.loose(body, &mut out);
            } else if matches!(self.wanted, 16 | 18 | 19 | LOOSE) && self.random.one_in(2) {
                self.make_way(body, &opened, &mut out);
            } else {
                let kind = self.random.between(1, 28);
                self.statement(kind, body, &opened, &mut out);
            }
        }
        if self.careless && self.random.one_in(if depth == 1 { 2 } else { 4 }) {
            if self.random.one_in(2) {
                self.move_one(body, &mut out);
            }
        } else {
            self.settle(body, &opened, &mut out);
        }
        out
    }

    /// Ends a block: frees what may not outlive it, brings back what must be there again, and
    /// unbinds what was bound inside.
    fn settle(&mut self, body: &mut Body, opened: &Opened, out: &mut Block) {
        if opened.is_mains {
            return self.hand_on(body, out);
        }
        let outliving = if self.wanted == 17 && self.random.one_in(3) { self.outlive(body, opened, out) } else { None };
        for s in body.qubits() {
            if body.slots[s] != opened.entry[s] || opened.lost[s] {
                if outliving != Some(s) {
                    self.emit(out, &[3, s]);
                }
                body.release(s);
            }
        }
        for s in 0..SLOTS {
            let entry = opened.entry[s];
            if let Slot::Qubit(l) = entry {
                if !opened.lost[s] && body.slots[s] != entry {
                    // Beside an outliving qubit this could be refused first, so it is left out.
                    if outliving.is_none() {
                        let kind = self.init_kind();
                        self.emit(out, &[kind, s, l]);
                    }
                    body.take(s, l);
                }
            }
            let was_bound = matches!(entry, Slot::Bool | Slot::Reference);
            if matches!(body.slots[s], Slot::Bool | Slot::Reference) && !was_bound {
                body.slots[s] = Slot::Unbound;
            }
        }
    }

    /// Ends main: it may leave any of its qubits live, all of them or none too.
    fn hand_on(&mut self, body: &mut Body, out: &mut Block) {
        let freed_one_in = self.random.pick(&[1, 1, 2, 4, 1000]);
        for s in body.qubits() {
            if self.random.one_in(freed_one_in) {
                self.emit(out, &[3, s]);
                body.release(s);
            }
        }
    }

    /// Moves a qubit to another location or, with another qubit, to the other's; it stays in its
    /// slot. An argument that is moved like this is lost to the caller.
    fn move_one(&mut self, body: &mut Body, out: &mut Block) {
        let mut slots = body.qubits();
        let free = body.locations_free(true);
        self.random.shuffle(&mut slots);
        if slots.len() >= 2 && (free.is_empty() || self.random.one_in(2)) {
            let (a, b) = (slots[0], slots[1]);
            let (of_a, of_b) = (body.location(a), body.location(b));
            self.emit(out, &[3, a]);
            self.emit(out, &[3, b]);
            self.emit(out, &[1, a, of_b]);
            self.emit(out, &[1, b, of_a]);
            body.slots.swap(a, b);
        } else if !slots.is_empty() && !free.is_empty() {
            let (s, l) = (slots[0], self.random.pick(&free));
            self.emit(out, &[3, s]);
            self.emit(out, &[2, s, l]);
            body.release(s);
            body.take(s, l);
        }
    }

    fn inner_tries(&mut self, depth: usize) -> usize {
        // A long way down now and then, else short blocks.
        if self.random.one_in(5) { 8 } else { self.random.below(1 + 10 / (depth + 1)) }
    }

    /// An if. Where 18 is wanted its blocks may end differently.
    pub(super) fn branch(&mut self, body: &mut Body, depth: usize, out: &mut Block) {
        let (Some(y), true) = (self.random.pick_if_any(&body.bools()), depth < DEEPEST_BLOCK) else { return };
        self.count += 1;
        self.left -= 2;
        let qubits = body.qubits();
        let mut lost: Lost = [false; SLOTS];
        for &s in &qubits {
            lost[s] = self.random.one_in(5);
        }
        let mut lost_in_other = lost;
        let mut differ = false;
        if self.wanted == 18 && !qubits.is_empty() && self.random.one_in(2) {
            let s = self.random.pick(&qubits);
            lost_in_other[s] = !lost[s];
            differ = true;
            self.wanted = 0;
        }
        let mut other = body.clone();
        let tries = self.inner_tries(depth);
        let then = self.block(body, depth + 1, tries, &lost);
        let tries = self.inner_tries(depth);
        let otherwise = self.block(&mut other, depth + 1, tries, &lost_in_other);
        if differ {
            self.put_in = 18;
        } else {
            assert!(self.put_in != 0 || self.careless || *body == other);
        }
        out.push(Statement { bytes: vec![10, y as u8], blocks: vec![then, otherwise] });
    }

    /// A loop. Where 19 is wanted its body may lose a qubit.
    pub(super) fn repeat(&mut self, body: &mut Body, depth: usize, out: &mut Block) {
        let (Some(r), true) = (self.random.pick_if_any(&body.references()), depth < DEEPEST_BLOCK) else { return };
        self.count += 1;
        self.left -= 2;
        let before = body.clone();
        let mut lost: Lost = [false; SLOTS];
        let qubits = body.qubits();
        let loses = self.wanted == 19 && !qubits.is_empty() && self.random.one_in(2);
        if loses {
            lost[self.random.pick(&qubits)] = true;
            self.wanted = 0;
        }
        let tries = self.inner_tries(depth);
        let inner = self.block(body, depth + 1, tries, &lost);
        if loses {
            self.put_in = 19;
        } else {
            assert!(self.put_in != 0 || self.careless || *body == before);
        }
        out.push(Statement { bytes: vec![11, r as u8], blocks: vec![inner] });
    }

    /// An if over any slot, with empty blocks.
    pub(super) fn empty_branch(&mut self, y: usize, out: &mut Block) {
        self.left -= 6;
        out.push(Statement { bytes: vec![10, y as u8], blocks: vec![Vec::new(), Vec::new()] });
    }

    /// A loop over any slot, with an empty body.
    pub(super) fn empty_repeat(&mut self, r: usize, out: &mut Block) {
        self.left -= 4;
        out.push(Statement { bytes: vec![11, r as u8], blocks: vec![Vec::new()] });
    }
}
