//! Faults put in on purpose: one statement that typing refuses with the wanted number, 11 to 16, or a qubit that outlives its block (17). Blocks of an if
//! that end differently (18) and a loop that loses a qubit (19) come about where ifs and loops are made.

use super::body::{Body, Slot};
use super::{Builder, Opened};
use crate::generator::trees::Block;
use crate::reference::SLOTS;

impl Builder<'_> {
    /// Puts in one statement that typing refuses with the wanted number, if that is possible
    /// here. Nothing after it can be met first, so the environment no longer matters.
    pub(super) fn fault(&mut self, body: &Body, out: &mut Block) {
        let done = match self.wanted {
            11 => self.wrong_kind(body, out),
            12 => self.bind_again(body, out),
            13 => self.outside(body, out),
            14 => self.not_free(body, out),
            15 => self.twice(body, out),
            16 => self.elsewhere(body, out),
            _ => None,
        };
        if done.is_some() {
            self.put_in = self.wanted;
            self.wanted = 0;
        }
    }

    fn any_slot(&mut self) -> usize {
        self.random.below(SLOTS)
    }

    /// 11: a slot that is not of the kind needed.
    fn wrong_kind(&mut self, body: &Body, out: &mut Block) -> Option<()> {
        let no_bool = body.slots_where(|slot| slot != Slot::Bool);
        let no_reference = body.slots_where(|slot| slot != Slot::Reference);
        let x = self.pick_slot(&body.slots_where(|slot| !matches!(slot, Slot::Qubit(_))));
        let (b, c) = (self.random.below(2), self.random.below(2));
        let y = self.pick_slot(&body.unbound());
        match self.random.below(12) {
            0 => self.emit(out, &[3, x?]),
            1 => self.emit(out, &[4, 3 * b, x?]),
            2 => self.emit(out, &[5, y?, b, x?]),
            3 => {
                let (x, y, second) = (x?, y?, self.any_slot());
                self.emit(out, &[6, y, b, x, c, second]);
            }
            4 => {
                let (x, y, first) = (x?, y?, self.random.pick_if_any(&body.qubits())?);
                self.emit(out, &[6, y, b, first, c, x]);
            }
            5 => {
                let (r, y) = (y?, self.random.pick_if_any(&no_bool)?);
                self.emit(out, &[7, r, y]);
            }
            6 => {
                let (y, r) = (y?, self.random.pick_if_any(&no_reference)?);
                self.emit(out, &[8, y, r]);
            }
            7 => {
                let (r, y) = (self.random.pick_if_any(&no_reference)?, self.any_slot());
                self.emit(out, &[9, r, y]);
            }
            8 => {
                let (r, y) = (self.random.pick_if_any(&body.references())?, self.random.pick_if_any(&no_bool)?);
                self.emit(out, &[9, r, y]);
            }
            9 => {
                let y = self.random.pick_if_any(&no_bool)?;
                self.empty_branch(y, out);
            }
            10 => {
                let r = self.random.pick_if_any(&no_reference)?;
                self.empty_repeat(r, out);
            }
            _ => {
                let (x, mut called) = (x?, self.callable(body)?);
                if called.slots.is_empty() {
                    return None;
                }
                let i = self.random.below(called.slots.len());
                called.slots[i] = x;
                self.emit_call(&called, out);
            }
        }
        Some(())
    }

    /// 12: a slot to be bound that is bound. The other operands are never looked at.
    fn bind_again(&mut self, body: &Body, out: &mut Block) -> Option<()> {
        let s = self.random.pick_if_any(&body.slots_where(|slot| slot != Slot::Unbound))?;
        let (a, b) = (self.any_slot(), self.any_slot());
        let basis = self.random.below(2);
        match self.random.below(6) {
            0 => {
                let l = self.random.pick_if_any(&body.inside)?;
                self.emit(out, &[1, s, l]);
            }
            1 => self.emit(out, &[5, s, basis, a]),
            2 => self.emit(out, &[6, s, basis, a, 1, b]),
            3 => self.emit(out, &[7, s, a]),
            4 => self.emit(out, &[8, s, a]),
            _ => self.emit(out, &[13, s, basis]),
        }
        Some(())
    }

    /// 13: a location outside the region, in a call or in an init.
    fn outside(&mut self, body: &Body, out: &mut Block) -> Option<()> {
        let (l, s) = (self.random.pick_if_any(&body.outside), self.pick_slot(&body.unbound()));
        let (l, s) = (l?, s?);
        match self.callable(body) {
            Some(mut called) if !called.locations.is_empty() => {
                let i = self.random.below(called.locations.len());
                called.locations[i] = l;
                self.emit_call(&called, out);
            }
            _ => self.emit(out, &[2, s, l]),
        }
        Some(())
    }

    /// 14: a location that is not free, in a call or in an init.
    fn not_free(&mut self, body: &Body, out: &mut Block) -> Option<()> {
        let (l, s) = (self.random.pick_if_any(&body.locations_free(false)), self.pick_slot(&body.unbound()));
        let (l, s) = (l?, s?);
        match self.callable(body) {
            Some(mut called) if called.locations.len() > called.slots.len() && !called.locations.contains(&l) => {
                let i = self.random.between(called.slots.len(), called.locations.len() - 1);
                called.locations[i] = l;
                self.emit_call(&called, out);
            }
            _ => self.emit(out, &[1, s, l]),
        }
        Some(())
    }

    /// 15: a location or a slot listed twice in a call, or a slot twice in a merge.
    fn twice(&mut self, body: &Body, out: &mut Block) -> Option<()> {
        match self.callable(body) {
            Some(mut called) if called.locations.len() >= 2 => {
                if called.slots.len() >= 2 && self.random.one_in(2) {
                    let last = called.slots.len() - 1;
                    called.slots[last] = called.slots[self.random.below(last)];
                } else {
                    let i = self.random.between(1, called.locations.len() - 1);
                    called.locations[i] = called.locations[self.random.below(i)];
                }
                self.emit_call(&called, out);
            }
            _ => {
                let (y, x) = (self.pick_slot(&body.unbound()), self.random.pick_if_any(&body.qubits()));
                self.emit(out, &[6, y?, 0, x?, 1, x?]);
            }
        }
        Some(())
    }

    /// 16: an argument that is not at its location.
    fn elsewhere(&mut self, body: &Body, out: &mut Block) -> Option<()> {
        let mut called = self.callable(body)?;
        let locations = &mut called.locations;
        if called.slots.is_empty() {
            return None;
        }
        let i = self.random.below(called.slots.len());
        let others: Vec<usize> = body.inside.iter().copied().filter(|l| !locations.contains(l)).collect();
        if locations.len() >= 2 && (others.is_empty() || self.random.one_in(2)) {
            let j = (i + self.random.between(1, locations.len() - 1)) % locations.len();
            locations.swap(i, j);
        } else {
            locations[i] = self.random.pick_if_any(&others)?;
        }
        self.emit_call(&called, out);
        Some(())
    }

    /// 17, at the end of a block: either a qubit of the block's own is not freed, or one more is made. Gives the slot of the one that outlives it.
    pub(super) fn outlive(&mut self, body: &mut Body, opened: &Opened, out: &mut Block) -> Option<usize> {
        let entry = &opened.entry;
        let (kept, own): (Vec<usize>, Vec<usize>) = body.qubits().into_iter().partition(|&s| body.slots[s] == entry[s]);
        let (unbound, free) = (body.unbound(), body.locations_free(true));
        let outliving = if !kept.is_empty() && !free.is_empty() && self.random.one_in(2) {
            // One that was there on entry, moved to another location.
            let (s, l) = (self.random.pick(&kept), self.random.pick(&free));
            self.emit(out, &[3, s]);
            self.emit(out, &[1, s, l]);
            body.release(s);
            body.take(s, l);
            s
        } else if !own.is_empty() && !self.random.one_in(3) {
            self.random.pick(&own)
        } else if !unbound.is_empty() && !free.is_empty() {
            let (s, l) = (self.random.pick(&unbound), self.random.pick(&free));
            // Made again where it was it would be the same qubit.
            if entry[s] == Slot::Qubit(l) {
                return None;
            }
            self.emit(out, &[1, s, l]);
            body.take(s, l);
            s
        } else {
            return None;
        };
        self.wanted = 0;
        self.put_in = 17;
        Some(outliving)
    }
}
