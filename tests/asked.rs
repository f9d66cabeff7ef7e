//! What statements ask, as cases for the check and for the run: typing and steps ask the same in the same order, but for the slot to be bound, which
//! typing wants unbound and a step without a qubit.

use crate::files::*;

#[derive(Clone, Copy, PartialEq, Eq)]
pub enum Kind {
    Unbound,
    Qubit,
    Bool,
    Reference,
}

use Kind::*;

/// A slot of each kind, and a second qubit, as `prepared` leaves them.
const SLOTS: [(u8, Kind); 5] = [(0, Qubit), (1, Bool), (2, Reference), (3, Unbound), (4, Qubit)];

/// The start of main: qubits in slots 0 and 4 at locations 0 and 2, the bool 1 in slots 1 and 2. The next statement is at `NEXT` in a file without
/// functions.
pub fn prepared() -> Vec<Statement> {
    vec![init(0, 0), init(4, 2), boolean(1, 1), refer(2, 1)]
}

pub const NEXT: u64 = 20;

/// A statement, what the slot to be bound holds, and for each slot read whether it is of the kind needed; a merge may list a slot twice.
pub struct Asking {
    pub statement: Statement,
    binds: Option<Kind>,
    fit: Vec<bool>,
    twice: bool,
}

impl Asking {
    /// The number of the first test that fails, or 0: the slot to be bound, then kinds, then a slot listed twice.
    pub fn number(&self, may_be_bound: fn(Kind) -> bool) -> u64 {
        match self.binds {
            Some(kind) if !may_be_bound(kind) => 12,
            _ if self.fit.contains(&false) => 11,
            _ if self.twice => 15,
            _ => 0,
        }
    }
}

/// Every statement on slots only, with every choice of slots.
pub fn askings() -> Vec<Asking> {
    let mut all = Vec::new();
    let mut ask = |statement, binds, fit: &[bool], twice| all.push(Asking { statement, binds, fit: fit.to_vec(), twice });
    for (a, ka) in SLOTS {
        ask(free(a), None, &[ka == Qubit], false);
        ask(gate(a), None, &[ka == Qubit], false);
        ask(when(a, &[], &[]), None, &[ka == Bool], false);
        ask(when(a, &[gate(0)], &[gate(4)]), None, &[ka == Bool], false);
        ask(repeat(a, &[]), None, &[ka == Reference], false);
        ask(boolean(a, 0), Some(ka), &[], false);
        for (b, kb) in SLOTS {
            ask(measure(a, b), Some(ka), &[kb == Qubit], false);
            ask(refer(a, b), Some(ka), &[kb == Bool], false);
            ask(get(a, b), Some(ka), &[kb == Reference], false);
            ask(set(a, b), None, &[ka == Reference, kb == Bool], false);
            for (c, kc) in SLOTS {
                ask(merge(a, b, c), Some(ka), &[kb == Qubit, kc == Qubit], b == c);
            }
        }
    }
    all
}

/// The grid with 4 owned by the other job and 5 by nobody.
pub fn shared() -> Vec<u8> {
    owned(&[1, 1, 1, 1, 2, 0], &GRID)
}

/// A call at `CALL` of a function that does nothing, after qubits in slots 0 and 1 at locations 0 and 1 and a bool in slot 2; the qubits are freed
/// afterwards.
pub struct Called {
    pub what: &'static str,
    k: u8,
    m: u8,
    locations: Vec<u8>,
    slots: Vec<u8>,
    /// The number of the first test that fails, or 0.
    pub number: u64,
}

pub const CALL: u64 = 21;

impl Called {
    pub fn program(&self) -> Vec<u8> {
        let called = call(0, &self.locations, &self.slots);
        calling(&[function(self.k, self.m, &[])], &[init(0, 0), init(1, 1), boolean(2, 0), called, free(0), free(1)])
    }
}

/// Calls on the shared grid: 13 for each location, 15, then 11 and 16 for each argument in turn, then 14.
pub fn calls() -> Vec<Called> {
    let mut all = Vec::new();
    let mut ask = |what, (k, m), locations: &[u8], slots: &[u8], number| {
        all.push(Called { what, k, m, locations: locations.to_vec(), slots: slots.to_vec(), number });
    };
    for l in [4, 5, 6, 255] {
        ask("outside, an argument's location", (2, 1), &[l, 2], &[0], 13);
        ask("outside, the last location", (2, 1), &[0, l], &[0], 13);
        ask("outside before a location twice", (2, 1), &[l, l], &[0], 13);
        ask("outside, after a location twice", (3, 1), &[0, 0, l], &[0], 13);
        ask("outside before a wrong kind", (2, 1), &[0, l], &[3], 13);
        ask("outside before an argument elsewhere", (2, 1), &[3, l], &[0], 13);
        ask("outside before one not free", (3, 1), &[0, 1, l], &[0], 13);
    }
    ask("a location twice", (3, 1), &[0, 2, 2], &[0], 15);
    ask("a location twice, the argument's", (2, 1), &[0, 0], &[0], 15);
    ask("a slot twice", (2, 2), &[0, 1], &[0, 0], 15);
    ask("a slot twice, far apart", (3, 3), &[0, 1, 2], &[0, 1, 0], 15);
    ask("a location twice before a wrong kind", (2, 1), &[0, 0], &[3], 15);
    ask("a slot twice before a wrong kind", (2, 2), &[0, 1], &[3, 3], 15);
    ask("a location twice before an argument elsewhere", (2, 1), &[3, 3], &[0], 15);
    ask("a location twice before one not free", (3, 1), &[0, 1, 1], &[0], 15);
    ask("an unbound argument", (2, 1), &[0, 2], &[3], 11);
    ask("a bool as argument", (2, 1), &[0, 2], &[2], 11);
    ask("a wrong kind before one not free", (2, 1), &[0, 1], &[3], 11);
    ask("an argument elsewhere", (2, 1), &[1, 2], &[0], 16);
    ask("an argument elsewhere, at a free location", (2, 1), &[3, 2], &[0], 16);
    ask("an argument elsewhere before one not free", (2, 1), &[3, 1], &[0], 16);
    ask("arguments changed for each other", (2, 2), &[0, 1], &[1, 0], 16);
    ask("argument 0 elsewhere before argument 1 unbound", (2, 2), &[3, 1], &[0, 5], 16);
    ask("argument 0 unbound before argument 1 elsewhere", (2, 2), &[3, 2], &[5, 1], 11);
    ask("argument 1 unbound", (2, 2), &[0, 1], &[0, 5], 11);
    ask("argument 1 elsewhere", (2, 2), &[0, 3], &[0, 1], 16);
    ask("a location not free", (2, 1), &[0, 1], &[0], 14);
    ask("the last location not free", (3, 1), &[0, 2, 1], &[0], 14);
    ask("one argument", (2, 1), &[0, 2], &[0], 0);
    ask("two arguments", (4, 2), &[1, 0, 3, 2], &[1, 0], 0);
    ask("nothing", (0, 0), &[], &[], 0);
    all
}
