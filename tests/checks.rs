//! The check: the document's examples, every typing refusal with its place and with the fault it comes before, the wrong shortcuts that the
//! document names, calls that lose an argument, qubits that main leaves live, and the command count at its limit. The expected answers are written from the
//! document, those about live qubits from document 02.
//!
//! A case of job 1 is tried for job 2 as well, on the device with the jobs changed for each other.

mod asked;
mod cases;
mod files;
mod library;

use asked::{shared, Kind};
use cases::Tried;
use files::*;
use library::{no, Call, DEVICE, NONE, PROGRAM};

impl Tried {
    /// Accepted with this command count and this number left live.
    fn leaves(&mut self, what: &str, device: &[u8], program: &[u8], count: u64, live: u64) {
        let value = count + 65_536 * live;
        self.untouched(what, &Call::check(device, program, 1), value);
        self.untouched(&format!("{what} (job 2)"), &Call::check(&swapped(device), program, 2), value);
    }

    /// Accepted with this command count, and no qubit left live.
    fn counts(&mut self, what: &str, device: &[u8], program: &[u8], count: u64) {
        self.leaves(what, device, program, count, 0);
    }

    /// Refused at this place of the program.
    fn refuses(&mut self, what: &str, device: &[u8], program: &[u8], number: u64, place: u64) {
        self.untouched(what, &Call::check(device, program, 1), no(number, place, PROGRAM + 1));
        self.untouched(&format!("{what} (job 2)"), &Call::check(&swapped(device), program, 2), no(number, place, PROGRAM + 2));
    }

    /// Refused, on the document's grid.
    fn wrong(&mut self, what: &str, program: &[u8], number: u64, place: u64) {
        self.refuses(what, &grid(), program, number, place);
    }

    /// Accepted, on the document's grid.
    fn right(&mut self, what: &str, program: &[u8], count: u64) {
        self.counts(what, &grid(), program, count);
    }

    /// Accepted with qubits left live, on the document's grid.
    fn live(&mut self, what: &str, program: &[u8], count: u64, live: u64) {
        self.leaves(what, &grid(), program, count, live);
    }
}

/// The document's functions: the first inits and frees at its parameter, each other one calls the one before twice.
fn doubling() -> Vec<Function> {
    chain(1, 0, &[init(0, 0), free(0)], 15, 2)
}

fn all_once() -> Vec<Statement> {
    (0..15).map(|f| call(f, &[0], &[])).collect()
}

/// So many empty loops, with the reference for them.
fn loops(count: usize) -> Vec<Statement> {
    [vec![boolean(0, 0), refer(1, 0)], vec![repeat(1, &[]); count]].concat()
}

fn document(t: &mut Tried) {
    t.right("the empty program", &only(&[]), 0);
    t.wrong("one more byte", &[only(&[]), vec![0]].concat(), 8, 8);
    let a = program_a();
    t.right("A", &a, 5);
    t.live("A without its last free", &only(&[init(0, 0), init(1, 2), merge(2, 0, 1), free(0)]), 4, 1);
    t.wrong("A, second measured slot 0", &with(&a, &[(19, 0)]), 15, 14);
    let taken = [init(0, 0), init(1, 2), init(2, 1), init(3, 4), merge(4, 0, 1), free(0), free(1), free(2), free(3)];
    t.wrong("A with inits put before the merge", &only(&taken), 21, 20);
    let once = [all_once(), loops(1)].concat();
    t.right("the doubling functions, all once and a loop", &calling(&doubling(), &once), 65_535);
    t.wrong("function 14 twice", &calling(&doubling(), &vec![call(14, &[0], &[]); 2]), 20, 0);
}

fn counts(t: &mut Tried) {
    t.right("all once", &calling(&doubling(), &all_once()), 65_534);
    t.wrong("all once and two loops", &calling(&doubling(), &[all_once(), loops(2)].concat()), 20, 0);
    t.right("functions never called", &calling(&doubling(), &[]), 0);
    t.right("a magic init", &only(&[magic(0, 0), free(0)]), 2);
    t.right("no commands", &only(&[boolean(0, 0), refer(1, 0), get(2, 1), set(1, 2)]), 0);
    t.right("a measurement and a gate", &only(&[init(0, 0), gate(0), measure(1, 0), free(0)]), 2);
    let inner = repeat(1, &[when(0, &[repeat(1, &[])], &[])]);
    t.right("nested ones", &only(&[boolean(0, 0), refer(1, 0), when(0, &[inner.clone()], &[inner])]), 7);
    let silent = chain(0, 0, &[], 15, 65);
    t.right("65 calls of 65 calls of .. nothing", &calling(&silent, &[call(14, &[], &[])]), 0);
    let one = chain(0, 0, &[boolean(0, 0), when(0, &[], &[])], 15, 65);
    t.wrong("the same of an if: far too many", &calling(&one, &[call(14, &[], &[])]), 20, 0);
    let twofold = chain(0, 0, &[boolean(0, 0), when(0, &[], &[])], 15, 16);
    t.wrong("2^56 commands", &calling(&twofold, &[call(14, &[], &[])]), 20, 0);
    t.wrong("2^64 commands", &calling(&twofold, &vec![call(14, &[], &[]); 256]), 20, 0);
}

/// 25, device, program, typing, 20, 21.
fn order(t: &mut Tried) {
    let g = grid();
    for job in [0, 3, 255, 256, 257, 258, (1 << 32) + 1, (1 << 63) + 2, u64::MAX] {
        t.untouched(&format!("job {job}"), &Call::check(&g, &program_a(), job), no(25, 0, NONE));
    }
    t.untouched("job before device", &Call::check(&[], &[], 0), no(25, 0, NONE));
    t.untouched("device before program", &Call::check(&[], &[], 1), no(1, 0, DEVICE));
    t.untouched("a device's edge", &Call::check(&with(&g, &[(16, 0)]), &[], 2), no(7, 15, DEVICE));
    t.wrong("no program", &[], 1, 0);
    t.wrong("reading before typing", &only(&[free(0), vec![14]]), 9, 10);
    t.wrong("bytes after main before typing", &[only(&[free(0)]), vec![0]].concat(), 8, 10);
    let many = vec![call(14, &[5], &[]); 2];
    let typed = [many.clone(), vec![free(0)]].concat();
    let main = calling(&doubling(), &[]).len() as u64 - 2;
    t.wrong("typing before the count", &calling(&doubling(), &typed), 11, main + 2 + 10);
    let apart = [init(0, 0), init(1, 2), init(2, 1), init(3, 4), merge(4, 0, 1), free(0), free(1), free(2), free(3)];
    t.wrong("no path", &calling(&doubling(), &apart), 21, main + 2 + 12);
    t.wrong("the count before the path", &calling(&doubling(), &[&apart[..], &many].concat()), 20, 0);
    t.wrong("functions in file order", &calling(&[function(0, 0, &[free(3)]), function(0, 0, &[free(4)])], &[free(5)]), 11, 10);
    t.wrong("functions before main", &calling(&[function(0, 0, &[]), function(0, 0, &[free(4)])], &[free(5)]), 11, 14);
    t.wrong("a function never called is typed", &calling(&[function(1, 0, &[init(0, 0)])], &[]), 17, 8);
}

/// Every statement on slots with every choice of slots: the slot to be bound must be unbound.
fn kinds(t: &mut Tried) {
    for asking in asked::askings() {
        let statement = asking.statement.clone();
        let freed = if statement[0] == 3 { statement[1] } else { 255 };
        let rest = [0, 4].into_iter().filter(|&x| x != freed).map(free);
        let main: Vec<Statement> = asked::prepared().into_iter().chain([statement.clone()]).chain(rest).collect();
        let what = format!("statement {}", hex(&statement));
        match asking.number(|kind| kind == Kind::Unbound) {
            0 => t.right(&what, &only(&main), 4 + u64::from(matches!(statement[0], 6 | 10 | 11))),
            number => t.wrong(&what, &only(&main), number, asked::NEXT),
        }
    }
}

fn inits(t: &mut Tried) {
    let d = shared();
    for (name, init) in [("init", init as fn(u8, u8) -> Statement), ("magic", magic)] {
        for l in [4, 5, 6, 255] {
            t.refuses(&format!("{name} at {l}"), &d, &only(&[init(0, l)]), 13, 8);
            t.refuses(&format!("{name} at {l} into a bound slot"), &d, &only(&[init(0, 0), init(0, l)]), 12, 11);
        }
        t.refuses(&format!("{name} at a location that is taken"), &d, &only(&[init(0, 3), init(1, 3)]), 14, 11);
        t.refuses(&format!("{name} over its own qubit"), &d, &only(&[init(0, 3), init(0, 3)]), 12, 11);
        t.refuses(&format!("{name} over a bool"), &d, &only(&[boolean(0, 1), init(0, 3)]), 12, 11);
        t.refuses(&format!("{name} over a reference"), &d, &only(&[boolean(0, 1), refer(1, 0), init(1, 3)]), 12, 14);
        t.wrong(&format!("{name} at an argument's parameter"), &calling(&[function(1, 1, &[init(1, 0)])], &[]), 14, 10);
        let twice = function(2, 1, &[init(1, 1), init(2, 1)]);
        t.wrong(&format!("{name} twice at a parameter"), &calling(&[twice], &[]), 14, 13);
        t.counts(&format!("{name} again after a free"), &d, &only(&[init(0, 3), free(0), init(0, 3), free(0)]), 4);
    }
    let n1 = device(1, &[]);
    t.counts("n 1", &n1, &only(&[init(31, 0), free(31)]), 2);
    t.refuses("n 1, location 1", &n1, &only(&[init(0, 1)]), 13, 8);
    t.counts("location 255 of 256", &line(256), &only(&[init(0, 255), init(1, 254), merge(2, 0, 1), free(0), free(1)]), 5);
    let nobody = owned(&[0; 3], &[]);
    t.counts("an empty region, nothing taken", &nobody, &only(&[boolean(0, 0)]), 0);
    t.refuses("an empty region", &nobody, &only(&[init(0, 0)]), 13, 8);
}

fn calls(t: &mut Tried) {
    for called in asked::calls() {
        let what = format!("call: {}", called.what);
        match called.number {
            0 => t.counts(&what, &shared(), &called.program(), 4),
            number => t.refuses(&what, &shared(), &called.program(), number, asked::CALL),
        }
    }
    let empty = function(2, 1, &[]);
    let inside = |locations: &[u8], slots: &[u8]| calling(&[empty.clone(), function(3, 2, &[call(0, locations, slots)])], &[]);
    t.wrong("call in a function: an argument elsewhere", &inside(&[1, 2], &[0]), 16, 14);
    t.wrong("call in a function: a parameter not free", &inside(&[0, 1], &[0]), 14, 14);
    t.wrong("call in a function: a parameter twice", &inside(&[0, 0], &[0]), 15, 14);
    t.wrong("call in a function: an unbound argument", &inside(&[0, 2], &[2]), 11, 14);
    t.right("call in a function", &inside(&[1, 2], &[1]), 0);
}

/// Main with a qubit in slot 0 at location 0 and a bool in slot 1 (and in reference 2), the statement at 17, then a free of slot 0.
fn around(functions: &[Function], statement: Statement) -> Vec<u8> {
    calling(functions, &[init(0, 0), boolean(1, 0), refer(2, 1), statement, free(0)])
}

/// The same without the last free.
fn ending(functions: &[Function], statement: Statement) -> Vec<u8> {
    calling(functions, &[init(0, 0), boolean(1, 0), refer(2, 1), statement])
}

/// A qubit must not outlive its block, but main's own: 17 at the block's length word, before 18 or 19.
fn outlives(t: &mut Tried) {
    t.wrong("17: a function", &calling(&[function(1, 0, &[init(0, 0)])], &[]), 17, 8);
    t.wrong("17: a function moves its argument", &calling(&[function(2, 1, &[free(0), init(0, 1)])], &[]), 17, 8);
    t.wrong("17: a function changes the argument's slot", &calling(&[function(1, 1, &[free(0), init(5, 0)])], &[]), 17, 8);
    let made = [init(3, 1)];
    t.wrong("17: then", &around(&[], when(1, &made, &[])), 17, 19);
    t.wrong("17: else", &around(&[], when(1, &[], &made)), 17, 21);
    t.wrong("17: then before else", &around(&[], when(1, &made, &made)), 17, 19);
    t.wrong("17: then before a fault in else", &around(&[], when(1, &made, &[free(9)])), 17, 19);
    t.wrong("17: while", &around(&[], repeat(2, &made)), 17, 19);
    t.wrong("17: the inner block", &around(&[], repeat(2, &[when(1, &made, &[])])), 17, 23);
    t.wrong("17: freed inside, too late", &around(&[], when(1, &[repeat(2, &made), free(3)], &[])), 17, 23);
    let (moved, slot) = ([free(0), init(0, 1)], [free(0), init(3, 0)]);
    t.wrong("17: then moves a qubit", &around(&[], when(1, &moved, &[])), 17, 19);
    t.wrong("17: then changes its slot, before 18", &ending(&[], when(1, &slot, &[])), 17, 19);
    t.wrong("17: both branches move it alike", &around(&[], when(1, &moved, &moved)), 17, 19);
    t.wrong("17: a loop moves a qubit, before 19", &around(&[], repeat(2, &moved)), 17, 19);
    t.wrong("17: a loop changes its slot, before 19", &ending(&[], repeat(2, &slot)), 17, 19);
    let again = [free(0), init(0, 0)];
    t.right("17: freed and made again in then", &around(&[], when(1, &again, &[])), 5);
    t.right("17: freed and made again in a loop", &around(&[], repeat(2, &again)), 5);
    t.right("17: freed and made again by a function", &calling(&[function(1, 1, &again)], &[init(0, 0), call(0, &[0], &[0]), free(0)]), 4);
}

/// Main's own block may end with qubits; those in its slots then are left live.
fn left_live(t: &mut Tried) {
    t.live("one qubit", &only(&[init(0, 0)]), 1, 1);
    t.live("a magic one", &only(&[magic(31, 5)]), 1, 1);
    t.live("all locations", &only(&(0..6).map(|l| init(5 - l, l)).collect::<Vec<_>>()), 6, 6);
    t.live("bools and references are no qubits", &only(&[init(0, 0), boolean(1, 0), refer(2, 1), measure(3, 0), get(4, 2)]), 1, 1);
    t.live("in another slot than before", &only(&[init(0, 0), free(0), init(7, 0)]), 3, 1);
    t.live("at another location than before", &only(&[init(0, 0), free(0), init(0, 3)]), 3, 1);
    t.live("one of two freed", &only(&[init(0, 0), init(1, 1), free(0)]), 3, 1);
    t.leaves("one location", &device(1, &[]), &only(&[init(0, 0)]), 1, 1);
    let (row, every): (_, Vec<Statement>) = (line(32), (0..32).map(|l| init(l, l)).collect());
    t.leaves("a qubit in every slot", &row, &only(&every), 32, 32);
    t.leaves("in every slot but one", &row, &only(&[&every[..], &[free(17)]].concat()), 33, 31);
    t.leaves("in every slot but one, which has a bool", &row, &only(&[&every[..31], &[boolean(31, 1)]].concat()), 31, 31);
    t.leaves("in every slot, all freed", &row, &only(&[&every[..], &(0..32).map(free).collect::<Vec<_>>()].concat()), 64, 0);
}

/// What blocks and calls do to a qubit that is left live: it is main's, whatever was done inside.
fn left_live_through(t: &mut Tried) {
    let again = [free(0), init(0, 0)];
    t.live("touched in then", &ending(&[], when(1, &[gate(0)], &[])), 2, 1);
    t.live("freed and made again in then", &ending(&[], when(1, &again, &[])), 4, 1);
    t.live("freed and made again in a loop", &ending(&[], repeat(2, &again)), 4, 1);
    let called = |body: &[Statement]| calling(&[function(1, 1, body)], &[init(0, 0), call(0, &[0], &[0])]);
    t.live("given to a call", &called(&[gate(0)]), 1, 1);
    t.live("brought back by a call", &called(&again), 3, 1);
    t.right("freed by a call", &called(&[free(0)]), 2);
    t.right("freed by a call, its slot a bool there", &called(&[free(0), boolean(0, 1)]), 2);
    let second = calling(&[function(2, 2, &[free(1)])], &[init(4, 2), init(9, 5), call(0, &[2, 5], &[4, 9])]);
    t.live("the second of two freed by a call", &second, 3, 1);
    let made = calling(&[function(1, 0, &[init(0, 0), free(0)])], &[init(0, 0), call(0, &[3], &[])]);
    t.live("beside what a call makes and frees", &made, 3, 1);
}

/// 17 stays for every other block, whatever main leaves; and main's qubits hide no other refusal.
fn left_live_and_refused(t: &mut Tried) {
    let made = [init(3, 1)];
    t.wrong("17: then, and main leaves one", &ending(&[], when(1, &made, &[])), 17, 19);
    t.wrong("17: else, and main leaves one", &ending(&[], when(1, &[], &made)), 17, 21);
    t.wrong("17: both blocks make it alike", &ending(&[], when(1, &made, &made)), 17, 19);
    t.wrong("17: while, and main leaves one", &ending(&[], repeat(2, &made)), 17, 19);
    t.wrong("17: a loop that is all of main", &only(&[boolean(1, 0), refer(2, 1), repeat(2, &made)]), 17, 16);
    t.wrong("17: a function, and main leaves one", &calling(&[function(1, 0, &[init(0, 0)])], &[init(0, 0), call(0, &[1], &[])]), 17, 8);
    t.wrong("18: then frees what main leaves", &ending(&[], when(1, &[free(0)], &[])), 18, 17);
    t.wrong("19: a loop frees what main leaves", &ending(&[], repeat(2, &[free(0)])), 19, 17);
    let many = [vec![init(0, 0)], vec![call(14, &[5], &[]); 2]].concat();
    t.wrong("20: and main leaves one", &calling(&doubling(), &many), 20, 0);
    t.wrong("21: and main leaves all", &only(&[init(0, 0), init(1, 2), init(2, 1), init(3, 4), merge(4, 0, 1)]), 21, 20);
    t.refuses("21: a qubit that is left is in the way", &line(3), &only(&[init(0, 0), init(1, 2), init(2, 1), merge(4, 0, 1), free(0), free(1)]), 21, 17);
}

/// 65,535 commands and a qubit in every slot. Function i counts 2^i: an if, and each calls the one before twice.
fn most_of_both(t: &mut Tried) {
    let functions = chain(0, 0, &[boolean(0, 0), when(0, &[], &[])], 15, 2);
    let once = (0..14).filter(|&f| f != 5).chain([14, 14, 14]).map(|f| call(f, &[], &[]));
    let main: Vec<Statement> = (0..32).map(|l| init(l, l)).chain(once).collect();
    t.leaves("the most of both", &line(32), &calling(&functions, &main), 65_535, 32);
    t.refuses("one command more", &line(32), &calling(&functions, &[main, vec![call(0, &[], &[])]].concat()), 20, 0);
}

/// Both branches end alike: 18 at the if. A loop keeps its qubits: 19 at the while.
fn branches_and_loops(t: &mut Tried) {
    let losing = [function(1, 1, &[free(0)])];
    let lose = [call(0, &[0], &[0])];
    t.wrong("18: then frees", &around(&[], when(1, &[free(0)], &[])), 18, 17);
    t.wrong("18: else frees", &ending(&[], when(1, &[], &[free(0)])), 18, 17);
    t.wrong("18: then calls what frees", &ending(&losing, when(1, &lose, &[])), 18, 23);
    t.wrong("18: else calls what frees", &around(&losing, when(1, &[], &lose)), 18, 23);
    t.wrong("18: a fault in else comes first", &around(&[], when(1, &[free(0)], &[gate(9)])), 11, 25);
    t.wrong("18: in a function", &calling(&[function(1, 1, &[boolean(1, 0), when(1, &[free(0)], &[])])], &[]), 18, 13);
    t.wrong("18: the inner if", &around(&[], when(1, &[when(1, &[free(0)], &[])], &[free(0)])), 18, 21);
    t.right("18: both free", &ending(&[], when(1, &[free(0)], &[free(0)])), 4);
    t.right("18: one frees, one calls what frees", &ending(&losing, when(1, &[free(0)], &lose)), 4);
    t.right("18: compared after the closing", &ending(&[], when(1, &[free(0), boolean(0, 1)], &[free(0), boolean(5, 0)])), 4);
    t.wrong("19: a loop frees", &ending(&[], repeat(2, &[free(0)])), 19, 17);
    t.wrong("19: a loop frees and binds", &ending(&[], repeat(2, &[free(0), boolean(0, 1)])), 19, 17);
    t.wrong("19: a loop calls what frees", &ending(&losing, repeat(2, &lose)), 19, 23);
    t.wrong("19: an if in a loop frees", &ending(&[], repeat(2, &[when(1, &[free(0)], &[free(0)])])), 19, 17);
    t.wrong("19: the inner loop", &ending(&[], repeat(2, &[repeat(2, &[free(0)])])), 19, 21);
    let body = [boolean(1, 0), refer(2, 1), repeat(2, &[free(0)])];
    t.wrong("19: in a function", &calling(&[function(1, 1, &body)], &[]), 19, 16);
    t.wrong("19: a loop never entered", &only(&[boolean(1, 0), refer(2, 1), init(0, 0), repeat(2, &[free(0)])]), 19, 17);
}

/// A slot that was unbound or a qubit on entry to a block and then holds a bool or a reference is unbound afterwards.
fn closing(t: &mut Tried) {
    let inner = [boolean(5, 1), refer(6, 5), measure(7, 0)];
    // the if has 2 + 2 + 10 + 2 bytes, the while 2 + 2 + 10
    for (what, statement, next) in [("if", when(1, &inner, &[]), 33), ("while", repeat(2, &inner), 31)] {
        let then = |last: Statement| calling(&[], &[init(0, 0), boolean(1, 0), refer(2, 1), statement.clone(), last, free(0)]);
        t.wrong(&format!("after the {what}, its bool"), &then(when(5, &[], &[])), 11, next);
        t.wrong(&format!("after the {what}, its reference"), &then(repeat(6, &[])), 11, next);
        t.wrong(&format!("after the {what}, its outcome"), &then(refer(8, 7)), 11, next);
        t.right(&format!("after the {what}, its slots can be bound"), &then([boolean(5, 0), refer(6, 5), boolean(7, 1)].concat()), 3);
        t.right(&format!("after the {what}, a bool from before"), &then(set(2, 1)), 3);
    }
    t.wrong("an else-block doesn't see what then bound", &around(&[], when(1, &[boolean(5, 1)], &[refer(6, 5)])), 11, 26);
    t.right("both blocks bind alike", &around(&[], when(1, &[boolean(5, 1)], &[boolean(5, 0)])), 3);
    t.right("one block binds a bool, one a reference", &around(&[], when(1, &[boolean(5, 1)], &[refer(5, 1)])), 3);
    let replaced = when(1, &[free(0), boolean(0, 1)], &[free(0)]);
    t.wrong("a qubit's slot that took a bool is unbound", &ending(&[], [replaced.clone(), when(0, &[], &[])].concat()), 11, 30);
    t.right("and its location is free", &ending(&[], [replaced, init(3, 0), boolean(0, 0), free(3)].concat()), 6);
    t.right("slots are separate for each body", &calling(&[function(0, 0, &[boolean(0, 1)])], &[init(0, 0), call(0, &[], &[]), free(0)]), 2);
}

/// Afterwards an argument that the callee ended without is unbound and its location free.
fn lost_arguments(t: &mut Tried) {
    let losing = function(1, 1, &[free(0)]);
    let then = |last: &[Statement]| calling(&[losing.clone()], &[&[init(0, 0), call(0, &[0], &[0])][..], last].concat());
    t.right("the callee frees", &then(&[]), 2);
    t.wrong("the argument is unbound", &then(&[gate(0)]), 11, 23);
    t.right("its slot can be bound", &then(&[boolean(0, 0)]), 2);
    t.right("its location is free", &then(&[init(0, 0), free(0)]), 4);
    t.right("for another slot too", &then(&[init(7, 0), free(7)]), 4);
    t.wrong("it can't be given again", &then(&[call(0, &[0], &[0])]), 11, 23);
    let bound = function(1, 1, &[free(0), boolean(0, 1)]);
    t.right("the callee frees and binds a bool", &calling(&[bound], &[init(0, 0), call(0, &[0], &[0]), init(0, 0), free(0)]), 4);
    let second = function(3, 2, &[free(1), init(4, 1), free(4), init(4, 2), free(4)]);
    let two = |last: &[Statement]| calling(&[second.clone()], &[&[init(3, 3), init(9, 1), call(0, &[3, 1, 5], &[3, 9])][..], last].concat());
    t.right("the second of two", &two(&[gate(3), init(9, 5), free(9), free(3)]), 10);
    t.wrong("the second of two is unbound", &two(&[gate(9)]), 11, 39);
    t.live("the first of two is still there", &two(&[]), 7, 1);
    let through = [losing.clone(), function(2, 2, &[call(0, &[1], &[1])])];
    t.right("lost two calls down", &calling(&through, &[init(0, 0), init(1, 3), call(1, &[0, 3], &[0, 1]), init(1, 3), free(1), free(0)]), 6);
    t.wrong("and used there", &calling(&[losing, function(1, 1, &[call(0, &[0], &[0]), gate(0)])], &[]), 11, 22);
}

/// The shortcut "carrying on after an if with the else-block's free set without comparing", and the walk over an if.
fn shortcut_if(t: &mut Tried) {
    t.wrong("then frees, the rest goes on as after else", &around(&[], when(1, &[free(0)], &[])), 18, 17);
    t.wrong("else frees, the rest goes on as after else", &ending(&[], [when(1, &[], &[free(0)]), init(3, 0), free(3)].concat()), 18, 17);
    // Ends in slots 0 and 1 at 0 and 2; 1 and 4 between them are taken by slots 2 and 3; the bool in slot 4 is at 20, the if at 23.
    let start = [init(0, 0), init(1, 2), init(2, 1), init(3, 4), boolean(4, 0)];
    let walled = |rest: &[Statement]| only(&[&start[..], rest, &[free(0), free(1), free(3)]].concat());
    let opened = [free(2), merge(5, 0, 1), init(2, 1)];
    let shut = [merge(5, 0, 1)];
    t.wrong("the else-block begins as the then-block did", &walled(&[when(4, &opened, &shut), free(2)]), 21, 40);
    t.wrong("though the then-block ends with the way open", &walled(&[when(4, &[free(2)], &[merge(5, 0, 1), free(2)])]), 21, 31);
    t.right("each opens the way for itself", &walled(&[when(4, &[free(2), merge(5, 0, 1)], &[free(2), merge(5, 0, 1)])]), 12);
    t.wrong("then before else", &walled(&[when(4, &shut, &shut), free(2)]), 21, 27);
    t.wrong("the then-block begins as it stands", &walled(&[when(4, &shut, &opened), free(2)]), 21, 27);
    t.right("both open the way", &walled(&[when(4, &opened, &opened), free(2)]), 15);
    t.wrong("and shut it again", &walled(&[when(4, &opened, &opened), merge(5, 0, 1), free(2)]), 21, 51);
    t.right("both leave it open", &walled(&[when(4, &[free(2)], &[free(2)]), merge(5, 0, 1)]), 11);
    t.right("a loop finds what it left", &open_loop(&[merge(5, 0, 1), init(2, 1), init(3, 4), free(2), free(3)]), 10);
    t.wrong("a loop shuts its own way", &open_loop(&[init(2, 1), init(3, 4), merge(5, 0, 1), free(2), free(3)]), 21, 30);
}

/// Ends in slots 0 and 1 at 0 and 2, a loop at 20 (its first statement at 24), both freed.
fn open_loop(body: &[Statement]) -> Vec<u8> {
    only(&[init(0, 0), init(1, 2), boolean(4, 0), refer(6, 4), repeat(6, body), free(0), free(1)])
}

/// The shortcut "searching the whole device, so that a neighbour's corridor counts".
fn shortcut_device(t: &mut Tried) {
    for owner in [0, 2] {
        let wall = owned(&[1, owner, 1, 1, owner, 1], &GRID);
        t.refuses(&format!("A over a wall of {owner}"), &wall, &program_a(), 21, 14);
        let round = owned(&[1, owner, 1, 1, 1, 1], &GRID);
        t.counts(&format!("A round a location of {owner}"), &round, &program_a(), 5);
        let single = owned(&[1, owner, 1], &[(0, 1), (1, 2)]);
        t.refuses(&format!("A through {owner} only"), &single, &program_a(), 21, 14);
    }
    t.refuses("A without edges", &device(3, &[]), &program_a(), 21, 14);
    t.counts("A with adjacent ends, all others taken", &device(3, &[(0, 2)]), &program_a(), 5);
}

/// The shortcut "judging a function's merges once at its parameters, not at each call".
fn shortcut_function(t: &mut Tried) {
    let merging = function(2, 2, &[merge(2, 0, 1)]);
    let ends = [init(0, 0), init(1, 1), init(2, 2)];
    let main = |calls: &[Statement]| calling(&[merging.clone()], &[&ends[..], calls, &[free(0), free(1), free(2)]].concat());
    let near = call(0, &[0, 1], &[0, 1]);
    let far = call(0, &[0, 2], &[0, 2]);
    let row = line(3);
    t.counts("adjacent ends", &row, &main(&[near.clone()]), 7);
    t.refuses("ends with a taken location between", &row, &main(&[far.clone()]), 21, 10);
    t.refuses("first the good call", &row, &main(&[near.clone(), far.clone()]), 21, 10);
    t.refuses("the good call between", &row, &main(&[far, near]), 21, 10);
    // parameters 0 and 1 as locations are not joined; 2 and 5 are
    let apart = device(6, &[(2, 5)]);
    let there = calling(&[merging.clone()], &[init(0, 2), init(1, 5), call(0, &[2, 5], &[0, 1]), free(0), free(1)]);
    t.counts("joined where it is called", &apart, &there, 5);
    let here = calling(&[merging.clone()], &[init(0, 0), init(1, 1), call(0, &[0, 1], &[0, 1]), free(0), free(1)]);
    t.refuses("not joined where it is called", &apart, &here, 21, 10);
    t.counts("never called", &device(2, &[]), &calling(&[merging.clone()], &[]), 0);
    let turned = function(2, 2, &[call(0, &[1, 0], &[1, 0])]);
    let back = calling(&[merging, turned], &[init(7, 3), init(8, 5), call(1, &[3, 5], &[7, 8]), free(7), free(8)]);
    t.counts("parameters through two calls", &grid(), &back, 5);
    t.refuses("and not joined there", &apart, &back, 21, 10);
}

/// 21 comes in the order in which commands are checked, at the merge's own statement; what a callee takes and frees counts.
fn order_of_merges(t: &mut Tried) {
    let row = line(3);
    let merging = [function(2, 2, &[merge(2, 0, 1)]), function(2, 2, &[merge(2, 1, 0)])];
    // function 1's merge is at 20, main's statements begin at 28, after three inits at 37
    let main = |rest: &[Statement]| calling(&merging, &[&[init(0, 0), init(1, 2), init(2, 1)][..], rest, &[free(0), free(1), free(2)]].concat());
    let (zero, one) = (call(0, &[0, 2], &[0, 1]), call(1, &[0, 2], &[0, 1]));
    t.refuses("function 1 is called first", &row, &main(&[one.clone(), zero.clone()]), 21, 20);
    t.refuses("function 0 is called first", &row, &main(&[zero.clone(), one.clone()]), 21, 10);
    t.refuses("main's own merge is first", &row, &main(&[merge(3, 0, 1), one]), 21, 37);
    t.refuses("main's own merge is last", &row, &main(&[zero, merge(3, 0, 1)]), 21, 10);
    let freed = |body: &[Statement], last: &[Statement]| {
        let start = [init(0, 0), init(1, 2), init(2, 1), call(0, &[1], &[2]), merge(3, 0, 1)];
        calling(&[function(1, 1, body)], &[&start[..], last, &[free(0), free(1)]].concat())
    };
    t.counts("a callee frees the way", &row, &freed(&[free(0)], &[]), 7);
    t.refuses("a callee frees it and takes it again", &row, &freed(&[free(0), init(0, 0)], &[free(2)]), 21, 32);
    let taking = function(3, 2, &[init(2, 2), merge(3, 0, 1), free(2)]);
    let inside = calling(&[taking], &[init(0, 0), init(1, 2), call(0, &[0, 2, 1], &[0, 1]), free(0), free(1)]);
    t.refuses("a callee takes the way itself", &row, &inside, 21, 13);
    t.counts("a callee takes it where there is another", &grid(), &inside, 7);
}

fn main() {
    let mut t = Tried::new("checks");
    document(&mut t);
    counts(&mut t);
    order(&mut t);
    kinds(&mut t);
    inits(&mut t);
    calls(&mut t);
    outlives(&mut t);
    left_live(&mut t);
    left_live_through(&mut t);
    left_live_and_refused(&mut t);
    most_of_both(&mut t);
    branches_and_loops(&mut t);
    closing(&mut t);
    lost_arguments(&mut t);
    shortcut_if(&mut t);
    shortcut_device(&mut t);
    shortcut_function(&mut t);
    order_of_merges(&mut t);
    t.end()
}
