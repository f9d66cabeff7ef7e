//! The run: the document's example, every reason to be stuck at every statement that can give it, what slots hold, calls and what they lose, qubits
//! left behind, two jobs beside each other, the refusals, and which bytes of the buffers are written. The expected answers are written from the
//! document.
//!
//! A case of one job is run for job 1 and for job 2, on the device with the jobs changed for each other, beside an empty program.

mod asked;
mod cases;
mod files;
mod library;

use asked::{shared, Kind};
use cases::{filled, written, Tried};
use files::*;
use library::{no, Call, DEVICE, NONE, PROGRAM, SCHEDULE};

/// A record: 0 moved, 1 finished or the reason; the edges of a merge's route; the statement's offset.
type Record = (u8, u8, u16);

const FINISHED: Record = (1, 0, 0xFFFF);

fn moved(at: u16) -> Record {
    (0, 0, at)
}

fn merged(edges: u8, at: u16) -> Record {
    (0, edges, at)
}

fn stuck(reason: u64, at: u16) -> Record {
    (reason as u8, 0, at)
}

fn all_moved(offsets: &[u16]) -> Vec<Record> {
    offsets.iter().map(|&at| moved(at)).collect()
}

fn bytes(records: &[Record]) -> Vec<u8> {
    records.iter().flat_map(|&(first, edges, at)| [first, edges, (at >> 8) as u8, at as u8]).collect()
}

/// What a run is given, but for the buffers.
struct Given<'a> {
    device: &'a [u8],
    one: &'a [u8],
    two: &'a [u8],
    schedule: &'a [u8],
}

impl Tried {
    /// A run that must write these records and this map, in buffers that they fill and in longer ones, whose other bytes must stay. The moved counts
    /// are those of the records.
    fn run(&mut self, what: &str, given: &Given, records: &[Record], map: &[u8]) {
        assert_eq!(given.schedule.len(), records.len(), "{what}: a record for each step");
        let steps = given.schedule.iter().zip(records);
        let moved_by = |job: u8| steps.clone().filter(|(&byte, record)| byte >> 4 == job && record.0 == 0).count() as u64;
        let value = moved_by(1) + 65_536 * moved_by(2);
        for (more_records, more_map) in [(0, 0), (1, 0), (0, 1), (5, 300)] {
            let (before, map_before) = (filled(4 * records.len() + more_records), filled(map.len() + more_map));
            let call = Call::run(given.device, given.one, given.two, given.schedule, &before, &map_before);
            self.expect(what, &call, value, vec![written(&before, &bytes(records)), written(&map_before, map)]);
        }
    }

    /// One job beside an empty program, with these outcomes.
    fn outcomes(&mut self, what: &str, device: &[u8], program: &[u8], outcomes: &[u8], records: &[Record], map: &[u8]) {
        let empty = only(&[]);
        let schedule = |job: u8| -> Vec<u8> { outcomes.iter().map(|outcome| job * 16 + outcome).collect() };
        self.run(what, &Given { device, one: program, two: &empty, schedule: &schedule(1) }, records, map);
        let map: Vec<u8> = map.iter().map(|&job| if job == 0 { 0 } else { 3 - job }).collect();
        let given = Given { device: &swapped(device), one: &empty, two: program, schedule: &schedule(2) };
        self.run(&format!("{what} (job 2)"), &given, records, &map);
    }

    /// The same where no outcome matters: all 0, then all 1.
    fn steps(&mut self, what: &str, device: &[u8], program: &[u8], records: &[Record], map: &[u8]) {
        for outcome in [0, 1] {
            self.outcomes(what, device, program, &vec![outcome; records.len()], records, map);
        }
    }

    /// A refused run: the buffers stay as they were.
    fn refused(&mut self, what: &str, given: &Given, rooms: (usize, usize), packed: u64) {
        let (records, map) = (filled(rooms.0), filled(rooms.1));
        let call = Call::run(given.device, given.one, given.two, given.schedule, &records, &map);
        self.untouched(what, &call, packed);
    }
}

/// The map of the grid, shared or not, with these locations occupied by job 1.
fn occupied(locations: &[usize]) -> Vec<u8> {
    (0..6).map(|l| u8::from(locations.contains(&l))).collect()
}

fn document(t: &mut Tried) {
    let given = Given { device: &grid(), one: &program_a(), two: &only(&[]), schedule: &[0x10, 0x10, 0x20, 0x10] };
    t.run("A", &given, &[moved(8), moved(11), FINISHED, merged(2, 14)], &[1, 0, 1, 0, 0, 0]);
    // the same byte by byte
    let records = [0, 0, 0, 8, 0, 0, 0, 0x0B, 1, 0, 0xFF, 0xFF, 0, 2, 0, 0x0E];
    let call = Call::run(given.device, given.one, given.two, given.schedule, &[9; 16], &[9; 6]);
    t.expect("A, bytes", &call, 3, vec![records.to_vec(), vec![1, 0, 1, 0, 0, 0]]);
    let end = [moved(8), moved(11), merged(2, 14), moved(20), moved(22), FINISHED, FINISHED];
    t.steps("A to its end", &grid(), &program_a(), &end, &occupied(&[]));
}

/// Every statement on slots with every choice of slots: only a qubit in the slot to be bound stops a step.
fn kinds(t: &mut Tried) {
    let at = asked::NEXT as u16;
    for asking in asked::askings() {
        let statement = &asking.statement;
        let main = [asked::prepared(), vec![statement.clone(), boolean(9, 0)]].concat();
        let what = format!("statement {}", hex(statement));
        let mut records = all_moved(&[8, 11, 14, 17]);
        match asking.number(|kind| kind != Kind::Qubit) {
            0 => {
                records.push(if statement[0] == 6 { merged(2, at) } else { moved(at) });
                let left: Vec<usize> = [(0, 0), (4, 2)].iter().filter(|q| *statement != free(q.0)).map(|q| q.1).collect();
                t.steps(&what, &grid(), &only(&main), &records, &occupied(&left));
            }
            reason => {
                records.extend([stuck(reason, at); 3]);
                t.steps(&what, &grid(), &only(&main), &records, &occupied(&[0, 2]));
            }
        }
    }
}

fn inits(t: &mut Tried) {
    let d = shared();
    for (name, init) in [("init", init as fn(u8, u8) -> Statement), ("magic", magic)] {
        for l in [4, 5, 6, 255] {
            t.steps(&format!("{name} at {l}"), &d, &only(&[init(0, l)]), &[stuck(13, 8); 2], &occupied(&[]));
            let over = only(&[init(0, 0), init(0, l)]);
            t.steps(&format!("{name} at {l} over a qubit"), &d, &over, &[moved(8), stuck(12, 11)], &occupied(&[0]));
        }
        let taken = only(&[init(0, 3), init(1, 3), gate(0)]);
        t.steps(&format!("{name} at a location that is taken"), &d, &taken, &[moved(8), stuck(14, 11), stuck(14, 11)], &occupied(&[3]));
        let same = only(&[init(0, 3), init(0, 3)]);
        t.steps(&format!("{name} over its own qubit"), &d, &same, &[moved(8), stuck(12, 11)], &occupied(&[3]));
        let over = only(&[boolean(0, 1), init(0, 3), when(0, &[], &[])]);
        t.steps(&format!("{name} over a bool"), &d, &over, &[moved(8), moved(11), stuck(11, 14)], &occupied(&[3]));
        let over = only(&[boolean(0, 1), refer(1, 0), init(1, 3), repeat(1, &[])]);
        t.steps(&format!("{name} over a reference"), &d, &over, &[moved(8), moved(11), moved(14), stuck(11, 17)], &occupied(&[3]));
        let again = only(&[init(0, 3), free(0), init(1, 3)]);
        t.steps(&format!("{name} after a free"), &d, &again, &[moved(8), moved(11), moved(13), FINISHED], &occupied(&[3]));
    }
    t.steps("an empty region", &owned(&[0, 0], &[]), &only(&[init(0, 1)]), &[stuck(13, 8)], &[0, 0]);
    let last = only(&[init(0, 255)]);
    let mut map = vec![0; 256];
    map[255] = 1;
    t.steps("location 255 of 256", &line(256), &last, &[moved(8), FINISHED], &map);
}

fn calls(t: &mut Tried) {
    let at = asked::CALL as u16;
    for called in asked::calls() {
        let what = format!("call: {}", called.what);
        let mut records = all_moved(&[12, 15, 18]);
        match called.number {
            0 => records.extend([moved(at), moved(at)]),
            reason => records.extend([stuck(reason, at); 3]),
        }
        t.steps(&what, &shared(), &called.program(), &records, &occupied(&[0, 1]));
    }
}

/// A merge's record has the edges of its route; without a path it is stuck, for good.
fn merges(t: &mut Tried) {
    let ends = [init(0, 0), init(1, 2)];
    let after = |more: &[Statement]| only(&[&ends[..], more].concat());
    t.steps("the ends adjacent", &device(3, &[(0, 2)]), &after(&[merge(2, 0, 1)]), &[moved(8), moved(11), merged(1, 14), FINISHED], &[1, 0, 1]);
    let round = after(&[init(2, 1), merge(3, 0, 1), free(2), merge(3, 1, 0)]);
    let records = [moved(8), moved(11), moved(14), merged(4, 17), moved(23), merged(2, 25), FINISHED];
    t.steps("round an occupied location, then through it", &grid(), &round, &records, &occupied(&[0, 2]));
    let walled = after(&[init(2, 1), init(3, 4), merge(4, 0, 1), free(2)]);
    let records = [moved(8), moved(11), moved(14), moved(17), stuck(21, 20), stuck(21, 20), stuck(21, 20)];
    t.steps("no path", &grid(), &walled, &records, &occupied(&[0, 1, 2, 4]));
    let bound = after(&[init(2, 1), init(3, 4), merge(3, 0, 1)]);
    t.steps("12 before 21", &grid(), &bound, &[moved(8), moved(11), moved(14), moved(17), stuck(12, 20)], &occupied(&[0, 1, 2, 4]));
    let twice = after(&[init(2, 1), init(3, 4), merge(4, 0, 0)]);
    t.steps("15 before 21", &grid(), &twice, &[moved(8), moved(11), moved(14), moved(17), stuck(15, 20)], &occupied(&[0, 1, 2, 4]));
    for owner in [0, 2] {
        let wall = owned(&[1, owner, 1, 1, owner, 1], &GRID);
        let records = [moved(8), moved(11), stuck(21, 14)];
        t.steps(&format!("a wall of {owner}"), &wall, &after(&[merge(2, 0, 1)]), &records, &occupied(&[0, 2]));
    }
    let mut map = vec![0; 256];
    (map[0], map[255]) = (1, 1);
    let far = only(&[init(0, 0), init(1, 255), merge(2, 1, 0)]);
    t.steps("255 edges", &line(256), &far, &[moved(8), moved(11), merged(255, 14)], &map);
    let merging = function(2, 2, &[merge(2, 0, 1)]);
    let main = calling(&[merging], &[init(0, 0), init(1, 1), init(2, 2), call(0, &[0, 1], &[0, 1]), call(0, &[0, 2], &[0, 2])]);
    let records = [moved(18), moved(21), moved(24), moved(27), merged(1, 10), moved(27), moved(35), stuck(21, 10), stuck(21, 10)];
    t.steps("a function's merge at each call's locations", &line(3), &main, &records, &[1, 1, 1]);
}

/// What is bound: outcomes, bools, copies in references; block ends leave it alone.
fn values(t: &mut Tried) {
    let chosen = |start: &[Statement]| only(&[start, &[when(3, &[boolean(4, 0)], &[boolean(5, 0)])]].concat());
    let measured = chosen(&[init(0, 0), measure(3, 0)]);
    let (yes, no) = (all_moved(&[8, 11, 15, 19]), all_moved(&[8, 11, 15, 24]));
    t.outcomes("a measurement, outcome 1", &grid(), &measured, &[0, 1, 0, 0], &yes, &occupied(&[0]));
    t.outcomes("a measurement, outcome 0", &grid(), &measured, &[1, 0, 1, 1], &no, &occupied(&[0]));
    let two = chosen(&[init(0, 0), init(1, 1), merge(3, 0, 1)]);
    let records = |last| [moved(8), moved(11), merged(1, 14), moved(20), moved(last), FINISHED];
    t.outcomes("a merge, outcome 1", &grid(), &two, &[0, 0, 1, 0, 0, 0], &records(24), &occupied(&[0, 1]));
    t.outcomes("a merge, outcome 0", &grid(), &two, &[1, 1, 0, 1, 1, 1], &records(29), &occupied(&[0, 1]));
    for (value, last) in [(1, 15), (0, 20)] {
        let records = all_moved(&[8, 11, last]);
        t.steps(&format!("bool {value}"), &grid(), &chosen(&[boolean(3, value)]), &records, &occupied(&[]));
        let copied = chosen(&[boolean(0, value), refer(1, 0), boolean(0, 1 - value), get(3, 1)]);
        let records = all_moved(&[8, 11, 14, 17, 20, last + 9]);
        t.steps(&format!("a reference holds a copy of {value}"), &grid(), &copied, &records, &occupied(&[]));
        let got = chosen(&[boolean(0, value), refer(1, 0), get(3, 1), boolean(6, 1 - value), set(1, 6)]);
        let records = all_moved(&[8, 11, 14, 17, 20, 23, last + 12]);
        t.steps(&format!("what was got stays {value}"), &grid(), &got, &records, &occupied(&[]));
        let set = chosen(&[boolean(0, 1 - value), refer(1, 0), boolean(0, value), set(1, 0), boolean(0, 1 - value), get(3, 1)]);
        let records = all_moved(&[8, 11, 14, 17, 20, 23, 26, last + 15]);
        t.steps(&format!("an assigned {value}"), &grid(), &set, &records, &occupied(&[]));
        let own = chosen(&[boolean(0, value), refer(3, 0), get(3, 3)]);
        t.steps(&format!("8 y y keeps {value}"), &grid(), &own, &all_moved(&[8, 11, 14, 17, last + 6]), &occupied(&[]));
    }
    let own = |last: Statement| only(&[boolean(0, 1), refer(0, 0), last]);
    t.steps("7 r r moves", &grid(), &own(repeat(0, &[])), &all_moved(&[8, 11, 14, 14, 14]), &occupied(&[]));
    t.steps("7 r r leaves no bool", &grid(), &own(when(0, &[], &[])), &[moved(8), moved(11), stuck(11, 14)], &occupied(&[]));
    let own = only(&[boolean(0, 1), refer(1, 0), get(1, 1), repeat(1, &[])]);
    t.steps("8 y y leaves no reference", &grid(), &own, &[moved(8), moved(11), moved(14), stuck(11, 17)], &occupied(&[]));
    let again = only(&[boolean(0, 1), refer(1, 0), boolean(0, 0), refer(1, 0), repeat(1, &[])]);
    t.steps("a reference over a reference", &grid(), &again, &[all_moved(&[8, 11, 14, 17, 20]), vec![FINISHED]].concat(), &occupied(&[]));
}

/// An if puts the chosen block before the rest; a while puts its body and itself there; empty blocks are no items; block ends forget nothing.
fn blocks(t: &mut Tried) {
    let stale = only(&[boolean(0, 1), when(0, &[boolean(1, 1)], &[]), when(1, &[], &[boolean(2, 0)])]);
    t.steps("a stale bool is still a bool", &grid(), &stale, &[all_moved(&[8, 11, 15, 20]), vec![FINISHED]].concat(), &occupied(&[]));
    let stale = only(&[boolean(0, 1), when(0, &[refer(1, 0)], &[]), repeat(1, &[set(1, 0)])]);
    t.steps("a stale reference is still one", &grid(), &stale, &all_moved(&[8, 11, 15, 20, 24, 20, 24]), &occupied(&[]));
    let until = only(&[init(0, 0), boolean(1, 1), refer(2, 1), repeat(2, &[measure(3, 0), set(2, 3)]), free(0)]);
    let records = [all_moved(&[8, 11, 14, 17, 21, 25, 17, 21, 25, 17, 28]), vec![FINISHED]].concat();
    let outcomes = [0, 0, 0, 0, 1, 0, 0, 0, 1, 1, 1, 1];
    t.outcomes("a loop until the outcome is 0, its bool bound again", &grid(), &until, &outcomes, &records, &occupied(&[]));
    let never = only(&[boolean(0, 0), refer(1, 0), repeat(1, &[free(9)]), boolean(2, 0)]);
    t.steps("a loop never entered", &grid(), &never, &[all_moved(&[8, 11, 14, 20]), vec![FINISHED]].concat(), &occupied(&[]));
    let turned = |last: Statement| only(&[boolean(0, 1), refer(1, 0), repeat(1, &[last])]);
    let records = [moved(8), moved(11), moved(14), moved(18), stuck(11, 14), stuck(11, 14)];
    t.steps("a loop whose body binds a bool over its reference", &grid(), &turned(boolean(1, 1)), &records, &occupied(&[]));
    t.steps("a loop whose body gets its reference into itself", &grid(), &turned(get(1, 1)), &records, &occupied(&[]));
    t.steps("a loop whose body takes its slot for a qubit", &grid(), &turned(init(1, 5)), &records, &occupied(&[5]));
    let nested = only(&[boolean(0, 1), refer(1, 0), when(0, &[when(0, &[boolean(2, 0)], &[]), boolean(3, 0)], &[]), boolean(4, 0)]);
    t.steps("blocks in blocks, in order", &grid(), &nested, &[all_moved(&[8, 11, 14, 18, 22, 27, 32]), vec![FINISHED]].concat(), &occupied(&[]));
    let inner = repeat(2, &[set(2, 3)]);
    let loops = only(&[boolean(0, 1), refer(1, 0), boolean(3, 0), repeat(1, &[refer(2, 0), inner])]);
    t.steps("a loop in a loop", &grid(), &loops, &all_moved(&[8, 11, 14, 17, 21, 24, 28, 24, 17, 21, 24, 28, 24, 17]), &occupied(&[]));
    t.steps("the empty program", &grid(), &only(&[]), &[FINISHED; 3], &occupied(&[]));
}

/// A program whose function 0 has k parameters, one argument and this body; main inits slot 0 at location 0, calls with locations 0 (and 3), then
/// goes on. With it the offset of main's first statement; the function's is at 10.
fn one_argument(k: u8, body: &[Statement], last: Statement) -> (Vec<u8>, u16) {
    let program = calling(&[function(k, 1, body)], &[init(0, 0), call(0, &[0, 3][..k as usize], &[0]), last]);
    (program, 12 + body.concat().len() as u16)
}

/// A return leaves a slot bound exactly when the callee's slot holds a qubit at the call's location.
fn returns(t: &mut Tried) {
    let mut lose = |what: &str, k: u8, body: &[Statement], inside: &[u16], left: &[usize]| {
        for (use_of_it, last) in [("gate", gate(0)), ("free", free(0)), ("if", when(0, &[], &[]))] {
            let (program, main) = one_argument(k, body, last);
            let offsets = [&[main, main + 3], inside, &[main + 3]].concat();
            let records = [all_moved(&offsets), vec![stuck(11, main + 8 + u16::from(k))]].concat();
            t.steps(&format!("{what}, {use_of_it}"), &grid(), &program, &records, &occupied(left));
        }
        let (program, main) = one_argument(k, body, init(0, 5));
        let offsets = [&[main, main + 3], inside, &[main + 3, main + 8 + u16::from(k)]].concat();
        let records = [all_moved(&offsets), vec![FINISHED]].concat();
        t.steps(&format!("{what}, the slot bound again"), &grid(), &program, &records, &occupied(&[left, &[5]].concat()));
    };
    lose("the callee frees its argument", 1, &[free(0)], &[10], &[]);
    lose("the callee frees it and binds a bool", 1, &[free(0), boolean(0, 1)], &[10, 12], &[]);
    lose("the callee takes it into another slot", 1, &[free(0), init(5, 0)], &[10, 12], &[0]);
    lose("the callee takes it to another location", 2, &[free(0), init(0, 1)], &[10, 12], &[3]);
    let (again, main) = one_argument(1, &[free(0), init(0, 0)], gate(0));
    let records = [all_moved(&[main, main + 3, 10, 12, main + 3, main + 9]), vec![FINISHED]].concat();
    t.steps("the callee makes it again where it was", &grid(), &again, &records, &occupied(&[0]));
    let (kept, main) = one_argument(2, &[], gate(0));
    t.steps("a callee without items", &grid(), &kept, &all_moved(&[main, main + 3, main + 3, main + 10]), &occupied(&[0]));
    let (stale, main) = one_argument(1, &[when(1, &[], &[])], gate(0));
    t.steps("a callee's slots are its own", &grid(), &stale, &[moved(main), moved(main + 3), stuck(11, 10)], &occupied(&[0]));
    let swap = function(2, 2, &[free(0), free(1), init(0, 1), init(1, 0)]);
    for x in [0, 1] {
        let main = [init(0, 0), init(1, 2), call(0, &[0, 2], &[0, 1]), gate(x)];
        let records = [all_moved(&[22, 25, 28, 10, 12, 14, 17, 28]), vec![stuck(11, 36)]].concat();
        t.steps(&format!("two arguments changed for each other, slot {x}"), &grid(), &calling(&[swap.clone()], &main), &records, &occupied(&[0, 2]));
    }
    let second = [init(7, 0), init(3, 1), call(0, &[1, 0], &[3, 7]), gate(3), gate(7)];
    let records = [all_moved(&[14, 17, 20, 10, 20, 28]), vec![stuck(11, 31)]].concat();
    t.steps("the second of two is lost", &grid(), &calling(&[function(2, 2, &[free(1)])], &second), &records, &occupied(&[1]));
}

/// A qubit left behind stays on its location, and a call can be the last thing.
fn left_behind(t: &mut Tried) {
    let leaving = [function(1, 0, &[init(0, 0)])];
    let main = |last: Statement| calling(&leaving, &[call(0, &[3], &[]), last]);
    let stays = |reason| [moved(15), moved(10), moved(15), stuck(reason, 20), stuck(reason, 20)];
    t.steps("left behind, then called again", &grid(), &main(call(0, &[3], &[])), &stays(14), &occupied(&[3]));
    t.steps("left behind, then an init", &grid(), &main(init(0, 3)), &stays(14), &occupied(&[3]));
    t.steps("left behind, no slot has it", &grid(), &main(free(0)), &stays(11), &occupied(&[3]));
    let elsewhere = [all_moved(&[15, 10, 15, 20, 10, 20]), vec![FINISHED]].concat();
    t.steps("called again elsewhere", &grid(), &main(call(0, &[4], &[])), &elsewhere, &occupied(&[3, 4]));
    let shut = calling(&leaving, &[init(0, 0), init(1, 2), call(0, &[1], &[]), merge(2, 0, 1)]);
    t.steps("left behind in the way", &line(3), &shut, &[all_moved(&[15, 18, 21, 10, 21]), vec![stuck(21, 26)]].concat(), &[1, 1, 1]);
    t.steps("main ends with a qubit", &grid(), &only(&[init(0, 4)]), &[moved(8), FINISHED], &occupied(&[4]));
    let last = calling(&[function(0, 0, &[])], &[call(0, &[], &[])]);
    t.steps("finished after a last return", &grid(), &last, &[moved(12), moved(12), FINISHED, FINISHED], &occupied(&[]));
}

/// Calls 15 deep: function i's call is at 7 + 10 i, main's statements begin at 155.
fn deep_calls(t: &mut Tried) {
    let functions = chain(1, 1, &[gate(0)], 15, 1);
    let program = calling(&functions, &[init(9, 5), call(14, &[5], &[9]), free(9)]);
    let down: Vec<u16> = (1..15).rev().map(|i| 7 + 10 * i).collect();
    let up: Vec<u16> = (1..15).map(|i| 7 + 10 * i).collect();
    let offsets = [&[155, 158], &down[..], &[10], &up, &[158, 164]].concat();
    t.steps("calls 15 deep", &grid(), &program, &[all_moved(&offsets), vec![FINISHED]].concat(), &occupied(&[]));
}

/// The run never types: programs that the check refuses run until a step fails.
fn refused_by_the_check(t: &mut Tried) {
    t.steps("11", &grid(), &only(&[free(0)]), &[stuck(11, 8); 3], &occupied(&[]));
    let differ = |value| only(&[init(0, 0), boolean(1, value), when(1, &[free(0)], &[]), gate(0)]);
    t.steps("18, the branch that frees", &grid(), &differ(1), &[all_moved(&[8, 11, 14, 18]), vec![stuck(11, 22)]].concat(), &occupied(&[]));
    t.steps("18, the other", &grid(), &differ(0), &[all_moved(&[8, 11, 14, 22]), vec![FINISHED]].concat(), &occupied(&[0]));
    let losing = only(&[init(0, 0), boolean(1, 1), refer(2, 1), repeat(2, &[free(0)])]);
    t.steps("19", &grid(), &losing, &[all_moved(&[8, 11, 14, 17, 21, 17]), vec![stuck(11, 21)]].concat(), &occupied(&[]));
    let many = calling(&chain(1, 0, &[init(0, 0), free(0)], 15, 2), &vec![call(14, &[2], &[]); 2]);
    // function i's first call is at 19 + 14 (i - 1), main's statements begin at 213
    let down: Vec<u16> = (1..15).rev().map(|i| 5 + 14 * i).collect();
    let offsets = [&[213], &down[..], &[10, 13, 19, 24, 10, 13, 24, 33]].concat();
    t.steps("20", &grid(), &many, &all_moved(&offsets), &occupied(&[]));
    let wrong = calling(&[function(0, 0, &[free(0)])], &[boolean(0, 0)]);
    t.steps("a wrong function never called", &grid(), &wrong, &[moved(14), FINISHED], &occupied(&[]));
}

/// The grid twice, for job 1 and for job 2 with 6 to 11.
fn two_grids() -> Vec<u8> {
    let second = GRID.iter().map(|&(a, b)| (a + 6, b + 6));
    let edges: Vec<Edge> = GRID.iter().copied().chain(second).collect();
    owned(&[1, 1, 1, 1, 1, 1, 2, 2, 2, 2, 2, 2], &edges)
}

fn two_jobs(t: &mut Tried) {
    let device = two_grids();
    let one = program_a();
    let two = only(&[init(0, 6), init(1, 8), init(2, 7), merge(3, 0, 1)]);
    let given = |schedule| Given { device: &device, one: &one, two: &two, schedule };
    let schedule = [0x10, 0x20, 0x21, 0x11, 0x20, 0x10, 0x20, 0x10, 0x20, 0x10, 0x10];
    let (a, b) = ([moved(8), moved(11), merged(2, 14), moved(20), moved(22), FINISHED], [moved(8), moved(11), moved(14), merged(4, 17), FINISHED]);
    let mixed = [a[0], b[0], b[1], a[1], b[2], a[2], b[3], a[3], b[4], a[4], a[5]];
    t.run("two jobs", &given(&schedule), &mixed, &[0, 0, 0, 0, 0, 0, 2, 2, 2, 0, 0, 0]);
    t.run("job 1 stops halfway", &given(&[0x20, 0x20, 0x10]), &[b[0], b[1], a[0]], &[1, 0, 0, 0, 0, 0, 2, 0, 2, 0, 0, 0]);
    let wrong = only(&[init(0, 0)]);
    let given = Given { device: &device, one: &one, two: &wrong, schedule: &[0x20, 0x10, 0x21, 0x10, 0x20, 0x10] };
    let no = stuck(13, 8);
    t.run("job 2 stuck in job 1's region", &given, &[no, a[0], no, a[1], no, a[2]], &[1, 0, 1, 0, 0, 0, 0, 0, 0, 0, 0, 0]);
    let given = Given { device: &device, one: &only(&[free(9)]), two: &two, schedule: &[0x10, 0x20, 0x10, 0x20] };
    t.run("job 1 stuck", &given, &[stuck(11, 8), b[0], stuck(11, 8), b[1]], &[0, 0, 0, 0, 0, 0, 2, 0, 2, 0, 0, 0]);
}

/// A loop without end: main's statements at 8, 11, 14, then 17 and 21 for ever.
fn endless(location: u8) -> Vec<u8> {
    only(&[init(0, location), boolean(1, 1), refer(2, 1), repeat(2, &[gate(0)])])
}

fn endless_record(step: usize) -> Record {
    moved(match step {
        0..=2 => 8 + 3 * step as u16,
        _ if step % 2 == 1 => 17,
        _ => 21,
    })
}

/// Schedules of 4,096 steps and of none.
fn lengths(t: &mut Tried) {
    let both = owned(&[1, 2], &[]);
    let (one, two, empty) = (endless(0), endless(1), only(&[]));
    let all: Vec<Record> = (0..4096).map(endless_record).collect();
    t.run("4,096 steps of job 1", &Given { device: &both, one: &one, two: &two, schedule: &[0x10; 4096] }, &all, &[1, 0]);
    t.run("4,096 steps of job 2", &Given { device: &both, one: &one, two: &two, schedule: &[0x21; 4096] }, &all, &[0, 2]);
    t.run("4,096 steps, finished", &Given { device: &both, one: &one, two: &empty, schedule: &[0x21; 4096] }, &[FINISHED; 4096], &[0, 0]);
    let turns: Vec<u8> = (0..4096).map(|i| if i % 2 == 0 { 0x10 } else { 0x21 }).collect();
    let shared: Vec<Record> = (0..4096).map(|i| endless_record(i / 2)).collect();
    t.run("4,096 steps of both in turn", &Given { device: &both, one: &one, two: &two, schedule: &turns }, &shared, &[1, 2]);
    t.run("no steps", &Given { device: &both, one: &one, two: &two, schedule: &[] }, &[], &[0, 0]);
    t.run("no steps, 256 locations", &Given { device: &line(256), one: &one, two: &two, schedule: &[] }, &[], &[0; 256]);
}

/// Device, program 1, program 2, 22, 23, 24; the buffers stay as they were.
fn refusals(t: &mut Tried) {
    let (g, a, empty) = (grid(), program_a(), only(&[]));
    let good = Given { device: &g, one: &a, two: &empty, schedule: &[0x10, 0x10, 0x20] };
    let bad_device = with(&g, &[(9, 3)]);
    let bad = only(&[vec![14]]);
    let room = (12, 6);
    t.refused("a device", &Given { device: &bad_device, one: &[], two: &[], schedule: &[0], ..good }, room, no(6, 9, DEVICE));
    t.refused("no device", &Given { device: &[], one: &[], two: &[], schedule: &[0] }, (0, 0), no(1, 0, DEVICE));
    t.refused("program 1", &Given { one: &bad, two: &[], schedule: &[0x22], ..good }, room, no(9, 8, PROGRAM + 1));
    t.refused("no program 1", &Given { one: &[], two: &bad, ..good }, room, no(1, 0, PROGRAM + 1));
    t.refused("program 2", &Given { two: &bad, schedule: &[0x22; 5000], ..good }, (0, 0), no(9, 8, PROGRAM + 2));
    t.refused("program 2, one byte more", &Given { two: &[empty.clone(), vec![0]].concat(), ..good }, room, no(8, 8, PROGRAM + 2));
    t.refused("4,097 steps", &Given { schedule: &[0x10; 4097], ..good }, (4 * 4097, 6), no(22, 0, SCHEDULE));
    t.refused("4,097 steps, all bad, no room", &Given { schedule: &[0; 4097], ..good }, (0, 0), no(22, 0, SCHEDULE));
    for byte in [0x00, 0x01, 0x0F, 0x12, 0x1F, 0x22, 0x30, 0x31, 0x90, 0xFF] {
        t.refused(&format!("schedule byte {byte:02x}"), &Given { schedule: &[0x10, 0x21, byte, 0], ..good }, (16, 6), no(23, 2, SCHEDULE));
    }
    let last: Vec<u8> = [vec![0x11; 4095], vec![0x13]].concat();
    t.refused("the last of 4,096 is bad", &Given { schedule: &last, ..good }, (4 * 4096, 6), no(23, 4095, SCHEDULE));
    t.refused("a bad byte before no room", &Given { schedule: &[0x40], ..good }, (0, 0), no(23, 0, SCHEDULE));
    for room in [(11, 6), (0, 6), (12, 5), (12, 0), (11, 5), (0, 0), (300, 5), (11, 300)] {
        t.refused(&format!("room for {room:?}"), &good, room, no(24, 0, NONE));
    }
    t.refused("no steps, a map too short", &Given { schedule: &[], ..good }, (0, 5), no(24, 0, NONE));
    t.refused("256 locations, a map of 255", &Given { device: &line(256), ..good }, (12, 255), no(24, 0, NONE));
    t.refused("4,096 steps, records one byte short", &Given { schedule: &[0x10; 4096], ..good }, (4 * 4096 - 1, 6), no(24, 0, NONE));
}

fn main() {
    let mut t = Tried::new("runs");
    document(&mut t);
    kinds(&mut t);
    inits(&mut t);
    calls(&mut t);
    merges(&mut t);
    values(&mut t);
    blocks(&mut t);
    returns(&mut t);
    left_behind(&mut t);
    deep_calls(&mut t);
    refused_by_the_check(&mut t);
    two_jobs(&mut t);
    lengths(&mut t);
    refusals(&mut t);
    t.end()
}
