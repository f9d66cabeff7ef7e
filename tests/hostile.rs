//! Programs made to take long: the check, and the run, must answer each within its bound. The least of several tries counts, so that a busy
//! computer does no harm.

mod files;
mod library;

use files::*;
use library::{no, Call, Empty, PROGRAM};
use std::time::Duration;

/// How long the quickest of so many tries may take.
struct Bound {
    most: Duration,
    tries: usize,
}

const QUICK: Bound = Bound { most: Duration::from_millis(10), tries: 20 };

/// For a whole schedule of steps.
const STEPS: Bound = Bound { most: Duration::from_millis(100), tries: 10 };

/// For a search over the whole device for each of 65,531 commands.
const SEARCHES: Bound = Bound { most: Duration::from_millis(500), tries: 5 };

/// A program, the device it is checked or run on, and the answer.
struct Hostile {
    what: &'static str,
    asked: Asked,
    bound: Bound,
    device: Vec<u8>,
    program: Vec<u8>,
    answer: u64,
}

#[derive(Clone, Copy)]
enum Asked {
    Check,
    Run,
}

fn check(what: &'static str, device: Vec<u8>, program: Vec<u8>, answer: u64) -> Hostile {
    Hostile { what, asked: Asked::Check, bound: QUICK, device, program, answer }
}

/// A run of 4,096 steps of job 1, all of which move.
fn run(what: &'static str, device: Vec<u8>, program: Vec<u8>) -> Hostile {
    Hostile { what, asked: Asked::Run, bound: STEPS, device, program, answer: 4_096 }
}

/// 65^14 calls, and no command among them.
fn silent() -> Hostile {
    let program = calling(&chain(0, 0, &[], 15, 65), &[call(14, &[], &[])]);
    check("15 functions, each calling the one before 65 times", grid(), program, 0)
}

/// The same number of calls, each of an if: the count would have 26 digits.
fn countless() -> Hostile {
    let program = calling(&chain(0, 0, &[boolean(0, 0), when(0, &[], &[])], 15, 65), &[call(14, &[], &[])]);
    check("the same of an if", grid(), program, no(20, 0, PROGRAM + 1))
}

/// The document's doubling functions.
fn doubling() -> Vec<Function> {
    chain(1, 0, &[init(0, 0), free(0)], 15, 2)
}

fn most_commands() -> Hostile {
    let calls: Vec<Statement> = (0..15).map(|f| call(f, &[0], &[])).collect();
    let main = [calls, vec![boolean(0, 0), refer(1, 0), repeat(1, &[])]].concat();
    check("the doubling functions, 65,535 commands", grid(), calling(&doubling(), &main), 65_535)
}

fn too_many_commands() -> Hostile {
    let program = calling(&doubling(), &vec![call(14, &[0], &[]); 2]);
    check("the doubling functions, 65,536 commands", grid(), program, no(20, 0, PROGRAM + 1))
}

/// A body of gates behind 2^14 calls, without a command.
fn gates() -> Hostile {
    let functions = chain(1, 1, &vec![gate(0); 1_280], 15, 2);
    let program = calling(&functions, &[init(0, 0), call(14, &[0], &[0]), free(0)]);
    check("1,280 gates, called 2^14 times", grid(), program, 2)
}

/// The same with the qubit made in the function: the walk can't pass the calls by.
fn gates_and_commands() -> Hostile {
    let body = [vec![init(0, 0)], vec![gate(0); 1_100], vec![free(0)]].concat();
    let program = calling(&chain(1, 0, &body, 15, 2), &[call(14, &[0], &[])]);
    check("1,100 gates beside an init and a free, called 2^14 times", grid(), program, 32_768)
}

/// The same in a block, where an if is the command.
fn gates_in_an_if() -> Hostile {
    let body = [boolean(5, 0), when(5, &[], &vec![gate(0); 1_200])];
    let program = calling(&chain(1, 1, &body, 15, 2), &[init(0, 0), call(14, &[0], &[0]), free(0)]);
    check("1,200 gates in an if, called 2^14 times", grid(), program, 16_386)
}

/// Calls of an empty function beside an init and a free.
fn empty_calls() -> Hostile {
    let body = [vec![init(0, 0)], vec![call(0, &[], &[]); 800], vec![free(0)]].concat();
    let doubled = (2..15).map(|f| function(1, 0, &vec![call(f - 1, &[0], &[]); 2]));
    let functions: Vec<Function> = [function(0, 0, &[]), function(1, 0, &body)].into_iter().chain(doubled).collect();
    let program = calling(&functions, &vec![call(14, &[0], &[]); 2]);
    check("800 empty calls beside an init and a free, called 2^14 times", grid(), program, 32_768)
}

/// Merges of the qubits in slots 0 and 1, so many of them with their outcomes in slots 2 on.
fn merges(count: u8) -> Vec<Statement> {
    (2..2 + count).map(|outcome| merge(outcome, 0, 1)).collect()
}

/// As many merges as the count has room for, each of the ends of the longest path that a device can have: 28 in function 0, each function calling
/// the one before twice.
fn far_merges() -> Hostile {
    let calls: Vec<Statement> = [11, 8, 5, 2].iter().map(|&f| call(f, &[0, 255], &[0, 1])).collect();
    let main = [vec![init(0, 0), init(1, 255)], calls, merges(11), vec![free(0), free(1)]].concat();
    let program = calling(&chain(2, 2, &merges(28), 12, 2), &main);
    Hostile { bound: SEARCHES, ..check("65,531 merges over a line of 256 locations", line(256), program, 65_535) }
}

/// A run of such merges. Each binds the same slot again, which the check would refuse and a step does not.
fn run_of_far_merges() -> Hostile {
    let main = [init(0, 0), init(1, 255), boolean(2, 1), refer(3, 2), repeat(3, &vec![merge(2, 0, 1); 670])];
    run("a run of merges over a line of 256 locations", line(256), only(&main))
}

/// A run of the deepest calls with the most locations and arguments.
fn run_of_calls() -> Hostile {
    let (locations, slots): (Vec<u8>, Vec<u8>) = ((0..16).collect(), (0..8).collect());
    let inits = slots.iter().map(|&i| init(i, i)).collect();
    let program = calling(&chain(16, 8, &[], 15, 2), &[inits, vec![call(14, &locations, &slots); 4]].concat());
    run("a run of calls 15 deep with 16 locations", line(16), program)
}

/// The least time of several tries, each with the right answer.
fn least(hostile: &Hostile) -> Duration {
    let (device, program, empty) = (&hostile.device, &hostile.program, only(&[]));
    let (schedule, records, map) = ([0x11; 4_096], [0; 4 * 4_096], [0; 256]);
    let call = match hostile.asked {
        Asked::Check => Call::check(device, program, 1),
        Asked::Run => Call::run(device, program, &empty, &schedule, &records, &map),
    };
    let time = |_| {
        let (outcome, time) = call.perform(Empty::Null).expect("nothing else is touched");
        assert_eq!(outcome.packed, hostile.answer, "{}", hostile.what);
        time
    };
    (0..hostile.bound.tries).map(time).min().unwrap()
}

fn main() {
    let quick = [silent(), countless(), most_commands(), too_many_commands(), gates(), gates_and_commands(), gates_in_an_if(), empty_calls()];
    let mut slow = 0;
    for hostile in quick.iter().chain(&[run_of_calls(), run_of_far_merges(), far_merges()]) {
        assert!(hostile.program.len() <= 4_096);
        let (time, most) = (least(hostile), hostile.bound.most);
        let verdict = if time > most { ": TOO SLOW" } else { "" };
        println!("hostile: {:>9.3} ms of {:>3}, {}{verdict}", time.as_secs_f64() * 1e3, most.as_millis(), hostile.what);
        slow += usize::from(time > most);
    }
    std::process::exit(if slow == 0 { 0 } else { 1 })
}
