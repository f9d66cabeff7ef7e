//! `why`: programs that are accepted, refused for anything but 21, and merges without a path in main, in calls, branches and loops.

use super::given::*;
use super::{case, Case};
use crate::files::*;
use crate::question::why;

/// Refused with 21 at this place, for job 1.
fn at(device: &[u8], name: &'static str, program: &[u8], place: usize) -> Case {
    case(name, why(device, program, 1)).refused(21, place as u32)
}

pub fn cases() -> Vec<Case> {
    [others(), in_the_way(), in_calls(), by_outcomes(), not_reached()].into_iter().flatten().collect()
}

fn others() -> Vec<Case> {
    let elsewhere = calling(&[function(2, 1, &[])], &[init(2, 4), call(0, &[3, 5], &[2])]);
    vec![
        case("why-accepted", why(&grid(), &program_a(), 1)).says(&["accepted: program on device for job 1", "commands: 5", "left live: 0"]),
        case("why-live", why(&grid(), &program_live(), 1)).says(&["commands: 4", "left live: 1\n  slot 1 at location 2, made at line 4\nnothing to explain\n"]),
        case("why-16", why(&grid(), &elsewhere, 1)).refused(16, 15).finds(&["slot 2", "location 4", "location 3"]),
        case("why-08", why(&grid(), &[only(&[]), vec![0]].concat(), 1)).refused(8, 8),
        case("why-05", why(&grid()[..28], &program_a(), 1)).refused(5, 0).finds(&["28"]),
        case("why-25", why(&grid(), &program_a(), 3)).refused(25, 0),
    ]
}

/// Merges in main: which qubit is in the way.
fn in_the_way() -> Vec<Case> {
    let both = only(&[init(0, 0), init(1, 3), init(2, 1), init(3, 2), merge(4, 0, 1), free(0), free(1), free(2), free(3)]);
    vec![
        at(&grid(), "why-21-main", &walled(), 20).stuck_by(&[0x10; 5]).says(&["slot 2", "slot 3", "0 1 2", "0 3 4 5 2"]),
        at(&split(), "why-21-no-corridor", &program_a(), 14).stuck_by(&[0x10; 3]).says(&["no corridor", "empty region"]),
        at(&line(4), "why-21-more-than-one", &both, 20).stuck_by(&[0x10; 5]).says(&["More than one"]),
        case("why-21-job-2", why(&swapped(&grid()), &walled(), 2)).refused(21, 20).stuck_by(&[0x20; 5]).says(&["job 2", "slot 2", "slot 3"]),
        case("why-21-svg", why(&grid(), &walled(), 1).with(&["-o", "picture.svg"])).refused(21, 20).writes("picture.svg"),
        case("why-accepted-svg", why(&grid(), &program_a(), 1).with(&["-o", "picture.svg"])),
        case("why-21-width", why(&grid(), &walled(), 1).with(&["--width", "2"])).refused(21, 20).stuck_by(&[0x10; 5]),
    ]
}

/// Merges in functions: at which call.
fn in_calls() -> Vec<Case> {
    let merging = || function(2, 2, &[merge(2, 0, 1)]);
    let ends = [init(0, 0), init(1, 1), init(2, 2)];
    let calls = [call(0, &[0, 1], &[0, 1]), call(0, &[0, 2], &[0, 2])];
    let second = calling(&[merging()], &[&ends[..], &calls, &[free(0), free(1), free(2)]].concat());
    let start = [init(0, 0), init(1, 2), init(2, 1)];
    let deep = chain(2, 2, &[merge(2, 0, 1)], 15, 1);
    let deep = calling(&deep, &[&start[..], &[call(14, &[0, 2], &[0, 1]), free(0), free(1), free(2)]].concat());
    let taking = function(3, 2, &[init(2, 2), merge(3, 0, 1), free(2)]);
    let itself = calling(&[taking], &[init(7, 0), init(8, 2), call(0, &[0, 2, 1], &[7, 8]), free(7), free(8)]);
    vec![
        at(&line(3), "why-21-second-call", &second, 10).stuck_by(&[0x10; 8]).says(&["call 0 at 0 2 with 0 2", "slot 1"]),
        at(&line(3), "why-21-deep-calls", &deep, 10).stuck_by(&[0x10; 19]).says(&["call 14 at 0 2 with 0 1", "call 0 at 0 1 with 0 1"]),
        at(&line(3), "why-21-callee-takes-it", &itself, 13).stuck_by(&[0x10; 5]).says(&["call 0 at 0 2 1 with 7 8", "slot 2"]),
    ]
}

/// Merges in branches and loops: by which outcomes.
fn by_outcomes() -> Vec<Case> {
    let taken = [init(4, 1), merge(5, 0, 1), free(4)];
    let ended = |rest: &[Statement]| only(&[&[init(0, 0), init(1, 2)][..], rest, &[free(0), free(1)]].concat());
    let outcomes = ended(&[measure(2, 0), measure(3, 1), when(2, &[], &[when(3, &taken, &[])])]);
    let entered = ended(&[measure(2, 0), refer(3, 2), repeat(3, &taken)]);
    let always = ended(&[boolean(2, 1), refer(3, 2), repeat(3, &taken)]);
    // the second round of the loop takes the branch that the first has set
    let set_first = [when(7, &taken, &[]), set(6, 9)];
    let again = ended(&[boolean(9, 1), boolean(2, 1), refer(3, 2), boolean(8, 0), refer(6, 8), repeat(3, &[&[get(7, 6)][..], &set_first].concat())]);
    vec![
        at(&line(3), "why-21-outcome-1", &by_outcome(), 25).stuck_by(&[0x10, 0x10, 0x11, 0x10, 0x10, 0x10]).says(&["if 2", "slot 3"]),
        at(&line(3), "why-21-outcomes-0-1", &outcomes, 35).stuck_by(&[0x10, 0x10, 0x10, 0x11, 0x10, 0x10, 0x10, 0x10]).says(&["if 2", "if 3"]),
        at(&line(3), "why-21-loop", &always, 27).stuck_by(&[0x10; 7]).says(&["while 3"]),
        at(&line(3), "why-21-loop-by-outcome", &entered, 28).stuck_by(&[0x10, 0x10, 0x11, 0x10, 0x10, 0x10, 0x10]).says(&["while 3"]),
        at(&line(3), "why-21-loop-second-round", &again, 43).stuck_by(&[0x10; 16]).says(&["while 3", "if 7"]),
    ]
}

/// Merges that no outcomes lead to, or too many steps.
fn not_reached() -> Vec<Case> {
    let taken = [init(4, 1), merge(5, 0, 1), free(4)];
    let ended = |rest: &[Statement]| only(&[&[init(0, 0), init(1, 2)][..], rest, &[free(0), free(1)]].concat());
    let elsewhere = ended(&[boolean(2, 0), when(2, &taken, &[]), measure(6, 0), when(6, &taken, &[])]);
    let endless = ended(&[init(4, 1), boolean(2, 1), refer(3, 2), repeat(3, &[measure(6, 0), set(3, 6)]), merge(5, 0, 1), free(4)]);
    let silent = chain(0, 0, &[], 15, 65);
    let wall = [init(0, 0), init(1, 2), init(2, 1), merge(4, 0, 1), free(0), free(1), free(2)];
    let main = calling(&silent, &[]).len();
    // the check comes to the merge by a call that no outcomes lead to; another call leads there
    let calls = [boolean(3, 0), when(3, &[call(0, &[0, 2], &[0, 1])], &[]), call(0, &[0, 2], &[0, 1])];
    let by_another = calling(&[function(2, 2, &[merge(2, 0, 1)])], &[&wall[..3], &calls, &wall[4..]].concat());
    vec![
        at(&line(3), "why-21-guard", &ended(&[boolean(2, 0), when(2, &taken, &[])]), 24),
        at(&line(3), "why-21-by-another-call", &by_another, 10).stuck_by(&[0x10; 7]).says(&["line 3", "by another call"]),
        at(&line(3), "why-21-guard-of-loop", &ended(&[boolean(2, 0), refer(3, 2), repeat(3, &taken)]), 27),
        at(&line(3), "why-21-never-ending-loop", &ended(&[boolean(2, 1), refer(3, 2), repeat(3, &[]), taken.concat()]), 27),
        at(&line(3), "why-21-elsewhere", &elsewhere, 24).says(&["No outcomes lead there", "slot 2 is always 0", "101010101110"]),
        at(&line(3), "why-21-or-still-going", &endless, 34).stuck_by(&[0x10; 10]).says(&["it halts or is still going"]),
        at(&line(3), "why-21-too-many-steps", &calling(&silent, &[&[call(14, &[], &[])][..], &wall].concat()), main + 4 + 9),
    ]
}
