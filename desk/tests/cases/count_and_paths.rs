//! `check` of programs that type: too many commands, 20, and a merge without a path, 21.

use super::given::*;
use super::{case, Case};
use crate::files::*;
use crate::question::check;

fn on(device: &[u8], name: &'static str, program: &[u8], number: u8, place: u32) -> Case {
    case(name, check(device, program, 1)).refused(number, place)
}

pub fn cases() -> Vec<Case> {
    [count(), paths()].into_iter().flatten().collect()
}

fn count() -> Vec<Case> {
    let doubling = chain(1, 0, &[init(0, 0), free(0)], 15, 2);
    let many = chain(0, 0, &[boolean(0, 0), when(0, &[], &[])], 15, 16);
    let most = chain(0, 0, &[boolean(0, 0), when(0, &[], &[])], 15, 65);
    vec![
        on(&grid(), "check-20", &calling(&doubling, &vec![call(14, &[0], &[]); 2]), 20, 0).finds(&["function 14", "32768", "function 0", "65536"]),
        on(&grid(), "check-20-more-than-64-bits", &calling(&many, &vec![call(14, &[], &[]); 256]), 20, 0).finds(&["function 1", "16"]),
        on(&grid(), "check-20-most", &calling(&most, &[call(14, &[], &[])]), 20, 0).finds(&["function 2", "4225"]),
    ]
}

fn paths() -> Vec<Case> {
    let merging = function(2, 2, &[merge(2, 0, 1)]);
    let ends = [init(0, 0), init(1, 1), init(2, 2)];
    let calls = [call(0, &[0, 1], &[0, 1]), call(0, &[0, 2], &[0, 2])];
    let second = calling(&[merging], &[&ends[..], &calls, &[free(0), free(1), free(2)]].concat());
    vec![
        on(&grid(), "check-21", &walled(), 21, 20).finds(&["slot 0", "location 0", "slot 1", "location 2"]).says(&["merge 4 X 0 X 1"]),
        on(&split(), "check-21-neighbours-corridor", &program_a(), 21, 14).finds(&["slot 0", "location 0", "slot 1", "location 2"]),
        on(&line(3), "check-21-outcome", &by_outcome(), 21, 25).finds(&["location 0", "location 2"]).says(&["merge 4 X 0 X 1"]),
        on(&line(3), "check-21-second-call", &second, 21, 10)
            .finds(&["call 0 at 0 2 with 0 2", "slot 0 is at location 0, slot 1 at location 2"])
            .says(&["merge 2 X 0 X 1"]),
        case("check-21-job-2", check(&swapped(&grid()), &walled(), 2)).refused(21, 20).finds(&["location 0", "location 2"]).says(&["job 2"]),
    ]
}
