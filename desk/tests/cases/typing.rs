//! `check` of programs that do not type: 11 to 19.

use super::given::*;
use super::{case, Case};
use crate::files::*;
use crate::question::check;

/// On device G.
fn of(name: &'static str, program: &[u8], number: u8, place: u32) -> Case {
    on(&grid(), name, program, number, place)
}

fn on(device: &[u8], name: &'static str, program: &[u8], number: u8, place: u32) -> Case {
    case(name, check(device, program, 1)).refused(number, place)
}

pub fn cases() -> Vec<Case> {
    [kinds(), bound(), outside(), taken(), twice(), elsewhere(), outlives(), differ(), loses()].into_iter().flatten().collect()
}

fn kinds() -> Vec<Case> {
    let branch = when(0, &[boolean(1, 0)], &[]);
    let other = when(0, &[boolean(1, 0)], &[refer(2, 1)]);
    vec![
        of("check-11-free", &only(&[free(3)]), 11, 8).finds(&["slot 3", "unbound"]).says(&["free 3"]),
        of("check-11-merge", &only(&[init(0, 0), boolean(1, 1), merge(2, 0, 1), free(0)]), 11, 14).finds(&["slot 1", "bool"]).says(&["merge 2 X 0 X 1"]),
        of("check-11-while", &only(&[boolean(0, 1), repeat(0, &[])]), 11, 11).finds(&["slot 0", "bool"]).says(&["while 0"]),
        of("check-11-if", &only(&[boolean(0, 1), refer(1, 0), when(1, &[], &[])]), 11, 14).finds(&["slot 1", "reference"]).says(&["if 1"]),
        of("check-11-set", &only(&[boolean(0, 0), set(0, 0)]), 11, 11).finds(&["slot 0", "bool"]).says(&["set 0 0"]),
        of("check-11-gone-with-its-block", &only(&[boolean(0, 1), branch, when(1, &[], &[])]), 11, 20).finds(&["slot 1", "unbound"]),
        of("check-11-bound-in-the-other-block", &only(&[boolean(0, 1), other]), 11, 20).finds(&["slot 1", "on the way"]),
        of("check-11-argument", &calling(&[function(1, 1, &[])], &[call(0, &[0], &[0])]), 11, 12).finds(&["slot 0", "unbound"]).says(&["call 0 at 0 with 0"]),
        of("check-11-argument-lost", &calling(&[losing()], &[init(0, 0), call(0, &[0], &[0]), gate(0)]), 11, 23).finds(&["slot 0"]).says(&["gate H 0"]),
        of("check-11-function", &calling(&[function(1, 0, &[gate(4)])], &[]), 11, 10).finds(&["slot 4", "unbound"]),
        of("check-11-function-not-called", &calling(&[function(1, 1, &[]), function(0, 0, &[free(9)])], &[]), 11, 14).finds(&["slot 9"]),
    ]
}

fn bound() -> Vec<Case> {
    vec![
        of("check-12-qubit", &only(&[init(0, 0), init(0, 1)]), 12, 11).finds(&["slot 0", "location 0"]).says(&["init 0 1"]),
        of("check-12-outcome", &only(&[init(0, 0), boolean(1, 0), measure(1, 0), free(0)]), 12, 14).finds(&["slot 1", "bool"]),
        of("check-12-reference", &only(&[boolean(0, 0), refer(1, 0), get(1, 1)]), 12, 14).finds(&["slot 1", "reference"]),
        of("check-12-argument", &calling(&[function(1, 1, &[boolean(0, 1)])], &[]), 12, 10).finds(&["slot 0", "parameter 0"]),
    ]
}

fn outside() -> Vec<Case> {
    let called = calling(&[function(1, 0, &[])], &[call(0, &[4], &[])]);
    vec![
        on(&two(), "check-13-other-job", &only(&[init(0, 4)]), 13, 8).finds(&["location 4", "job 2"]).says(&["init 0 4"]),
        on(&shared(), "check-13-nobody", &only(&[init(0, 5)]), 13, 8).finds(&["location 5", "nobody"]),
        of("check-13-beyond", &only(&[magic(0, 255)]), 13, 8).finds(&["location 255", "0 to 5"]),
        on(&shared(), "check-13-call", &called, 13, 12).finds(&["location 4", "job 2"]).says(&["call 0 at 4"]),
        case("check-13-job-2", check(&two(), &program_c(), 2)).refused(13, 11).finds(&["location 1", "job 1"]),
        case("check-13-job-2-has-none", check(&grid(), &program_a(), 2)).refused(13, 8).finds(&["location 0", "job 1"]),
    ]
}

fn taken() -> Vec<Case> {
    let called = calling(&[function(2, 1, &[])], &[init(0, 0), init(1, 1), call(0, &[0, 1], &[0])]);
    vec![
        of("check-14-init", &only(&[init(0, 3), init(1, 3)]), 14, 11).finds(&["location 3", "slot 0"]).says(&["init 1 3"]),
        of("check-14-argument", &calling(&[function(1, 1, &[init(1, 0)])], &[]), 14, 10).finds(&["parameter 0", "slot 0"]),
        of("check-14-parameter", &calling(&[function(2, 1, &[init(1, 1), magic(2, 1)])], &[]), 14, 13).finds(&["parameter 1", "slot 1"]),
        of("check-14-call", &called, 14, 18).finds(&["location 1", "slot 1"]).says(&["call 0 at 0 1 with 0"]),
    ]
}

fn twice() -> Vec<Case> {
    let locations = calling(&[function(3, 1, &[])], &[init(0, 0), call(0, &[0, 2, 2], &[0])]);
    let slots = calling(&[function(2, 2, &[])], &[init(0, 0), init(1, 1), call(0, &[0, 1], &[0, 0])]);
    let parameters = calling(&[function(2, 0, &[]), function(2, 0, &[call(0, &[1, 1], &[])])], &[]);
    vec![
        of("check-15-merge", &with(&program_a(), &[(19, 0)]), 15, 14).finds(&["slot 0"]).says(&["merge 2 X 0 X 0"]),
        of("check-15-call-location", &locations, 15, 15).finds(&["location 2"]).says(&["call 0 at 0 2 2 with 0"]),
        of("check-15-call-slot", &slots, 15, 18).finds(&["slot 0"]),
        of("check-15-call-parameter", &parameters, 15, 14).finds(&["parameter 1"]),
    ]
}

fn elsewhere() -> Vec<Case> {
    let one = calling(&[function(2, 1, &[])], &[init(2, 4), call(0, &[3, 5], &[2])]);
    let exchanged = calling(&[function(2, 2, &[])], &[init(0, 0), init(1, 1), call(0, &[0, 1], &[1, 0])]);
    let inside = calling(&[function(2, 1, &[]), function(3, 2, &[call(0, &[1, 2], &[0])])], &[]);
    vec![
        of("check-16-elsewhere", &one, 16, 15).finds(&["slot 2", "location 4", "location 3"]).says(&["call 0 at 3 5 with 2"]),
        of("check-16-exchanged", &exchanged, 16, 18).finds(&["slot 1", "location 1", "location 0"]),
        of("check-16-function", &inside, 16, 14).finds(&["slot 0", "parameter 0", "parameter 1"]),
    ]
}

fn outlives() -> Vec<Case> {
    let made = [init(3, 1)];
    let around = |statement: Statement| only(&[init(0, 0), boolean(1, 0), refer(2, 1), statement, free(0)]); // the statement is at 17
    let moves = function(2, 1, &[free(0), init(0, 1)]);
    vec![
        of("check-17-two", &around(when(1, &[init(3, 1), init(4, 2)], &[])), 17, 19).finds(&["slot 3", "location 1", "slot 4", "location 2"]),
        of("check-17-main-leaves-one", &only(&[init(0, 0), boolean(1, 0), when(1, &made, &[])]), 17, 16).finds(&["slot 3", "location 1"]),
        of("check-17-function", &calling(&[function(1, 0, &[init(5, 0)])], &[]), 17, 8).finds(&["slot 5", "parameter 0"]),
        of("check-17-argument-moved", &calling(&[moves], &[]), 17, 8).finds(&["slot 0", "parameter 1"]),
        of("check-17-then", &around(when(1, &made, &[])), 17, 19).finds(&["slot 3", "location 1"]),
        of("check-17-else", &around(when(1, &[], &made)), 17, 21).finds(&["slot 3", "location 1"]),
        of("check-17-loop", &around(repeat(2, &made)), 17, 19).finds(&["slot 3", "location 1"]),
    ]
}

fn differ() -> Vec<Case> {
    let ending = |functions: &[Function], statement: Statement| calling(functions, &[init(0, 0), boolean(1, 0), statement]);
    let two = [init(0, 0), init(1, 2), boolean(2, 0), when(2, &[free(0)], &[free(1)])];
    let inside = function(1, 1, &[boolean(1, 0), when(1, &[free(0)], &[])]);
    vec![
        of("check-18-then", &ending(&[], when(1, &[free(0)], &[])), 18, 14).finds(&["slot 0", "location 0"]).says(&["if 1"]),
        of("check-18-else", &ending(&[], when(1, &[gate(0)], &[free(0)])), 18, 14).finds(&["slot 0", "location 0"]),
        of("check-18-call", &ending(&[losing()], when(1, &[call(0, &[0], &[0])], &[])), 18, 20).finds(&["slot 0", "location 0"]),
        of("check-18-two-slots", &only(&two), 18, 17).finds(&["slot 0", "slot 1"]),
        of("check-18-function", &calling(&[inside], &[]), 18, 13).finds(&["slot 0", "parameter 0"]),
    ]
}

fn loses() -> Vec<Case> {
    let ending = |functions: &[Function], statement: Statement| calling(functions, &[init(0, 0), boolean(1, 0), refer(2, 1), statement]);
    let inside = function(1, 1, &[boolean(1, 0), refer(2, 1), repeat(2, &[free(0)])]);
    vec![
        of("check-19-frees", &ending(&[], repeat(2, &[free(0)])), 19, 17).finds(&["slot 0", "location 0"]).says(&["while 2"]),
        of("check-19-calls", &ending(&[losing()], repeat(2, &[call(0, &[0], &[0])])), 19, 23).finds(&["slot 0", "location 0"]),
        of("check-19-function", &calling(&[inside], &[]), 19, 16).finds(&["slot 0", "parameter 0"]),
    ]
}
