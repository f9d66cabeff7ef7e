//! `check` of files that are no program: 1 to 4 and 8 to 10.

use super::{case, Case};
use crate::files::*;
use crate::question::check;

fn of(name: &'static str, program: &[u8], number: u8, place: u32) -> Case {
    case(name, check(&grid(), program, 1)).refused(number, place)
}

/// A file with this many functions and these bytes behind.
fn behind(functions: u8, bytes: &[u8]) -> Vec<u8> {
    [b"QLS\0\x01", &[functions][..], bytes].concat()
}

pub fn cases() -> Vec<Case> {
    [headers(), fit(), statements(), operands(), operands_of_calls()].into_iter().flatten().collect()
}

fn headers() -> Vec<Case> {
    let a = program_a();
    let headed = |headers: &[(u8, u8)]| program(&headers.iter().map(|&(k, m)| (k, m, vec![])).collect::<Vec<_>>(), &[]);
    vec![
        of("check-01-program-empty", &[], 1, 0).finds(&["empty"]),
        of("check-01-program-short", &a[..7], 1, 0).finds(&["7"]),
        of("check-02-program-is-a-device", &grid(), 2, 0).finds(&["51 4C 47", "device"]).says(&["QLS"]),
        of("check-03-program", &with(&a, &[(3, 1)]), 3, 3).finds(&["257"]),
        of("check-04-program-length", &[&a[..], &[0; 4_073]].concat(), 4, 0).finds(&["4097"]).says(&["4096"]),
        of("check-04-program-functions", &with(&only(&[]), &[(5, 16)]), 4, 5).finds(&["16"]).says(&["15"]),
        of("check-04-function-locations", &headed(&[(17, 0)]), 4, 6).finds(&["17"]).says(&["function 0", "16"]),
        of("check-04-function-arguments", &headed(&[(9, 9)]), 4, 7).finds(&["9"]).says(&["function 0", "8"]),
        of("check-04-function-more-arguments", &headed(&[(1, 2)]), 4, 7).finds(&["2", "1"]).says(&["function 0"]),
        of("check-04-function-second", &headed(&[(0, 0), (17, 0)]), 4, 10).finds(&["17"]).says(&["function 1"]),
        of("check-04-depth", &only(&[nested(8)]), 4, 38).finds(&["9"]).says(&["8"]),
    ]
}

fn fit() -> Vec<Case> {
    let branched = only(&[when(1, &[free(0)], &[])]);
    let listed = program(&[(2, 0, vec![])], &[12, 0, 2, 0, 5]);
    vec![
        of("check-08-after-main", &[only(&[]), vec![0]].concat(), 8, 8),
        of("check-08-function-header", &behind(2, &[0, 0, 0, 0, 0]), 8, 10).finds(&["function 1"]),
        of("check-08-function-body", &behind(1, &[0, 0]), 8, 8).says(&["function 0"]),
        of("check-08-main-missing", &behind(1, &[0, 0, 0, 0]), 8, 10).says(&["the length word of main"]),
        of("check-08-main-longer", &with(&program_a(), &[(7, 17)]), 8, 6).finds(&["17", "16"]),
        of("check-08-block-longer", &with(&branched, &[(11, 9)]), 8, 10).finds(&["9"]),
        of("check-08-statement-cut", &program(&[], &[1, 0]), 8, 8).finds(&["init"]),
        of("check-08-call-list-cut", &listed, 8, 12).finds(&["call"]),
    ]
}

fn statements() -> Vec<Case> {
    let inside = function(0, 0, &[boolean(0, 0), when(0, &[vec![99]], &[])]);
    vec![
        of("check-09-main", &only(&[free(0), vec![14]]), 9, 10).finds(&["14"]).says(&["13"]),
        of("check-09-zero", &only(&[vec![0]]), 9, 8).finds(&["0"]),
        of("check-09-function", &calling(&[inside], &[]), 9, 17).finds(&["99"]),
    ]
}

fn operands() -> Vec<Case> {
    vec![
        of("check-10-slot", &only(&[free(32)]), 10, 9).finds(&["32"]).says(&["31"]),
        of("check-10-gate", &only(&[vec![4, 4, 0]]), 10, 9).finds(&["4"]).says(&["3"]),
        of("check-10-basis", &only(&[init(0, 0), vec![5, 1, 2, 0]]), 10, 13).finds(&["2"]),
        of("check-10-value", &only(&[boolean(0, 2)]), 10, 10).finds(&["2"]),
        of("check-10-parameter", &calling(&[function(2, 0, &[init(0, 2)])], &[]), 10, 12).finds(&["2"]).says(&["function 0"]),
        of("check-10-parameter-of-none", &calling(&[function(0, 0, &[magic(0, 0)])], &[]), 10, 12).finds(&["0"]),
    ]
}

fn operands_of_calls() -> Vec<Case> {
    let callee = || function(2, 1, &[]); // main's first statement is at 12
    let main = |statement: Statement| calling(&[callee()], &[statement]);
    vec![
        of("check-10-callee-none", &only(&[call(0, &[], &[])]), 10, 9).finds(&["0"]),
        of("check-10-callee-itself", &calling(&[function(0, 0, &[call(0, &[], &[])])], &[]), 10, 11).finds(&["function 0"]),
        of("check-10-callee-later", &main(call(1, &[0, 1], &[0])), 10, 13).finds(&["1"]),
        of("check-10-callee-locations", &main(call(0, &[0], &[0])), 10, 14).finds(&["1", "2"]),
        of("check-10-callee-arguments", &main(call(0, &[0, 1], &[])), 10, 15).finds(&["0", "1"]),
        of("check-10-call-slot", &main(call(0, &[0, 1], &[32])), 10, 18).finds(&["32"]),
        of("check-10-call-parameter", &calling(&[callee(), function(1, 1, &[call(0, &[0, 3], &[0])])], &[]), 10, 19).finds(&["3"]).says(&["function 1"]),
    ]
}
