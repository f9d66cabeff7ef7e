//! `list` and `unlist`: both ways, and what is refused.

use super::given::*;
use super::{case, Case};
use crate::files::*;
use crate::question::{list, unlist};

const A: &str = "program 1\nmain\n  init 0 0\n  init 1 2\n  merge 2 X 0 X 1\n  free 0\n  free 1\n";

pub fn cases() -> Vec<Case> {
    [lists(), unlists(), refused()].into_iter().flatten().collect()
}

fn lists() -> Vec<Case> {
    vec![
        case("list", list(&program_a())).says(&[A]),
        case("list-empty", list(&only(&[]))).says(&["program 1\nmain\n"]),
        case("list-every-kind", list(&program_d())).says(&["function 1 locations 2 arguments 1\n  magic 1 1\n  merge 2 Z 0 Z 1\n  call 0 at 1 with 1\n"]),
        case("list-to-a-file", list(&program_a()).with(&["-o", "listing"])).writes("listing"),
        case("list-10", list(&only(&[free(32)]))).refused(10, 9).finds(&["32"]),
        case("list-02", list(A.as_bytes())).refused(2, 0),
    ]
}

fn unlists() -> Vec<Case> {
    let listed = |program: &[u8]| abwakiris::write_listing(program).expect("a program that reads").into_bytes();
    vec![
        case("unlist", unlist(A.as_bytes())),
        case("unlist-to-a-file", unlist(A.as_bytes()).with(&["-o", "program"])).writes("program"),
        case("unlist-every-kind", unlist(&listed(&program_d())).with(&["-o", "program"])).writes("program"),
    ]
}

/// Texts of `docs/listing.md`.
fn refused() -> Vec<Case> {
    let of = |name: &'static str, text: &str, place: u32| case(name, unlist(text.as_bytes())).refused(27, place);
    vec![
        of("unlist-27-empty", "", 0),
        of("unlist-27-version", "program 2\n", 0).says(&["program 2"]),
        of("unlist-27-main-missing", "program 1\n", 10),
        of("unlist-27-function-number", "program 1\nfunction 1 locations 0 arguments 0\n", 10),
        of("unlist-27-main-twice", "program 1\nmain\n  free 0\nmain\n", 24),
        of("unlist-27-slot", "program 1\nmain\n  free 32\n", 15).says(&["free 32"]),
        of("unlist-27-zero", "program 1\nmain\n  free 07\n", 15),
        of("unlist-27-space-at-end", "program 1\nmain\n  free 0 \n", 15),
        of("unlist-27-indent", "program 1\nmain\n    free 0\n", 15),
        of("unlist-27-empty-line", "program 1\nmain\n\n", 15),
        of("unlist-27-tab", "program 1\nmain\n\tfree 0\n", 15),
        of("unlist-27-carriage-return", "program 1\r\nmain\r\n", 0),
        of("unlist-27-unknown-word", "program 1\nmain\n  init 0 0\n  swap 0 1\n  free 0\n", 26).says(&["swap 0 1"]),
        of("unlist-27-callee", "program 1\nmain\n  call 0\n", 15),
        of("unlist-27-newline-missing", "program 1\nmain\n  free 0", 23),
        of("unlist-27-else-missing", "program 1\nmain\n  if 0\n", 22),
        of("unlist-27-else-elsewhere", "program 1\nmain\n  if 0\n  free 1\n", 22),
        of("unlist-27-not-ascii", "program 1\nmain\n  fr\u{e9}e 0\n", 15),
        case("unlist-27-bytes", unlist(&program_a())).refused(27, 0),
    ]
}
