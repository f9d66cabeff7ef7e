//! Texts of 10 MB, and the largest listing both ways: answered as written here and by the reference, within a second. The least of several tries counts.

mod by_reference;
mod files;
mod generator;
mod library;
mod reference;

use by_reference::by_reference;
use files::*;
use generator::Random;
use library::{no, Call, EMPTY, LISTING};
use reference::listing::{listing, LONGEST_LISTING};
use reference::LONGEST_PROGRAM;
use std::time::Duration;

const LENGTH: usize = 10_000_000;
const MOST: Duration = Duration::from_secs(1);
const TRIES: usize = 3;

/// How many were too slow.
struct Timed {
    slow: usize,
}

impl Timed {
    /// A call that must answer this, and what the reference answers and writes, in time.
    fn call(&mut self, what: &str, call: &Call, answer: u64) {
        let expected = by_reference(call);
        assert_eq!(expected.packed, answer, "by the reference: {what}");
        let time = |i: usize| {
            let (found, time) = call.perform(EMPTY[i % EMPTY.len()]).expect("nothing else is touched");
            assert_eq!(found.packed, answer, "{what}");
            assert!(found == expected, "{what}: another buffer than the reference's");
            time
        };
        let least = (0..TRIES).map(time).min().expect("a try");
        let verdict = if least > MOST { ": TOO SLOW" } else { "" };
        println!("long texts: {:>9.3} ms of {}, {what}{verdict}", least.as_secs_f64() * 1e3, MOST.as_millis());
        self.slow += usize::from(least > MOST);
    }

    /// A text that is refused at this place.
    fn refused(&mut self, what: &str, text: &[u8], place: usize) {
        self.call(what, &Call::read_listing(text, &[0xAA; LONGEST_PROGRAM]), no(27, place as u64, LISTING));
    }

    /// A program whose listing has so many bytes, written and read back.
    fn both_ways(&mut self, what: &str, program: &[u8], length: usize) {
        let text = listing(program).expect("a program that reads");
        self.call(&format!("{what}, written"), &Call::write_listing(program, &[0xAA; LONGEST_LISTING]), length as u64);
        self.call(&format!("{what}, read"), &Call::read_listing(&text, &[0xAA; LONGEST_PROGRAM]), program.len() as u64);
        let begun = &text[..text.len() - 1];
        self.refused(&format!("{what}, without its last newline"), begun, begun.len());
        let more = [&text[..], b"  free 0\n"].concat();
        self.refused(&format!("{what}, with a line more"), &more, text.len());
    }
}

/// The text, and the piece behind it again and again up to 10 MB.
fn behind(text: &str, piece: &str) -> Vec<u8> {
    text.bytes().chain(piece.bytes().cycle()).take(LENGTH).collect()
}

fn long_texts(timed: &mut Timed) {
    for (what, piece) in [("a", "a"), ("spaces", " "), ("newlines", "\n"), ("digits", "1234567890"), ("zero bytes", "\0"), ("lines `main`", "main\n")] {
        timed.refused(&format!("10 MB of {what}"), &behind("", piece), 0);
    }
    timed.refused("10 MB of random bytes", &Random::new(1, 0).bytes(LENGTH), 0);
    timed.refused("10 MB of lines `program 1`", &behind("", "program 1\n"), 10);
    for (what, piece) in [("a", "a"), ("spaces", " "), ("newlines", "\n"), ("digits", "1234567890"), ("zeros", "0"), ("`  free 0 `", "  free 0 ")] {
        timed.refused(&format!("main and 10 MB of {what}"), &behind("program 1\nmain\n", piece), 15);
        timed.refused(&format!("`  free ` and 10 MB of {what}"), &behind("program 1\nmain\n  free ", piece), 15);
    }
    let random = [b"program 1\nmain\n", &Random::new(1, 1).bytes(LENGTH)[..]].concat();
    timed.refused("main and 10 MB of random bytes", &random, 15);
}

/// Lines that are right but for the room: 4,088 bytes are left for the statements of main, 4,084 for those of a function.
fn too_many_lines(timed: &mut Timed) {
    let frees = behind("program 1\nmain\n", "  free 0\n");
    timed.refused("10 MB of lines `  free 0`", &frees, 15 + 9 * (4_088 / 2));
    let head = "program 1\nfunction 0 locations 0 arguments 0\n";
    timed.refused("10 MB of lines `  free 0` in a function", &behind(head, "  free 0\n"), head.len() + 9 * (4_084 / 2));
    let ifs = behind("program 1\nmain\n", "  if 0\n  else\n");
    timed.refused("10 MB of lines `  if 0` and `  else`", &ifs, 15 + 14 * (4_088 / 6));
    // Seven whiles take 4 bytes each. What is left is filled by frees in the deepest block.
    let whiles: String = (1..8).map(|depth| format!("{}while 0\n", "  ".repeat(depth))).collect();
    let deep = format!("program 1\nmain\n{whiles}");
    timed.refused("10 MB of lines `free 0` at depth 8", &behind(&deep, "                free 0\n"), deep.len() + 23 * (4_060 / 2));
    timed.refused("10 MB of lines `while 0` at depth 8", &behind(&deep, "                while 0\n"), deep.len());
    // A line that never ends is looked at for each open block, and as a function and as main.
    let open = format!("{head}{whiles}");
    for piece in ["a", "1234567890", " "] {
        timed.refused(&format!("eight blocks open and 10 MB of {piece}"), &behind(&open, piece), open.len());
    }
    let functions: String = (0..15).map(|i| format!("function {i} locations 0 arguments 0\n")).collect();
    let all = format!("program 1\n{functions}");
    timed.refused("fifteen functions and 10 MB of more", &behind(&all, "function 15 locations 0 arguments 0\n"), all.len());
    let empty = format!("{all}main\n");
    let calls = behind(&empty, "  call 10\n");
    timed.refused("10 MB of calls of the eleventh of fifteen functions", &calls, empty.len() + 10 * ((4_088 - 60) / 4));
}

/// The longest listing: frees of a slot of two digits in the deepest block.
fn largest(timed: &mut Timed) {
    let deepest = (0..7).fold(vec![free(31); 2_030].concat(), |inner, _| repeat(31, &[inner]));
    let program = only(&[deepest]);
    assert_eq!(program.len(), LONGEST_PROGRAM);
    timed.both_ways("the largest listing", &program, 15 + 7 * (2 * 4 + 9) + 24 * 2_030);
    // 28 bytes each: the longest line.
    let locations: Vec<u8> = (0..16).map(|i| 240 + i).collect();
    let wide = call(14, &locations, &[31; 8]);
    let functions = vec![function(16, 8, &[]); 15];
    let program = calling(&functions, &[vec![wide; (4_088 - 60) / 28], vec![free(31); 12]].concat());
    let text = listing(&program).expect("a program that reads");
    assert!(program.len() == LONGEST_PROGRAM, "{}", program.len());
    timed.both_ways("calls of 24 operands", &program, text.len());
}

fn main() {
    let mut timed = Timed { slow: 0 };
    long_texts(&mut timed);
    too_many_lines(&mut timed);
    largest(&mut timed);
    std::process::exit(if timed.slow == 0 { 0 } else { 1 })
}
