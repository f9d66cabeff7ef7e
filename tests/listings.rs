//! Listings: the library beside the reference, on generated programs to be written and texts to be read.
//!
//! Usage: listings [cases] [seed] [first case]. Stops with 1 at the first difference, or at the end if some kind of text never came to an answer that it can
//! come to. A program is written, and its listing read back, in buffers that just fit, are too short or longer. Of each text beside a listing the whole answer
//! and the buffer are compared, and then what the answer means: a text that is read is what the library writes of the program read; the lines before a fault
//! begin a listing; a text that is at fault at its end becomes a listing by the ending that the reference has for it.

mod by_reference;
mod cases;
mod files;
mod generator;
mod library;
mod lines;
mod reference;

use by_reference::by_reference;
use cases::filled;
use generator::{listing_case, Kind, ListingCase, Random};
use library::{no, number_of, Call, Export, Outcome, EMPTY, LISTING};
use lines::{answer_words, line};
use reference::listing::{ending, listing, program_of, put};
use reference::{pack, Answer, LONGEST_PROGRAM};
use std::time::Duration;

const KINDS: [(Kind, &str); 7] = [
    (Kind::Prefixes, "prefixes"),
    (Kind::Characters, "characters"),
    (Kind::Lines, "lines"),
    (Kind::Room, "room"),
    (Kind::Words, "words"),
    (Kind::Bytes, "bytes"),
    (Kind::Unread, "unread"),
];

/// What a text can come to; 24 in a buffer that is too short.
const ANSWERS: [&str; 4] = ["a listing", "27 at a line", "27 at the end", "24"];

#[derive(Default)]
struct Comparison {
    index: u64,
    calls: usize,
    programs: usize,
    refused_programs: [usize; 11],
    /// How many texts of each kind came to each answer.
    texts: [[usize; ANSWERS.len()]; KINDS.len()],
    slowest: [(Duration, u64); 2],
}

impl Comparison {
    fn stop(&self, lines: &[String]) -> ! {
        println!("listings: case {} differs", self.index);
        for line in lines {
            println!("{line}");
        }
        std::process::exit(1)
    }

    /// The outcome of a call, which must be the reference's.
    fn same(&mut self, call: &Call) -> Outcome {
        self.must_be(call, by_reference(call))
    }

    /// The outcome of a reading, which must be that of the reference's answer in a buffer of this length.
    fn read(&mut self, text: &[u8], answer: &Answer<Vec<u8>>, length: usize) -> Outcome {
        let mut buffer = filled(length);
        let call_buffer = buffer.clone();
        let packed = pack(answer.as_ref().map_err(|refusal| *refusal).and_then(|program| put(program, &mut buffer)).map(|bytes| bytes as u64));
        self.must_be(&Call::read_listing(text, &call_buffer), Outcome { packed, buffers: vec![buffer] })
    }

    fn must_be(&mut self, call: &Call, expected: Outcome) -> Outcome {
        let (found, time) = match call.perform(EMPTY[self.calls % EMPTY.len()]) {
            Ok(found) => found,
            Err(touched) => self.stop(&[line(call, &expected), touched]),
        };
        if found != expected {
            let words = answer_words(call.export, &found).join(" ");
            self.stop(&[line(call, &expected), format!("found {words}, packed {:016x}", found.packed)]);
        }
        self.calls += 1;
        let slowest = &mut self.slowest[usize::from(call.export == Export::ReadListing)];
        *slowest = (*slowest).max((time, self.index));
        found
    }

    /// A program and its listing, both ways, in buffers of several lengths.
    fn program(&mut self, case: &ListingCase) {
        let program = &case.program;
        self.same(&Call::write_listing(program, &case.buffer));
        self.programs += 1;
        let text = match listing(program) {
            Ok(text) => text,
            Err(refusal) => {
                self.refused_programs[usize::from(refusal.number)] += 1;
                self.same(&Call::write_listing(program, &[]));
                return;
            }
        };
        for length in [0, text.len() - 1, text.len(), text.len() + 1, text.len() + 300] {
            self.same(&Call::write_listing(program, &filled(length)));
        }
        let answer = program_of(&text);
        assert_eq!(answer.as_ref(), Ok(program), "the reference's own trip");
        for length in [0, program.len() - 1, program.len(), program.len() + 1, LONGEST_PROGRAM + 1] {
            self.read(&text, &answer, length);
        }
    }

    fn text(&mut self, kind: Kind, text: &[u8]) {
        let expected = program_of(text);
        let found = self.read(text, &expected, LONGEST_PROGRAM);
        let place = (found.packed as u32) as usize;
        let answer = match number_of(found.packed) {
            0 => {
                self.written_again(text, &found.buffers[0][..place]);
                0
            }
            _ if place < text.len() => {
                self.begins(kind, &text[..place]);
                1
            }
            _ => {
                self.ends(text);
                2
            }
        };
        let of_kind = KINDS.iter().position(|&(each, _)| each == kind).expect("a kind of the table");
        self.texts[of_kind][answer] += 1;
        // In a buffer that is too short, which must not be looked at before the text.
        let found = self.read(text, &expected, if answer == 0 { place - 1 } else { text.len() % 8 });
        self.texts[of_kind][3] += usize::from(number_of(found.packed) == 24);
    }

    /// A text that is read is what is written of the program.
    fn written_again(&mut self, text: &[u8], program: &[u8]) {
        let call_buffer = filled(text.len());
        let call = Call::write_listing(program, &call_buffer);
        let found = self.same(&call);
        if found.buffers[0] != text {
            self.stop(&[line(&call, &found), format!("but it was read from {}", files::hex(text))]);
        }
    }

    /// The lines before one that is at fault are a listing or begin one. Those of a listing always are.
    fn begins(&mut self, kind: Kind, lines: &[u8]) {
        let call_buffer = filled(LONGEST_PROGRAM);
        let call = Call::read_listing(lines, &call_buffer);
        let found = self.same(&call);
        if number_of(found.packed) != 0 && found.packed != no(27, lines.len() as u64, LISTING) {
            self.stop(&[line(&call, &found), "but these are the lines before a fault".to_string()]);
        }
        if kind == Kind::Prefixes {
            self.stop(&[line(&call, &found), "but what follows these lines also begins a listing".to_string()]);
        }
    }

    /// A text at fault at its end is read with something behind it.
    fn ends(&mut self, text: &[u8]) {
        let ending = ending(text).expect("an ending of a text that begins a listing");
        let whole = [text, &ending].concat();
        let call_buffer = filled(LONGEST_PROGRAM);
        let call = Call::read_listing(&whole, &call_buffer);
        let found = self.same(&call);
        if number_of(found.packed) != 0 {
            self.stop(&[line(&call, &found), format!("but without its last {} bytes it begins a listing", ending.len())]);
        }
    }

    /// Prints what came up; gives what should have but didn't.
    fn print(&self) -> Vec<String> {
        let mut missing = Vec::new();
        println!("listings: {} programs, {} calls", self.programs, self.calls);
        for number in (1..=10).filter(|number| !matches!(number, 5..=7)) {
            println!("  refused to write, {number:>2} {:>12}", self.refused_programs[number]);
            if self.refused_programs[number] == 0 {
                missing.push(format!("no program was refused for {number}"));
            }
        }
        println!("{:<16}{}", "texts", ANSWERS.map(|answer| format!("{answer:>15}")).join(""));
        for (of_kind, (kind, name)) in KINDS.into_iter().enumerate().filter(|(_, (kind, _))| *kind != Kind::Unread) {
            let counts = self.texts[of_kind];
            println!("{name:<16}{}", counts.map(|count| format!("{count:>15}")).join(""));
            for (answer, count) in counts.iter().enumerate() {
                // What begins a listing is never at fault at a line.
                let never = kind == Kind::Prefixes && answer == 1;
                if *count == 0 && !never {
                    missing.push(format!("no text of the kind {name} came to: {}", ANSWERS[answer]));
                }
            }
        }
        for (name, (time, index)) in ["write", "read"].into_iter().zip(self.slowest) {
            println!("slowest {name:<6}{:>10.3} ms (case {index})", time.as_secs_f64() * 1e3);
        }
        missing
    }
}

fn main() {
    let words: Vec<String> = std::env::args().skip(1).collect();
    let number = |i: usize, otherwise: u64| match words.get(i) {
        Some(word) => word.parse().expect("cases, seed and first case are decimal numbers"),
        None => otherwise,
    };
    let (cases, seed, first) = (number(0, 2_000), number(1, 1), number(2, 0));
    let mut comparison = Comparison::default();
    for index in first..first + cases {
        comparison.index = index;
        let case = listing_case(&mut Random::new(seed, index));
        comparison.program(&case);
        for text in &case.texts {
            comparison.text(case.kind, text);
        }
    }
    let missing = comparison.print();
    println!("{cases} cases, 0 differences");
    for line in &missing {
        println!("{line}");
    }
    std::process::exit(if missing.is_empty() { 0 } else { 1 })
}
