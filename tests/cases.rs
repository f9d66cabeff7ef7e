//! Cases with written answers: each is tried, counted, and printed where the library answers something else.

#![allow(dead_code)]

use crate::files::hex;
use crate::library::{number_of, Call, Outcome, EMPTY};

pub struct Tried {
    name: &'static str,
    cases: usize,
    wrong: usize,
}

/// The first contents of a buffer: no two bytes near each other are equal, and no route, record or map looks like it.
pub fn filled(length: usize) -> Vec<u8> {
    (0..length).map(|i| 0xA0 + (i % 31) as u8).collect()
}

/// The buffer with its first bytes written, the rest as it was.
pub fn written(buffer: &[u8], bytes: &[u8]) -> Vec<u8> {
    [bytes, &buffer[bytes.len()..]].concat()
}

impl Tried {
    pub fn new(name: &'static str) -> Tried {
        Tried { name, cases: 0, wrong: 0 }
    }

    /// A call that must come to this answer and these bytes in its buffers, whatever pointer goes with a length of 0.
    pub fn expect(&mut self, what: &str, call: &Call, packed: u64, buffers: Vec<Vec<u8>>) {
        let expected = Outcome { packed, buffers };
        let fault = EMPTY.iter().find_map(|&empty| match call.perform(empty) {
            Ok((found, _)) if found == expected => None,
            Ok((found, _)) => Some(in_words(&found)),
            Err(touched) => Some(touched),
        });
        self.cases += 1;
        if let Some(fault) = fault {
            self.wrong += 1;
            println!("{}, {what}:\n    expected {}\n    found    {fault}", self.name, in_words(&expected));
        }
    }

    /// A call that must be refused, or accepted with this value, and leave its buffers as they were.
    pub fn untouched(&mut self, what: &str, call: &Call, packed: u64) {
        let buffers = call.buffers.iter().map(|buffer| buffer.to_vec()).collect();
        self.expect(what, call, packed, buffers);
    }

    /// Says how it went and ends the program, with 0 only where nothing was wrong.
    pub fn end(self) -> ! {
        println!("{}: {} cases, {} wrong", self.name, self.cases, self.wrong);
        std::process::exit(if self.wrong == 0 { 0 } else { 1 })
    }
}

fn in_words(outcome: &Outcome) -> String {
    let value = outcome.packed as u32;
    let answer = match number_of(outcome.packed) {
        0 if outcome.packed >> 40 == 0 => format!("value {value}"),
        number => format!("{number} at {value} in file {}", outcome.packed >> 40),
    };
    let buffers: String = outcome.buffers.iter().map(|buffer| format!(" {}", hex(buffer))).collect();
    answer + &buffers
}
