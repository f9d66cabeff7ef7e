//! The desk: what the command `abwakiris` does, over the calls of the proved library.
//!
//! It decides nothing itself. Every verdict that it prints is the library's; what it adds are words, pictures and examples, and an example is shown only
//! after the library has replayed it.

#![forbid(unsafe_code)]

pub mod args;
pub mod commands;
pub mod device;
pub mod explain;
pub mod input;
pub mod json;
pub mod layout;
mod listing;
mod machine;
mod numbers;
mod output;
pub mod page;
pub mod picture;
pub mod program;
mod region;
pub mod replay;
pub mod said;
pub mod svg;
pub mod terminal;
pub mod why;

use said::{Said, Trouble};
use std::ffi::OsString;
use std::io::Write;

/// Does what these words ask for and answers the exit status: 0 accepted, 1 refused, 2 could not try.
pub fn run(words: Vec<OsString>) -> u8 {
    match asked(words) {
        Ok(said) => give(&said),
        Err(Trouble(message)) => {
            // where standard error is closed there is nobody to tell
            let _ = writeln!(std::io::stderr(), "abwakiris: {message}");
            2
        }
    }
}

fn asked(words: Vec<OsString>) -> Result<Said, Trouble> {
    match args::taken(words)? {
        args::Taken::Help(text) => Ok(Said::accepted(text)),
        args::Taken::Asked(asked) => (asked.command.does)(&asked),
    }
}

/// Writes what was said. A reader that goes away early, as `head` does, changes no status; anything else that keeps it from being written does.
fn give(said: &Said) -> u8 {
    let mut error = std::io::stderr();
    for note in &said.notes {
        let _ = writeln!(error, "abwakiris: {note}");
    }
    let mut out = std::io::stdout();
    match out.write_all(&said.out).and_then(|()| out.flush()) {
        Err(wrong) if wrong.kind() != std::io::ErrorKind::BrokenPipe => {
            let _ = writeln!(error, "abwakiris: standard output cannot be written: {}", said::reason(&wrong));
            2
        }
        _ => u8::from(!said.accepted),
    }
}
