//! The lines of a program's listing, each with the place of its first byte in the file.
//!
//! The text is the library's. Lines stand in the order of the file, so the line of a byte is the last one that begins at or before it.

use crate::program::{Block, Function, Kind};

/// The lines of a listing.
#[derive(Clone, Debug)]
pub struct Listing {
    pub lines: Vec<Line>,
}

/// A line of a listing.
#[derive(Clone, Debug, PartialEq, Eq)]
pub struct Line {
    /// The offset of the first of its bytes in the program file.
    pub at: usize,
    /// The line without its newline.
    pub text: String,
}

impl Listing {
    /// The lines of a listing of this program.
    pub fn of(text: &str, functions: &[Function], main: &Block) -> Listing {
        let mut places = vec![0];
        for function in functions {
            places.push(function.at);
            block_places(&function.body, &mut places);
        }
        places.push(main.at);
        block_places(main, &mut places);
        Listing { lines: text.lines().zip(places).map(|(text, at)| Line { at, text: text.to_string() }).collect() }
    }

    /// The number of the line, from 1, that the byte at this offset belongs to.
    pub fn number(&self, at: usize) -> usize {
        self.lines.iter().take_while(|line| line.at <= at).count().max(1)
    }

    /// The text of the line of this number, without its indent.
    pub fn text(&self, number: usize) -> &str {
        self.lines.get(number.wrapping_sub(1)).map_or("", |line| line.text.trim_start())
    }
}

/// The places of the lines of a block.
fn block_places(block: &Block, places: &mut Vec<usize>) {
    for statement in &block.statements {
        places.push(statement.at);
        match &statement.kind {
            Kind::If { then, otherwise, .. } => {
                block_places(then, places);
                places.push(otherwise.at); // the line of its else
                block_places(otherwise, places);
            }
            Kind::While { body, .. } => block_places(body, places),
            _ => {}
        }
    }
}
