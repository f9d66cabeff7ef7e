//! Cases about listings: a program file, and texts to be read that stand beside its listing in one way or another.

use super::byte_damage::damage_bytes;
use super::inputs::{around, filled};
use super::listed::listed_program;
use super::random::Random;
use super::random_bytes::program_file;
use super::sizes::{size, Size};
use super::texts;
use crate::reference::listing::listing;

#[derive(Clone, Copy, PartialEq, Eq)]
pub enum Kind {
    Prefixes,
    Characters,
    Lines,
    Room,
    Words,
    Bytes,
    /// A program that may not read; no texts.
    Unread,
}

pub struct ListingCase {
    pub kind: Kind,
    pub program: Vec<u8>,
    pub texts: Vec<Vec<u8>>,
    /// A buffer, to be tried beside those that just fit.
    pub buffer: Vec<u8>,
}

pub fn listing_case(random: &mut Random) -> ListingCase {
    let kind = random.pick(&[Kind::Prefixes, Kind::Characters, Kind::Lines, Kind::Lines, Kind::Room, Kind::Words, Kind::Bytes, Kind::Unread]);
    let size = if kind == Kind::Room && random.one_in(6) { Size::Limit } else { size(random) };
    if kind == Kind::Unread {
        return ListingCase { kind, program: unread(random, size), texts: Vec::new(), buffer: buffer(random, 200) };
    }
    let less = random.pick(&[0, 0, 1, 2, 3, 4, 5, 6, 7, 10]);
    let (program, _) = listed_program(random, size, less).encode();
    let listing = listing(&program).expect("a program that reads");
    let texts = match kind {
        Kind::Prefixes => texts::prefixes(random, &listing),
        Kind::Characters => texts::characters(random, &listing),
        Kind::Lines => texts::lines(random, &listing),
        Kind::Room => texts::room(random, &listing),
        Kind::Words => texts::words(random),
        _ => texts::bytes(random),
    };
    ListingCase { kind, program, texts, buffer: buffer(random, listing.len()) }
}

/// A program file that is damaged or random; few of them read.
fn unread(random: &mut Random, size: Size) -> Vec<u8> {
    if random.one_in(3) {
        return program_file(random);
    }
    let less = random.pick(&[0, 0, 1, 2]);
    let program = listed_program(random, size, less);
    let (mut bytes, marks) = program.encode();
    damage_bytes(random, &program, &mut bytes, &marks);
    bytes
}

/// A buffer about as long as needed.
fn buffer(random: &mut Random, needed: usize) -> Vec<u8> {
    let length = around(random, needed);
    filled(random, length)
}

/// A program to be written, and a buffer for its listing.
pub(super) fn write_case(random: &mut Random) -> (Vec<u8>, Vec<u8>) {
    let size = size(random);
    let program = if random.one_in(3) { unread(random, size) } else { listed_program(random, size, 0).encode().0 };
    let needed = listing(&program).map_or(40, |listing| listing.len());
    let buffer = buffer(random, needed);
    (program, buffer)
}

/// A text to be read, and a buffer for its program.
pub(super) fn read_case(random: &mut Random) -> (Vec<u8>, Vec<u8>) {
    let size = size(random);
    let (program, _) = listed_program(random, size, 0).encode();
    let listing = listing(&program).expect("a program that reads");
    let text = match random.below(6) {
        0 => texts::lines(random, &listing).swap_remove(0),
        1 => texts::words(random).swap_remove(0),
        2 => texts::bytes(random).swap_remove(0),
        3 => listing[..random.below(listing.len() + 1)].to_vec(),
        _ => listing,
    };
    let buffer = buffer(random, program.len());
    (text, buffer)
}
