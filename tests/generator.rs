//! Seeded cases for the calls.
//!
//! Programs are first built as trees (statements with their nested blocks), so that damage can
//! be done at the level where it is wanted: in a tree that still encodes to a readable file, to
//! come deep into typing and steps, or in the encoded bytes, to come deep into reading.
//!
//! Most programs built here know what they must be answered: 0 when made to be accepted, or the
//! number of the one fault that was put in on purpose. The reference serves as a guide in two
//! places only: to thin out merges that have no path, and to know a route's length when the
//! length of a buffer is chosen.
//!
//! One case in five is of random bytes.
//!
//! Each part says in its header what it makes. A call in `cases` is given files from `devices` and `programs` and the rest from `inputs`.

#![allow(dead_code, unused_imports)] // a test may take some of the cases only

// What all parts draw from.
mod random;
mod sizes;

// Devices and their files.
mod device_damage;
mod devices;

// Programs and their files.
mod byte_damage;
mod corridors;
mod limits;
mod listed;
mod made;
mod programs;
mod tree_damage;
mod trees;
mod typed;
mod wild;

// Calls and what they are given.
mod cases;
mod inputs;
mod listings;
mod random_bytes;
mod texts;

pub use cases::{case, Case};
pub use listings::{listing_case, Kind, ListingCase};
pub use random::Random;
pub use random_bytes::case as random_case;
