//! A refusal in a device file: the field at the place and what is in it.

use super::excerpt::Excerpt;
use super::part::{byte, looks_like, Part};
use super::words::Of;
use crate::numbers::{grouped, many};

/// What there is to say of a number at a place of these bytes.
pub fn said(number: u8, place: usize, bytes: &[u8]) -> Part {
    match number {
        1 => short(bytes, Of::Device),
        2 => mark(bytes, Of::Device),
        3 => version(bytes),
        4 if place == 5 => number_of(bytes, place, "n, the number of locations", Of::Locations),
        4 => number_of(bytes, place, "e, the number of edges", Of::Edges),
        5 => length(bytes),
        6 => owner(bytes, place),
        7 => edge(bytes, place),
        _ => Part::default(),
    }
}

/// A file that is too short.
pub fn short(bytes: &[u8], case: Of) -> Part {
    let found = if bytes.is_empty() { "the file is empty".to_string() } else { format!("the file has {}", many(bytes.len(), "byte")) };
    let excerpts = if bytes.is_empty() { vec![] } else { vec![Excerpt::of_bytes(bytes, 0, bytes.len())] };
    Part { at: Some("the whole file".to_string()), excerpts, case: Some(case), found: vec![found], ..Part::default() }
}

/// A file with another mark.
pub fn mark(bytes: &[u8], case: Of) -> Part {
    let hex: Vec<String> = bytes.iter().take(3).map(|byte| format!("{byte:02X}")).collect();
    let found = [format!("the file begins with {}", hex.join(" "))].into_iter().chain(looks_like(bytes)).collect();
    field("the mark".to_string(), bytes, 0, 3, case, found)
}

/// A file of another version.
pub fn version(bytes: &[u8]) -> Part {
    field("the version".to_string(), bytes, 3, 2, Of::Only, vec![format!("the version is {}", word(bytes, 3))])
}

fn number_of(bytes: &[u8], place: usize, name: &str, case: Of) -> Part {
    field(name.to_string(), bytes, place, 2, case, vec![format!("the number is {}", grouped(word(bytes, place) as u128))])
}

fn length(bytes: &[u8]) -> Part {
    let (n, e) = (word(bytes, 5), word(bytes, 7));
    let found = format!("n = {n} and e = {e} ask for {}, and the file has {}", many(9 + n + 2 * e, "byte"), grouped(bytes.len() as u128));
    Part { at: Some("the whole file".to_string()), ..field(String::new(), bytes, 5, 4, Of::Only, vec![found]) }
}

fn owner(bytes: &[u8], place: usize) -> Part {
    let location = format!("location {}", place.saturating_sub(9));
    let found = vec![format!("the byte is {}", byte(at(bytes, place)))];
    Part { values: vec![("{location}", location.clone())], ..field(format!("the owner of {location}"), bytes, place, 1, Of::Only, found) }
}

fn edge(bytes: &[u8], place: usize) -> Part {
    let n = word(bytes, 5);
    let first = 9 + n;
    let number = place.saturating_sub(first) / 2;
    let ends = |place: usize| (usize::from(at(bytes, place)), usize::from(at(bytes, place + 1)));
    let (a, b) = ends(place);
    let before = (place > first).then(|| ends(place - 2));
    let wrong = if a == b {
        "and joins a location to itself".to_string()
    } else if a > b {
        "and has its larger end first".to_string()
    } else if b >= n {
        format!("and the device has {}, from 0 on", many(n, "location"))
    } else {
        match before {
            Some(before) if before == (a, b) => "and so is the edge before it".to_string(),
            Some((c, d)) => format!("and comes after {c} - {d}"),
            None => String::new(),
        }
    };
    field(format!("edge {number}"), bytes, place, 2, Of::Only, vec![format!("edge {number}, counted from 0, is {a} - {b}, {wrong}")])
}

/// A field of so many bytes.
pub fn field(at: String, bytes: &[u8], place: usize, length: usize, case: Of, found: Vec<String>) -> Part {
    Part { at: Some(at), excerpts: vec![Excerpt::of_bytes(bytes, place, length)], case: Some(case), found, ..Part::default() }
}

fn at(bytes: &[u8], place: usize) -> u8 {
    bytes.get(place).copied().unwrap_or(0)
}

/// The number of two bytes at a place.
pub fn word(bytes: &[u8], place: usize) -> usize {
    256 * usize::from(at(bytes, place)) + usize::from(at(bytes, place + 1))
}
