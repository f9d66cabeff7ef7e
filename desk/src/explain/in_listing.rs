//! A text that is no listing: the line at fault, and what is wrong with it where that is one of the common faults.

use super::excerpt::{indent, printable, Excerpt};
use super::lines::Lines;
use super::part::{looks_like, Part};
use super::words::Of;

/// What there is to say of a place of this text.
pub fn said(place: usize, text: &[u8]) -> Part {
    let place = place.min(text.len());
    let number = 1 + text[..place].iter().filter(|&&byte| byte == b'\n').count();
    let lines: Vec<&[u8]> = text.split(|&byte| byte == b'\n').collect();
    let (before, rest) = lines.split_at((number - 1).min(lines.len()));
    let line = rest.first().copied().unwrap_or_default();
    let taken = Lines::taken(before);
    let at_end = place == text.len();
    let found =
        if at_end { taken.missing(text) } else { taken.wrong(line).into_iter().chain(looks_like(text).filter(|_| !text.starts_with(b"program "))).collect() };
    Part {
        at: Some(if at_end { format!("the end of the text, line {number}") } else { format!("line {number}") }),
        line: Some(number),
        statement: Some(printable(line).trim_start().to_string()),
        excerpts: vec![excerpt(&lines, number, at_end)],
        case: Some(if at_end { Of::End } else { Of::Line }),
        found,
        ..Part::default()
    }
}

/// The line and those around it; at the text's end the mark is behind the last letter.
fn excerpt(lines: &[&[u8]], number: usize, at_end: bool) -> Excerpt {
    // behind the last newline there is no line, but where the text ends there
    let line = |i: usize| lines.get(i - 1).filter(|line| i == number || i < lines.len() || !line.is_empty()).map(|line| printable(line));
    Excerpt::around(number, line, |text| match indent(text) {
        _ if at_end => (text.len(), 1),
        spaces if spaces == text.len() => (0, spaces),
        spaces => (spaces, text.len() - spaces),
    })
}
