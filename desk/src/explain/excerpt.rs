//! The lines of a file around a place, with their numbers and a mark under what the refusal is about.

use crate::listing::Listing;
use std::collections::BTreeSet;
use std::ops::RangeInclusive;

/// Some lines of a file, or some rows of its bytes.
#[derive(Clone, Debug, PartialEq, Eq)]
pub struct Excerpt {
    /// What it shows, where that is not the place itself.
    pub head: Option<String>,
    pub rows: Vec<Row>,
    /// By how much the numbers of neighbours differ.
    step: usize,
}

/// A line of an excerpt.
#[derive(Clone, Debug, PartialEq, Eq)]
pub struct Row {
    /// The number of the line, or the offset of the first byte.
    pub number: usize,
    pub text: String,
    /// The first column and the number of columns of the mark under it.
    pub mark: Option<(usize, usize)>,
}

/// How many lines are shown before a line and after it.
const AROUND: usize = 2;
/// The most other lines that are shown.
const OTHERS: usize = 6;
/// How many bytes a row has.
const BYTES: usize = 16;
/// The most columns of a line that are shown.
const COLUMNS: usize = 120;

impl Excerpt {
    /// A line of a listing with the statement marked, the lines around it, and some others that have to do with it.
    pub fn of_line(listing: &Listing, number: usize, others: &BTreeSet<usize>) -> Excerpt {
        let line = |i: usize| listing.lines.get(i - 1).map(|line| line.text.clone());
        let shown = near(number).chain(others.iter().copied().take(OTHERS)).collect();
        Excerpt::of(shown, number, line, |text| (indent(text), text.len() - indent(text)))
    }

    /// The line of this number, from 1, and the lines around it; its mark by its text.
    pub fn around(number: usize, line: impl Fn(usize) -> Option<String>, mark: impl Fn(&str) -> (usize, usize)) -> Excerpt {
        Excerpt::of(near(number).collect(), number, line, mark)
    }

    /// Lines by their numbers, as far as there are such lines, and the mark of one of them.
    fn of(shown: BTreeSet<usize>, number: usize, line: impl Fn(usize) -> Option<String>, mark: impl Fn(&str) -> (usize, usize)) -> Excerpt {
        let row = |i: usize| line(i).map(|text| Row { number: i, mark: (i == number).then(|| mark(&text)), text });
        Excerpt { head: None, rows: shown.into_iter().filter_map(row).collect(), step: 1 }
    }

    /// The last of these lines, which go before a fault.
    pub fn of_last(lines: &[&str], head: String) -> Excerpt {
        let from = lines.len().saturating_sub(2 * AROUND);
        let rows = lines.iter().enumerate().skip(from).map(|(i, text)| Row { number: i + 1, text: (*text).to_string(), mark: None });
        Excerpt { head: Some(head), rows: rows.collect(), step: 1 }
    }

    /// The bytes at a place in hex, so many of them marked, after the row before. The place may be the end, where the next byte would stand.
    pub fn of_bytes(bytes: &[u8], place: usize, marked: usize) -> Excerpt {
        let start = place.min(bytes.len()) / BYTES * BYTES;
        let row = |first: usize| {
            let after = bytes.len().min(first + BYTES);
            let text: Vec<String> = bytes[first..after].iter().map(|byte| format!("{byte:02X}")).collect();
            let mark = (first == start).then(|| mark(place - start, marked, (after - first).max(place - start + 1)));
            Row { number: first, text: text.join(" "), mark }
        };
        Excerpt { head: None, rows: start.checked_sub(BYTES).into_iter().chain([start]).map(row).collect(), step: BYTES }
    }

    /// How wide its numbers are.
    pub fn width(&self) -> usize {
        self.rows.iter().map(|row| row.number.to_string().len()).max().unwrap_or(1)
    }

    /// The lines of it, beside numbers of this width.
    pub fn drawn(&self, width: usize) -> String {
        let mut text = String::new();
        if let Some(head) = &self.head {
            text.push_str(&format!("{:width$} |\n{:width$}::: {head}\n", "", ""));
        }
        text.push_str(&format!("{:width$} |\n", ""));
        for (i, row) in self.rows.iter().enumerate() {
            if i > 0 && self.rows[i - 1].number + self.step != row.number {
                text.push_str("...\n");
            }
            text.push_str(&format!("{:width$} | {}", row.number, cut(&row.text)));
            text.truncate(text.trim_end_matches(' ').len());
            text.push('\n');
            if let Some((column, length)) = row.mark {
                let (column, length) = (column.min(COLUMNS), length.clamp(1, COLUMNS));
                text.push_str(&format!("{:width$} | {:column$}{}\n", "", "", "^".repeat(length)));
            }
        }
        text
    }
}

/// The numbers of the lines around one.
fn near(number: usize) -> RangeInclusive<usize> {
    number.saturating_sub(AROUND).max(1)..=number + AROUND
}

/// The columns of a mark under so many bytes from the i-th on, of a row that has room for so many.
fn mark(i: usize, marked: usize, room: usize) -> (usize, usize) {
    let marked = marked.max(1).min(room - i);
    (3 * i, 3 * marked - 1)
}

/// How many spaces a line begins with.
pub fn indent(text: &str) -> usize {
    text.len() - text.trim_start_matches(' ').len()
}

/// A line that is not too long to be read.
fn cut(text: &str) -> String {
    if text.len() <= COLUMNS {
        return text.to_string();
    }
    format!("{} ..", text.chars().take(COLUMNS).collect::<String>())
}

/// Bytes as one line of ASCII, as far as it is read: what cannot be printed is shown by its number.
pub fn printable(bytes: &[u8]) -> String {
    let letter = |byte: u8| if (b' '..=b'~').contains(&byte) { char::from(byte).to_string() } else { std::ascii::escape_default(byte).to_string() };
    cut(&bytes.iter().take(2 * COLUMNS).map(|&byte| letter(byte)).collect::<String>())
}
