//! The page `docs/FORMAT.md` as data: its dumps by name, its tables by their first line, and numbers out of cells.
//!
//! A dump is a fenced block that begins with `hex` and its name. A line of it has bytes in hex, `;`, the offset of the first of them, `:` and a remark.

use crate::files::unhex;
use std::collections::BTreeMap;
use std::fs;

pub struct Page {
    pub lines: Vec<String>,
    pub dumps: BTreeMap<String, Vec<u8>>,
}

/// A line of a dump, which comes after `before` bytes.
fn dumped(name: &str, line: &str, before: usize) -> Vec<u8> {
    let (bytes, remark) = line.split_once(';').unwrap_or_else(|| panic!("{name}: a line without remark"));
    let (offset, _) = remark.split_once(':').unwrap_or_else(|| panic!("{name}: a remark without offset"));
    assert_eq!(offset.trim(), before.to_string(), "{name}: the offset of a line");
    bytes.split_whitespace().flat_map(unhex).collect()
}

fn dumps(lines: &[String]) -> BTreeMap<String, Vec<u8>> {
    let mut dumps = BTreeMap::new();
    let mut open: Option<(String, Vec<u8>)> = None;
    for line in lines {
        match (open.take(), line.strip_prefix("```")) {
            (None, Some(fence)) => {
                let name = fence.strip_prefix("hex ").expect("every block of the page is a dump with a name");
                open = Some((name.to_string(), Vec::new()));
            }
            (None, None) => {}
            (Some((name, bytes)), Some(_)) => assert!(dumps.insert(name, bytes).is_none(), "no name comes twice"),
            (Some((name, mut bytes)), None) => {
                bytes.extend(dumped(&name, line, bytes.len()));
                open = Some((name, bytes));
            }
        }
    }
    assert!(open.is_none(), "the last dump ends");
    dumps
}

impl Page {
    pub fn read() -> Page {
        let text = fs::read_to_string("docs/FORMAT.md").expect("the page");
        let lines: Vec<String> = text.lines().map(str::to_string).collect();
        Page { dumps: dumps(&lines), lines }
    }

    pub fn dump(&self, name: &str) -> &[u8] {
        self.dumps.get(name).unwrap_or_else(|| panic!("no dump has the name {name}"))
    }

    /// The rows of the table whose first line begins so.
    pub fn table(&self, header: &str) -> Vec<Vec<String>> {
        let starts: Vec<usize> = (0..self.lines.len()).filter(|&i| self.lines[i].starts_with(header)).collect();
        assert_eq!(starts.len(), 1, "one table begins with {header}");
        let lines = self.lines[starts[0]..].iter().take_while(|line| line.starts_with('|'));
        let mut rows: Vec<Vec<String>> = lines.map(|line| cells(line)).collect();
        assert!(rows.iter().all(|row| row.len() == rows[0].len()), "every row of {header} is as wide as its first line");
        rows.split_off(2)
    }

    /// The first two cells of each row.
    pub fn pairs(&self, header: &str) -> Vec<(String, String)> {
        self.table(header).into_iter().map(|row| (row[0].clone(), row[1].clone())).collect()
    }
}

/// The cells of a row of a table, without backquotes.
fn cells(row: &str) -> Vec<String> {
    let row = row.strip_prefix('|').and_then(|row| row.strip_suffix('|')).expect("a row between bars");
    row.split('|').map(|cell| cell.replace('`', "").trim().to_string()).collect()
}

/// A decimal number, with or without commas.
pub fn number(text: &str) -> u64 {
    text.replace(',', "").parse().unwrap_or_else(|_| panic!("{text} is no number"))
}

/// All decimal numbers in a text, those in brackets left out.
pub fn numbers(text: &str) -> Vec<u64> {
    let outside: Vec<&str> = text.split('(').enumerate().map(|(i, part)| if i == 0 { part } else { part.split_once(')').unwrap().1 }).collect();
    let words = outside.iter().flat_map(|part| part.split(|c: char| !c.is_ascii_digit() && c != ','));
    words.map(|word| word.trim_matches(',')).filter(|word| !word.is_empty()).map(number).collect()
}

/// The numbers that stand in brackets.
pub fn bracketed(text: &str) -> Vec<u64> {
    text.split('(').skip(1).map(|part| number(part.split(')').next().unwrap())).collect()
}
