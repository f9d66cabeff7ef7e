//! A program that does not read: the field where reading stops, and its listing as far as it reads.
//!
//! The verdict is the library's. This reader goes over the bytes as `docs/FORMAT.md` has them and puts together again what it has read, with its open blocks
//! closed, for the library to list. Where it stops elsewhere than the library, nothing is said.

use super::excerpt::Excerpt;
use super::in_device::{field, mark, short, version, word};
use super::part::{byte, looks_like, Part};
use super::words::Of;
use crate::numbers::many;
use abwakiris::{write_listing, MOST_PROGRAM_BYTES};

/// What there is to say of a number at a place of these bytes.
pub fn said(number: u8, place: usize, bytes: &[u8]) -> Part {
    let mut reader = Reader { bytes, at: 6, functions: vec![], body: String::new(), locations: 0, out: vec![], lines: 1 };
    match reader.program() {
        Err(stop) if (stop.number, stop.place) == (number, place) => {
            let mut part = stop.part;
            part.excerpts.extend(reader.listing());
            part
        }
        _ => Part::default(),
    }
}

/// Where reading stops, and what is to be said there.
struct Stop {
    number: u8,
    place: usize,
    part: Part,
}

type Read<T> = Result<T, Box<Stop>>;

struct Reader<'a> {
    bytes: &'a [u8],
    at: usize,
    /// The k and the m of the functions that are read.
    functions: Vec<(u8, u8)>,
    /// The body that is being read, and the location bytes that it may have.
    body: String,
    locations: usize,
    /// The functions that are begun and main, with their open blocks closed where reading stops, and the lines that they have.
    out: Vec<u8>,
    lines: usize,
}

/// The most functions of a program; this and the others are the limits of `docs/FORMAT.md`.
pub const MOST_FUNCTIONS: usize = 15;
const MOST_PARAMETERS: u8 = 16;
const MOST_ARGUMENTS: u8 = 8;
/// The deepest block.
pub const DEEPEST: usize = 8;
const SLOTS: usize = 32;

/// An operand in words, by the case of 10 that is about it.
const fn words(operand: Of) -> &'static str {
    match operand {
        Of::Slot => "a slot",
        Of::Location => "a location",
        Of::Gate => "the gate",
        Of::Basis => "a basis",
        Of::Value => "the value",
        Of::Callee => "the function",
        Of::CalleeParameters => "k, the number of locations",
        _ => "m, the number of slots",
    }
}

/// The name and the operands of each kind of statement, from 1 on.
const FORMS: [(&str, &[Of]); 13] = [
    ("init", &[Of::Slot, Of::Location]),
    ("magic", &[Of::Slot, Of::Location]),
    ("free", &[Of::Slot]),
    ("gate", &[Of::Gate, Of::Slot]),
    ("measure", &[Of::Slot, Of::Basis, Of::Slot]),
    ("merge", &[Of::Slot, Of::Basis, Of::Slot, Of::Basis, Of::Slot]),
    ("ref", &[Of::Slot, Of::Slot]),
    ("get", &[Of::Slot, Of::Slot]),
    ("set", &[Of::Slot, Of::Slot]),
    ("if", &[Of::Slot]),
    ("while", &[Of::Slot]),
    ("call", &[Of::Callee, Of::CalleeParameters, Of::CalleeArguments]),
    ("bool", &[Of::Slot, Of::Value]),
];
const IF: u8 = 10;
const WHILE: u8 = 11;
const CALL: u8 = 12;

impl Reader<'_> {
    fn program(&mut self) -> Read<()> {
        let bytes = self.bytes;
        if bytes.len() < 8 {
            return stop(1, 0, short(bytes, Of::Program));
        }
        if bytes.len() > MOST_PROGRAM_BYTES {
            let found = [format!("the file has {}", many(bytes.len(), "byte"))].into_iter().chain(looks_like(bytes).filter(|_| !bytes.starts_with(b"QLS")));
            return stop(4, 0, Part { at: Some("the whole file".to_string()), case: Some(Of::Length), found: found.collect(), ..Part::default() });
        }
        if !bytes.starts_with(b"QLS") {
            return stop(2, 0, mark(bytes, Of::Program));
        }
        if word(bytes, 3) != 1 {
            return stop(3, 3, version(bytes));
        }
        let f = usize::from(bytes[5]);
        if f > MOST_FUNCTIONS {
            return self.stop(4, 5, 1, "f, the number of functions".to_string(), Of::Functions, format!("the number is {f}"));
        }
        for number in 0..f {
            self.function(number)?;
        }
        self.body = "main".to_string();
        self.locations = 256;
        self.lines += 1;
        self.block(bytes.len(), 1, "main", "the file")?;
        if self.at < bytes.len() {
            let found = format!("main ends at {}, and the file has {}", self.at, many(bytes.len(), "byte"));
            return self.stop(8, self.at, bytes.len() - self.at, "the first byte after main".to_string(), Of::After, found);
        }
        Ok(())
    }

    fn function(&mut self, number: usize) -> Read<()> {
        let at = self.at;
        self.body = format!("function {number}");
        let header = match self.bytes.get(at..at + 2) {
            Some(header) => (header[0], header[1]),
            None => {
                let left = many(self.bytes.len().saturating_sub(at), "byte");
                let found = format!("by f there are {}, and the file has {left} left for function {number}", many(usize::from(self.bytes[5]), "function"));
                return self.stop(8, at, 2, format!("the header of function {number}"), Of::Header, found);
            }
        };
        let (k, m) = header;
        if k > MOST_PARAMETERS {
            let name = format!("k, the number of location parameters of function {number}");
            return self.stop(4, at, 1, name, Of::Parameters, format!("the number is {k}"));
        }
        if m > MOST_ARGUMENTS || m > k {
            let name = format!("m, the number of arguments of function {number}");
            return self.stop(4, at + 1, 1, name, Of::Arguments, format!("m is {m}, and k is {k}"));
        }
        self.out.extend([k, m]);
        self.lines += 1;
        self.locations = usize::from(k);
        self.at += 2;
        let name = format!("function {number}");
        // what is put together has a function more from here on, read or not
        let read = self.block(self.bytes.len(), 1, &name, "the file");
        self.functions.push(header);
        read
    }

    /// A block of this name, which must end within what is around it.
    fn block(&mut self, end: usize, depth: usize, name: &str, around: &str) -> Read<()> {
        let length_word = self.out.len();
        self.out.extend([0, 0]);
        let read = self.statements(end, depth, name, around);
        let length = (self.out.len() - length_word - 2) as u16;
        self.out[length_word..length_word + 2].copy_from_slice(&length.to_be_bytes());
        read
    }

    fn statements(&mut self, end: usize, depth: usize, name: &str, around: &str) -> Read<()> {
        let at = self.at;
        let left = end.saturating_sub(at);
        let field = format!("the length word of {name}");
        if left < 2 {
            return self.stop(8, at, left, field, Of::Block, format!("a length word has 2 bytes, and {around} has {left} left"));
        }
        if depth > DEEPEST {
            return self.stop(4, at, 2, field, Of::Depth, format!("this block is {depth} deep"));
        }
        let length = word(self.bytes, at);
        if length > left - 2 {
            return self.stop(8, at, 2, field, Of::Block, format!("the length is {length}, and {around} has {} left", many(left - 2, "byte")));
        }
        self.at += 2;
        let end = self.at + length;
        while self.at < end {
            self.statement(end, depth)?;
        }
        Ok(())
    }

    fn statement(&mut self, end: usize, depth: usize) -> Read<()> {
        let (at, left) = (self.at, end - self.at);
        let kind = self.bytes[at];
        let form = usize::from(kind).checked_sub(1).and_then(|kind| FORMS.get(kind));
        let (name, operands) = match form {
            Some(&(name, operands)) => (name, operands),
            None => {
                let field = format!("the first byte of a statement in {}", self.body);
                return self.stop(9, at, 1, field, Of::Only, format!("the byte is {}", byte(kind)));
            }
        };
        let size = 1 + operands.len();
        if size > left {
            let field = format!("{name}, a statement in {}", self.body);
            return self.stop(8, at, left, field, Of::Statement, format!("{name} has {size} bytes, and its block has {left} left"));
        }
        for (i, &operand) in operands.iter().enumerate() {
            self.operand(at + 1 + i, operand, || format!("operand {} of {name}, {}", i + 1, words(operand)))?;
        }
        self.at += size;
        if kind == CALL {
            self.list(at, end)?;
        }
        self.lines += 1;
        self.out.extend(&self.bytes[at..self.at]);
        self.blocks(kind, at, end, depth)
    }

    /// The blocks of an if or a while.
    fn blocks(&mut self, kind: u8, at: usize, end: usize, depth: usize) -> Read<()> {
        let (length, lines) = (self.out.len(), self.lines);
        let around = "the block around it";
        let read = match kind {
            IF => {
                let first = self.block(end, depth + 1, &format!("the first block of the if at {at}"), around);
                if first.is_err() {
                    self.out.extend([0, 0]); // a listing has both blocks
                    first
                } else {
                    self.lines += 1; // its else
                    self.block(end, depth + 1, &format!("the second block of the if at {at}"), around)
                }
            }
            WHILE => self.block(end, depth + 1, &format!("the block of the while at {at}"), around),
            _ => Ok(()),
        };
        if read.is_err() && depth == DEEPEST {
            // no listing has this statement
            self.out.truncate(length - 2);
            self.lines = lines - 1;
        }
        read
    }

    /// The locations and slots of the call at a place, whose operands are read.
    fn list(&mut self, at: usize, end: usize) -> Read<()> {
        let (k, m) = (usize::from(self.bytes[at + 2]), usize::from(self.bytes[at + 3]));
        let left = end - self.at;
        if k + m > left {
            let found = format!("the call has {} and {}, and its block has {} left", many(k, "location"), many(m, "slot"), many(left, "byte"));
            return self.stop(8, at, end - at, format!("call, a statement in {}", self.body), Of::List, found);
        }
        for i in 0..k {
            self.operand(self.at + i, Of::Location, || format!("the location for parameter {i} of the call at {at}"))?;
        }
        for i in 0..m {
            self.operand(self.at + k + i, Of::Slot, || format!("the slot for argument {i} of the call at {at}"))?;
        }
        self.at += k + m;
        Ok(())
    }

    fn operand(&self, at: usize, operand: Of, name: impl Fn() -> String) -> Read<()> {
        let value = self.bytes[at];
        let callee = |back: usize| self.functions.get(usize::from(self.bytes[at - back])).copied().unwrap_or((0, 0));
        let (so, beside) = match operand {
            Of::Slot => (usize::from(value) < SLOTS, String::new()),
            Of::Location => (usize::from(value) < self.locations, format!(", and {} has {}", self.body, only(self.locations, "parameter"))),
            Of::Gate => (value < 4, String::new()),
            Of::Basis | Of::Value => (value < 2, String::new()),
            Of::Callee => {
                (usize::from(value) < self.functions.len(), format!(", and a call in {} may name {}", self.body, only(self.functions.len(), "function")))
            }
            Of::CalleeParameters => {
                (value == callee(1).0, format!(", and function {} has {}", self.bytes[at - 1], many(usize::from(callee(1).0), "parameter")))
            }
            _ => (value == callee(2).1, format!(", and function {} has {}", self.bytes[at - 2], many(usize::from(callee(2).1), "argument"))),
        };
        if so {
            return Ok(());
        }
        self.stop(10, at, 1, name(), operand, format!("the byte is {}{beside}", byte(value)))
    }

    fn stop<T>(&self, number: u8, place: usize, length: usize, name: String, case: Of, found: String) -> Read<T> {
        stop(number, place, field(name, self.bytes, place, length, case, vec![found]))
    }

    /// The last lines of the listing of what was read, by the library; none where there is no statement yet.
    fn listing(&self) -> Option<Excerpt> {
        if self.lines < 3 {
            return None;
        }
        let head = [b"QLS\0\x01".as_slice(), &[self.functions.len() as u8]].concat();
        let main = if self.body == "main" { &[][..] } else { &[0, 0] };
        let text = write_listing(&[&head, &self.out, main].concat()).ok()?;
        let lines: Vec<&str> = text.lines().take(self.lines).collect();
        Some(Excerpt::of_last(&lines, "its listing as far as it reads".to_string()))
    }
}

fn stop<T>(number: u8, place: usize, part: Part) -> Read<T> {
    Err(Box::new(Stop { number, place, part }))
}

/// So many things, by their numbers from 0 on.
fn only(number: usize, what: &str) -> String {
    match number {
        0 => format!("no {what}"),
        1 => format!("only {what} 0"),
        _ => format!("only {what}s 0 to {}", number - 1),
    }
}
