//! Listings (document 02, §1), to be compared with other implementations. The writer prints what `read_program` has read.
//!
//! The reader has no grammar. A text is a listing if the writer prints it: it is put together to a file, without looking closely, and what the writer prints
//! of this file is compared with it. A text begins a listing if something written behind it makes it one: such an ending is looked for, and tried. So the
//! limits of programs (bytes, depth, functions, callees, locations) are never spelled out here; `read_program` alone judges them.

use super::{read_program, refuse, Answer, Block, Form, Statement, FILE_NONE};
use std::fmt::Write;
use std::ops::Range;

pub const FILE_LISTING: u8 = 3;

/// The most bytes that the writer prints. A longer text begins no listing.
pub const LONGEST_LISTING: usize = 65_536;

/// The statements' names, that of byte 1 first.
const NAMES: [&str; 13] = ["init", "magic", "free", "gate", "measure", "merge", "ref", "get", "set", "if", "while", "call", "bool"];

/// That of the deepest block.
const INDENT: &str = "                ";

/// The gates; the first two are the bases as well.
const LETTERS: [&str; 4] = ["X", "Z", "H", "S"];

/// Writes the program's listing from the text's start; answers its bytes.
pub fn write_listing(program: &[u8], text: &mut [u8]) -> Answer<usize> {
    put(&listing(program)?, text)
}

/// Writes the program that the text is the listing of from the buffer's start; answers its bytes.
pub fn read_listing(text: &[u8], program: &mut [u8]) -> Answer<usize> {
    put(&program_of(text)?, program)
}

/// Bytes from the buffer's start on, where it is long enough.
pub fn put(bytes: &[u8], buffer: &mut [u8]) -> Answer<usize> {
    if bytes.len() > buffer.len() {
        return refuse(24, 0, FILE_NONE);
    }
    buffer[..bytes.len()].copy_from_slice(bytes);
    Ok(bytes.len())
}

// ---------------------------------------------------------------------------------------------
// The writer
// ---------------------------------------------------------------------------------------------

/// The listing of a program file, or the file's own refusal.
pub fn listing(file: &[u8]) -> Answer<Vec<u8>> {
    let program = read_program(file)?;
    let mut text = format!("program {}\n", file[4]);
    for (i, function) in program.functions.iter().enumerate() {
        text += &format!("function {i} locations {} arguments {}\n", function.parameters, function.arguments);
        print_block(file, &function.block, 1, &mut text);
    }
    text += "main\n";
    print_block(file, &program.main, 1, &mut text);
    assert!(text.len() <= LONGEST_LISTING, "a listing has at most 65,536 bytes");
    Ok(text.into_bytes())
}

fn print_block(file: &[u8], block: &Block, depth: usize, text: &mut String) {
    let indent = &INDENT[..2 * depth];
    for statement in &block.statements {
        *text += indent;
        print_line(file, statement, text);
        *text += "\n";
        match &statement.form {
            Form::If { then, otherwise, .. } => {
                print_block(file, then, depth + 1, text);
                *text += indent;
                *text += "else\n";
                print_block(file, otherwise, depth + 1, text);
            }
            Form::While { body, .. } => print_block(file, body, depth + 1, text),
            _ => {}
        }
    }
}

/// The statement's own line. Gates, bases and the two kinds of init are not in what was read, so they are taken from the file.
fn print_line(file: &[u8], statement: &Statement, text: &mut String) {
    let byte = |operand: usize| usize::from(file[statement.at + operand]);
    let letter = |operand: usize| LETTERS[byte(operand)];
    let printed = match &statement.form {
        Form::Init { x, location } if byte(0) == 1 => write!(text, "init {x} {location}"),
        Form::Init { x, location } => write!(text, "magic {x} {location}"),
        Form::Free { x } => write!(text, "free {x}"),
        Form::Gate { x } => write!(text, "gate {} {x}", letter(1)),
        Form::Measure { y, x } => write!(text, "measure {y} {} {x}", letter(2)),
        Form::Merge { y, first, second } => write!(text, "merge {y} {} {first} {} {second}", letter(2), letter(4)),
        Form::NewReference { r, y } => write!(text, "ref {r} {y}"),
        Form::Load { y, r } => write!(text, "get {y} {r}"),
        Form::Assign { r, y } => write!(text, "set {r} {y}"),
        Form::If { y, .. } => write!(text, "if {y}"),
        Form::While { r, .. } => write!(text, "while {r}"),
        Form::Call { function, locations, slots } => write!(text, "call {function}{}{}", list(" at", locations), list(" with", slots)),
        Form::Bool { y, value } => write!(text, "bool {y} {}", u8::from(*value)),
    };
    printed.expect("a string takes everything");
}

/// The word and the numbers behind it; nothing where there are none.
fn list(word: &str, numbers: &[usize]) -> String {
    if numbers.is_empty() {
        return String::new();
    }
    numbers.iter().fold(word.to_string(), |text, number| format!("{text} {number}"))
}

// ---------------------------------------------------------------------------------------------
// The reader
// ---------------------------------------------------------------------------------------------

/// The program that the text is the listing of. Else 27: at the first line with which the text so far begins no listing, or at the text's end.
pub fn program_of(text: &[u8]) -> Answer<Vec<u8>> {
    match listed(text) {
        Some(program) => Ok(program),
        None => refuse(27, fault(text), FILE_LISTING),
    }
}

/// Where a text that is no listing is at fault. What begins a listing also does when it is cut off anywhere, so the good lines come first.
fn fault(text: &[u8]) -> usize {
    let ends = line_ends(text);
    let good = |lines: usize| lines == 0 || ending(&text[..ends[lines - 1]]).is_some();
    if good(ends.len()) {
        return text.len();
    }
    // Good with so many lines, bad with so many. Most often only the last line is at fault, so that is tried first.
    let (mut most, mut bad) = (0, ends.len());
    let mut tried = bad - 1;
    while most + 1 < bad {
        if good(tried) {
            most = tried;
        } else {
            bad = tried;
        }
        tried = (most + bad) / 2;
    }
    if most == 0 { 0 } else { ends[most - 1] }
}

/// Where each line ends, its newline included, which the last one may lack. Lines behind the first that is past the longest listing don't matter.
fn line_ends(text: &[u8]) -> Vec<usize> {
    let mut ends = Vec::new();
    let mut at = 0;
    while at < text.len() && at <= LONGEST_LISTING {
        at = text[at..].iter().position(|&byte| byte == b'\n').map_or(text.len(), |length| at + length + 1);
        ends.push(at);
    }
    ends
}

/// The program that the text is the listing of, if there is one.
fn listed(text: &[u8]) -> Option<Vec<u8>> {
    if text.len() > LONGEST_LISTING {
        return None;
    }
    let program = assembled(std::str::from_utf8(text).ok()?)?;
    let printed = listing(&program).ok()?;
    (printed == text).then_some(program)
}

// ---------------------------------------------------------------------------------------------
// A text put together to a file
// ---------------------------------------------------------------------------------------------

struct Line<'a> {
    indent: usize,
    words: Vec<&'a str>,
}

/// The file whose listing the text is, if it is one at all: each line is taken for what it seems to be.
fn assembled(text: &str) -> Option<Vec<u8>> {
    let lines: Vec<Line> = text.split_terminator('\n').map(taken_apart).collect();
    let heads: Vec<usize> = (0..lines.len()).filter(|&i| lines[i].indent == 0).collect();
    let mut file = b"QLS\0".to_vec();
    file.push(value(lines.first()?.words.get(1)?)?);
    file.push(u8::try_from(heads.len()).ok()?.checked_sub(2)?);
    for (i, &head) in heads.iter().enumerate().skip(1) {
        let words = &lines[head].words;
        if words[0] == "function" {
            file.extend([value(words.get(3)?)?, value(words.get(5)?)?]);
        }
        let end = heads.get(i + 1).copied().unwrap_or(lines.len());
        file.extend(block(&lines[head + 1..end])?);
    }
    Some(file)
}

fn taken_apart(line: &str) -> Line<'_> {
    let bare = line.trim_start_matches(' ');
    Line { indent: line.len() - bare.len(), words: bare.split(' ').collect() }
}

/// A block of these lines. An else has no byte of its own: its block stands behind the one before it.
fn block(lines: &[Line]) -> Option<Vec<u8>> {
    let mut bytes = vec![0, 0];
    let mut rest = lines;
    while let Some((line, behind)) = rest.split_first() {
        let inside = behind.iter().take_while(|inner| inner.indent > line.indent).count();
        if line.words[0] != "else" {
            bytes.extend(statement(&line.words)?);
        }
        if matches!(line.words[0], "if" | "else" | "while") {
            bytes.extend(block(&behind[..inside])?);
        }
        rest = &behind[inside..];
    }
    let length = u16::try_from(bytes.len() - 2).ok()?;
    bytes[..2].copy_from_slice(&length.to_be_bytes());
    Some(bytes)
}

/// The bytes of a statement up to its blocks.
fn statement(words: &[&str]) -> Option<Vec<u8>> {
    let kind = NAMES.iter().position(|name| *name == words[0])? + 1;
    let mut bytes = vec![kind as u8];
    let mut operands = words[1..].to_vec();
    if kind == 12 {
        let with = operands.iter().position(|word| *word == "with").unwrap_or(operands.len());
        let at = operands.iter().position(|word| *word == "at").unwrap_or(with);
        let [locations, slots] = [with.saturating_sub(at + 1), operands.len().saturating_sub(with + 1)];
        operands.retain(|word| !matches!(*word, "at" | "with"));
        bytes.push(value(operands.first()?)?);
        bytes.extend([u8::try_from(locations).ok()?, u8::try_from(slots).ok()?]);
        operands.remove(0);
    }
    for word in operands {
        bytes.push(value(word)?);
    }
    Some(bytes)
}

fn value(word: &str) -> Option<u8> {
    match LETTERS.iter().position(|letter| *letter == word) {
        Some(letter) => Some(letter as u8),
        None => word.parse().ok(),
    }
}

// ---------------------------------------------------------------------------------------------
// Endings
// ---------------------------------------------------------------------------------------------

/// Something that makes the text a listing when it is written behind it; nothing if the text begins no listing.
pub fn ending(text: &[u8]) -> Option<Vec<u8>> {
    if text.len() > LONGEST_LISTING {
        return None;
    }
    let text = std::str::from_utf8(text).ok()?;
    let (lines, begun) = text.split_at(text.rfind('\n').map_or(0, |at| at + 1));
    let tried = |lines: String| {
        let whole = closed(lines);
        listed(whole.as_bytes()).map(|_| whole.as_bytes()[text.len()..].to_vec())
    };
    if begun.is_empty() {
        return tried(lines.to_string());
    }
    // Whatever follows, these lines must begin a listing.
    ending(lines.as_bytes())?;
    finished(lines, begun).iter().find_map(|last| tried(format!("{lines}{last}")))
}

/// Whole lines, and behind them those that must still come: an else for each if that is open and has none, the innermost first, and main.
fn closed(lines: String) -> String {
    let mut closed = lines.clone();
    let mut outermost = usize::MAX;
    for line in lines.split_terminator('\n').rev() {
        let indent = taken_apart(line).indent;
        if indent < outermost {
            // What stands since then is all in this line's block.
            outermost = indent;
            if line[indent..].starts_with("if ") {
                closed += &format!("{}else\n", &line[..indent]);
            }
        }
    }
    if lines.is_empty() {
        closed += "program 1\n";
    }
    if lines.split_terminator('\n').all(|line| line != "main") {
        closed += "main\n";
    }
    closed
}

/// Lines that a begun one may become: for each sample of a line, what is begun and the sample's words from there on. The last word begun may be whole or
/// may become the sample's. A begun number that can be finished is one of those allowed itself, but for a callee, of which there is a sample each.
fn finished(lines: &str, begun: &str) -> Vec<String> {
    let words: Vec<&str> = begun.split(' ').collect();
    let (last, before) = words.split_last().expect("a word, empty or not");
    let name = before.iter().position(|word| !word.is_empty());
    let spaces = taken_apart(begun).indent;
    // Of spaces alone there may be more to come.
    let indents = spaces..if spaces == begun.len() { INDENT.len() + 1 } else { spaces + 1 };
    let mut finished = Vec::new();
    for sample in samples(lines, indents) {
        let sample: Vec<&str> = sample.split(' ').collect();
        if sample.len() < words.len() || name.is_some_and(|at| sample[at] != words[at]) {
            continue;
        }
        let with = |word: &str| format!("{}\n", [before, &[word], &sample[words.len()..]].concat().join(" "));
        if sample[before.len()].starts_with(last) {
            finished.push(with(sample[before.len()]));
        }
        if !last.is_empty() {
            finished.push(with(last));
        }
    }
    finished
}

/// A line of each kind at each of these indents, a call of each function: every line that may come behind these differs from one of them in numbers and
/// letters only.
fn samples(lines: &str, indents: Range<usize>) -> Vec<String> {
    let headers = lines.split_terminator('\n').filter(|line| line.starts_with("function "));
    let functions: Vec<Vec<&str>> = headers.map(|header| header.split(' ').collect()).collect();
    let mut statements: Vec<String> = STATEMENTS.map(String::from).to_vec();
    for (i, function) in functions.iter().enumerate() {
        let zeros = |word: usize| vec![0; function.get(word).and_then(|word| value(word)).map_or(0, usize::from)];
        statements.push(format!("call {i}{}{}", list(" at", &zeros(3)), list(" with", &zeros(5))));
    }
    let mut samples = Vec::new();
    if indents.contains(&0) {
        samples = vec!["program 1".to_string(), "main".to_string(), format!("function {} locations 0 arguments 0", functions.len())];
    }
    for indent in (2..=INDENT.len()).step_by(2).filter(|indent| indents.contains(indent)) {
        samples.extend(statements.iter().map(|statement| format!("{}{statement}", &INDENT[..indent])));
    }
    samples
}

const STATEMENTS: [&str; 13] = [
    "free 0", "else", "init 0 0", "magic 0 0", "gate X 0", "measure 0 X 0", "merge 0 X 0 X 0", "ref 0 0", "get 0 0", "set 0 0", "if 0", "while 0", "bool 0 0",
];
