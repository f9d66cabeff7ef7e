//! The lines of a listing, taken apart as far as is needed to say what is wrong with the next one.
//!
//! The verdict is the library's. The lines before the one at fault begin a listing, so they are taken apart without doubt. Of the line itself the first thing
//! is said that `docs/listing.md` does not allow, and nothing where none is seen.

use super::excerpt::{indent, printable};
use super::partial::{DEEPEST, MOST_FUNCTIONS};
use crate::numbers::many;
use abwakiris::MOST_PROGRAM_BYTES;

/// What the lines before have begun.
#[derive(Default)]
pub struct Lines {
    number: usize,
    /// The k and the m of each function.
    functions: Vec<(usize, usize)>,
    /// Whether the line of a function or `main` has come, and whether `main` has.
    in_body: bool,
    in_main: bool,
    /// The blocks of ifs and whiles that are open, the outermost first.
    open: Vec<Open>,
    /// The bytes of the program so far.
    bytes: usize,
}

#[derive(Clone, Copy)]
struct Open {
    block: Block,
    /// The line that opened it.
    line: usize,
}

#[derive(Clone, Copy, PartialEq, Eq)]
enum Block {
    /// The first block of an if, whose else is to come.
    If,
    Else,
    While,
}

/// The words of statements, and a letter for each operand as in `docs/listing.md`.
const STATEMENTS: [(&str, &str); 14] = [
    ("init", "XL"),
    ("magic", "XL"),
    ("free", "X"),
    ("gate", "GX"),
    ("measure", "YBX"),
    ("merge", "YBXBX"),
    ("ref", "RY"),
    ("get", "YR"),
    ("set", "RY"),
    ("if", "Y"),
    ("else", ""),
    ("while", "R"),
    ("call", "F"),
    ("bool", "YV"),
];

/// What is wrong, where something is.
type Wrong = Option<String>;

impl Lines {
    /// What these lines, which begin a listing, have begun.
    pub fn taken(lines: &[&[u8]]) -> Lines {
        let mut taken = Lines::default();
        for line in lines {
            taken.take(&String::from_utf8_lossy(line));
        }
        taken
    }

    fn take(&mut self, line: &str) {
        self.number += 1;
        let words: Vec<&str> = line.split(' ').filter(|word| !word.is_empty()).collect();
        self.bytes += size(&words);
        match words[..] {
            ["function", _, _, k, _, m] => {
                self.functions.push((k.parse().unwrap_or(0), m.parse().unwrap_or(0)));
                self.begin();
            }
            ["main"] => {
                self.in_main = true;
                self.begin();
            }
            [first, ..] if self.in_body => {
                self.open.truncate((indent(line) / 2).saturating_sub(1));
                let block = match first {
                    "if" => Block::If,
                    "else" => Block::Else,
                    "while" => Block::While,
                    _ => return,
                };
                self.open.push(Open { block, line: self.number });
            }
            _ => {}
        }
    }

    fn begin(&mut self) {
        self.in_body = true;
        self.open.clear();
    }

    /// The innermost if whose else is due before a line of this depth, 0 for one without indent.
    fn due(&self, depth: usize, is_else: bool) -> Wrong {
        let closed = self.open.iter().enumerate().skip(depth.saturating_sub(1));
        let (i, open) = closed.rev().find(|(i, open)| open.block == Block::If && !(is_else && i + 1 == depth))?;
        Some(format!("the `if` of line {} needs its `else` here, with {} spaces before it", open.line, 2 * (i + 1)))
    }

    /// What is missing where the text ends.
    pub fn missing(&self, text: &[u8]) -> Vec<String> {
        if text.is_empty() {
            return vec!["the text is empty".to_string()];
        }
        if text.last() != Some(&b'\n') {
            return vec!["the last line is not finished: at least its newline is missing".to_string()];
        }
        let main = (!self.in_main).then(|| "the line `main` is missing".to_string());
        self.due(0, false).into_iter().chain(main).collect()
    }

    /// What is wrong with a line that comes next.
    pub fn wrong(&self, line: &[u8]) -> Wrong {
        let text = String::from_utf8_lossy(line);
        letters(line).or_else(|| self.words(&text))
    }

    fn words(&self, text: &str) -> Wrong {
        let words: Vec<&str> = text.split(' ').filter(|word| !word.is_empty()).collect();
        if self.number == 0 {
            return (text != "program 1").then(|| format!("the first line must be `program 1`, and it is {}", quoted(text)));
        }
        let bytes = self.bytes + size(&words);
        let wrong = if text.starts_with(' ') { self.statement(indent(text), &words) } else { self.header(&words) };
        wrong.or_else(|| (bytes > MOST_PROGRAM_BYTES).then(|| format!("with this line the program has {bytes} bytes, and 4,096 are the most")))
    }

    /// What is wrong with a line without indent.
    fn header(&self, words: &[&str]) -> Wrong {
        if let Some(due) = self.due(0, false) {
            return Some(due);
        }
        if self.in_main {
            return Some("after `main` only statements come, with two spaces before them or more".to_string());
        }
        match words {
            ["main"] => None,
            ["function", number, "locations", k, "arguments", m] => self.function(number, k, m),
            [word, ..] if is_statement(word) => Some("a statement has two spaces before it or more".to_string()),
            _ => Some("a line without indent is `main` or `function I locations K arguments M`".to_string()),
        }
    }

    fn function(&self, number: &str, k: &str, m: &str) -> Wrong {
        let next = self.functions.len();
        if next == MOST_FUNCTIONS {
            return Some("15 functions are the most, and this is one more".to_string());
        }
        if number != next.to_string() {
            return Some(format!("functions are numbered from 0 on: the next one is {next}, not {}", quoted(number)));
        }
        let most = |most: usize, word: &str, what: &str| below(word, most + 1).map(|wrong| format!("{what}: {wrong}"));
        most(16, k, "locations").or_else(|| most(k.parse().map_or(8, |k: usize| k.min(8)), m, "arguments"))
    }

    /// What is wrong with a line that has an indent.
    fn statement(&self, indent: usize, words: &[&str]) -> Wrong {
        let (first, operands) = words.split_first()?;
        if let Some(wrong) = self.standing(indent, first) {
            return Some(wrong);
        }
        match STATEMENTS.iter().find(|(name, _)| name == first) {
            None => Some(unknown(first, operands.is_empty())),
            Some(("call", _)) => self.call(operands),
            Some((_, form)) if form.len() != operands.len() => Some(format!("`{first}` has {} after it, not {}", many(form.len(), "word"), operands.len())),
            Some((_, form)) => form.chars().zip(operands).find_map(|(operand, word)| self.operand(operand, word)),
        }
    }

    /// Whether a line that begins with this word may stand here with this indent.
    fn standing(&self, indent: usize, first: &str) -> Wrong {
        if !self.in_body {
            return Some("statements come after `main` or after the line of a function".to_string());
        }
        if indent % 2 == 1 {
            return Some(format!("the line has {} before it, and there are two for each block", many(indent, "space")));
        }
        let (depth, deepest) = (indent / 2, self.open.len() + 1);
        if depth > deepest {
            return Some(format!("the line has {} before it, and here {} are the most", many(indent, "space"), 2 * deepest));
        }
        if let Some(due) = self.due(depth, first == "else") {
            return Some(due);
        }
        if first == "else" && self.open.get(depth - 1).map_or(true, |open| open.block != Block::If) {
            return Some(format!("no `if` with {indent} spaces before it waits for an `else`"));
        }
        let opens = first == "if" || first == "while";
        (opens && depth == DEEPEST).then(|| format!("the block of this `{first}` would be 9 deep, and 8 is the deepest"))
    }

    fn operand(&self, operand: char, word: &str) -> Wrong {
        let one_of = |names: &[&str], what: &str| (!names.contains(&word)).then(|| format!("{} is no {what}; there are {}", quoted(word), names.join(", ")));
        let number = |limit: usize, what: &str| below(word, limit).map(|wrong| format!("{what}: {wrong}"));
        match operand {
            'G' => one_of(&["X", "Z", "H", "S"], "gate"),
            'B' => one_of(&["X", "Z"], "basis"),
            'V' => number(2, "the value"),
            'L' if self.in_main => number(256, "a location"),
            'L' => number(self.functions.last().map_or(0, |function| function.0), "a parameter of this function"),
            'F' if self.callees() == 0 => Some("no function stands earlier, so there is none to call".to_string()),
            'F' => number(self.callees(), "a function that stands earlier"),
            _ => number(32, "a slot"),
        }
    }

    /// How many functions the body may call.
    fn callees(&self) -> usize {
        if self.in_main {
            self.functions.len()
        } else {
            self.functions.len().saturating_sub(1)
        }
    }

    fn call(&self, operands: &[&str]) -> Wrong {
        let (number, rest) = match operands.split_first() {
            Some((number, rest)) => (*number, rest),
            None => return Some("a call names its function".to_string()),
        };
        if let Some(wrong) = self.operand('F', number) {
            return Some(wrong);
        }
        let (k, m) = number.parse().ok().and_then(|number: usize| self.functions.get(number).copied()).unwrap_or((0, 0));
        let form: Vec<&str> = listed("at", "L", k).chain(listed("with", "X", m)).collect();
        let fits = |(form, word): (&&str, &&str)| form == word || matches!(*form, "L" | "X");
        if form.len() != rest.len() || !form.iter().zip(rest).all(fits) {
            let form: String = form.iter().map(|word| format!(" {word}")).collect();
            return Some(format!("function {number} has {} and {}: `call {number}{form}`", many(k, "location"), many(m, "argument")));
        }
        form.iter().zip(rest).find_map(|(form, word)| match *form {
            "L" => self.operand('L', word),
            "X" => self.operand('X', word),
            _ => None,
        })
    }
}

/// A word of a call and as many operands after it, or nothing.
fn listed(word: &'static str, operand: &'static str, number: usize) -> impl Iterator<Item = &'static str> {
    let word = if number == 0 { None } else { Some(word) };
    word.into_iter().chain(std::iter::repeat(operand).take(number))
}

/// The bytes of a line in the program file, by its words.
fn size(words: &[&str]) -> usize {
    match words.first().copied() {
        None | Some("else" | "main") => 0,
        Some("program") => 8,
        Some("function" | "while") => 4,
        Some("if") => 6,
        Some("call") => 2 + words.iter().filter(|&&word| word != "at" && word != "with").count(),
        _ => words.len(),
    }
}

fn is_statement(word: &str) -> bool {
    STATEMENTS.iter().any(|(name, _)| *name == word)
}

/// A word that begins no statement. Where nothing stands after it, it may be the start of one.
fn unknown(word: &str, alone: bool) -> String {
    let plain = word.to_ascii_lowercase();
    if is_statement(&plain) {
        return format!("{} is written `{plain}`", quoted(word));
    }
    if alone && STATEMENTS.iter().any(|(name, _)| name.starts_with(word)) {
        return format!("{} is no whole line, and none that begins so can stand here", quoted(word));
    }
    let names: Vec<&str> = STATEMENTS.iter().map(|(name, _)| *name).collect();
    format!("{} begins no statement; they begin with {}", quoted(word), names.join(", "))
}

/// A word of the text in quotes, not longer than can be read.
fn quoted(word: &str) -> String {
    format!("`{}`", printable(&word.as_bytes()[..word.len().min(24)]))
}

/// What is wrong with a word that is to be a decimal number below a limit.
fn below(word: &str, limit: usize) -> Wrong {
    let shown = quoted(word);
    if word.is_empty() || !word.bytes().all(|byte| byte.is_ascii_digit()) {
        return Some(format!("{shown} is no number"));
    }
    if word.len() > 1 && word.starts_with('0') {
        return Some(format!("{shown} has a leading zero"));
    }
    match (word.parse::<usize>(), limit) {
        (Ok(number), _) if number < limit => None,
        (_, 0) => Some(format!("{shown}, and it has none")),
        (_, 1) => Some(format!("{shown} is not 0, the only one")),
        _ => Some(format!("{shown} is not 0 to {}", limit - 1)),
    }
}

/// What is wrong with the letters of a line, whatever it says.
fn letters(line: &[u8]) -> Wrong {
    let column = |is: fn(u8) -> bool| line.iter().position(|&byte| is(byte));
    if line.is_empty() {
        return Some("the line is empty".to_string());
    }
    if line.ends_with(b"\r") {
        return Some("the line ends in a carriage return, 0D hex, and lines end in a newline only, 0A hex".to_string());
    }
    if let Some(i) = column(|byte| byte == b'\t') {
        return Some(format!("column {} has a tab, and only spaces stand between words and before them", i + 1));
    }
    if let Some(i) = column(|byte| !(b' '..=b'~').contains(&byte)) {
        return Some(format!("column {} has the byte {:02X} hex, which no listing has", i + 1, line[i]));
    }
    if line.ends_with(b" ") {
        return Some("there is a space at the end of the line".to_string());
    }
    let words = &line[line.iter().take_while(|&&byte| byte == b' ').count()..];
    words.windows(2).any(|pair| pair == b"  ").then(|| "there is more than one space between words".to_string())
}
