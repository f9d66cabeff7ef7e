//! The pages of help: one of the whole tool, one of each command. No line has more than 100 columns.

use super::{Command, COMMANDS};

const COLUMNS: usize = 100;

/// The page of the whole tool.
pub fn overview() -> String {
    let mut page = String::from("abwakiris: what the proved library says of devices and programs, in words and pictures\n\n");
    page.push_str("usage: abwakiris COMMAND WORDS.. [OPTIONS]\n\n");
    let lines: Vec<(String, &str)> = COMMANDS.iter().map(|command| (format!("{} {}", command.name, command.usage), command.about)).collect();
    page.push_str(&table(&lines));
    page.push_str("\nexample:\n\n    abwakiris check samples/device-g samples/program-a\n\n");
    page.push_str(&wrapped(
        "abwakiris COMMAND --help says more of a command. A file may be -, standard input. An option's value is the next word, or joined by =, \
         as --job=2; -- ends the options. --json prints one line for machines.\n\n\
         Exit status: 0 accepted, 1 refused, 2 could not try. Results go to standard output, messages to standard error. Every verdict is the library's. \
         docs/desk.md says more.",
    ));
    page
}

impl Command {
    /// Its page.
    pub fn page(&self) -> String {
        let mut page = format!("abwakiris {}: {}\n\n{}", self.name, self.about, self.usage_line());
        if !self.help.is_empty() {
            page.push('\n');
            page.push_str(&wrapped(self.help.trim_end()));
        }
        let example = self.example.replace('\n', "\n    ").replace("    \n", "\n");
        page.push_str(&format!("\nexample:\n\n    abwakiris {} {example}\n", self.name));
        page.push_str("\noptions:\n\n");
        page.push_str(&table(&self.option_lines()));
        page
    }

    fn usage_line(&self) -> String {
        let begin = format!("usage: abwakiris {}", self.name);
        let words = self.usage.split_whitespace().map(str::to_string);
        let options = self.options.iter().map(|option| format!("[{} {}]", option.written().0, option.written().1));
        fill(&begin, begin.len(), words.chain(options).chain(["[--json]".to_string()]))
    }

    fn option_lines(&self) -> Vec<(String, &str)> {
        let mut lines: Vec<(String, &str)> = vec![];
        for option in self.options {
            let (name, value) = option.written();
            lines.push((format!("{name} {value}"), option.about()));
        }
        lines.push(("--json".to_string(), "one line of JSON, for machines"));
        lines.push(("--help".to_string(), "this page"));
        lines
    }
}

/// Lines of two columns, the second wrapped.
fn table(lines: &[(String, &str)]) -> String {
    let width = lines.iter().map(|(left, _)| left.len()).max().unwrap_or(0);
    lines.iter().map(|(left, right)| fill(&format!("    {left:width$} "), width + 5, right.split_whitespace().map(str::to_string))).collect()
}

/// Paragraphs, wrapped; a line that begins with a space is left as it is.
fn wrapped(text: &str) -> String {
    let is_kept = |line: &str| line.is_empty() || line.starts_with(' ');
    let mut wrapped = String::new();
    let mut paragraph: Vec<String> = vec![];
    for line in text.lines().chain([""]) {
        if !is_kept(line) {
            paragraph.extend(line.split_whitespace().map(str::to_string));
            continue;
        }
        if !paragraph.is_empty() {
            wrapped.push_str(&fill("", 0, paragraph.drain(..)));
        }
        wrapped.push_str(line);
        wrapped.push('\n');
    }
    wrapped.trim_end().to_string() + "\n"
}

/// Lines of words, a space between two of them: the first line begins with these, the others with so many spaces.
fn fill(begin: &str, indent: usize, words: impl Iterator<Item = String>) -> String {
    let mut text = String::new();
    let mut line = begin.to_string();
    for word in words {
        if line.len() + 1 + word.len() > COLUMNS && line.len() > indent {
            text.push_str(line.trim_end());
            text.push('\n');
            line = " ".repeat(indent);
        }
        if !line.is_empty() {
            line.push(' ');
        }
        line.push_str(&word);
    }
    text + line.trim_end() + "\n"
}

#[cfg(test)]
mod tests {
    use super::*;
    use crate::args::{taken, Taken};
    use std::ffi::OsString;

    #[test]
    fn columns() {
        for page in COMMANDS.iter().map(Command::page).chain([overview()]) {
            assert!(page.is_ascii(), "{page}");
            for line in page.lines() {
                assert!(line.len() <= COLUMNS && line.trim_end() == line, "{line}");
            }
        }
    }

    #[test]
    fn examples() {
        for command in COMMANDS {
            let line = format!("\n    abwakiris {} ", command.name);
            let page = command.page();
            assert_eq!(page.matches(&line).count(), 1, "{page}");
            let example = page.lines().find_map(|text| text.strip_prefix("    abwakiris ")).unwrap_or_default();
            let words = example.split(" | ").next().unwrap_or_default().split_whitespace();
            let taken = taken(words.map(OsString::from).collect());
            assert!(matches!(taken, Ok(Taken::Asked(_))), "{example}: {taken:?}");
        }
    }

    #[test]
    fn wrapping() {
        let words = "word ".repeat(40);
        assert_eq!(wrapped(&words), format!("{}\n{}\n", "word ".repeat(20).trim_end(), "word ".repeat(20).trim_end()));
        assert_eq!(wrapped("a  b\nc\n\n    as it  is\nd"), "a b c\n\n    as it  is\nd\n");
        let long = "x".repeat(200);
        assert_eq!(wrapped(&format!("a {long} b")), format!("a\n{long}\nb\n"));
        assert_eq!(table(&[("a".to_string(), "one"), ("bcd".to_string(), "two")]), "    a    one\n    bcd  two\n");
    }
}
