//! What a person sees of a command line: its status, what it printed and said, and the files that it wrote.

use std::io::Write;
use std::path::Path;
use std::process::{Command, Stdio};

pub struct Seen {
    /// The words, as a person types them.
    line: String,
    pub status: Option<i32>,
    pub out: Vec<u8>,
    pub error: Vec<u8>,
}

/// Runs a command line in a folder, with these bytes on its standard input and nothing of this computer around it.
pub fn seen(folder: &Path, words: &[String], input: &[u8]) -> Seen {
    let mut command = Command::new(env!("CARGO_BIN_EXE_abwakiris"));
    command.args(words).current_dir(folder).env_clear().stdin(Stdio::piped()).stdout(Stdio::piped()).stderr(Stdio::piped());
    let mut child = command.spawn().expect("the tool starts");
    // a command that does not read goes without it
    let _ = child.stdin.take().map(|mut pipe| pipe.write_all(input));
    let output = child.wait_with_output().expect("the tool ends");
    Seen { line: typed(words), status: output.status.code(), out: output.stdout, error: output.stderr }
}

/// The words of a command line, in quotes where a shell needs them.
fn typed(words: &[String]) -> String {
    let plain = |word: &String| !word.is_empty() && word.bytes().all(|byte| byte.is_ascii_alphanumeric() || b"-_./,=".contains(&byte));
    let typed = words.iter().map(|word| if plain(word) { format!(" {word}") } else { format!(" '{word}'") });
    format!("$ abwakiris{}", shortened(typed.collect()))
}

/// A very long line without its middle.
fn shortened(text: String) -> String {
    if text.len() < 2_000 {
        return text;
    }
    format!("{} .. {}", &text[..60], &text[text.len() - 30..])
}

impl Seen {
    /// All of it, as it is stored.
    pub fn stored(&self) -> String {
        let status = self.status.map_or("none".to_string(), |status| status.to_string());
        format!("{}\n--- status {status}\n{}{}", self.line, part("standard output", &self.out), part("standard error", &self.error))
    }
}

/// A part under its name: text as it is, other bytes in hex. Nothing where there is nothing.
pub fn part(name: &str, bytes: &[u8]) -> String {
    let is_plain = |letter: char| letter == '\n' || !letter.is_control();
    match std::str::from_utf8(bytes) {
        Ok("") => String::new(),
        Ok(text) if text.chars().all(is_plain) && text.ends_with('\n') => format!("--- {name}\n{text}"),
        Ok(text) if text.chars().all(is_plain) => format!("--- {name}, without a newline at its end\n{text}\n"),
        _ => format!("--- {name}, {} bytes in hex\n{}", bytes.len(), in_hex(bytes)),
    }
}

fn in_hex(bytes: &[u8]) -> String {
    bytes.chunks(16).map(|line| format!("{}\n", crate::question::spaced(line))).collect()
}
