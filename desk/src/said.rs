//! How a command ends: with what it says, or with why it could not try.

use crate::json::Json;
use std::ffi::OsStr;
use std::fmt;

/// What a command says.
#[derive(Debug)]
pub struct Said {
    /// Whether the library accepted: the exit status is 0, else 1.
    pub accepted: bool,
    /// For standard output.
    pub out: Vec<u8>,
    /// For standard error, a line each.
    pub notes: Vec<String>,
}

impl Said {
    /// Accepted, with this on standard output.
    pub fn accepted(out: impl Into<Vec<u8>>) -> Said {
        Said { accepted: true, out: out.into(), notes: vec![] }
    }

    /// Text for people or, where `json` is asked for, a line for machines.
    pub fn of(accepted: bool, json: bool, text: impl FnOnce() -> String, machine: impl FnOnce() -> Json) -> Said {
        let out = if json { format!("{}\n", machine()) } else { text() };
        Said { accepted, out: out.into_bytes(), notes: vec![] }
    }

    /// The same with a line for standard error.
    #[must_use]
    pub fn with_note(mut self, note: String) -> Said {
        self.notes.push(note);
        self
    }
}

/// Why a command could not try: a missing file, a directory, bad usage. The exit status is 2.
#[derive(Debug, PartialEq, Eq)]
pub struct Trouble(pub String);

impl fmt::Display for Trouble {
    fn fmt(&self, f: &mut fmt::Formatter<'_>) -> fmt::Result {
        f.write_str(&self.0)
    }
}

/// Trouble with these words.
pub fn trouble<T>(message: impl Into<String>) -> Result<T, Trouble> {
    Err(Trouble(message.into()))
}

/// A word as a person may see it: bytes that are no UTF-8 are replaced, and letters that would move the cursor are escaped.
pub fn shown(word: &OsStr) -> String {
    let mut shown = String::new();
    for letter in word.to_string_lossy().chars() {
        if letter.is_control() {
            shown.extend(letter.escape_default());
        } else {
            shown.push(letter);
        }
    }
    shown
}

/// A word that was not understood, in quotes. No more of it than shows which one it is.
pub fn quoted(word: &OsStr) -> String {
    const MOST: usize = 60;
    let shown = shown(word);
    match shown.char_indices().nth(MOST) {
        Some((end, _)) => format!("`{}..`", &shown[..end]),
        None => format!("`{shown}`"),
    }
}

/// Why reading or writing went wrong, as the system says it, without its number.
pub fn reason(wrong: &std::io::Error) -> String {
    let words = wrong.to_string();
    words.split(" (os error").next().unwrap_or_default().to_string()
}

#[cfg(test)]
mod tests {
    use super::*;
    use std::os::unix::ffi::OsStrExt;

    #[test]
    fn words_in_messages() {
        assert_eq!(shown(OsStr::from_bytes(b"a\xFFb\x1B[1m\n")), "a\u{FFFD}b\\u{1b}[1m\\n");
        assert_eq!(quoted(OsStr::new("chek")), "`chek`");
        assert_eq!(quoted(OsStr::new(&"x".repeat(61))), format!("`{}..`", "x".repeat(60)));
        assert_eq!(reason(&std::io::Error::from_raw_os_error(21)), "Is a directory");
    }
}
