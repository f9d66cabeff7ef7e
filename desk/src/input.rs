//! Files and schedules as a person names them. What is in them is the library's matter.

use crate::said::{quoted, reason, shown, trouble, Trouble};
use std::ffi::OsStr;
use std::fs::{File, OpenOptions};
use std::io::{ErrorKind, Read};
use std::os::unix::fs::{FileTypeExt, OpenOptionsExt};
use std::time::{Duration, Instant};

/// The most bytes that are read of a file: far more than any file that the library takes.
const MOST_BYTES: u64 = 1 << 20;

/// A file's bytes under the name that it was given by.
#[derive(Clone, Debug)]
pub struct Named {
    pub name: String,
    pub bytes: Vec<u8>,
}

/// The bytes of a file, or of standard input for `-`.
///
/// # Errors
///
/// Where it is missing, a directory, not readable, or longer than is read.
pub fn file(name: &OsStr) -> Result<Named, Trouble> {
    if name == "-" {
        let bytes = all(std::io::stdin().lock(), Waits::Long).map_err(|why| Trouble(format!("standard input: {why}")))?;
        return Ok(Named { name: "standard input".to_string(), bytes });
    }
    if name.is_empty() {
        return trouble("the name of a file is empty");
    }
    let shown = shown(name);
    match file_bytes(name) {
        Ok(bytes) => Ok(Named { name: shown, bytes }),
        Err(why) => trouble(format!("{shown}: {why}")),
    }
}

/// The bytes of a file, or why they cannot be had. A length that is too long is told without reading.
fn file_bytes(name: &OsStr) -> Result<Vec<u8>, String> {
    let opened = open(name).map_err(|wrong| unread(&wrong))?;
    let about = opened.metadata().map_err(|wrong| unread(&wrong))?;
    if about.is_dir() {
        return Err("is a directory".to_string());
    }
    if about.len() > MOST_BYTES {
        return Err(format!("has {} bytes, and no file of more than {MOST_BYTES} is read", about.len()));
    }
    let waits = match about.file_type() {
        kind if kind.is_fifo() => Waits::ForWriter(Instant::now() + PATIENCE),
        kind if kind.is_char_device() => Waits::Long,
        _ => Waits::Not,
    };
    all(opened, waits)
}

/// Opens a file without waiting, as a pipe without a writer would have it.
fn open(name: &OsStr) -> std::io::Result<File> {
    OpenOptions::new().read(true).custom_flags(NO_WAITING).open(name)
}

/// All of a source, which may be a pipe or endless, but no more than shows that it is too long.
fn all(source: impl Read, waits: Waits) -> Result<Vec<u8>, String> {
    let mut bytes = vec![];
    Patient { source, waits }.take(MOST_BYTES + 1).read_to_end(&mut bytes).map_err(|wrong| unread(&wrong))?;
    if bytes.len() as u64 > MOST_BYTES {
        return Err(format!("longer than {MOST_BYTES} bytes, which are the most that is read"));
    }
    Ok(bytes)
}

fn unread(wrong: &std::io::Error) -> String {
    match wrong.kind() {
        ErrorKind::NotFound => "no such file".to_string(),
        ErrorKind::PermissionDenied => "may not be read".to_string(),
        _ => format!("cannot be read: {}", reason(wrong)),
    }
}

/// How long a pipe may be without a writer before its first byte, or without a reader.
pub const PATIENCE: Duration = Duration::from_secs(1);

/// The flag with which opening a pipe does not wait: O_NONBLOCK on Linux.
pub const NO_WAITING: i32 = 0o4000;

/// Whether a source that has nothing yet is waited for.
#[derive(Clone, Copy)]
enum Waits {
    /// Not at all: a file has all its bytes.
    Not,
    /// As long as it takes: standard input, a terminal, a pipe that somebody writes to.
    Long,
    /// Until then: a pipe that nobody writes to yet.
    ForWriter(Instant),
}

/// A source that does not wait by itself, waited for.
struct Patient<R> {
    source: R,
    waits: Waits,
}

impl<R: Read> Read for Patient<R> {
    fn read(&mut self, buffer: &mut [u8]) -> std::io::Result<usize> {
        loop {
            let read = self.source.read(buffer);
            let is_early = matches!(&read, Err(wrong) if wrong.kind() == ErrorKind::WouldBlock);
            match (&read, self.waits) {
                (Ok(0), Waits::ForWriter(end)) if Instant::now() >= end => return Err(std::io::Error::new(ErrorKind::Other, "a pipe that nobody writes to")),
                (Ok(0), Waits::ForWriter(_)) => {}
                (_, Waits::Long | Waits::ForWriter(_)) => {
                    self.waits = Waits::Long;
                    if !is_early {
                        return read;
                    }
                }
                (_, Waits::Not) => return read,
            }
            std::thread::sleep(Duration::from_millis(2));
        }
    }
}

/// The bytes of a schedule: hex digits on the command line, as `10 11 20`, or a file of such text or of the bytes themselves. Its name says as which of
/// these it was taken.
///
/// # Errors
///
/// Where digits are missing, or the file cannot be read.
pub fn schedule(word: &OsStr) -> Result<Named, Trouble> {
    if let Some(text) = word.to_str().filter(|text| text_words(text.as_bytes()).all(|word| digits(word).iter().all(u8::is_ascii_hexdigit))) {
        let name = "the schedule (hex digits)".to_string();
        return match from_hex(text.as_bytes()) {
            Ok(bytes) => Ok(Named { name, bytes }),
            Err(why) => trouble(format!("the schedule {}: taken as hex digits, {why}; a file of that name is ./{}", quoted(word), shown(word))),
        };
    }
    if let (true, Err(wrong)) = (word != "-", std::fs::metadata(word)) {
        return trouble(format!("the schedule {}: {}, and no hex digits, as 10112021 or '10 11 20 21'", quoted(word), unread(&wrong)));
    }
    let Named { name, bytes } = file(word)?;
    if !is_text(&bytes) {
        return Ok(Named { name: format!("{name} (bytes)"), bytes });
    }
    match from_hex(&bytes) {
        Ok(bytes) => Ok(Named { name: format!("{name} (hex text)"), bytes }),
        Err(why) => trouble(format!("{name}: taken as hex text, {why}")),
    }
}

/// Whether a file is text with a hex digit in it. No byte of a schedule, 10, 11, 20 or 21 hex, is a hex digit.
fn is_text(bytes: &[u8]) -> bool {
    bytes.iter().all(|byte| byte.is_ascii_graphic() || byte.is_ascii_whitespace()) && bytes.iter().any(u8::is_ascii_hexdigit)
}

/// The words of a text, with spaces, newlines or commas between them.
fn text_words(text: &[u8]) -> impl Iterator<Item = &[u8]> {
    text.split(|byte| byte.is_ascii_whitespace() || *byte == b',').filter(|word| !word.is_empty())
}

/// A word without the `0x` before its digits.
fn digits(word: &[u8]) -> &[u8] {
    word.strip_prefix(b"0x").or_else(|| word.strip_prefix(b"0X")).unwrap_or(word)
}

/// The bytes that hex digits stand for, two a byte, or what is wrong with the digits.
fn from_hex(text: &[u8]) -> Result<Vec<u8>, String> {
    let mut bytes = vec![];
    for word in text_words(text) {
        let pairs = digits(word).chunks(2);
        if pairs.len() == 0 {
            return Err("0x has no digits after it".to_string());
        }
        for pair in pairs {
            bytes.push(of_pair(pair).ok_or_else(|| wrong_pair(pair))?);
        }
    }
    Ok(bytes)
}

fn of_pair(pair: &[u8]) -> Option<u8> {
    let digit = |byte: &u8| char::from(*byte).to_digit(16).and_then(|digit| u8::try_from(digit).ok());
    match pair {
        [high, low] => Some(16 * digit(high)? + digit(low)?),
        _ => None,
    }
}

fn wrong_pair(pair: &[u8]) -> String {
    match pair.iter().find(|byte| !byte.is_ascii_hexdigit()) {
        Some(byte) => format!("`{}` is no hex digit", byte.escape_ascii()),
        None => format!("`{}` stands alone, and a step has two digits", pair.escape_ascii()),
    }
}

#[cfg(test)]
mod tests {
    use super::*;

    /// The name and the bytes, or the message.
    fn of_word(word: &str) -> Result<(String, Vec<u8>), String> {
        schedule(OsStr::new(word)).map(|named| (named.name, named.bytes)).map_err(|Trouble(message)| message)
    }

    #[test]
    fn digits_on_the_command_line() {
        let steps = [0x10, 0x11, 0x20, 0x21];
        for word in ["10112021", "10 11 20 21", "10,11,20,21", "0x10, 0x11 0X2021", " 10\n11\t2021 "] {
            assert_eq!(of_word(word), Ok(("the schedule (hex digits)".to_string(), steps.to_vec())), "{word}");
        }
        assert_eq!(of_word("").map(|(_, bytes)| bytes), Ok(vec![]));
        assert_eq!(of_word(" , ").map(|(_, bytes)| bytes), Ok(vec![]));
        assert_eq!(of_word("fFaA").map(|(_, bytes)| bytes), Ok(vec![0xFF, 0xAA]));
        let odd = "the schedule `101`: taken as hex digits, `1` stands alone, and a step has two digits; a file of that name is ./101";
        assert_eq!(of_word("101"), Err(odd.to_string()));
        assert!(of_word("10 1 20").unwrap_err().contains("`1` stands alone"));
        assert!(of_word("0x").unwrap_err().contains("0x has no digits after it"));
        assert!(of_word("10 1g").unwrap_err().starts_with("the schedule `10 1g`: no such file, and no hex digits"));
    }

    #[test]
    fn text_and_bytes() {
        for text in ["10 11", "0x10,0x11\n", "zz 10", "a"] {
            assert!(is_text(text.as_bytes()), "{text}");
        }
        for bytes in [&b""[..], b"\x10\x11", b"  !!", b"10\x00", b"10\xFF", b"!xyz!"] {
            assert!(!is_text(bytes), "{bytes:?}");
        }
        assert_eq!(from_hex(b"zz 10"), Err("`z` is no hex digit".to_string()));
        assert_eq!(from_hex(b"10 2;"), Err("`;` is no hex digit".to_string()));
    }

    #[test]
    fn sources() {
        assert_eq!(all(std::io::repeat(7).take(MOST_BYTES), Waits::Not).unwrap().len() as u64, MOST_BYTES);
        assert_eq!(all(std::io::repeat(7), Waits::Long), Err("longer than 1048576 bytes, which are the most that is read".to_string()));
        assert_eq!(all(std::io::empty(), Waits::ForWriter(Instant::now())), Err("cannot be read: a pipe that nobody writes to".to_string()));
    }
}
