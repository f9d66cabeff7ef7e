//! What one of the parts of this module has to say of a refusal.

use super::excerpt::Excerpt;
use super::words::Of;

/// The words in braces of a text, filled in.
pub type Values = Vec<(&'static str, String)>;

/// What is said, as far as it is known.
#[derive(Debug, Default)]
pub struct Part {
    /// What is at the place.
    pub at: Option<String>,
    pub line: Option<usize>,
    pub statement: Option<String>,
    pub excerpts: Vec<Excerpt>,
    /// Which case of the number it is.
    pub case: Option<Of>,
    pub values: Values,
    pub found: Vec<String>,
    pub see: Option<String>,
}

/// A byte in words.
pub fn byte(byte: u8) -> String {
    format!("{byte} ({byte:02X} hex)")
}

/// What file these bytes look like by how they begin, if it is another one than they were read as.
pub fn looks_like(bytes: &[u8]) -> Option<String> {
    let what = if bytes.starts_with(b"QLG") {
        "a device file"
    } else if bytes.starts_with(b"QLS") {
        "a program file, of which abwakiris list prints the listing"
    } else if bytes.starts_with(b"program ") {
        "a listing, of which abwakiris unlist makes the program file"
    } else if bytes.get(2..5) == Some(b"QLG") {
        "a bundle, in which a device and a program stand one after the other"
    } else {
        return None;
    };
    Some(format!("this looks like {what}"))
}
