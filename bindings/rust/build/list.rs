//! The list of refusals in include/abwakiris.h: a line that begins it, then the entries, one a line, each but the last with a `\` at its end.

/// An entry: `X(number, ABWAKIRIS_NO_NAME, Name, "words")`.
#[derive(Debug, PartialEq, Eq)]
pub struct Entry<'a> {
    /// The refusal's number.
    pub number: usize,
    /// Its name in C.
    pub c_name: &'a str,
    /// Its name in Rust.
    pub rust_name: &'a str,
    /// When it is given, in one line.
    pub words: &'a str,
}

/// The line that begins the list.
const BEGIN: &str = "#define ABWAKIRIS_REFUSALS(X) \\";

/// The entries of the header's list, which have the numbers 1, 2, .. in order; or which line is not as it must be, and why.
pub fn entries(header: &str) -> Result<Vec<Entry<'_>>, String> {
    let mut lines = header.lines().zip(1..).skip_while(|(line, _)| *line != BEGIN);
    lines.next().ok_or_else(|| format!("no line is `{BEGIN}`"))?;
    let mut entries = vec![];
    for (line, at) in lines {
        let going_on = line.strip_suffix('\\');
        let text = going_on.unwrap_or(line).trim();
        entries.push(entry(text, entries.len() + 1).map_err(|wrong| format!("line {at}: {wrong}, but there stands `{text}`"))?);
        if going_on.is_none() {
            return Ok(entries);
        }
    }
    Err("the list of refusals does not end".to_string())
}

/// The entry that a line is, which must have this number; or what it must be.
fn entry(line: &str, number: usize) -> Result<Entry<'_>, String> {
    let inside = line.strip_prefix("X(").and_then(|rest| rest.strip_suffix(')'));
    let parts: Vec<&str> = inside.unwrap_or("").splitn(4, ", ").collect();
    match parts[..] {
        [first, c_name, rust_name, quoted] => {
            must(first == number.to_string(), &format!("the entry's number must be {number}"))?;
            must(is_c_name(c_name), "the name in C must be ABWAKIRIS_NO_ and capital letters, digits or _")?;
            must(is_rust_name(rust_name), "the name in Rust must be letters and digits, a capital first, and not Unknown")?;
            let words = unquoted(quoted).ok_or("the words must stand in quotes, in one line without \" or \\")?;
            Ok(Entry { number, c_name, rust_name, words })
        }
        _ => Err("an entry must be X(number, ABWAKIRIS_NO_NAME, Name, \"words\")".to_string()),
    }
}

fn must(holds: bool, wrong: &str) -> Result<(), String> {
    if holds {
        Ok(())
    } else {
        Err(wrong.to_string())
    }
}

fn is_c_name(name: &str) -> bool {
    let rest = name.strip_prefix("ABWAKIRIS_NO_").unwrap_or("");
    !rest.is_empty() && rest.bytes().all(|byte| byte.is_ascii_uppercase() || byte.is_ascii_digit() || byte == b'_')
}

fn is_rust_name(name: &str) -> bool {
    name.starts_with(|first: char| first.is_ascii_uppercase()) && name.bytes().all(|byte| byte.is_ascii_alphanumeric()) && name != "Unknown"
}

fn unquoted(quoted: &str) -> Option<&str> {
    let words = quoted.strip_prefix('"')?.strip_suffix('"')?;
    let plain = !words.is_empty() && words.chars().all(|letter| letter != '"' && letter != '\\');
    plain.then_some(words)
}
