//! Texts beside a listing: parts of it, the same with a character or a line changed, lines that may come at the end of the room, and texts of words and bytes.

use super::random::Random;

/// Every beginning of a short text; of a long one some, most near its end or near the end of a line.
pub(super) fn prefixes(random: &mut Random, text: &[u8]) -> Vec<Vec<u8>> {
    places(random, text, 400).into_iter().map(|at| text[..at].to_vec()).collect()
}

/// How many texts are made of a long one where all are made of a short one: the reference takes long for the longest.
fn some(text: &[u8]) -> usize {
    if text.len() < 4_000 { 12 } else { 4 }
}

/// All places in a short text, its end included; some in a long one.
fn places(random: &mut Random, text: &[u8], short: usize) -> Vec<usize> {
    if text.len() <= short {
        return (0..=text.len()).collect();
    }
    let ends: Vec<usize> = (0..text.len()).filter(|&i| text[i] == b'\n').collect();
    let place = |_| match random.below(4) {
        0 => random.below(text.len() + 1),
        1 => text.len() - random.below(60.min(text.len())),
        2 => random.pick(&ends[ends.len() - ends.len().min(12)..]) + random.below(2),
        _ => random.pick(&ends) + random.below(2),
    };
    (0..some(text)).map(place).collect()
}

const CHARACTERS: &[u8] = b" \n0123789aefinXZHS\t\r\0-+";

/// At every place of a short text, at some of a long one: one character changed in several ways, left out, put in, or doubled.
pub(super) fn characters(random: &mut Random, text: &[u8]) -> Vec<Vec<u8>> {
    let mut texts = Vec::new();
    for at in places(random, text, 160) {
        let (before, behind) = text.split_at(at);
        let any = [random.pick(CHARACTERS), random.pick(CHARACTERS), random.next() as u8];
        texts.push([before, &any[..1], behind].concat());
        if let Some((own, behind)) = behind.split_first() {
            let next = [own.wrapping_add(1), own.wrapping_sub(1), own ^ 0x20];
            for byte in any.into_iter().chain([random.pick(&next)]) {
                texts.push([before, &[byte], behind].concat());
            }
            texts.push([before, behind].concat());
            texts.push([before, &[*own, *own], behind].concat());
        }
    }
    texts
}

/// The text with its lines damaged in one to three ways; some are then cut off.
pub(super) fn lines(random: &mut Random, text: &[u8]) -> Vec<Vec<u8>> {
    let count = 2 * some(text);
    let text = std::str::from_utf8(text).expect("a listing is of characters");
    let damaged = |_| {
        let mut lines: Vec<String> = text.lines().map(String::from).collect();
        for _ in 0..random.pick(&[1, 1, 1, 2, 3]) {
            if !lines.is_empty() {
                damage(random, &mut lines);
            }
        }
        let mut text = joined(&lines);
        match random.below(24) {
            0..=2 => text.truncate(random.below(text.len() + 1)),
            3 | 4 => text.truncate(text.len().saturating_sub(1)),
            5 => text = text.iter().flat_map(|&byte| if byte == b'\n' { vec![b'\r', b'\n'] } else { vec![byte] }).collect(),
            6 | 7 => text.extend(random.pick(&[&b"\n"[..], b" ", b"  ", b"\0", b"\r\n", b"main\n", b"program 1\nmain\n"])),
            _ => {}
        }
        text
    };
    (0..count).map(damaged).collect()
}

fn joined(lines: &[String]) -> Vec<u8> {
    lines.iter().flat_map(|line| [line.as_bytes(), b"\n"].concat()).collect()
}

fn damage(random: &mut Random, lines: &mut Vec<String>) {
    let at = random.below(lines.len());
    match random.below(14) {
        0 => drop(lines.remove(at)),
        1 => lines.insert(at, lines[at].clone()),
        2 => {
            let other = if random.one_in(2) { (at + 1) % lines.len() } else { random.below(lines.len()) };
            lines.swap(at, other);
        }
        3 => indent(random, lines, at),
        4 | 5 => damage_line(random, &mut lines[at]),
        6 | 7 => damage_word(random, &mut lines[at]),
        8 => damage_else(random, lines),
        9 => lines.insert(at, line(random)),
        10 => lines[at] = line(random),
        11 => {
            let next = next_line(random, &lines[at]);
            lines.insert(at + 1, next);
        }
        12 => deepen(random, lines, at),
        _ => damage_heads(random, lines, at),
    }
}

/// A statement that may follow a line: in the block that it opens, or beside it.
fn next_line(random: &mut Random, line: &str) -> String {
    let spaces = line.len() - line.trim_start().len();
    let opens = ["if", "while", "else", "main", "function"].iter().any(|name| line[spaces..].starts_with(name));
    format!("{}{}{}", &line[..spaces], if opens { "  " } else { "" }, statement(random))
}

/// The statements of a body from a line on, all in a while or in a block of an if.
fn deepen(random: &mut Random, lines: &mut Vec<String>, at: usize) {
    let end = (at + 1..lines.len()).find(|&i| !lines[i].starts_with(' ')).unwrap_or(lines.len());
    let begin = if lines[at].starts_with("  ") { at } else { at + 1 };
    let spaces = match lines.get(begin) {
        Some(line) if begin < end => " ".repeat(line.len() - line.trim_start().len()),
        _ => "  ".to_string(),
    };
    for line in &mut lines[begin..end] {
        *line = format!("  {line}");
    }
    if random.one_in(2) {
        lines.insert(begin, format!("{spaces}while 0"));
    } else {
        lines.insert(end, format!("{spaces}else"));
        lines.insert(begin, format!("{spaces}if 0"));
    }
}

/// One line, or some in a row, with one or two spaces more or less before them.
fn indent(random: &mut Random, lines: &mut [String], at: usize) {
    let count = random.pick(&[1, 1, 1, 2, 4]);
    let spaces = random.pick(&["", " ", "  ", "  "]);
    for line in lines.iter_mut().skip(at).take(count) {
        *line = if spaces.is_empty() {
            line.strip_prefix(if count % 2 == 0 { "  " } else { " " }).unwrap_or(line).to_string()
        } else {
            format!("{spaces}{line}")
        };
    }
}

fn damage_line(random: &mut Random, line: &mut String) {
    *line = match random.below(9) {
        0 => format!("{line}\r"),
        1 => line.replace("  ", "\t"),
        2 => format!("{line} "),
        3 => line.replacen(' ', "  ", 3),
        4 => line.to_uppercase(),
        5 => String::new(),
        6 => format!("{line} 0"),
        7 => line.replace(' ', "\n"),
        _ => line.trim().to_string(),
    };
}

/// Another word, or a number that is near a limit, written in another way or too long for any register.
fn damage_word(random: &mut Random, line: &mut String) {
    let mut words: Vec<String> = line.split(' ').map(String::from).collect();
    let at = if random.one_in(2) { words.len() - 1 } else { random.below(words.len()) };
    let own = words[at].clone();
    words[at] = match random.below(10) {
        0 => format!("0{own}"),
        1 => format!("{own}0"),
        2 => format!("{}{own}", "0".repeat(39)),
        3 => "1234567890".repeat(4),
        4 => (own.parse().unwrap_or(0) + random.pick(&[1u128, 32, 256, 1 << 16, 1 << 32, 1 << 64])).to_string(),
        5 => random.pick(&["7", "8", "9", "15", "16", "17", "31", "32", "255", "256"]).to_string(),
        6 => random.pick(&["", "-0", "+1", "1.0", "0x1", "\u{661}"]).to_string(),
        7 => format!("{own} {own}"),
        _ => random.pick(WORDS).to_string(),
    };
    if random.one_in(8) {
        words.remove(at);
    }
    *line = words.join(" ");
}

/// An else missing, doubled, or put in at some indent.
fn damage_else(random: &mut Random, lines: &mut Vec<String>) {
    let elses: Vec<usize> = (0..lines.len()).filter(|&i| lines[i].ends_with("else")).collect();
    match random.pick_if_any(&elses) {
        Some(at) if random.one_in(2) => drop(lines.remove(at)),
        Some(at) => lines.insert(at, lines[at].clone()),
        None => {
            let (at, depth) = (random.below(lines.len() + 1), random.below(4));
            lines.insert(at, format!("{}else", "  ".repeat(depth)));
        }
    }
}

/// The first line, main, or a function's header: missing, another, or one more.
fn damage_heads(random: &mut Random, lines: &mut Vec<String>, at: usize) {
    let (k, m) = (random.below(18), random.below(10));
    let functions = lines.iter().filter(|line| line.starts_with("function")).count();
    if random.one_in(3) {
        // One more function, where it may stand.
        let main = lines.iter().position(|line| line == "main").unwrap_or(lines.len());
        lines.insert(main, format!("function {functions} locations {k} arguments {}", m.min(k)));
        return;
    }
    let head = match random.below(4) {
        0 => "main".to_string(),
        1 => random.pick(&["program 1", "program 2", "program 0", "program", "program 1 "]).to_string(),
        _ => format!("function {} locations {k} arguments {m}", random.below(17)),
    };
    let heads: Vec<usize> = (0..lines.len()).filter(|&i| !lines[i].starts_with(' ')).collect();
    match (random.below(3), random.pick_if_any(&heads)) {
        (0, Some(at)) => drop(lines.remove(at)),
        (1, Some(at)) => lines[at] = head,
        _ => lines.insert(at, head),
    }
}

const WORDS: &[&str] = &[
    "program", "function", "locations", "arguments", "main", "else", "at", "with", "init", "magic", "free", "gate", "measure", "merge", "ref", "get", "set",
    "if", "while", "call", "bool", "X", "Z", "H", "S", "0", "1", "2", "3", "10", "14", "31", "32", "255", "256",
];

/// The statements with a letter for each operand: a slot, a location, a gate, a basis, a bit, a callee with its lists.
const STATEMENTS: &[&str] = &[
    "init s l", "magic s l", "free s", "gate g s", "measure s b s", "merge s b s b s", "ref s s", "get s s", "set s s", "if s", "while s", "call f", "bool s v",
    "else",
];

/// A statement that may be right where it stands.
fn statement(random: &mut Random) -> String {
    let words: Vec<String> = random.pick(STATEMENTS).split(' ').map(|word| operand(random, word)).collect();
    words.join(" ")
}

fn operand(random: &mut Random, word: &str) -> String {
    let number = |random: &mut Random, limit: usize| {
        let limit = if random.one_in(24) { 300 } else { limit };
        random.below(limit).to_string()
    };
    match word {
        "s" => number(random, 32),
        "l" => {
            let limit = random.pick(&[1, 2, 16, 256]);
            number(random, limit)
        }
        "g" => random.pick(&["X", "Z", "H", "S"]).to_string(),
        "b" => random.pick(&["X", "Z"]).to_string(),
        "v" => number(random, 2),
        "f" => {
            let mut text = number(random, 15);
            let k = random.pick(&[0, 0, 1, 2, 3, 16]);
            let m = random.below(k + 1);
            for (word, count) in [("at", k), ("with", m)] {
                if count > 0 {
                    text = format!("{text} {word}");
                }
                for _ in 0..count {
                    text = format!("{text} {}", random.below(3));
                }
            }
            text
        }
        name => name.to_string(),
    }
}

/// A statement at any indent.
fn line(random: &mut Random) -> String {
    let depth = random.pick(&[1, 1, 2, 2, 3, 4, 5, 6, 7, 8, 9]);
    format!("{}{}", "  ".repeat(depth), statement(random))
}

/// The text up to the end of one of its last lines, and behind it a line that is begun, or whole: in a listing of the longest program it may or may not fit.
pub(super) fn room(random: &mut Random, text: &[u8]) -> Vec<Vec<u8>> {
    let ends: Vec<usize> = (0..text.len()).filter(|&i| text[i] == b'\n').map(|i| i + 1).collect();
    // Where main's own line begins, and how many functions stand before it.
    let main = ends.iter().copied().find(|&end| text[end..].starts_with(b"main\n")).expect("main");
    let functions = ends.iter().filter(|&&end| text[end..].starts_with(b"function")).count();
    let begun = |_| {
        let last = ends.len().min(random.pick(&[1, 2, 4, 12, ends.len()]));
        let mut end = ends[ends.len() - 1 - random.below(last)];
        if random.one_in(3) {
            end = main;
        }
        let before = text[..end - 1].rsplit(|&byte| byte == b'\n').next().expect("a line");
        let mut line = match random.below(8) {
            0 => "main".to_string(),
            1 => format!("function {functions} locations 0 arguments 0"),
            2 | 3 => line(random),
            _ => next_line(random, std::str::from_utf8(before).expect("a listing is of characters")),
        };
        match random.below(4) {
            0 => line += "\n",
            1 => {}
            _ => line.truncate(random.below(line.len() + 1)),
        }
        let more = if random.one_in(4) { &text[end..] } else { b"" };
        [&text[..end], line.as_bytes(), more].concat()
    };
    (0..8).map(begun).collect()
}

/// Lines one below the other, each at an indent that goes with the one before most times; some are cut off.
pub(super) fn words(random: &mut Random) -> Vec<Vec<u8>> {
    let grown = |_| {
        let mut text = "program 1\n".to_string();
        for i in 0..random.below(4) {
            let (k, m) = (random.below(4), random.below(3));
            text += &format!("function {i} locations {k} arguments {}\n", m.min(k));
            text += &body(random);
        }
        text += "main\n";
        text += &body(random);
        if random.one_in(2) {
            text.truncate(random.below(text.len() + 1));
        }
        text.into_bytes()
    };
    (0..24).map(grown).collect()
}

fn body(random: &mut Random) -> String {
    let mut depth = 1;
    let mut text = String::new();
    for _ in 0..random.below(8) {
        let statement = statement(random);
        if statement == "else" && depth > 1 {
            depth -= 1;
        }
        text += &format!("{}{statement}\n", "  ".repeat(depth));
        if ["if", "while", "else"].iter().any(|name| statement.starts_with(name)) {
            depth += 1;
        } else if depth > 1 && random.one_in(4) {
            depth -= random.between(1, depth - 1);
        }
    }
    text
}

/// Words in any order, characters of listings in any order, and bytes as they come; some behind a true first line.
pub(super) fn bytes(random: &mut Random) -> Vec<Vec<u8>> {
    let any = |_| {
        let mut text = random.pick(&["", "program 1\n", "program 1\nmain\n", "program 1\nmain\n  "]).as_bytes().to_vec();
        let kind = random.below(3);
        for _ in 0..random.pick(&[0, 1, 3, 10, 100]) {
            match kind {
                0 => {
                    text.extend(random.pick(WORDS).as_bytes());
                    text.push(random.pick(b"    \n"));
                }
                1 => text.push(random.pick(b"  \n01abcdefghilmnoprstuw")),
                _ => text.push(random.next() as u8),
            }
        }
        text
    };
    (0..24).map(any).collect()
}
