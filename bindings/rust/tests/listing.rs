//! Listings through the safe calls: programs there and back, what is refused, buffers at their limits; and the page `docs/listing.md`, whose tables and texts
//! must be what the library answers. The programs are those of the samples, of `docs/FORMAT.md` and of the page.

#[path = "../src/exports.rs"]
mod exports;

use abwakiris::{check, read_listing, read_program, write_listing};
use abwakiris::{Counted, File, Job, Number, Refusal, MOST_LISTING_BYTES, MOST_PROGRAM_BYTES};
use std::collections::BTreeMap;
use std::fs;
use std::path::PathBuf;

const PAGE: &str = include_str!("../../../docs/listing.md");
const FORMAT: &str = include_str!("../../../docs/FORMAT.md");

// What the pages have

/// The fenced blocks of a kind, by name: a block begins with the line "```kind name".
fn blocks<'a>(page: &'a str, kind: &str) -> BTreeMap<&'a str, Vec<&'a str>> {
    let begins = format!("```{kind} ");
    let mut blocks = BTreeMap::new();
    let mut lines = page.lines();
    while let Some(line) = lines.next() {
        if let Some(name) = line.strip_prefix(&begins[..]) {
            let block = lines.by_ref().take_while(|line| !line.starts_with("```")).collect();
            assert!(blocks.insert(name, block).is_none(), "{name} comes twice");
        }
    }
    blocks
}

/// The bytes that hex digits stand for, two a byte, with or without spaces between bytes.
fn unhex(text: &str) -> Vec<u8> {
    let digits: Vec<char> = text.chars().filter(|c| !c.is_whitespace()).collect();
    digits.chunks(2).map(|byte| u8::from_str_radix(&byte.iter().collect::<String>(), 16).expect("hex")).collect()
}

/// The dumps of `docs/FORMAT.md`, in which `;` begins a remark.
fn dumps() -> BTreeMap<&'static str, Vec<u8>> {
    let bytes = |lines: Vec<&str>| lines.iter().flat_map(|line| unhex(line.split(';').next().unwrap())).collect();
    blocks(FORMAT, "hex").into_iter().map(|(name, lines)| (name, bytes(lines))).collect()
}

/// The programs of this page, each with its listing: a line of a block has bytes, a bar, a space and a line of the listing.
fn beside() -> BTreeMap<&'static str, (Vec<u8>, String)> {
    let both = |lines: Vec<&str>| {
        let halves: Vec<(&str, &str)> = lines.iter().map(|line| line.split_once("| ").expect("a bar")).collect();
        let program = halves.iter().flat_map(|(bytes, _)| unhex(bytes)).collect();
        (program, halves.iter().map(|(_, line)| format!("{line}\n")).collect())
    };
    blocks(PAGE, "beside").into_iter().map(|(name, lines)| (name, both(lines))).collect()
}

/// The rows of the page's table whose first line begins so, by cells.
fn table(header: &str) -> Vec<Vec<&'static str>> {
    let lines = PAGE.lines().skip_while(|line| !line.starts_with(header)).take_while(|line| line.starts_with('|'));
    let rows: Vec<Vec<&str>> = lines.skip(2).map(|row| row[1..row.len() - 1].split('|').map(str::trim).collect()).collect();
    assert!(!rows.is_empty(), "no table begins with {header}");
    rows
}

/// What stands in the first backquotes of a cell; nothing where it has none.
fn code(cell: &str) -> &str {
    cell.split('`').nth(1).unwrap_or("")
}

fn says(line: &str) {
    assert!(PAGE.lines().any(|found| found == line), "the page does not say: {line}");
}

// What the calls must answer

fn at(place: usize) -> Refusal {
    Refusal { number: Number::Listing, place: place as u32, file: File::Listing }
}

/// A program's listing, which must be that of the same program.
fn there_and_back(what: &str, program: &[u8]) -> String {
    let text = write_listing(program).unwrap_or_else(|refusal| panic!("{what}: {refusal}"));
    assert_eq!(read_listing(&text).as_deref(), Ok(program), "{what}");
    text
}

// Programs

/// Those of `docs/FORMAT.md`: with a listing where they read, else with the refusal of reading.
#[test]
fn programs_of_the_format() {
    let mut listed = 0;
    for (name, program) in dumps().iter().filter(|(name, _)| name.starts_with("program-")) {
        match read_program(program) {
            Ok(()) => {
                there_and_back(name, program);
                listed += 1;
            }
            Err(refusal) => assert_eq!(write_listing(program), Err(refusal), "{name}"),
        }
    }
    assert!(listed >= 7, "programs that read");
}

#[test]
fn samples() {
    let folder = PathBuf::from(concat!(env!("CARGO_MANIFEST_DIR"), "/../../samples"));
    let bytes = |name: &str| fs::read(folder.join(name)).unwrap_or_else(|wrong| panic!("{name}: {wrong}"));
    let names = fs::read_dir(&folder).expect("the samples").map(|entry| entry.expect("a sample").file_name().into_string().expect("a name"));
    let programs: Vec<String> = names.filter(|name| read_program(&bytes(name)).is_ok()).collect();
    assert!(programs.contains(&"program-a".to_string()));
    for name in &programs {
        there_and_back(name, &bytes(name));
    }
    assert_eq!(write_listing(&bytes("program-a")).map(String::into_bytes), Ok(bytes("listing-a")));
    assert_eq!(read_listing(bytes("listing-a")), Ok(bytes("program-a")));
}

#[test]
fn programs_of_the_page() {
    let (dumps, beside) = (dumps(), beside());
    assert!(beside.keys().eq(["program-a", "program-d"].iter()));
    for (name, (program, text)) in &beside {
        assert_eq!(&there_and_back(name, program), text, "{name}");
    }
    assert_eq!(beside["program-a"].0, dumps["program-a"]);
    let d = &beside["program-d"];
    assert_eq!(check(&dumps["device-g"], &d.0, Job::ONE), Ok(Counted { count: 8, live: 0 }));
    let names = table("| byte |").into_iter().map(|row| code(row[1]).split(' ').next().unwrap());
    for name in names.chain(["program", "function", "main", "else"]) {
        assert!(d.1.lines().any(|line| line.split_whitespace().next() == Some(name)), "program D has {name}");
    }
}

/// Each kind of the table as main's one statement, behind a function without parameters and one with three, of which two are arguments.
#[test]
fn kinds_of_the_page() {
    let rows = table("| byte |");
    assert!(rows.iter().map(|row| row[0].parse::<u8>().unwrap()).eq(1..=13));
    for row in rows {
        let (line, fixed) = (code(row[2]), unhex(code(row[3])));
        let (rest, blocks) = match fixed[0] {
            10 => ("  else\n", 4),
            11 => ("", 2),
            _ => ("", 0),
        };
        let text = format!("program 1\nfunction 0 locations 0 arguments 0\nfunction 1 locations 3 arguments 2\nmain\n  {line}\n{rest}");
        let main = [fixed, vec![0; blocks]].concat();
        let program = [b"QLS\x00\x01\x02\x00\x00\x00\x00\x03\x02\x00\x00", &(main.len() as u16).to_be_bytes()[..], &main].concat();
        assert_eq!(row[0], main[0].to_string());
        assert_eq!(code(row[1]).split(' ').next(), line.split(' ').next());
        assert_eq!(there_and_back(line, &program), text);
    }
}

/// What is refused of a program comes before any text.
#[test]
fn programs_without_a_listing() {
    let no = |number, place| Err(Refusal { number, place, file: File::Program(None) });
    let a = &dumps()["program-a"];
    assert_eq!(write_listing(&[]), no(Number::FileTooShort, 0));
    assert_eq!(write_listing(b"QLG\x00\x01\x00\x00\x00"), no(Number::Mark, 0));
    assert_eq!(write_listing(&[0; MOST_PROGRAM_BYTES + 1]), no(Number::Limit, 0));
    assert_eq!(write_listing(&[&a[..], &[0]].concat()), no(Number::Fit, 24));
    assert_eq!(write_listing(b"QLS\x00\x01\x00\x00\x02\x0E\x00"), no(Number::Statement, 8));
    assert_eq!(write_listing(b"QLS\x00\x01\x00\x00\x02\x03\x20"), no(Number::Operand, 9));
}

// Texts

/// The texts of the table, `/` being a newline; a name is that of a block.
#[test]
fn texts_of_the_page() {
    let named = blocks(PAGE, "refused");
    for row in table("| text | 27 at |") {
        let cell = code(row[0]);
        let text = named.get(cell).map_or_else(|| cell.replace('/', "\n"), |lines| lines.join("\n") + "\n");
        let place = row[1].parse().unwrap();
        assert_eq!(read_listing(&text), Err(at(place)), "{cell}");
        assert_eq!(row[2].starts_with("the end: "), place == text.len(), "{cell}: the text's end is at {}", text.len());
        // what follows the line at fault does not matter
        if place < text.len() && text.ends_with('\n') {
            assert_eq!(read_listing(text + "program 1\nmain\n"), Err(at(place)), "{cell}, and more lines");
        }
    }
    for name in named.keys() {
        assert!(table("| text | 27 at |").iter().any(|row| code(row[0]) == *name), "{name} is in the table");
    }
}

/// What a listing begins with and is none has its fault at the end; a line too much is at fault where it begins.
#[test]
fn unfinished_listings() {
    let text = &beside()["program-d"].1;
    let main = text.find("main\n").unwrap();
    for length in (0..main + "main\n".len()).chain([text.len() - 1]) {
        assert_eq!(read_listing(&text[..length]), Err(at(length)));
    }
    for more in ["\n", "main\n", "else\n", "  free 0 \n", "    free 0\n", "\0", "#"] {
        assert_eq!(read_listing([text, more].concat()), Err(at(text.len())), "{more:?}");
    }
}

/// The text may be any bytes.
#[test]
fn other_bytes() {
    assert_eq!(read_listing([0xFF]), Err(at(0)));
    assert_eq!(read_listing(b"program 1\nmain\n  free \xC3\xA9\n"), Err(at(15)));
    assert_eq!(read_listing("program 1\r\nmain\r\n"), Err(at(0)));
    assert_eq!(read_listing(vec![b'\n'; 2 * MOST_LISTING_BYTES]), Err(at(0)));
    let refusal = read_listing("program 1\nmain\n  free 32\n").unwrap_err();
    assert_eq!(refusal.to_string(), "27: with this line the text begins no listing, or the rest is missing (at 15 in the listing)");
}

// Limits

/// The text whose main has this line so many times.
fn repeated(line: &str, times: usize) -> String {
    "program 1\nmain\n".to_string() + &line.repeat(times)
}

/// The most lines of two bytes that a program holds, and what fits behind one less.
#[test]
fn full_programs() {
    let line = "  free 0\n";
    let most = (MOST_PROGRAM_BYTES - 8) / 2;
    let (one_less, full) = (repeated(line, most - 1), repeated(line, most));
    let program = read_listing(&full).unwrap();
    assert_eq!(program.len(), MOST_PROGRAM_BYTES);
    assert_eq!(there_and_back("a full program", &program), full);
    assert_eq!(read_listing(full.clone() + line), Err(at(full.len())));
    assert_eq!((most, full.len()), (2_044, 18_411));
    says("- After `main`, 2,044 lines `  free 0` are a program of 4,096 bytes. One such line more is 27 at 18,411, where it begins.");
    for (more, place) in [("  if 0\n", 0), ("  i", 0), ("  f", 3)] {
        assert_eq!(read_listing(one_less.clone() + more), Err(at(one_less.len() + place)), "{more:?}");
    }
    says("- After 2,043 of them, which leave 2 bytes, `  if 0` is 27 at its start, and so is the unfinished `  i`. `  f` is 27 at the text's end.");
}

/// The shortest statement in the deepest block, as often as a program holds it: no other line has as much text for its bytes.
#[test]
fn long_listings() {
    let whiles: String = (1..8).map(|depth| format!("{}while 31\n", "  ".repeat(depth))).collect();
    let frees = (MOST_PROGRAM_BYTES - 8 - 4 * 7) / 2;
    let text = repeated("", 0) + &whiles + &format!("{}free 31\n", " ".repeat(16)).repeat(frees);
    let program = read_listing(&text).unwrap();
    assert_eq!(program.len(), MOST_PROGRAM_BYTES);
    assert_eq!(there_and_back("a long listing", &program), text);
    assert!(text.len() <= MOST_LISTING_BYTES);
}

/// The packed answer of a call into a buffer, and the buffer.
fn packed(call: unsafe extern "C" fn(*const u8, usize, *mut u8, usize) -> u64, input: &[u8], length: usize) -> (u64, Vec<u8>) {
    let mut buffer = vec![0xAA; length];
    let answer = unsafe { call(input.as_ptr(), input.len(), buffer.as_mut_ptr(), buffer.len()) };
    (answer, buffer)
}

/// 24 exactly where the buffer is shorter than what is to be written, after every other refusal; what is not written stays.
#[test]
fn buffers() {
    let (program, text) = &beside()["program-d"];
    let ways = [
        (exports::abwakiris_write_listing as unsafe extern "C" fn(*const u8, usize, *mut u8, usize) -> u64, &program[..], text.as_bytes()),
        (exports::abwakiris_read_listing, text.as_bytes(), &program[..]),
    ];
    for (call, input, written) in ways {
        let n = written.len();
        for length in [0, 1, n - 1] {
            assert_eq!(packed(call, input, length), (24 << 32, vec![0xAA; length]));
        }
        for more in [0, 1, 100] {
            assert_eq!(packed(call, input, n + more), (n as u64, [written, &vec![0xAA; more]].concat()));
        }
    }
    let wrong = [&program[..], &[0]].concat();
    assert_eq!(packed(exports::abwakiris_write_listing, &wrong, 0).0, program.len() as u64 | 8 << 32 | 16 << 40);
    assert_eq!(packed(exports::abwakiris_read_listing, b"program 2\n", 3), (27 << 32 | 3 << 40, vec![0xAA; 3]));
}
