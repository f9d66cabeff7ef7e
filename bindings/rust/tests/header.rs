//! That names, words, sizes and version are those of include/abwakiris.h, and the version that of CHANGELOG.md; and that a line of the header's list
//! that is not as it must be is refused.

#[path = "../build/list.rs"]
mod list;

use abwakiris::{Number, MOST_COUNT, MOST_EDGES, MOST_LISTING_BYTES, MOST_LIVE, MOST_LOCATIONS, MOST_PROGRAM_BYTES, MOST_STEPS, RECORD_BYTES};

const HEADER: &str = include_str!("../../../include/abwakiris.h");
const CHANGELOG: &str = include_str!("../../../CHANGELOG.md");

#[test]
fn no_entry_is_missing() {
    let entries = list::entries(HEADER).unwrap();
    let numbers: Vec<usize> = entries.iter().map(|entry| entry.number).collect();
    assert_eq!(numbers, (1..=27).collect::<Vec<usize>>());
    let numbers: Vec<u8> = Number::ALL.iter().map(|number| number.number()).collect();
    assert_eq!(numbers, (1..=27).collect::<Vec<u8>>());
}

/// Outside programs use these names.
#[test]
fn names() {
    use Number::*;
    let first = [FileTooShort, Mark, Version, Limit, DeviceLength, Owner, Edge, Fit, Statement, Operand, Kind, SlotBound, OutsideRegion];
    let second = [NotFree, Twice, ArgumentPlace, QubitOutlives, BranchesDiffer, LoopLoses, Count, NoPath, ScheduleLength, ScheduleByte];
    let third = [BufferTooShort, Job, OccupancyLength, Listing];
    assert_eq!([&first[..], &second[..], &third[..]].concat(), Number::ALL);
}

#[test]
fn names_and_words() {
    let entries = list::entries(HEADER).unwrap();
    for (entry, &number) in entries.iter().zip(Number::ALL) {
        assert_eq!((usize::from(number.number()), number.words()), (entry.number, entry.words));
        assert_eq!(format!("{number:?}"), entry.rust_name);
        assert_eq!(HEADER.matches(&format!(" {},", entry.c_name)).count(), 1, "{}", entry.c_name);
        assert!(!entry.words.contains('\n') && entry.words.trim() == entry.words, "{}", entry.words);
    }
}

#[test]
fn numbers() {
    for number in 0..=255 {
        let found = Number::of(number);
        assert_eq!(found.number(), number);
        assert_eq!(Number::ALL.contains(&found), (1..=27).contains(&number));
        match Number::try_from(number) {
            Ok(known) => assert_eq!(known, found),
            Err(unknown) => assert_eq!((found, unknown.number()), (Number::Unknown(number), number)),
        }
    }
    assert_eq!(Number::NoPath.to_string(), "21: no path");
    assert_eq!(Number::try_from(0).unwrap_err().to_string(), "0 is the number of no refusal that has words here");
}

/// What the C compiler has for a constant of the header that is written `NAME = value` or `#define NAME value`.
fn constant(name: &str) -> &'static str {
    let value = |line: &'static str| {
        let rest = line.trim().trim_start_matches("#define ").strip_prefix(name)?;
        Some(rest.strip_prefix(' ')?.trim_start_matches("= ").trim_end_matches(','))
    };
    HEADER.lines().find_map(value).unwrap_or_else(|| panic!("the header has no {name}"))
}

#[test]
fn sizes() {
    let sizes = [
        ("ABWAKIRIS_MOST_LOCATIONS", MOST_LOCATIONS),
        ("ABWAKIRIS_MOST_EDGES", MOST_EDGES),
        ("ABWAKIRIS_MOST_PROGRAM_BYTES", MOST_PROGRAM_BYTES),
        ("ABWAKIRIS_MOST_LISTING_BYTES", MOST_LISTING_BYTES),
        ("ABWAKIRIS_MOST_COUNT", MOST_COUNT as usize),
        ("ABWAKIRIS_MOST_LIVE", MOST_LIVE as usize),
        ("ABWAKIRIS_MOST_STEPS", MOST_STEPS),
        ("ABWAKIRIS_RECORD_BYTES", RECORD_BYTES),
    ];
    for (name, size) in sizes {
        assert_eq!(constant(name), size.to_string(), "{name}");
    }
}

#[test]
fn version() {
    assert_eq!(constant("ABWAKIRIS_VERSION"), concat!('"', env!("CARGO_PKG_VERSION"), '"'));
    let newest = CHANGELOG.lines().find_map(|line| line.strip_prefix("## "));
    assert_eq!(newest.and_then(|section| section.split(',').next()), Some(env!("CARGO_PKG_VERSION")));
}

/// What is wrong with a list whose second line is this one.
fn wrong(line: &str) -> String {
    let list = format!("/* */\n#define ABWAKIRIS_REFUSALS(X) \\\n    X(1, ABWAKIRIS_NO_FIT, Fit, \"fit\") \\\n    {line}\n");
    list::entries(&list).unwrap_err()
}

#[test]
fn malformed_lines() {
    let form = "line 4: an entry must be X(number, ABWAKIRIS_NO_NAME, Name, \"words\"), but there stands ";
    assert_eq!(wrong(""), format!("{form}``"));
    assert_eq!(wrong("X(2, ABWAKIRIS_NO_MARK, Mark)"), format!("{form}`X(2, ABWAKIRIS_NO_MARK, Mark)`"));
    assert_eq!(wrong("X(2, ABWAKIRIS_NO_MARK, Mark, \"mark\""), format!("{form}`X(2, ABWAKIRIS_NO_MARK, Mark, \"mark\"`"));
    assert!(wrong("X(3, ABWAKIRIS_NO_MARK, Mark, \"mark\")").starts_with("line 4: the entry's number must be 2, but"));
    assert!(wrong("X(02, ABWAKIRIS_NO_MARK, Mark, \"mark\")").starts_with("line 4: the entry's number must be 2, but"));
    for name in ["MARK", "ABWAKIRIS_NO_", "ABWAKIRIS_NO_Mark", "ABWAKIRIS_NO_A B"] {
        assert!(wrong(&format!("X(2, {name}, Mark, \"mark\")")).starts_with("line 4: the name in C must be "), "{name}");
    }
    for name in ["", "mark", "No Mark", "2Mark", "Unknown"] {
        assert!(wrong(&format!("X(2, ABWAKIRIS_NO_MARK, {name}, \"mark\")")).starts_with("line 4: the name in Rust must be "), "{name}");
    }
    for words in ["mark", "\"\"", "\"", "\"a \"mark\"\"", "\"mark\\n\"", "\"mark\" \"and mark\""] {
        assert!(wrong(&format!("X(2, ABWAKIRIS_NO_MARK, Mark, {words})")).starts_with("line 4: the words must stand in quotes"), "{words}");
    }
    assert_eq!(wrong("X(2, ABWAKIRIS_NO_MARK, Mark, \"mark\") \\"), "the list of refusals does not end");
    assert_eq!(list::entries("").unwrap_err(), "no line is `#define ABWAKIRIS_REFUSALS(X) \\`");
}
