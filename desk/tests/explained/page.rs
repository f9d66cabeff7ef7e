//! `docs/refusals.md` has the words of the table, number by number, and its examples are refused as it says.

use crate::{checked, listed, named, routed};
use crate::{files, Seen};
use abwakiris::{read_device, read_listing, read_program, run, Number, Refusal};
use abwakiris_desk::args::{self, Taken};
use abwakiris_desk::explain::words::{general, Row, ROWS};
use abwakiris_desk::explain::{explained, Given};
use abwakiris_desk::json::Json;

const PAGE: &str = include_str!("../../../docs/refusals.md");

/// The text of each number's section, its lines joined.
fn sections() -> Vec<String> {
    let parts: Vec<&str> = PAGE.split("\n## ").collect();
    parts[1..].iter().map(|part| part.split_whitespace().collect::<Vec<_>>().join(" ")).collect()
}

#[test]
fn every_number_has_its_words() {
    assert_eq!(Number::ALL.iter().map(|number| number.number()).collect::<Vec<_>>(), ROWS.iter().map(|row| row.number).collect::<Vec<_>>());
    let sections = sections();
    assert_eq!(sections.len(), ROWS.len());
    for (row, section) in ROWS.iter().zip(&sections) {
        let lines = lines(row);
        let written = section.split(" - ").next().unwrap();
        assert_eq!(written, Number::of(row.number).to_string());
        for line in &lines {
            assert!(section.contains(line.as_str()), "{}: the page lacks\n{line}", row.number);
        }
        assert_eq!(section.matches(" - Asked").count(), row.cases.len(), "{}", row.number);
    }
}

/// What the page has of a row.
fn lines(row: &Row) -> Vec<String> {
    let mut lines = vec![format!("- When: {}.", row.when), format!("- Place: {}.", row.place), format!("- Shown: {}.", row.adds)];
    for case in row.cases {
        let of = case.of.words();
        let of = if of.is_empty() { String::new() } else { format!(", {of}") };
        lines.push(format!("- Asked{of}: {}. Mend: {}.", general(case.asked), general(case.mend)));
    }
    lines
}

/// What the command says where it is asked for this.
fn said(words: &[&str]) -> String {
    match args::taken(words.iter().map(Into::into).collect()).unwrap() {
        Taken::Asked(asked) => String::from_utf8((asked.command.does)(&asked).unwrap().out).unwrap(),
        Taken::Help(page) => page,
    }
}

/// `abwakiris refusal` says the same, in words and for machines.
#[test]
fn the_command_says_the_same() {
    let (all, machine) = (said(&["refusal"]), said(&["refusal", "--json"]));
    assert_eq!((all.lines().count(), machine.lines().count()), (ROWS.len(), 1));
    for row in ROWS {
        let number = row.number.to_string();
        let (text, json) = (said(&["refusal", &number]), said(&["refusal", &number, "--json"]));
        let head = Number::of(row.number).to_string();
        assert!(all.contains(&head) && text.starts_with(&head), "{text}");
        for words in row.cases.iter().flat_map(|case| [general(case.asked), general(case.mend)]).chain([row.when, row.place, row.adds].map(str::to_string)) {
            let quoted = Json::from(words.as_str()).to_string();
            assert!(text.contains(&words) && json.contains(&quoted) && machine.contains(&quoted), "{number} does not say\n{words}");
        }
    }
    let asked = args::taken(vec!["refusal".into(), "28".into()]);
    assert!(matches!(asked, Ok(Taken::Asked(asked)) if (asked.command.does)(&asked).is_err()));
}

/// Every word of the table is a plain sentence without its end, and ASCII.
#[test]
fn words_are_plain() {
    for row in ROWS {
        let texts = row.cases.iter().flat_map(|case| [general(case.asked), general(case.mend)]);
        for text in texts.chain([row.when, row.place, row.adds].map(str::to_string)) {
            assert!(text.is_ascii() && !text.ends_with('.') && !text.contains('{') && text.len() < 200, "{}: {text}", row.number);
        }
    }
}

/// A block of the page: its kind, the refusal that it names, its lines, and the line of words before it.
struct Example {
    kind: &'static str,
    number: u8,
    place: u32,
    body: &'static str,
    before: &'static str,
}

fn examples() -> Vec<Example> {
    let parts: Vec<&'static str> = PAGE.split("```").collect();
    let blocks = parts.chunks(2).filter(|pair| pair.len() == 2);
    blocks.filter_map(|pair| example(pair[0], pair[1])).collect()
}

fn example(before: &'static str, block: &'static str) -> Option<Example> {
    let (head, body) = block.split_once('\n').unwrap();
    let words: Vec<&'static str> = head.split(' ').collect();
    match words[..] {
        [kind, number, "at", place] => {
            let before = before.trim_end().lines().last().unwrap();
            Some(Example { kind, number: number.parse().unwrap(), place: place.parse().unwrap(), body, before })
        }
        _ => None,
    }
}

/// The bytes of lines of hex digits, each with a comment that starts with its offset.
fn bytes(body: &str) -> Vec<u8> {
    let mut bytes = vec![];
    for line in body.lines() {
        let (hex, comment) = line.split_once(';').unwrap();
        assert_eq!(comment.trim().split(':').next().unwrap(), bytes.len().to_string(), "{line}");
        bytes.extend(hex.split_whitespace().flat_map(files::unhex));
    }
    bytes
}

/// What the library says of an example, in words.
fn refused(example: &Example) -> Seen {
    match example.kind {
        "device" => of(read_device(&bytes(example.body)).unwrap_err(), &bytes(example.body)),
        "program" => of(read_program(&bytes(example.body)).unwrap_err(), &bytes(example.body)),
        "schedule" => {
            let schedule = bytes(example.body);
            let a = files::program_a();
            of(run(&files::grid(), &a, &a, &schedule, &mut [0; 64], &mut [0; 6]).unwrap_err(), &schedule)
        }
        "listing" => listed(example.body.as_bytes()),
        "check" => checked(&files::grid(), &read_listing(example.body).unwrap(), 1),
        "route" => {
            let words: Vec<&str> = example.body.split_whitespace().collect();
            assert_eq!(words[..3], ["abwakiris", "route", "samples/device-g"]);
            let occupied: Vec<usize> = words.get(6).map_or(vec![], |list| list.split(',').map(|word| word.parse().unwrap()).collect());
            routed(&files::grid(), 1, &occupied, [words[3].parse().unwrap(), words[4].parse().unwrap()])
        }
        other => panic!("no example is of the kind {other}"),
    }
}

/// A refusal of one file alone, whichever it is.
fn of(refusal: Refusal, bytes: &[u8]) -> Seen {
    let file = named("file", bytes);
    Seen(explained(refusal, &Given { device: Some(&file), programs: [Some(&file), None], schedule: Some(&file), ..Given::default() }))
}

#[test]
fn examples_are_refused_so() {
    let examples = examples();
    for example in &examples {
        let what = match example.kind {
            "check" => "program whose check".to_string(),
            "listing" => "text that".to_string(),
            kind => format!("{kind} that"),
        };
        assert_eq!(example.before, format!("A {what} is refused with {} at {}:", example.number, example.place));
        refused(example).is(example.number, example.place, &[]);
    }
    let in_words = [20, 22, 24, 25, 26];
    for row in ROWS {
        assert!(in_words.contains(&row.number) || examples.iter().any(|example| example.number == row.number), "{} has no example", row.number);
    }
}

/// The text at the top of the page is what the command prints.
#[test]
fn the_text_of_a_refusal() {
    let shown = PAGE.split("```text\n").nth(1).unwrap().split("```").next().unwrap();
    let example = examples().into_iter().find(|example| example.kind == "check" && example.number == 21).unwrap();
    assert_eq!(refused(&example).0.text(), shown);
}
