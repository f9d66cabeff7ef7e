//! The members of lines for machines: `docs/desk.md` names each that a stored output has, at its place, and each that it names is in some stored output.

#[path = "parts/read_json.rs"]
mod read_json;

use abwakiris_desk::json::Json;
use read_json::{member, read, text};
use std::collections::BTreeSet;
use std::path::Path;

const PAGE: &str = include_str!("../../docs/desk.md");

/// What has a member, and the member's name: `("run.steps", "outcome")`.
type Member = (String, String);

/// The members of a value that stands at a place, and of all that is in it.
fn members(place: &str, value: &Json, all: &mut BTreeSet<Member>) {
    match value {
        Json::Object(own) => {
            for (name, value) in own {
                all.insert((place.to_string(), name.clone()));
                members(&format!("{place}.{name}"), value, all);
            }
        }
        Json::List(values) => values.iter().for_each(|value| members(place, value, all)),
        _ => {}
    }
}

/// The members of every line for machines that is stored.
fn printed() -> BTreeSet<Member> {
    let mut all = BTreeSet::new();
    let stored = Path::new(env!("CARGO_MANIFEST_DIR")).join("tests/stored");
    for entry in std::fs::read_dir(stored).expect("stored outputs").flatten() {
        let output = String::from_utf8(std::fs::read(entry.path()).expect("a stored output")).expect("text");
        for line in output.lines().filter(|line| line.starts_with("{\"command\":")) {
            let value = read(line).expect(line);
            members(text(member(&value, "command")), &value, &mut all);
        }
    }
    all
}

/// What stands in a cell between backticks.
fn quoted(cell: &str) -> Vec<&str> {
    cell.split('`').skip(1).step_by(2).collect()
}

/// The members that the tables of the page name. A row without a first cell is about what the row before is about.
fn named() -> BTreeSet<Member> {
    let section = PAGE.split("\n## ").find(|section| section.starts_with("JSON\n")).expect("a section");
    let mut all = BTreeSet::new();
    let mut places = vec![];
    for row in section.lines().filter(|line| line.starts_with('|')) {
        let cells: Vec<&str> = row.split('|').collect();
        assert_eq!(cells.len(), 5, "{row}");
        if !cells[1].trim().is_empty() {
            places = quoted(cells[1]);
        }
        for place in &places {
            all.extend(quoted(cells[2]).iter().map(|name| (place.to_string(), name.to_string())));
        }
    }
    all
}

/// Whether a member that is named is this one. A star stands for every command but `refusal`.
fn is_named(named: &Member, printed: &Member) -> bool {
    let starred = || printed.0.split_once('.').map_or("*".to_string(), |(_, rest)| format!("*.{rest}"));
    named.1 == printed.1 && (named.0 == printed.0 || !printed.0.starts_with("refusal") && named.0 == starred())
}

#[test]
fn the_page_names_every_member() {
    let (named, printed) = (named(), printed());
    assert!(named.len() > 80 && printed.len() > 80);
    let lacks: Vec<&Member> = printed.iter().filter(|printed| !named.iter().any(|named| is_named(named, printed))).collect();
    assert!(lacks.is_empty(), "the tables of docs/desk.md do not name {lacks:?}");
}

#[test]
fn every_member_of_the_page_is_printed() {
    let (named, printed) = (named(), printed());
    let lacks: Vec<&Member> = named.iter().filter(|named| !printed.iter().any(|printed| is_named(named, printed))).collect();
    assert!(lacks.is_empty(), "no stored output has {lacks:?}, which docs/desk.md names");
}

/// `docs/refusals.md` has the members of a refusal too.
#[test]
fn the_page_of_refusals_names_the_same() {
    let page = include_str!("../../docs/refusals.md");
    let table = page.split("\n| member | holds |\n").nth(1).and_then(|rest| rest.split("\n\n").next()).expect("a table");
    let own: BTreeSet<&str> = table.lines().filter_map(|row| row.split('|').nth(1)).flat_map(quoted).collect();
    let named = named();
    let desk: BTreeSet<&str> = named.iter().filter(|(place, _)| place == "*.refusal").map(|(_, name)| name.as_str()).collect();
    assert_eq!(own, desk);
}
