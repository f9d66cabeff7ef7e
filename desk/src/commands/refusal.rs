//! `abwakiris refusal N`: what a number means and what usually mends it; without N all numbers.

use super::Command;
use crate::args::{number, Asked};
use crate::explain::words::{self, general, Row};
use crate::json::Json;
use crate::said::{trouble, Said, Trouble};
use abwakiris::Number;

pub const COMMAND: Command = Command {
    name: "refusal",
    usage: "[N]",
    about: "what a refusal's number means, and what usually mends it",
    help: "N is the number of a refusal, as 21. Without it the command lists all numbers, each with its line of words.\n\
           The page docs/refusals.md has the same, with an example for each number.",
    example: "21",
    takes: (0, 1),
    options: &[],
    does,
};

fn does(asked: &Asked) -> Result<Said, Trouble> {
    let word = match asked.words.first() {
        Some(word) => word,
        None => return Ok(Said::of(true, asked.json, all, || command().with("refusals", Json::list(words::ROWS.iter().map(machine))))),
    };
    let n = number(word, "refusal")?;
    let known = u8::try_from(n).ok().and_then(|n| Number::try_from(n).ok()).and_then(words::row);
    match known {
        Some(row) => Ok(Said::of(true, asked.json, || text(row), || command().with("refusal", machine(row)))),
        None => trouble(format!("{n} is the number of no refusal; they are 1 to {}", words::ROWS.len())),
    }
}

fn command() -> Json {
    Json::object([("command", "refusal".into())])
}

/// A line for each number.
fn all() -> String {
    words::ROWS.iter().map(|row| format!("{:2}: {}\n", row.number, Number::of(row.number).words())).collect()
}

/// All that is said of a number.
fn text(row: &Row) -> String {
    let mut text = format!("{}\n\n", Number::of(row.number));
    for (name, line) in [("when", row.when), ("place", row.place), ("shown", row.adds)] {
        text.push_str(&format!("{name:5}  {line}\n"));
    }
    for case in row.cases {
        let head = case.of.words();
        text.push_str(&if head.is_empty() { "\n".to_string() } else { format!("\n{head}:\n") });
        text.push_str(&format!("asked  {}\nmend   {}\n", general(case.asked), general(case.mend)));
    }
    text
}

fn machine(row: &Row) -> Json {
    let cases = row.cases.iter().map(|case| {
        let of = Some(case.of.words()).filter(|words| !words.is_empty());
        Json::object([("of", of.into()), ("asked", general(case.asked).into()), ("mend", general(case.mend).into())])
    });
    Json::object([
        ("number", row.number.into()),
        ("words", Number::of(row.number).words().into()),
        ("when", row.when.into()),
        ("place", row.place.into()),
        ("adds", row.adds.into()),
        ("cases", Json::list(cases)),
    ])
}
