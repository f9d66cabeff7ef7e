//! What a person sees: every case's command lines are run, and what comes of them is held against `stored/`, against the facts that the case names, and
//! against the library's own answer. `README.md` beside this file says how outputs are stored again.

mod cases;
#[path = "parts/diff.rs"]
mod diff;
#[path = "parts/faults.rs"]
mod faults;
#[path = "../../tests/files.rs"]
#[rustfmt::skip]
mod files;
#[path = "parts/form.rs"]
mod form;
#[path = "parts/machine_line.rs"]
mod machine_line;
#[path = "parts/pictures.rs"]
mod pictures;
#[path = "parts/question.rs"]
mod question;
#[path = "parts/read_json.rs"]
mod read_json;
#[path = "parts/scratch.rs"]
mod scratch;
#[path = "parts/seen.rs"]
mod seen;
#[path = "parts/stored.rs"]
mod stored;

use abwakiris::{Records, Told};
use abwakiris_desk::commands::COMMANDS;
use cases::{Case, Line};
use faults::Faults;
use question::Answer;
use scratch::Scratch;
use seen::Seen;
use std::collections::BTreeSet;
use std::path::Path;

/// All cases, each in a folder of its own.
#[test]
fn outputs() {
    let scratch = Scratch::new("outputs");
    let cases = cases::all();
    let mut wrong = 0;
    for case in &cases {
        let folder = scratch.path().join(case.name);
        std::fs::create_dir(&folder).expect("cases have different names");
        let faults = tried(&folder, case);
        if !faults.0.is_empty() {
            wrong += 1;
            println!("{}:\n  {}", case.name, faults.0.join("\n  "));
        }
    }
    assert!(wrong == 0, "{wrong} of {} cases are wrong\n{}", cases.len(), stored::HOW);
}

/// What is wrong with a case.
fn tried(folder: &Path, case: &Case) -> Faults {
    let mut faults = Faults::default();
    let mut texts = vec![];
    for line in &case.lines {
        for (name, bytes) in &line.question.files {
            std::fs::write(folder.join(name), bytes).expect("a file of the case");
        }
        (line.prepares)(folder);
        texts.push(line_tried(folder, line, &mut faults));
    }
    if let Err(wrong) = stored::hold(case.name, &texts.join("\n")) {
        faults.0.push(wrong);
    }
    faults
}

/// What comes of a command line, for people and for machines, as it is stored.
fn line_tried(folder: &Path, line: &Line, faults: &mut Faults) -> String {
    let question = &line.question;
    let seen = seen::seen(folder, &question.words, &line.input);
    form::of_any(question, &seen, folder, faults);
    let out = String::from_utf8_lossy(&seen.out);
    if let Answer::Refused(refusal) = &question.answer {
        form::of_refusal(question, refusal, &out, faults);
    }
    let said = if let Answer::Trouble = question.answer { String::from_utf8_lossy(&seen.error) } else { out.clone() };
    lacks("it should say", &said, &line.says, faults);
    let digits = question::spaced(&line.stuck_by).replace(' ', "");
    faults.unless(out.replace(' ', "").contains(&digits), || format!("it should print the schedule {digits}"));
    if question.command() == "show" && seen.status == Some(0) && line.writes.is_empty() {
        pictures::of_terminal(question, &out, faults);
    }
    let mut text = seen.stored();
    for &(file, is_stored) in &line.writes {
        text += &written(&folder.join(file), file, is_stored, faults);
    }
    if let Some(words) = question.for_machines() {
        text += &for_machines(folder, line, &words, &seen, faults);
    }
    text
}

/// What comes of the same command line with `--json`, as it is stored; nothing where it cannot be tried, which is said as it was without.
fn for_machines(folder: &Path, line: &Line, words: &[String], plain: &Seen, faults: &mut Faults) -> String {
    let seen = seen::seen(folder, words, &line.input);
    form::of_any(&line.question, &seen, folder, faults);
    if let Answer::Trouble = line.question.answer {
        faults.unless(seen.error == plain.error, || "with --json something else is said".to_string());
        return String::new();
    }
    let value = machine_line::value(&line.question, &seen.out, faults);
    form::of_both(&String::from_utf8_lossy(&plain.out), &value, faults);
    lacks("found should have", &form::found(&value).join("\n"), &line.finds, faults);
    seen.stored()
}

/// Notes which of these texts are not there. A comma among the digits of a number does not matter.
fn lacks(what: &str, text: &str, texts: &[&str], faults: &mut Faults) {
    let plain = without_commas(text);
    for wanted in texts {
        faults.unless(text.contains(wanted) || plain.contains(wanted), || format!("{what} {wanted:?}"));
    }
}

fn without_commas(text: &str) -> String {
    let is_digit = |at: usize| text.as_bytes().get(at).map_or(false, u8::is_ascii_digit);
    let is_in_number = |at: usize| at > 0 && is_digit(at - 1) && (1..4).all(|more| is_digit(at + more)) && !is_digit(at + 4);
    text.char_indices().filter(|&(at, letter)| letter != ',' || !is_in_number(at)).map(|(_, letter)| letter).collect()
}

/// A file that was written, as it is stored; it is gone afterwards.
fn written(path: &Path, name: &str, is_stored: bool, faults: &mut Faults) -> String {
    let bytes = std::fs::read(path).unwrap_or_default();
    let _ = std::fs::remove_file(path);
    faults.unless(!bytes.is_empty(), || format!("it should write {name}"));
    if name.ends_with(".svg") {
        pictures::of_svg(&String::from_utf8_lossy(&bytes), faults);
    }
    if is_stored {
        seen::part(&format!("file {name}"), &bytes)
    } else {
        format!("--- file {name}, which another test looks into\n")
    }
}

/// The number and the place that a case names are the library's.
#[test]
fn the_documents_answers() {
    for case in cases::all() {
        for line in &case.lines {
            let found = match &line.question.answer {
                Answer::Refused(refusal) => Some((refusal.number.number(), refusal.place)),
                _ => None,
            };
            assert_eq!(line.refused, found, "{}", case.name);
            if !line.stuck_by.is_empty() {
                assert_eq!(last_told(line), line.refused, "{}: the schedule", case.name);
            }
        }
    }
}

/// Why and where the last step of a line's schedule is stuck, by the library, and no step before it.
fn last_told(line: &Line) -> Option<(u8, u32)> {
    let [device, program] = ["device", "program"].map(|name| file(line, name));
    let empty = files::only(&[]);
    let (first, second) = if line.stuck_by[0] < 0x20 { (program, &empty) } else { (&empty, program) };
    let mut records = vec![0; 4 * line.stuck_by.len()];
    let mut map = vec![0; abwakiris::locations(device).ok()?];
    abwakiris::run(device, first, second, &line.stuck_by, &mut records, &mut map).ok()?;
    let mut records: Vec<_> = Records::new(&records).collect();
    let last = records.pop()?;
    match last.told {
        Told::Stuck(number) if records.iter().all(|record| record.told == Told::Moved) => Some((number.number(), last.offset?.into())),
        _ => None,
    }
}

fn file<'a>(line: &'a Line, name: &str) -> &'a Vec<u8> {
    line.question.files.iter().find(|(own, _)| *own == name).map(|(_, bytes)| bytes).expect("a file of this name")
}

/// Every number that a command can be refused with comes up, and every command has its help page.
#[test]
fn every_number_and_every_page() {
    let cases = cases::all();
    let lines: Vec<&Line> = cases.iter().flat_map(|case| &case.lines).collect();
    let numbers = |command: &str| -> BTreeSet<u8> {
        lines.iter().filter(|line| line.question.command() == command).filter_map(|line| line.refused).map(|(number, _)| number).collect()
    };
    let lacking = |command: &str, wanted: &[u8]| assert!(wanted.iter().all(|number| numbers(command).contains(number)), "a number of {command}");
    lacking("check", &(1..=21).chain([25]).collect::<Vec<u8>>());
    lacking("why", &[16, 21, 25]);
    lacking("route", &[13, 15, 21, 25]);
    lacking("run", &[22, 23]);
    lacking("unlist", &[27]);
    for command in COMMANDS {
        assert!(cases.iter().any(|case| case.name == format!("help-{}", command.name)), "the help page of {}", command.name);
        let named = |line: &&Line| line.question.command() == command.name && !line.question.words.contains(&"--help".to_string());
        assert!(lines.iter().any(|line| named(line) && line.question.answer.status() == 0), "{} accepted", command.name);
    }
}

#[test]
fn every_stored_file_has_its_case() {
    let cases = cases::all();
    let names: Vec<&str> = cases.iter().map(|case| case.name).collect();
    assert_eq!(stored::without_case(&names), Vec::<String>::new(), "stored files that belong to no case");
}
