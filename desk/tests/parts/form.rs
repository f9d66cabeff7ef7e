//! What all outputs have in common, whatever the command.

use crate::faults::Faults;
use crate::question::{Answer, Question};
use crate::read_json::{member, text};
use crate::seen::Seen;
use abwakiris::Refusal;
use abwakiris_desk::json::Json;
use std::path::Path;

/// The status, and what goes where.
pub fn of_any(question: &Question, seen: &Seen, folder: &Path, faults: &mut Faults) {
    faults.same("status", Some(i32::from(question.answer.status())), seen.status);
    let (out, error) = (String::from_utf8_lossy(&seen.out), String::from_utf8_lossy(&seen.error));
    faults.unless(!error.contains("panicked"), || "it panicked".to_string());
    let here = folder.to_string_lossy();
    faults.unless(!out.contains(&*here) && !error.contains(&*here), || "it names a folder of this computer".to_string());
    faults.unless(error.is_ascii(), || "standard error is not ASCII".to_string());
    let binary = matches!(question.command(), "bundle" | "unlist") && seen.status == Some(0);
    faults.unless(binary || out.is_ascii(), || "standard output is not ASCII".to_string());
    if let Answer::Trouble = question.answer {
        faults.unless(seen.out.is_empty(), || "standard output should be empty where it cannot be tried".to_string());
        faults.unless(error.starts_with("abwakiris: ") && error.ends_with('\n'), || "standard error should say why it cannot be tried".to_string());
    }
}

/// A refusal for people.
pub fn of_refusal(question: &Question, refusal: &Refusal, out: &str, faults: &mut Faults) {
    let first = format!("refused {}: {}\n", refusal.number.number(), refusal.number.words());
    faults.unless(out.starts_with(&first), || format!("it should begin with {first:?}"));
    if let Some(name) = question.name(refusal.file) {
        let place = format!("--> {name}:{}", refusal.place);
        let is_place = |line: &str| line == place || line.starts_with(&format!("{place},"));
        faults.unless(out.lines().any(|line| is_place(line.trim_start())), || format!("a line should begin with {place:?}"));
    }
    for part in ["asked", "mend"] {
        let mark = format!("= {part}: ");
        faults.unless(out.contains(&mark), || format!("a line should have {mark:?}"));
    }
}

/// The text for people says what the line for machines says.
pub fn of_both(out: &str, value: &Json, faults: &mut Faults) {
    let refusal = member(value, "refusal");
    let parts = ["asked", "mend", "text"].map(|part| text(member(refusal, part)));
    for part in parts.into_iter().chain(found(value)) {
        faults.unless(out.contains(part.trim_end()), || format!("--json says {part:?}, and the text does not"));
    }
    if let (Json::Number(line), "program") = (member(refusal, "line"), text(member(refusal, "file"))) {
        let mark = format!(", line {line} of its listing\n");
        faults.unless(out.contains(&mark), || format!("a line should end in {mark:?}"));
    }
}

/// What a line for machines says was found.
pub fn found(value: &Json) -> Vec<&str> {
    match member(member(value, "refusal"), "found") {
        Json::List(values) => values.iter().map(text).collect(),
        _ => vec![],
    }
}
