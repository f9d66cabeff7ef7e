//! A refusal in a program: of one that reads, the line of its listing and what typing, the count or the search for a path found there.

use super::excerpt::Excerpt;
use super::found::{self, Words};
use super::part::Part;
use super::words::Of;
use super::{count, job_of, partial, path, typing, Given};
use crate::device::Device;
use crate::input::Named;
use crate::program::Program;
use abwakiris::{File, Job, Refusal};
use std::collections::BTreeSet;

/// What there is to say of a refusal in these bytes.
pub fn said(refusal: Refusal, bytes: &[u8], given: &Given) -> Part {
    let (number, place) = (refusal.number.number(), refusal.place as usize);
    match Program::read(bytes) {
        Err(_) => partial::said(number, place, bytes),
        Ok(program) if number == 20 => {
            Part { at: Some("the whole program".to_string()), case: Some(Of::Only), found: count::lines(&program), ..Part::default() }
        }
        Ok(program) => at_line(refusal, &program, given),
    }
}

/// A refusal at a line of a program's listing.
fn at_line(refusal: Refusal, program: &Program, given: &Given) -> Part {
    let place = refusal.place as usize;
    let line = program.listing.number(place);
    let mut part =
        Part { at: Some(format!("line {line} of its listing")), line: Some(line), statement: Some(program.listing.text(line).to_string()), ..Part::default() };
    let mut others = BTreeSet::new();
    if let (Some(device), Some(job)) = (given.device.and_then(|device| Device::read(&device.bytes).ok()), job_of(refusal, given)) {
        let words = Words::new(&device, program, job, program.body_at(place));
        if refusal.number.number() == 21 {
            without_path(&mut part, &words, place, given);
        } else {
            typed(&mut part, &words, refusal);
        }
        others = words.named.into_inner();
    }
    part.excerpts.push(Excerpt::of_line(&program.listing, line, &others));
    part
}

/// What typing found. Where the walk comes to another refusal than the library, nothing is said.
fn typed(part: &mut Part, words: &Words, refusal: Refusal) {
    let found = typing::at_refusal(words.device, words.program, words.job);
    if let Some(found) = found.filter(|found| found.why.number() == refusal.number.number() && found.place == refusal.place as usize) {
        part.case = Some(found::case(&found, words.program));
        part.values = words.values(&found);
        part.found = words.lines(&found);
    }
}

/// What is known of a merge without a path, and the command that says more.
fn without_path(part: &mut Part, words: &Words, place: usize, given: &Given) {
    part.case = Some(Of::Merge);
    if let Some((case, values, found)) = path::at_merge(words, place) {
        part.case = Some(case);
        part.values = values;
        part.found = found;
    }
    let name = |named: Option<&Named>, otherwise: &str| named.filter(|named| is_word(&named.name)).map_or(otherwise.to_string(), |named| named.name.clone());
    let program = given.file(File::Program(Some(words.job)));
    let job = if words.job == Job::ONE { "" } else { " --job 2" };
    part.see = Some(format!(
        "the device at that moment and the outcomes that lead there: abwakiris why {} {}{job}",
        name(given.device, "DEVICE"),
        name(program, "PROGRAM")
    ));
}

/// Whether a name can stand in a command line as it is. That of standard input cannot: it is read up.
fn is_word(name: &str) -> bool {
    !name.chars().any(|letter| letter.is_whitespace() || letter.is_control() || "'\"\\$`*?&|;<>()!#".contains(letter))
}
