//! What every line for machines must tell: the command, the library's verdict, and of a refusal all that there is to say.

use crate::faults::Faults;
use crate::question::{Answer, Question};
use crate::read_json::{member, read, text};
use abwakiris::{File, Refusal};
use abwakiris_desk::json::Json;

/// The value of the line, as far as it is one; what is wrong with it is noted.
pub fn value(question: &Question, out: &[u8], faults: &mut Faults) -> Json {
    let line = String::from_utf8_lossy(out);
    faults.unless(line.ends_with('\n') && line.matches('\n').count() == 1, || "--json should print one line".to_string());
    let value = read(line.trim_end_matches('\n')).unwrap_or_else(|wrong| {
        faults.0.push(format!("--json: {wrong}"));
        Json::Null
    });
    faults.same("command", question.command(), text(member(&value, "command")));
    match &question.answer {
        Answer::Accepted(members) => {
            faults.same("verdict", "accepted", text(member(&value, "verdict")));
            for (name, should) in members {
                let found = member(&value, name);
                faults.unless(has(found, should), || format!("{name} should have {should} and is {found}"));
            }
        }
        Answer::Refused(refusal) => {
            faults.same("verdict", "refused", text(member(&value, "verdict")));
            refused(question, refusal, member(&value, "refusal"), faults);
        }
        Answer::Plain | Answer::Trouble => {}
    }
    value
}

/// Whether a value has all of another: an object may have more members.
fn has(found: &Json, should: &Json) -> bool {
    match (found, should) {
        (Json::List(found), Json::List(should)) => found.len() == should.len() && found.iter().zip(should).all(|(found, should)| has(found, should)),
        (Json::Object(_), Json::Object(members)) => members.iter().all(|(name, should)| has(member(found, name), should)),
        _ => found == should,
    }
}

fn refused(question: &Question, refusal: &Refusal, told: &Json, faults: &mut Faults) {
    faults.same("number", &Json::from(refusal.number.number()), member(told, "number"));
    faults.same("words", refusal.number.words(), text(member(told, "words")));
    faults.same("place", &Json::from(refusal.place), member(told, "place"));
    faults.same("file", file(refusal.file), text(member(told, "file")));
    let name = text(member(told, "name")).rsplit('/').next();
    faults.same("name", question.name(refusal.file).or(Some("")), name);
    for name in ["asked", "mend"] {
        faults.unless(!text(member(told, name)).is_empty(), || format!("{name} should be a text"));
    }
    faults.unless(matches!(member(told, "found"), Json::List(_)), || "found should be a list".to_string());
}

fn file(file: File) -> &'static str {
    match file {
        File::Device => "device",
        File::Schedule => "schedule",
        File::Listing => "listing",
        File::Program(_) => "program",
        _ => "none",
    }
}
