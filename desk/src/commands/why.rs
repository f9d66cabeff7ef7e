//! `abwakiris why`: why a merge has no path: the calls, the device there, the outcomes that lead there.

use super::common::{layout, refused, Check};
use super::Command;
use crate::args::{Asked, Takes};
use crate::device::Device;
use crate::explain::{explained, Explained, Given};
use crate::json::Json;
use crate::program::Program;
use crate::said::{quoted, shown, trouble, Said, Trouble};
use crate::why::words::Words;
use crate::why::Why;
use crate::{output, svg};
use abwakiris::{Job, Number, Refusal};
use std::ffi::OsStr;
use std::os::unix::ffi::OsStrExt;

pub const COMMAND: Command = Command {
    name: "why",
    usage: "DEVICE PROGRAM",
    about: "why a merge has no path: the calls, the device there, the outcomes that lead there",
    help: "Asks the library as abwakiris check does, and explains any other refusal as it does. Of a merge without a path, 21, it shows how the check comes \
           there, over calls with their locations and branches with their guards; the device at that moment; the qubits in the way; a schedule of this job \
           alone that is stuck there, the shortest where that can be known; and a run that begins alike and does not halt. The library has run each schedule, \
           and abwakiris run replays it. Where no outcomes lead there it says so. -o FILE.svg also writes the device at that moment as a picture.",
    example: "samples/story-device samples/story-program",
    takes: (2, 2),
    options: &[Takes::Job, Takes::Width, Takes::Output],
    does,
};

fn does(asked: &Asked) -> Result<Said, Trouble> {
    picture(asked)?; // bad usage is told before any refusal
    let said = answered(asked)?;
    let is_missing = asked.value(Takes::Output).map_or(false, |_| !said.pictured);
    Ok(if is_missing { said.said.with_note("no picture is written: it shows a merge without a path, 21".to_string()) } else { said.said })
}

/// What is said, and whether a picture goes with it.
struct Answered {
    said: Said,
    pictured: bool,
}

impl Answered {
    fn in_words(said: Said) -> Result<Answered, Trouble> {
        Ok(Answered { said, pictured: false })
    }
}

fn answered(asked: &Asked) -> Result<Answered, Trouble> {
    let check = Check::of(asked)?;
    match check.verdict() {
        Ok(accepted) => Answered::in_words(check.accepted(asked, accepted, "nothing to explain\n")),
        Err(refusal) => match check.given() {
            given @ Given { job: Some(job), .. } if refusal.number == Number::NoPath => without_path(asked, refusal, &given, job),
            given => Answered::in_words(refused(asked, refusal, &given)),
        },
    }
}

/// What there is to say of a merge without a path. Where the tool's own walk does not come to it, the library's refusal is all.
fn without_path(asked: &Asked, refusal: Refusal, given: &Given, job: Job) -> Result<Answered, Trouble> {
    let read =
        given.device.zip(given.file(refusal.file)).and_then(|(device, program)| Some((Device::read(&device.bytes).ok()?, Program::read(&program.bytes).ok()?)));
    if let Some((device, program)) = &read {
        if let Some(why) = Why::of(device, program, job, refusal.place as usize) {
            let [device_name, program_name] = [&asked.words[0], &asked.words[1]].map(|word| in_shell(word));
            let words = Words { why: &why, device, program, job, names: [&device_name, &program_name] };
            let said = Explained { see: None, ..explained(refusal, given) }; // this is the command that says more
            let head = Json::head(COMMAND.name, false).with("job", job.number());
            let layout = layout(asked, device)?;
            let written = picture(asked)?;
            if let Some(name) = written {
                output::write(name, svg::drawn(device, &layout, &words.picture()).as_bytes())?;
            }
            let text = || said.text() + &words.text(&layout) + &written.map_or(String::new(), |name| format!("\nwritten: {}\n", shown(name)));
            let machine = || words.json(head.with("refusal", said.json())).with("written", written.map(shown));
            return Ok(Answered { said: Said::of(false, asked.json, text, machine), pictured: true });
        }
    }
    Answered::in_words(refused(asked, refusal, given))
}

/// The file that `-o` names for the picture of the device there.
fn picture(asked: &Asked) -> Result<Option<&OsStr>, Trouble> {
    match asked.value(Takes::Output) {
        Some(name) if !name.to_string_lossy().to_lowercase().ends_with(".svg") => trouble(format!("-o takes a name that ends in .svg, not {}", quoted(name))),
        name => Ok(name),
    }
}

/// A file's name as a shell takes it, and as `abwakiris run` does: there `none` is no file, and a name does not begin with a dash.
fn in_shell(word: &OsStr) -> String {
    let name = word.to_string_lossy();
    let path = if name == "none" || name.starts_with('-') && name != "-" { format!("./{name}") } else { name.into_owned() };
    let is_plain = |letter: char| letter.is_ascii_alphanumeric() || "_-./+,:@%=".contains(letter);
    if !path.is_empty() && path.chars().all(is_plain) {
        return path;
    }
    if word.to_str().is_none() || path.chars().any(char::is_control) {
        let folder = if word.as_bytes().starts_with(b"-") { "./" } else { "" };
        return format!("$'{folder}{}'", word.as_bytes().escape_ascii());
    }
    format!("'{}'", path.replace('\'', "'\\''"))
}

#[cfg(test)]
mod tests {
    use super::*;

    #[test]
    fn names_in_a_shell() {
        for (name, written) in
            [("a/b-1.qls", "a/b-1.qls"), ("none", "./none"), ("-x", "./-x"), ("-", "-"), ("a b", "'a b'"), ("it's", "'it'\\''s'"), ("", "''")]
        {
            assert_eq!(in_shell(OsStr::new(name)), written);
        }
        assert_eq!(in_shell(OsStr::from_bytes(b"-a\xFF'\n\x1B\\")), "$'./-a\\xff\\'\\n\\x1b\\\\'");
    }
}
