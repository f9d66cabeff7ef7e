//! `abwakiris list`: the listing of a program.

use super::common::refused;
use super::Command;
use crate::args::{Asked, Takes};
use crate::explain::Given;
use crate::json::Json;
use crate::listing::Line;
use crate::program::Program;
use crate::said::{Said, Trouble};
use crate::{input, output};

pub const COMMAND: Command = Command {
    name: "list",
    usage: "PROGRAM",
    about: "the listing of a program",
    help: "Writes the program as text, one statement a line, as docs/listing.md has it. abwakiris unlist makes the same program of it again. Where the \
           program does not read it is refused, and no file is written.",
    example: "samples/program-a\n\nprogram 1\nmain\n  init 0 0\n  init 1 2\n  merge 2 X 0 X 1\n  free 0\n  free 1",
    takes: (1, 1),
    options: &[Takes::Output],
    does,
};

fn does(asked: &Asked) -> Result<Said, Trouble> {
    let file = input::file(&asked.words[0])?;
    let read = abwakiris::write_listing(&file.bytes).and_then(|text| Ok((text, Program::read(&file.bytes)?)));
    match read {
        Ok((text, program)) => output::text(asked, text.as_bytes(), || lines(&program)),
        Err(refusal) => Ok(refused(asked, refusal, &Given { programs: [Some(&file), None], ..Given::default() })),
    }
}

/// The lines for machines, each with its number and the offset of its first byte in the program.
fn lines(program: &Program) -> Json {
    let line = |(i, line): (usize, &Line)| Json::object([("number", (i + 1).into()), ("offset", line.at.into()), ("text", line.text.as_str().into())]);
    Json::head(COMMAND.name, true).with("lines", Json::list(program.listing.lines.iter().enumerate().map(line)))
}
