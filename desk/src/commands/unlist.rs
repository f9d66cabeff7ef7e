//! `abwakiris unlist`: the program of a listing.

use super::common::refused;
use super::Command;
use crate::args::{Asked, Takes};
use crate::explain::Given;
use crate::said::{Said, Trouble};
use crate::{input, output};

pub const COMMAND: Command = Command {
    name: "unlist",
    usage: "TEXT",
    about: "the program of a listing",
    help: "Writes the bytes of the program that TEXT is the listing of. Exactly the text that abwakiris list writes is taken; else it is refused, and no \
           file is written. The bytes are not for a terminal: name a file, or send them on; -o - writes them there all the same.",
    example: "samples/listing-a -o program-a",
    takes: (1, 1),
    options: &[Takes::Output],
    does,
};

fn does(asked: &Asked) -> Result<Said, Trouble> {
    let text = input::file(&asked.words[0])?;
    match abwakiris::read_listing(&text.bytes) {
        Ok(program) => output::bytes(asked, "a program", &program),
        Err(refusal) => Ok(refused(asked, refusal, &Given { text: Some(&text), ..Given::default() })),
    }
}
