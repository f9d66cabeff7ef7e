//! `abwakiris bundle`: what the printing program reads.

use super::Command;
use crate::args::{Asked, Takes};
use crate::input::{self, Named};
use crate::output;
use crate::said::{Said, Trouble};

pub const COMMAND: Command = Command {
    name: "bundle",
    usage: "DEVICE PROGRAM",
    about: "what the printing program reads",
    help: "Writes a bundle: u16 length and device file, u16 length and program file, nothing more. What is in the files does not matter: the printing \
           program, as samples/verdict runs it, judges the bundle. A bundle is not for a terminal: name a file, or send it on; -o - writes it there all the \
           same.",
    example: "samples/device-g samples/program-a | samples/verdict -\n\nOK 5 0",
    takes: (2, 2),
    options: &[Takes::Output],
    does,
};

/// The most bytes of a bundle that the printing program takes.
const MOST_BUNDLE_BYTES: usize = 8192;

fn does(asked: &Asked) -> Result<Said, Trouble> {
    let mut bundle = vec![];
    for word in &asked.words {
        put(&mut bundle, &input::file(word)?)?;
    }
    let said = output::bytes(asked, "a bundle", &bundle)?;
    Ok(if bundle.len() > MOST_BUNDLE_BYTES {
        said.with_note(format!("the bundle has {} bytes; the printing program says BAD to more than {MOST_BUNDLE_BYTES}", bundle.len()))
    } else {
        said
    })
}

/// Puts a file after its length, high byte first.
fn put(bundle: &mut Vec<u8>, file: &Named) -> Result<(), Trouble> {
    let too_long = |_| Trouble(format!("{}: has {} bytes, and the u16 length of a bundle can say at most {}", file.name, file.bytes.len(), u16::MAX));
    let length = u16::try_from(file.bytes.len()).map_err(too_long)?;
    bundle.extend_from_slice(&length.to_be_bytes());
    bundle.extend_from_slice(&file.bytes);
    Ok(())
}
