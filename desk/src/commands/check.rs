//! `abwakiris check`: accepted with its command count and the qubits that it leaves live, or the refusal in words.

use super::common::{refused, Check};
use super::Command;
use crate::args::{Asked, Takes};
use crate::said::{Said, Trouble};

pub const COMMAND: Command = Command {
    name: "check",
    usage: "DEVICE PROGRAM",
    about: "accepted with its command count and the qubits left live, or the refusal in words",
    help: "Asks the library whether PROGRAM can be loaded for the job on DEVICE and never halts the machine, whatever the outcomes are. Accepted: the \
           command count, and how many qubits main leaves live: the slot and the location of each, and the line that made it. Refused: the place, what the \
           rule asks, what was found there and what usually mends it. abwakiris why says more of 21, a merge without a path.",
    example: "samples/device-g samples/program-a\n\naccepted: samples/program-a on samples/device-g for job 1\ncommands: 5\nleft live: 0",
    takes: (2, 2),
    options: &[Takes::Job],
    does,
};

fn does(asked: &Asked) -> Result<Said, Trouble> {
    let check = Check::of(asked)?;
    Ok(match check.verdict() {
        Ok(accepted) => check.accepted(asked, accepted, ""),
        Err(refusal) => refused(asked, refusal, &check.given()),
    })
}
