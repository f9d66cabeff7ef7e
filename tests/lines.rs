//! A call and its outcome as a line in the format of the outside cases, which `vectors.rs` reads.

#![allow(dead_code)]

use crate::files::hex;
use crate::library::{number_of, Call, Export, Outcome};
use crate::reference::listing::FILE_LISTING;
use crate::reference::{FILE_DEVICE, FILE_NONE, FILE_PROGRAM, FILE_SCHEDULE};

pub const CALLS: [&str; 7] = ["read_device", "read_program", "check", "route", "run", "list", "unlist"];

pub fn name(export: Export) -> &'static str {
    CALLS[export as usize]
}

/// The case and an outcome.
pub fn line(call: &Call, outcome: &Outcome) -> String {
    let mut words = vec![name(call.export).to_string()];
    let input = |i: usize| hex(call.inputs[i]);
    match call.export {
        Export::Route => {
            let [job, first, second] = call.numbers[..] else { unreachable!() };
            words.extend([input(0), job.to_string(), input(1)]);
            words.extend([first.to_string(), second.to_string()]);
        }
        _ => {
            words.extend((0..call.inputs.len()).map(input));
            words.extend(call.numbers.iter().map(u64::to_string));
        }
    }
    words.extend(call.buffers.iter().map(|buffer| buffer.len().to_string()));
    words.push("->".to_string());
    words.extend(answer_words(call.export, outcome));
    words.join(" ")
}

/// What stands behind the arrow; of a check the count and the number left live.
pub fn answer_words(export: Export, outcome: &Outcome) -> Vec<String> {
    let mut words = Vec::new();
    let value = outcome.packed & 0xFFFF_FFFF;
    let number = number_of(outcome.packed);
    if number == 0 {
        words.push("ok".to_string());
        match export {
            Export::ReadDevice | Export::ReadProgram => {}
            Export::Check | Export::Run => {
                words.extend([(value % 65_536).to_string(), (value / 65_536).to_string()]);
            }
            Export::Route | Export::WriteListing | Export::ReadListing => words.push(value.to_string()),
        }
    } else {
        let file = match (outcome.packed >> 40 & 0xFF) as u8 {
            FILE_NONE => "none".to_string(),
            FILE_DEVICE => "device".to_string(),
            FILE_SCHEDULE => "schedule".to_string(),
            FILE_LISTING => "listing".to_string(),
            FILE_PROGRAM => "program".to_string(),
            17 | 18 if export == Export::Check => "program".to_string(),
            17 => "program1".to_string(),
            18 => "program2".to_string(),
            other => format!("file-code-{other}"),
        };
        words.extend(["no".to_string(), number.to_string(), value.to_string(), file]);
    }
    words.extend(outcome.buffers.iter().map(|buffer| hex(buffer)));
    words
}
