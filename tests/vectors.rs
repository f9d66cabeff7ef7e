//! Runs the reference and the library over a file of outside cases and reports every difference.
//!
//! Usage: vectors <file>. One case a line, `<call> <inputs> -> <answer>`; byte strings are hex,
//! `-` when empty; buffers begin as all AA. A `print` case is no call, so only the reference
//! answers it.

mod by_reference;
mod files;
mod library;
mod lines;
mod reference;

use by_reference::by_reference;
use files::{hex, unhex};
use library::{Call, Export, EMPTY};
use lines::{answer_words, CALLS};
use reference::FILE_PROGRAM;

const EXPORTS: [Export; 5] = [Export::Check, Export::Route, Export::Run, Export::WriteListing, Export::ReadListing];

fn number(text: &str) -> u64 {
    text.parse().expect("a decimal number")
}

/// Which words of a case, its name being word 0, are byte strings, numbers, and lengths of buffers.
fn places(export: Export) -> [&'static [usize]; 3] {
    match export {
        Export::Check => [&[1, 2], &[3], &[]],
        Export::Route => [&[1, 3], &[2, 4, 5], &[6]],
        Export::Run => [&[1, 2, 3, 4], &[], &[5, 6]],
        _ => [&[1], &[], &[2]],
    }
}

/// The reference's answer in the words of the cases, and the library's where it is another.
fn answers(words: &[&str]) -> (String, Option<String>) {
    if words[0] == "print" {
        return (hex(&reference::print_check(&unhex(words[1]))), None);
    }
    let export = EXPORTS.into_iter().find(|&export| CALLS[export as usize] == words[0]).expect("a known call");
    let [inputs, numbers, lengths] = places(export);
    let inputs: Vec<Vec<u8>> = inputs.iter().map(|&i| unhex(words[i])).collect();
    let buffers: Vec<Vec<u8>> = lengths.iter().map(|&i| vec![0xAA; number(words[i]) as usize]).collect();
    let call = Call {
        export,
        inputs: inputs.iter().map(|bytes| &bytes[..]).collect(),
        numbers: numbers.iter().map(|&i| number(words[i])).collect(),
        buffers: buffers.iter().map(|bytes| &bytes[..]).collect(),
    };
    let expected = by_reference(&call);
    if export == Export::Check {
        // The file code must name the job as well, which the cases leave out.
        let (file, job) = ((expected.packed >> 40) as u8, call.numbers[0] as u8);
        assert!(file < FILE_PROGRAM || file == FILE_PROGRAM + job);
    }
    let otherwise = match call.perform(EMPTY[0]) {
        Ok((found, _)) if found == expected => None,
        Ok((found, _)) => Some(format!("{} (packed {:016x})", answer_words(export, &found).join(" "), found.packed)),
        Err(touched) => Some(touched),
    };
    (answer_words(export, &expected).join(" "), otherwise)
}

fn main() {
    let path = std::env::args().nth(1).expect("the path of a file of cases");
    let text = std::fs::read_to_string(path).expect("a readable file of cases");
    let (mut cases, mut equal) = (0, 0);
    for (i, line) in text.lines().enumerate() {
        let (left, expected) = line.split_once(" -> ").expect("an arrow");
        let words: Vec<&str> = left.split(' ').collect();
        let (found, otherwise) = answers(&words);
        cases += 1;
        if found == expected && otherwise.is_none() {
            equal += 1;
        } else {
            let library = otherwise.unwrap_or("the same".to_string());
            println!("line {}: {left}\n  expected  {expected}\n  reference {found}\n  library   {library}", i + 1);
        }
    }
    println!("{equal} of {cases} equal");
    std::process::exit(if equal == cases { 0 } else { 1 });
}
