//! The printing program on stored inputs: `print/NAME.hex` must be answered by exactly the bytes of `print/NAME.out`, both where the input is a file and
//! where it comes through a pipe in two pieces. The independent implementation must agree with the stored output too. Run it from the top folder.
//!
//! An input is written as words of hex digits, two a byte; a word with `*n` behind it stands there n times; what follows a `#` in its line is not read.

#![allow(unexpected_cfgs)]

mod files;
mod reference;

use files::unhex;
use std::fs::{self, File};
use std::io::Write;
use std::process::{Child, Command, Stdio};
use std::time::Duration;

const PROGRAM: &str = "crates/print_check/out/print_check";
const INPUT: &str = "target/tests/print-input";

/// Without the library there is no printing program either.
const HAS_PROGRAM: bool = cfg!(not(selftest));

fn input(text: &str) -> Vec<u8> {
    let words = text.lines().flat_map(|line| line.split('#').next().unwrap().split_whitespace());
    let bytes = words.map(|word| match word.split_once('*') {
        Some((digits, times)) => unhex(digits).repeat(times.parse().expect("a decimal number")),
        None => unhex(word),
    });
    bytes.collect::<Vec<_>>().concat()
}

fn start(input: impl Into<Stdio>) -> Child {
    let program = Command::new(PROGRAM).stdin(input).stdout(Stdio::piped()).stderr(Stdio::piped()).spawn();
    program.expect("a printing program that starts")
}

/// The program's whole output; or what else it did than print it.
fn output(child: Child) -> Result<Vec<u8>, String> {
    let output = child.wait_with_output().expect("a printing program that ends");
    if output.status.success() && output.stderr.is_empty() {
        Ok(output.stdout)
    } else {
        Err(format!("{}, standard error {:?}", output.status, String::from_utf8_lossy(&output.stderr)))
    }
}

fn from_file(bytes: &[u8]) -> Result<Vec<u8>, String> {
    fs::write(INPUT, bytes).expect("a file that can be written");
    output(start(File::open(INPUT).expect("the same file")))
}

/// The first half, and the rest after a little while.
fn through_pipe(bytes: &[u8]) -> Result<Vec<u8>, String> {
    let mut child = start(Stdio::piped());
    let mut pipe = child.stdin.take().expect("the pipe");
    let (first, rest) = bytes.split_at(bytes.len() / 2);
    // The program need not read to the end of an input that is too long.
    let _ = pipe.write_all(first);
    std::thread::sleep(Duration::from_millis(10));
    let _ = pipe.write_all(rest);
    drop(pipe);
    output(child)
}

fn in_words(output: &Result<Vec<u8>, String>) -> String {
    match output {
        Ok(bytes) => format!("{:?}", String::from_utf8_lossy(bytes)),
        Err(what) => what.clone(),
    }
}

fn main() {
    let mut names: Vec<String> = Vec::new();
    for entry in fs::read_dir("tests/print").expect("the stored inputs") {
        let name = entry.expect("an entry").file_name().into_string().expect("a name");
        names.extend(name.strip_suffix(".hex").map(str::to_string));
    }
    names.sort();
    let (mut lengths, mut wrong) = (Vec::new(), 0);
    for name in &names {
        let bytes = input(&fs::read_to_string(format!("tests/print/{name}.hex")).expect("an input"));
        let expected = Ok(fs::read(format!("tests/print/{name}.out")).expect("its output"));
        let mut found = vec![("the independent implementation", Ok(reference::print_check(&bytes)))];
        if HAS_PROGRAM {
            found.extend([("a file", from_file(&bytes)), ("a pipe", through_pipe(&bytes))]);
        }
        for (how, found) in found {
            if found != expected {
                wrong += 1;
                println!("prints, {name}, {how}:\n    expected {}\n    found    {}", in_words(&expected), in_words(&found));
            }
        }
        lengths.push(bytes.len());
    }
    assert!([0, 8_192, 8_193].iter().all(|length| lengths.contains(length)), "the lengths at the limits are there");
    println!("prints: {} inputs of 0 to {} bytes, {wrong} wrong", names.len(), lengths.iter().max().unwrap());
    std::process::exit(if wrong == 0 { 0 } else { 1 })
}
