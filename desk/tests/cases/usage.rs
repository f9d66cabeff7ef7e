//! What cannot be tried: words that are no command line, files that cannot be read or written, schedules that are none.

use super::{case, trouble, Case};
use crate::files::*;
use crate::question::{Answer, Question};
use std::path::Path;

pub fn cases() -> Vec<Case> {
    vec![words(), options(), numbers(), read(), too_long(), written(), schedules()]
}

/// A command line that cannot be tried, with G and A in its folder.
fn with_files(words: &[&str]) -> Question {
    Question::new(words, vec![("device", grid()), ("program", program_a())], Answer::Trouble)
}

fn words() -> Case {
    case("usage-words", trouble(&[]))
        .says(&["--help"])
        .and(trouble(&["chekc", "device", "program"]))
        .says(&["chekc", "--help"])
        .and(trouble(&["help", "chekc"]))
        .says(&["chekc"])
        .and(trouble(&["check", "device"]))
        .says(&["abwakiris check DEVICE PROGRAM"])
        .and(trouble(&["check", "device", "program", "more"]))
        .says(&["abwakiris check DEVICE PROGRAM"])
        .and(trouble(&["--json"]))
}

fn options() -> Case {
    case("usage-options", trouble(&["check", "device", "program", "--jobs", "1"]))
        .says(&["--jobs"])
        .and(trouble(&["check", "device", "program", "--job"]))
        .says(&["--job"])
        .and(trouble(&["check", "device", "program", "--job", "1", "--job=2"]))
        .says(&["twice"])
        .and(trouble(&["list", "program", "--job", "1"]))
        .says(&["--job"])
}

fn numbers() -> Case {
    case("usage-numbers", with_files(&["check", "device", "program", "--job", "one"]))
        .says(&["one"])
        .and(with_files(&["check", "device", "program", "--job", "-1"]))
        .says(&["-1"])
        .and(with_files(&["check", "device", "program", "--job", "18446744073709551616"]))
        .and(with_files(&["check", "device", "program", "--job="]))
        .and(with_files(&["route", "device", "0", "x"]))
        .says(&["x"])
        .and(with_files(&["route", "device", "0", "2", "--occupied", "1,,4"]))
        .and(with_files(&["route", "device", "0", "2", "--occupied", "1;4"]))
        .and(with_files(&["route", "device", "0", "2", "--occupied", "6"]))
        .says(&["6"])
        .and(with_files(&["show", "device", "--width", "0"]))
        .and(with_files(&["show", "device", "--width", "wide"]))
        .says(&["wide"])
}

fn read() -> Case {
    let folder = |at: &Path| std::fs::create_dir_all(at.join("folder")).expect("a folder");
    case("usage-files", with_files(&["check", "nowhere", "program"]))
        .says(&["nowhere: no such file"])
        .and(with_files(&["why", "device", "nowhere"]))
        .says(&["nowhere: no such file"])
        .and(with_files(&["check", "folder", "program"]))
        .prepares(folder)
        .says(&["folder: is a directory"])
        .and(with_files(&["show", "folder"]))
        .says(&["folder: is a directory"])
        .and(with_files(&["list", "device/program"]))
        .says(&["device/program"])
        .and(with_files(&["unlist", ""]))
}

/// Gigabytes, of which nothing is read; the file has no blocks on the disk.
fn too_long() -> Case {
    let long = |at: &Path| {
        let file = std::fs::File::create(at.join("long")).expect("a file");
        file.set_len(3 << 30).expect("a long file");
    };
    case("usage-long-files", with_files(&["check", "long", "program"]))
        .prepares(long)
        .says(&["long: ", "3221225472"])
        .and(with_files(&["check", "device", "long"]))
        .and(with_files(&["run", "device", "program", "none", "long"]))
        .and(with_files(&["unlist", "long"]))
        .and(with_files(&["check", "device", "-"]))
        .input(&[b'Q'; (1 << 20) + 1])
        .says(&["standard input"])
}

fn written() -> Case {
    case("usage-output", with_files(&["list", "program", "-o", "nowhere/listing"]))
        .says(&["nowhere/listing"])
        .and(with_files(&["show", "device", "-o", "nowhere/picture.svg"]))
        .says(&["nowhere/picture.svg"])
        .and(with_files(&["bundle", "device", "program", "-o", "."]))
}

fn schedules() -> Case {
    case("usage-schedules", with_files(&["run", "device", "program", "none", "101"]))
        .says(&["101", "hex digits"])
        .and(with_files(&["run", "device", "program", "none", "10 1g"]))
        .says(&["no such file", "hex digits"])
        .and(with_files(&["run", "device", "program", "none", "schedule"]))
        .says(&["schedule", "no such file"])
        .and(with_files(&["run", "device", "program", "none"]))
        .says(&["abwakiris run DEVICE FIRST SECOND SCHEDULE"])
}
