//! No generated input makes a command panic, and every verdict that is printed is the library's.
//!
//! The generator of the repository's own tests makes files, schedules, ends and texts, good ones and damaged ones, and random bytes. Each is asked of every
//! command that it fits, for people and for machines. The commands are called in this process, for there are many.

#[path = "parts/asked_here.rs"]
mod asked_here;
#[path = "parts/faults.rs"]
mod faults;
#[path = "parts/machine_line.rs"]
mod machine_line;
#[path = "parts/question.rs"]
mod question;
#[path = "parts/read_json.rs"]
mod read_json;
#[path = "parts/repository.rs"]
mod repository;
#[path = "parts/scratch.rs"]
mod scratch;

use asked_here::Here;
use generator::{Case, Random};
use question::{bundle, check, list, route, run, run_by_file, show, show_for, show_run, unlist, why, Question};
use repository::{generator, library, reference};

const SEED: u64 = 15;

/// Cases of the generator, one in five of random bytes.
#[test]
fn cases() {
    let here = Here::new("cases");
    for index in 0..400 {
        let case = generator::case(&mut Random::new(SEED, index));
        here.try_all(&format!("case {index} of seed {SEED}"), questions(&case, index as usize));
    }
}

/// Cases of random bytes only.
#[test]
fn random_bytes() {
    let here = Here::new("random-bytes");
    for index in 0..300 {
        let case = generator::random_case(&mut Random::new(SEED, index));
        here.try_all(&format!("random case {index} of seed {SEED}"), questions(&case, index as usize));
    }
}

/// Texts beside a listing: damaged lines, words in any order, any bytes.
#[test]
fn texts() {
    let here = Here::new("texts");
    for index in 0..40 {
        let case = generator::listing_case(&mut Random::new(SEED, index));
        let texts = case.texts.iter().take(8).map(|text| unlist(text));
        here.try_all(&format!("listing case {index} of seed {SEED}"), texts.chain([list(&case.program)]).collect());
    }
}

/// What is asked about a case. `turn` chooses among forms that mean the same.
fn questions(case: &Case, turn: usize) -> Vec<Question> {
    match case {
        Case::ReadDevice { device } => of_device(device, turn),
        Case::ReadProgram { program } => of_program(program),
        Case::Check { device, program, job, .. } => {
            let mut all = of_device(device, turn);
            all.extend([check(device, program, *job), why(device, program, *job), bundle(device, program), list(program)]);
            all
        }
        Case::Route { device, job, occupancy, first, second, .. } => {
            let n = abwakiris::locations(device).unwrap_or(0);
            let occupied: Vec<usize> = (0..n.min(occupancy.len())).filter(|&location| occupancy[location] != 0).collect();
            vec![route(device, *first, *second, *job, &occupied), route(device, *first, *second, *job, &[]), show_for(device, 1 + turn as u64 % 2)]
        }
        Case::Run { device, one, two, schedule, .. } => of_run(device, one, two, schedule, turn),
        Case::WriteListing { program, .. } => of_program(program),
        Case::ReadListing { text, .. } => vec![unlist(text), unlist(text).with(&["-o", "program"])],
    }
}

/// A device, drawn in one of several ways.
fn of_device(device: &[u8], turn: usize) -> Vec<Question> {
    let width = (turn % 20 + 1).to_string();
    let drawn = match turn % 4 {
        0 => show(device),
        1 => show(device).with(&["--width", &width]),
        2 => show(device).with(&["-o", "picture.svg"]),
        _ => show_for(device, 1 + turn as u64 % 2),
    };
    vec![drawn]
}

/// A program, alone and on a row of locations.
fn of_program(program: &[u8]) -> Vec<Question> {
    let row = b"QLG\0\x01\0\x05\0\x04\x01\x01\x01\x01\x01\0\x01\x01\x02\x02\x03\x03\x04";
    vec![list(program), list(program).with(&["-o", "text"]), check(row, program, 1), why(row, program, 1), bundle(row, program)]
}

/// A run, as a table, drawn, and as a page.
fn of_run(device: &[u8], one: &[u8], two: &[u8], schedule: &[u8], turn: usize) -> Vec<Question> {
    let of = |both: [Option<&[u8]>; 2]| {
        let [first, second] = both;
        let shown = show_run(device, first, second, schedule);
        let shown = match turn % 3 {
            0 => shown,
            1 => shown.with(&["-o", "picture.svg"]),
            _ => shown.with(&["-o", "page.html"]),
        };
        // as a file the bytes of a schedule are taken for what they are, where they are steps
        let is_plain = schedule.iter().all(|byte| matches!(byte, 0x10 | 0x11 | 0x20 | 0x21)) && turn % 2 == 0;
        let ran = if is_plain { run_by_file(device, first, second, schedule, schedule) } else { run(device, first, second, schedule) };
        vec![ran, shown]
    };
    match turn % 5 {
        0 => of([Some(one), None]),
        1 => of([None, Some(two)]),
        _ => of([Some(one), Some(two)]),
    }
}
