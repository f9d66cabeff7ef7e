//! `run`: the runs of `docs/FORMAT.md`, jobs that get stuck, finish or are none, schedules in all their forms, and the refusals.

use super::given::*;
use super::{case, Case};
use crate::files::*;
use crate::question::{run, run_by_file};

const SCHEDULE_B: [u8; 25] =
    [0x10, 0x20, 0x10, 0x10, 0x10, 0x20, 0x10, 0x10, 0x10, 0x11, 0x10, 0x10, 0x10, 0x10, 0x10, 0x10, 0x10, 0x10, 0x10, 0x10, 0x10, 0x10, 0x20, 0x10, 0x10];

pub fn cases() -> Vec<Case> {
    [accepted(), schedules(), refused()].into_iter().flatten().collect()
}

fn accepted() -> Vec<Case> {
    let empty = only(&[]);
    let (one, two_) = (only(&[init(0, 0), free(0)]), only(&[init(0, 5), init(1, 3), merge(2, 0, 1)]));
    let document = run(&grid(), Some(&program_a()), Some(&empty), &[0x10, 0x10, 0x20, 0x10]);
    let calls = run(&two(), Some(&program_b()), Some(&program_c()), &SCHEDULE_B);
    let stuck = run(&line(3), Some(&by_outcome()), None, &[0x10, 0x10, 0x11, 0x10, 0x10, 0x10, 0x10]);
    let fine = run(&line(3), Some(&by_outcome()), None, &[0x10; 8]);
    vec![
        case("run-document", document).says(&["init 0 0", "init 1 2", "merge 2 X 0 X 1", "finished"]),
        case("run-calls", calls).says(&["call 0 at 0 2 1 with 0 1", "while 3", "return", "stuck", "13", "finished"]),
        case("run-stuck-21", stuck).says(&["merge 4 X 0 X 1", "stuck", "21"]),
        case("run-not-stuck", fine).says(&["merge 4 X 0 X 1", "finished"]),
        case("run-none-first", run(&swapped(&grid()), None, Some(&program_a()), &[0x20; 4])).says(&["merge 2 X 0 X 1"]),
        case("run-left-behind", run(&two(), Some(&one), Some(&two_), &[0x10, 0x20, 0x20, 0x10, 0x21, 0x20])).says(&["merge 2 X 0 X 1", "finished"]),
        case("run-width", run(&grid(), Some(&program_a()), None, &[0x10, 0x10]).with(&["--width", "2"])),
        case("run-no-steps", run(&grid(), Some(&program_a()), None, &[])),
    ]
}

fn schedules() -> Vec<Case> {
    let (g, a, schedule) = (grid(), program_a(), [0x10, 0x10, 0x20, 0x10]);
    let typed = |word: &str| {
        let mut question = run(&g, Some(&a), None, &schedule);
        question.words[4] = word.to_string();
        question
    };
    let from = |file: &[u8]| run_by_file(&g, Some(&a), None, &schedule, file);
    vec![
        case("run-schedule-digits", typed("10102010")),
        case("run-schedule-commas", typed("10,10,20,10")),
        case("run-schedule-file-of-bytes", from(&schedule)),
        case("run-schedule-file-of-text", from(b"10 10\n20 10\n")),
    ]
}

fn refused() -> Vec<Case> {
    let (g, a) = (grid(), program_a());
    let long = [0x10; 4_097];
    vec![
        case("run-22", run_by_file(&g, Some(&a), None, &long, &long)).refused(22, 0).finds(&["4097"]).says(&["4096"]),
        case("run-23", run(&g, Some(&a), None, &[0x10, 0x30, 0x12])).refused(23, 1).finds(&["30"]),
        case("run-23-file", run_by_file(&g, Some(&a), None, &[0x10, 0x10, 0xFF], &[0x10, 0x10, 0xFF])).refused(23, 2).finds(&["FF"]),
        case("run-05", run(&g[..28], Some(&a), None, &[0x10])).refused(5, 0).finds(&["28"]),
        case("run-10-first", run(&g, Some(&only(&[free(32)])), Some(&a), &[0x10])).refused(10, 9).finds(&["32"]),
        case("run-08-second", run(&g, Some(&a), Some(&[only(&[]), vec![0]].concat()), &[0x10])).refused(8, 8),
    ]
}
