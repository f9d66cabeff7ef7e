//! Compares the library, over its exports, with the reference on generated cases.
//!
//! Usage: compare [random] [cases] [seed] [first case]. Stops with 1 at the first difference, or
//! at the end if some number never came up in a call that can answer it, or never a program that
//! leaves qubits live. With `random` all cases are of random bytes, which need not bring up all.

mod by_reference;
mod files;
mod generator;
mod library;
mod lines;
mod reference;

use by_reference::by_reference;
use files::hex;
use generator::{Case, Random};
use library::{number_of, Call, Export, Outcome, EMPTY};
use lines::{answer_words, line, name, CALLS};
use reference::SLOTS;
use std::time::Duration;

const EXPORTS: [Export; 7] = [
    Export::ReadDevice,
    Export::ReadProgram,
    Export::Check,
    Export::Route,
    Export::Run,
    Export::WriteListing,
    Export::ReadListing,
];

// ---------------------------------------------------------------------------------------------
// What came up
// ---------------------------------------------------------------------------------------------

const NUMBERS: usize = 28;

/// Whether a call can answer a number at all, by the documents' orders of tests.
fn can_answer(export: Export, number: usize) -> bool {
    match export {
        Export::ReadDevice => number <= 7,
        Export::ReadProgram => matches!(number, 0..=4 | 8..=10),
        Export::Check => matches!(number, 0..=21 | 25),
        Export::Route => matches!(number, 0..=7 | 13 | 15 | 21 | 24..=26),
        Export::Run => matches!(number, 0..=10 | 22..=24),
        Export::WriteListing => matches!(number, 0..=4 | 8..=10 | 24),
        Export::ReadListing => matches!(number, 0 | 24 | 27),
    }
}

fn can_stick(reason: usize) -> bool {
    matches!(reason, 11..=16 | 21)
}

#[derive(Default)]
struct Tally {
    answers: [[u64; NUMBERS]; EXPORTS.len()],
    /// How many jobs got stuck, by reason.
    stuck: [u64; NUMBERS],
    finished: u64,
    merges_moved: u64,
    longest_route: u8,
    interleavings: u64,
    left: Left,
    built_answers: u64,
    slowest: [(Duration, u64); EXPORTS.len()],
}

/// How often qubits were left live: by accepted checks that left none, some, and one in every slot; and by jobs that finished in a run and whose program is
/// accepted, all of them and those with qubits left.
#[derive(Default)]
struct Left {
    none: u64,
    some: u64,
    every_slot: u64,
    jobs: u64,
    jobs_with_qubits: u64,
}

impl Left {
    fn check(&mut self, live: usize) {
        self.none += u64::from(live == 0);
        self.some += u64::from(live > 0);
        self.every_slot += u64::from(live == SLOTS);
    }

    /// Prints what came up; gives what should have but didn't.
    fn print(&self) -> Vec<String> {
        let Left { none, some, every_slot, jobs, jobs_with_qubits } = self;
        println!("{none} accepted checks left no qubit live, {some} left some, {every_slot} of them one in every slot");
        println!("{jobs} accepted jobs that finished occupy as many locations as their check left live, {jobs_with_qubits} of them some");
        let wanted = [
            (none, "every accepted check left a qubit live"),
            (some, "no check left a qubit live"),
            (every_slot, "no check left a qubit in every slot"),
            (jobs_with_qubits, "no accepted job finished with a qubit left live"),
        ];
        wanted.iter().filter(|(count, _)| **count == 0).map(|(_, what)| what.to_string()).collect()
    }
}

/// What the last record of a job tells; none where it has no step.
fn last_told(job: u8, schedule: &[u8], records: &[u8]) -> Option<u8> {
    let own = |i: &usize| schedule[*i] / 16 == job;
    (0..schedule.len()).filter(own).last().map(|last| records[4 * last])
}

impl Tally {
    fn records(&mut self, schedule: &[u8], records: &[u8]) {
        for job in [1, 2] {
            match last_told(job, schedule, records) {
                None | Some(0) => {}
                Some(1) => self.finished += 1,
                Some(reason) => self.stuck[usize::from(reason)] += 1,
            }
        }
        for record in records[..4 * schedule.len()].chunks(4) {
            self.merges_moved += u64::from(record[1] > 0);
            self.longest_route = self.longest_route.max(record[1]);
        }
    }

    /// Prints what came up; gives the numbers that should have but didn't.
    fn print(&self) -> Vec<String> {
        let mut missing = Vec::new();
        println!("number{}  stuck", CALLS.map(|call| format!("{call:>14}")).join(""));
        for number in 0..NUMBERS {
            let mut row = format!("{number:>6}");
            for export in EXPORTS {
                let count = self.answers[export as usize][number];
                if can_answer(export, number) {
                    row += &format!("{count:>14}");
                    if count == 0 {
                        missing.push(format!("number {number} never came up in {}", name(export)));
                    }
                } else {
                    row += &format!("{:>14}", "-");
                }
            }
            if can_stick(number) {
                row += &format!("{:>7}", self.stuck[number]);
                if self.stuck[number] == 0 {
                    missing.push(format!("no job got stuck for {number}"));
                }
            }
            println!("{row}");
        }
        println!(
            "in the runs: {} jobs finished, {} merges moved, the longest over {} edges",
            self.finished, self.merges_moved, self.longest_route
        );
        println!("{} checks answered as their programs were built", self.built_answers);
        println!("{} interleavings equal to job 1 first, then job 2", self.interleavings);
        missing.extend(self.left.print());
        for export in EXPORTS {
            let (time, index) = self.slowest[export as usize];
            let milliseconds = time.as_secs_f64() * 1e3;
            println!("slowest {:<12} {milliseconds:>10.3} ms (case {index})", name(export));
        }
        missing
    }
}

// ---------------------------------------------------------------------------------------------
// The comparison
// ---------------------------------------------------------------------------------------------

fn stop(index: u64, lines: &[String]) -> ! {
    println!("case {index} differs");
    for line in lines {
        println!("{line}");
    }
    std::process::exit(1)
}

/// The run of a schedule must give each job the records, and both the map, of the schedule in
/// which job 1 takes all its steps first.
fn compare_interleaving(call: &Call, outcome: &Outcome, index: u64) {
    let schedule = call.inputs[3];
    let of_job = |job: u8| schedule.iter().copied().filter(move |byte| byte / 16 == job);
    let sorted: Vec<u8> = of_job(1).chain(of_job(2)).collect();
    let (records, map) = (call.buffers[0], call.buffers[1]);
    let [device, one, two] = call.inputs[..3] else { unreachable!() };
    let sorted_call = Call::run(device, one, two, &sorted, records, map);
    let sorted_outcome = match sorted_call.perform(EMPTY[0]) {
        Ok((outcome, _)) => outcome,
        Err(what) => stop(index, &[line(&sorted_call, outcome), what]),
    };
    // The records of the schedule as given, job 1's first; then whatever follows the records.
    let mut expected = Vec::new();
    for job in [1, 2] {
        for (i, byte) in schedule.iter().enumerate() {
            if byte / 16 == job {
                expected.extend(&outcome.buffers[0][4 * i..4 * i + 4]);
            }
        }
    }
    expected.extend(&outcome.buffers[0][4 * schedule.len()..]);
    let equal = sorted_outcome.packed == outcome.packed
        && sorted_outcome.buffers[0] == expected
        && sorted_outcome.buffers[1] == outcome.buffers[1];
    if !equal {
        stop(
            index,
            &[
                line(call, outcome),
                "and with job 1's steps first".to_string(),
                line(&sorted_call, &sorted_outcome),
            ],
        );
    }
}

/// A job that has finished, and whose program the check accepts, occupies as many locations at the end of the run as the check says are left live.
fn compare_left(call: &Call, outcome: &Outcome, index: u64, left: &mut Left) {
    let [device, one, two, schedule] = call.inputs[..] else { unreachable!() };
    let n = 256 * usize::from(device[5]) + usize::from(device[6]);
    for (job, program) in [(1, one), (2, two)] {
        if last_told(job, schedule, &outcome.buffers[0]) != Some(1) {
            continue;
        }
        let check = Call::check(device, program, u64::from(job));
        let checked = match check.perform(EMPTY[0]) {
            Ok((checked, _)) => checked,
            Err(what) => stop(index, &[line(call, outcome), what]),
        };
        if number_of(checked.packed) != 0 {
            continue;
        }
        let occupied = outcome.buffers[1][..n].iter().filter(|&&byte| byte == job).count();
        if occupied != live(&checked) {
            let finished = format!("job {job} has finished and occupies {occupied} locations, and its check is");
            stop(index, &[line(call, outcome), finished, line(&check, &checked)]);
        }
        left.jobs += 1;
        left.jobs_with_qubits += u64::from(occupied > 0);
    }
}

/// The number left live, of an accepted check.
fn live(checked: &Outcome) -> usize {
    (checked.packed >> 16) as usize
}

fn compare(case: &Case, index: u64, tally: &mut Tally) {
    let call = case.call();
    let expected = by_reference(&call);
    let expected_line = || line(&call, &expected);
    if let Case::Check { claim: Some(claim), .. } = case {
        if number_of(expected.packed) != usize::from(*claim) {
            let built = format!("but the program was built to be answered {claim}");
            stop(index, &[expected_line(), built]);
        }
        tally.built_answers += 1;
    }
    let (found, time) = match call.perform(EMPTY[index as usize % 3]) {
        Ok(found) => found,
        Err(what) => stop(index, &[expected_line(), what]),
    };
    if found != expected {
        let mut lines = vec![expected_line()];
        lines.push(format!("found {}", answer_words(call.export, &found).join(" ")));
        lines.push(format!("packed {:016x}, found {:016x}", expected.packed, found.packed));
        if call.buffers.iter().any(|buffer| buffer.iter().any(|&byte| byte != 0xAA)) {
            let began: Vec<String> = call.buffers.iter().map(|buffer| hex(buffer)).collect();
            lines.push(format!("buffers began as {}", began.join(" ")));
        }
        stop(index, &lines);
    }
    let number = number_of(found.packed);
    tally.answers[call.export as usize][number] += 1;
    let slowest = &mut tally.slowest[call.export as usize];
    *slowest = (*slowest).max((time, index));
    if call.export == Export::Check && number == 0 {
        tally.left.check(live(&found));
    }
    if call.export == Export::Run && number == 0 {
        tally.records(call.inputs[3], &found.buffers[0]);
        compare_interleaving(&call, &found, index);
        compare_left(&call, &found, index, &mut tally.left);
        tally.interleavings += 1;
    }
}

fn main() {
    let mut words: Vec<String> = std::env::args().skip(1).collect();
    let random_only = words.first().is_some_and(|word| word == "random");
    if random_only {
        words.remove(0);
    }
    let number = |i: usize, otherwise: u64| match words.get(i) {
        Some(word) => word.parse().expect("cases, seed and first case are decimal numbers"),
        None => otherwise,
    };
    let (cases, seed, first) = (number(0, 20_000), number(1, 1), number(2, 0));
    let make = if random_only { generator::random_case } else { generator::case };
    let mut tally = Tally::default();
    for index in first..first + cases {
        let case = make(&mut Random::new(seed, index));
        compare(&case, index, &mut tally);
    }
    let missing = tally.print();
    println!("{cases} cases{}, 0 differences", if random_only { " of random bytes" } else { "" });
    for line in &missing {
        println!("{line}");
    }
    std::process::exit(if missing.is_empty() || random_only { 0 } else { 1 });
}
