//! Runs as they are followed against the library, over generated runs: programs that are typed and others, of which many get stuck.

#[path = "parts/repository.rs"]
mod repository;

use abwakiris::{Job, Moved, Number, Record, Records, Refusal, Told};
use abwakiris_desk::device::Device;
use abwakiris_desk::program::Program;
use abwakiris_desk::replay::{of_files, rows, Item, Replay};
use repository::files::*;
use repository::generator::{Case, Random};
use repository::{generator, library, reference};
use std::collections::BTreeMap;

/// The files of a run.
struct Files {
    device: Vec<u8>,
    programs: [Vec<u8>; 2],
    schedule: Vec<u8>,
}

impl Files {
    fn replayed(&self) -> Result<(Device, [Program; 2], Replay), Refusal> {
        of_files(&self.device, [&self.programs[0], &self.programs[1]], &self.schedule)
    }

    /// What the library itself makes of the first so many steps.
    fn by_library(&self, steps: usize) -> Result<(Vec<Record>, Vec<u8>, Moved), Refusal> {
        let schedule = &self.schedule[..steps];
        let (mut records, mut map) = (vec![0; 4 * steps], vec![0; 256]);
        let moved = abwakiris::run(&self.device, &self.programs[0], &self.programs[1], schedule, &mut records, &mut map)?;
        map.truncate(abwakiris::locations(&self.device)?);
        Ok((Records::new(&records).collect(), map, moved))
    }
}

/// The generated runs of a seed, out of so many cases.
fn generated(seed: u64, cases: u64) -> impl Iterator<Item = Files> {
    (0..cases).filter_map(move |index| match generator::case(&mut Random::new(seed, index)) {
        Case::Run { device, one, two, schedule, .. } => Some(Files { device, programs: [one, two], schedule }),
        _ => None,
    })
}

/// What came up in the runs that were followed.
#[derive(Default)]
struct Tally {
    runs: usize,
    refused: usize,
    merges: usize,
    returns: usize,
    guards: usize,
    finished: usize,
    held: usize,
    stuck: BTreeMap<u8, usize>,
}

#[test]
fn generated_runs() {
    let mut tally = Tally::default();
    for files in generated(15, 1500) {
        follow(&files, &mut tally);
    }
    assert!(tally.runs > 100 && tally.refused > 0, "{} runs, {} refused", tally.runs, tally.refused);
    assert!(tally.merges > 100 && tally.returns > 100 && tally.guards > 100 && tally.finished > 100 && tally.held > 1000);
    let reasons: Vec<u8> = tally.stuck.keys().copied().collect();
    assert_eq!(reasons, [11, 12, 13, 14, 15, 16, 21]);
}

/// Follows a run and holds all of it against the library.
fn follow(files: &Files, tally: &mut Tally) {
    let (records, map, moved) = match files.by_library(files.schedule.len()) {
        Err(refusal) => {
            tally.refused += 1;
            assert_eq!(files.replayed().unwrap_err(), refusal);
            return;
        }
        Ok(run) => run,
    };
    tally.runs += 1;
    let (device, programs, run) = files.replayed().unwrap();
    assert_eq!((run.steps.len(), run.moved, &run.map), (files.schedule.len(), moved, &map));
    let mut before = vec![0; device.locations()];
    for (i, (step, record)) in run.steps.iter().zip(&records).enumerate() {
        assert_eq!(step.record, *record);
        assert_eq!(16 * step.job.number() + u8::from(step.outcome), files.schedule[i]);
        // what the job is at is what the library says it is at
        assert_eq!(step.item.offset(), record.offset.map(usize::from), "step {i}");
        if record.told != Told::Moved {
            assert_eq!((&step.map, step.next, step.measured, step.guard), (&before, step.item, false, None));
        }
        let between = step.route.len().saturating_sub(1);
        assert_eq!(between, usize::from(record.edges));
        assert!(step.route.windows(2).all(|pair| device.near(pair[0]).contains(&pair[1])));
        assert!(step.route.iter().all(|&location| device.has(step.job, location)));
        assert!(step.route.iter().skip(1).take(between.saturating_sub(1)).all(|&location| before[location] == 0));
        assert!(step.slots.iter().zip(&step.map).all(|(slot, &job)| slot.is_none() || job != 0));
        before = step.map.clone();
        count(step, tally);
    }
    assert_eq!(before, map);
    for steps in [0, 1, 7, records.len() / 2, records.len().saturating_sub(1)].into_iter().filter(|&steps| steps > 0 && steps <= records.len()) {
        assert_eq!(run.steps[steps - 1].map, files.by_library(steps).unwrap().1, "after {steps} steps");
    }
    let programs = [&programs[0], &programs[1]];
    became(programs, &run, tally);
    let rows = rows::rows(programs, &run);
    assert_eq!(rows.iter().map(|row| row.steps.1 + 1 - row.steps.0).sum::<usize>(), records.len());
}

fn count(step: &abwakiris_desk::replay::Step, tally: &mut Tally) {
    tally.merges += usize::from(!step.route.is_empty());
    tally.returns += usize::from(matches!(step.item, Item::Return(_)) && step.record.told == Told::Moved);
    tally.guards += usize::from(step.guard.is_some());
    tally.finished += usize::from(step.record.told == Told::Finished);
    tally.held += step.slots.iter().flatten().count();
}

/// What became of each job: stuck where its last record says so.
fn became(programs: [&Program; 2], run: &Replay, tally: &mut Tally) {
    for (&job, program) in Job::ALL.iter().zip(programs) {
        let last = run.steps.iter().rev().find(|step| step.job == job).map(|step| step.record.told);
        let lines = rows::became(program, run, job);
        match (last, run.stuck(job)) {
            (Some(Told::Stuck(number)), Some(stuck)) => {
                assert_eq!(stuck.number, number);
                assert_eq!(run.steps[stuck.step - 1].record.told, Told::Stuck(number));
                assert!(run.steps[..stuck.step - 1].iter().all(|step| step.job != job || step.record.told == Told::Moved));
                assert!(!stuck.found.is_empty(), "{number} has no words");
                assert_eq!(stuck.about.len() == 2, matches!(number, Number::NoPath | Number::ArgumentPlace));
                assert!(lines[0].contains(&format!("stuck {}", number.number())) && lines[1].ends_with(&stuck.found));
                *tally.stuck.entry(number.number()).or_default() += 1;
            }
            (Some(Told::Stuck(_)), None) | (_, Some(_)) => panic!("stuck or not"),
            (Some(Told::Finished), None) => assert!(lines[0].ends_with("finished") && lines.len() == 1),
            _ => assert!(lines[0].ends_with("finished") || lines[0].ends_with("still going")),
        }
    }
}

/// Job 1 has the upper row of the grid, job 2 the lower one.
fn both() -> Vec<u8> {
    owned(&[1, 1, 1, 2, 2, 2], &GRID)
}

fn run_of(device: Vec<u8>, one: Vec<u8>, two: Vec<u8>, schedule: &[u8]) -> (Device, [Program; 2], Replay) {
    Files { device, programs: [one, two], schedule: schedule.to_vec() }.replayed().unwrap()
}

#[test]
fn slots_go_with_the_qubits() {
    // the callee has the caller's slots 4 and 5 as its 0 and 1, frees the second and makes it again in slot 7
    let callee = function(2, 2, &[free(1), init(7, 1)]);
    let one = calling(&[callee], &[init(4, 0), init(5, 2), call(0, &[0, 2], &[4, 5])]);
    let (_, _, run) = run_of(both(), one, only(&[init(9, 3)]), &[0x20, 0x10, 0x10, 0x10, 0x10, 0x10, 0x10, 0x10]);
    let slots: Vec<String> =
        run.steps.iter().map(|step| step.slots.iter().map(|slot| slot.map_or("-".to_string(), |slot| slot.to_string())).collect()).collect();
    // after the return nobody has the qubit at 2, which stays
    assert_eq!(slots, ["---9--", "4--9--", "4-59--", "0-19--", "0--9--", "0-79--", "4--9--", "4--9--"]);
    assert_eq!(run.map, [1, 0, 1, 2, 0, 0]);
    assert_eq!(run.ends(Job::ONE), Item::Finished);
}

#[test]
fn rows_of_one_run() {
    let one = only(&[init(0, 0), init(1, 2), init(2, 1), merge(3, 0, 1)]);
    let two = only(&[init(0, 3), init(1, 5), merge(2, 0, 1), when(2, &[free(0)], &[free(1)])]);
    let schedule = [0x20, 0x10, 0x20, 0x10, 0x21, 0x10, 0x10, 0x11, 0x20, 0x20, 0x20, 0x21, 0x10];
    let (_, programs, run) = run_of(both(), one, two, &schedule);
    let programs = [&programs[0], &programs[1]];
    let text: Vec<String> = rows::rows(programs, &run)
        .iter()
        .map(|row| {
            let (line, text) = row.at.clone().unwrap_or_default();
            format!("{}|{}|{}|{line}|{text}|{}", row.numbers(), row.job.number(), row.outcome.map_or(-1, i8::from), row.happened)
        })
        .collect();
    let expected = [
        "1|2|-1|3|init 0 3|moved",
        "2|1|-1|3|init 0 0|moved",
        "3|2|-1|4|init 1 5|moved",
        "4|1|-1|4|init 1 2|moved",
        "5|2|1|5|merge 2 X 0 X 1|moved, 2 edges: 3-4-5",
        "6|1|-1|5|init 2 1|moved",
        "7 to 8|1|-1|6|merge 3 X 0 X 1|stuck 21: no path",
        "9|2|-1|6|if 2|moved, the guard is 1",
        "10|2|-1|7|free 0|moved",
        "11 to 12|2|-1|0||finished",
        "13|1|-1|6|merge 3 X 0 X 1|stuck 21: no path",
    ];
    assert_eq!(text, expected);
    let found = "line 6, merge 3 X 0 X 1: slot 0 is at location 0, slot 1 at location 2; no free location is reached from 0";
    assert_eq!(rows::became(programs[0], &run, Job::ONE), ["moved 3 steps, stuck 21 from step 7 on: no path", found]);
    assert_eq!(rows::became(programs[1], &run, Job::TWO), ["moved 5 steps, finished"]);
}

#[test]
fn longest_run() {
    // a loop that merges the two ends of a line of 256 locations without end
    let body = [merge(4, 0, 1), gate(1)];
    let main = only(&[init(0, 0), init(1, 255), boolean(2, 1), refer(3, 2), repeat(3, &body), free(0)]);
    let files = Files { device: line(256), programs: [main, only(&[])], schedule: vec![0x11; 4096] };
    let (_, _, run) = files.replayed().unwrap();
    assert_eq!((run.steps.len(), run.moved.first), (4096, 4096));
    let whole: Vec<usize> = (0..256).collect();
    assert_eq!(run.steps.iter().filter(|step| step.route == whole).count(), 1364);
    assert_eq!(run.ends(Job::ONE), Item::Statement(20));
    let longer = Files { schedule: vec![0x11; 4097], ..files };
    assert_eq!(longer.replayed().unwrap_err().number, Number::ScheduleLength);
}
