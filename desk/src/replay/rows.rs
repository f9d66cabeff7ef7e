//! A run in words: a row for each step, and what became of each job.

use super::{index, Item, Replay, Step};
use crate::numbers::{joined, many};
use crate::program::Program;
use abwakiris::{Job, Told};

/// Steps in words: one, or several of a stuck or finished job that are alike.
#[derive(Clone, Debug, PartialEq, Eq)]
pub struct Row {
    /// The first and the last of its steps, counted from 1.
    pub steps: (usize, usize),
    pub job: Job,
    /// The outcome where the step bound it.
    pub outcome: Option<bool>,
    /// The line of the listing, and the statement.
    pub at: Option<(usize, String)>,
    /// What happened.
    pub happened: String,
}

impl Row {
    /// Its steps: `7`, or `7 to 40`.
    pub fn numbers(&self) -> String {
        match self.steps {
            (first, last) if first == last => first.to_string(),
            (first, last) => format!("{first} to {last}"),
        }
    }

    fn continues(&self, before: &Row, told: Told) -> bool {
        told != Told::Moved && (self.job, &self.at, &self.happened) == (before.job, &before.at, &before.happened)
    }
}

/// The rows of a run.
pub fn rows(programs: [&Program; 2], replay: &Replay) -> Vec<Row> {
    let mut rows: Vec<Row> = vec![];
    for (i, step) in replay.steps.iter().enumerate() {
        let row = row(programs[index(step.job)], i + 1, step);
        match rows.last_mut() {
            Some(before) if row.continues(before, step.record.told) => before.steps.1 = i + 1,
            _ => rows.push(row),
        }
    }
    rows
}

fn row(program: &Program, number: usize, step: &Step) -> Row {
    let outcome = step.measured.then_some(step.outcome);
    Row { steps: (number, number), job: step.job, outcome, at: at(program, step.item), happened: happened(step) }
}

/// The line of what a job is at, and its words.
pub fn at(program: &Program, item: Item) -> Option<(usize, String)> {
    let line = program.listing.number(item.offset()?);
    let text = program.listing.text(line);
    Some((line, if let Item::Return(_) = item { format!("return of {text}") } else { text.to_string() }))
}

/// What a step came to.
pub fn happened(step: &Step) -> String {
    match step.record.told {
        Told::Moved if step.record.edges > 0 => {
            format!("moved, {}: {}", many(usize::from(step.record.edges), "edge"), joined(&step.route, "-"))
        }
        Told::Moved => step.guard.map_or("moved".to_string(), |guard| format!("moved, the guard is {}", u8::from(guard))),
        Told::Finished => "finished".to_string(),
        Told::Stuck(number) => format!("stuck {number}"),
    }
}

/// What became of a job, in lines: how it ended, and where it is where it has not finished.
pub fn became(program: &Program, replay: &Replay, job: Job) -> Vec<String> {
    let moved = many(usize::from(replay.moved(job)), "step");
    let place = at(program, replay.ends(job)).map(|(line, text)| format!("line {line}, {text}"));
    match (replay.stuck(job), place) {
        (Some(stuck), Some(place)) => {
            let (number, words, step) = (stuck.number.number(), stuck.number.words(), stuck.step);
            vec![format!("moved {moved}, stuck {number} from step {step} on: {words}"), format!("{place}: {}", stuck.found)]
        }
        (None, Some(place)) => vec![format!("moved {moved}, still going"), format!("{place} comes next")],
        (_, None) => vec![format!("moved {moved}, finished")],
    }
}
