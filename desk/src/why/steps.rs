//! Runs step by step: written out from what a search found, and told by the library.

use super::flow::{Does, Graph, Number};
use super::search::{Hop, Run, Search, Where};
use super::wishes;
use crate::device::Device;
use crate::program::Program;
use abwakiris::{Job, Record, Records, Schedule, Told, MOST_STEPS, RECORD_BYTES};

/// A step of a job.
#[derive(Clone, Copy, Debug, PartialEq, Eq)]
pub struct Step {
    /// The offset of its statement, or of its call for a return.
    pub at: usize,
    /// The outcome; false where it is not asked for or does not matter.
    pub outcome: bool,
    /// Whether the outcome matters for where the run comes.
    pub chosen: bool,
}

impl Step {
    /// A step without an outcome that matters.
    pub fn plain(at: usize) -> Step {
        Step { at, outcome: false, chosen: false }
    }
}

/// Writes the steps of a run through a body. None where a schedule cannot have so many.
pub fn write(search: &mut Search<'_>, place: Where, values: u32, hops: &[Hop], out: &mut Vec<Step>) -> Option<()> {
    let mut writer = Writer { graph: search.flow.graph(search.body(place)), search, place, values, out };
    for hop in hops {
        match *hop {
            Hop::Step(number, outcome) => writer.step(number, outcome)?,
            Hop::Fork(from, join) => writer.fork(from, join)?,
        }
    }
    Some(())
}

struct Writer<'s, 'a> {
    search: &'s mut Search<'a>,
    graph: &'a Graph,
    place: Where,
    /// What the slots hold.
    values: u32,
    out: &'s mut Vec<Step>,
}

impl Writer<'_, '_> {
    fn step(&mut self, number: Number, outcome: Option<bool>) -> Option<()> {
        let graph = self.graph;
        let step = &graph.steps[number];
        let at = step.at?;
        self.push(Step { at, outcome: outcome.unwrap_or(false), chosen: outcome.is_some() })?;
        self.values = wishes::after(self.values, step, outcome.unwrap_or(false));
        if let Does::Calls { function } = step.does {
            let callee = self.search.callee(self.place, at, function);
            match &*self.search.through(callee) {
                Run::Found(found) => write(self.search, callee, 0, &found.hops, self.out)?,
                _ => return None,
            }
            self.push(Step::plain(at))?; // the return
        }
        Some(())
    }

    /// An if, as the values have it. No loop is in it.
    fn fork(&mut self, from: Number, join: Number) -> Option<()> {
        let graph = self.graph;
        let mut here = from;
        while here != join {
            self.step(here, None)?;
            here = match graph.steps[here].does {
                Does::Guards { guard, taken } if self.values >> guard & 1 == 1 => taken,
                _ => graph.steps[here].next,
            };
        }
        Some(())
    }

    fn push(&mut self, step: Step) -> Option<()> {
        self.out.push(step);
        (self.out.len() <= MOST_STEPS).then_some(())
    }
}

/// The schedule of these steps of a job alone.
pub fn schedule(job: Job, steps: &[Step]) -> Schedule {
    steps.iter().map(|step| (job, step.outcome)).collect()
}

/// What the library records of a schedule of one job beside a job that does nothing.
pub fn records(device: &Device, program: &Program, job: Job, schedule: &[u8]) -> Option<Vec<Record>> {
    let nothing = Program::empty();
    let [first, second] = if job == Job::ONE { [program, &nothing] } else { [&nothing, program] };
    let mut records = vec![0; RECORD_BYTES * schedule.len()];
    let mut map = vec![0; device.locations()];
    abwakiris::run(&device.bytes, &first.bytes, &second.bytes, schedule, &mut records, &mut map).ok()?;
    Some(Records::new(&records).collect())
}

/// Whether these records are of steps that moved, but for the last, which told this.
pub fn all_moved_until(records: &[Record], told: Told, at: Option<usize>) -> bool {
    match records.split_last() {
        Some((last, before)) => before.iter().all(|record| record.told == Told::Moved) && last.told == told && last.offset.map(usize::from) == at,
        None => false,
    }
}
