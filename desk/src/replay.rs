//! A run of two jobs as the library recorded it, with the device after each step.
//!
//! The library runs once. Its records say which steps moved; only those are followed here, to know which slot holds what and what comes next.

pub mod rows;
pub mod stuck;

use crate::device::Device;
use crate::machine::{Effect, Machine, Next};
use crate::program::{Kind, Program};
use abwakiris::{Job, Moved, Record, Records, Refusal, Told, MOST_LOCATIONS, RECORD_BYTES};

/// A run.
#[derive(Clone, Debug)]
pub struct Replay {
    pub steps: Vec<Step>,
    /// The map that the library left.
    pub map: Vec<u8>,
    pub moved: Moved,
    /// What each job begins with.
    pub begins: [Item; 2],
    /// How each job got stuck, where it did.
    pub stuck: [Option<stuck::Stuck>; 2],
}

/// A step of a run.
#[derive(Clone, Debug)]
pub struct Step {
    pub job: Job,
    pub outcome: bool,
    pub record: Record,
    /// What the job was at.
    pub item: Item,
    /// What the job is at after the step.
    pub next: Item,
    /// Whether the outcome was bound: the step moved, and it measures.
    pub measured: bool,
    /// The value that an if or a while that moved found.
    pub guard: Option<bool>,
    /// The route of a merge that moved, by the library; none for any other step.
    pub route: Vec<usize>,
    /// The map after the step: 0 or the occupying job.
    pub map: Vec<u8>,
    /// The slot that holds the qubit at each location after the step, in the innermost body that has it.
    pub slots: Vec<Option<u8>>,
}

/// What a job is at, by the offset of a statement.
#[derive(Clone, Copy, Debug, PartialEq, Eq)]
pub enum Item {
    Statement(usize),
    /// The return of the call at this offset.
    Return(usize),
    Finished,
}

impl Item {
    /// The offset that the library's record of it has.
    pub fn offset(self) -> Option<usize> {
        match self {
            Item::Statement(at) | Item::Return(at) => Some(at),
            Item::Finished => None,
        }
    }
}

impl From<Next<'_>> for Item {
    fn from(next: Next) -> Item {
        match next {
            Next::Statement(statement) => Item::Statement(statement.at),
            Next::Return(call) => Item::Return(call.at),
            Next::Finished => Item::Finished,
        }
    }
}

impl Replay {
    /// What a job is at when the run ends.
    pub fn ends(&self, job: Job) -> Item {
        let last = self.steps.iter().rev().find(|step| step.job == job);
        last.map_or(self.begins[index(job)], |step| step.next)
    }

    /// How many steps a job moved.
    pub fn moved(&self, job: Job) -> u16 {
        [self.moved.first, self.moved.second][index(job)]
    }

    /// How a job got stuck.
    pub fn stuck(&self, job: Job) -> Option<&stuck::Stuck> {
        self.stuck[index(job)].as_ref()
    }
}

/// The place of a job in a list of two.
pub fn index(job: Job) -> usize {
    usize::from(job.number() == 2)
}

/// The run of these files under a schedule, and the files taken apart.
///
/// # Errors
///
/// The library's refusal of the run, which names the file.
pub fn of_files(device: &[u8], programs: [&[u8]; 2], schedule: &[u8]) -> Result<(Device, [Program; 2], Replay), Refusal> {
    let mut records = vec![0; RECORD_BYTES * schedule.len()];
    let mut map = vec![0; MOST_LOCATIONS];
    let moved = abwakiris::run(device, programs[0], programs[1], schedule, &mut records, &mut map)?;
    let device = Device::read(device)?;
    let programs = [Program::read(programs[0])?, Program::read(programs[1])?];
    map.truncate(device.locations());
    let mut followed = Followed::new(&device, [&programs[0], &programs[1]]);
    let begins = [followed.machines[0].next().into(), followed.machines[1].next().into()];
    for (&byte, record) in schedule.iter().zip(Records::new(&records)) {
        followed.step(Job::try_from(u64::from(byte >> 4))?, byte & 1 == 1, record);
    }
    let replay = Replay { steps: followed.steps, map, moved, begins, stuck: followed.stuck };
    Ok((device, programs, replay))
}

/// Both jobs, as far as the records were followed.
struct Followed<'a> {
    device: &'a Device,
    machines: [Machine<'a>; 2],
    map: Vec<u8>,
    slots: Vec<Option<u8>>,
    stuck: [Option<stuck::Stuck>; 2],
    steps: Vec<Step>,
}

impl<'a> Followed<'a> {
    fn new(device: &'a Device, programs: [&'a Program; 2]) -> Followed<'a> {
        let n = device.locations();
        Followed { device, machines: programs.map(Machine::new), map: vec![0; n], slots: vec![None; n], stuck: [None, None], steps: vec![] }
    }

    fn step(&mut self, job: Job, outcome: bool, record: Record) {
        let machine = &mut self.machines[index(job)];
        let next = machine.next();
        let (mut measured, mut guard, mut route) = (false, None, vec![]);
        match record.told {
            Told::Moved => {
                if let Next::Statement(statement) = next {
                    measured = matches!(statement.kind, Kind::Measure { .. } | Kind::Merge { .. });
                    guard = guard_of(&statement.kind).and_then(|slot| machine.frame().value(slot));
                }
                match machine.moves(outcome) {
                    Effect::Merges(first, second) => route = self.device.route(job, &self.map, first, second).unwrap_or_default(),
                    Effect::Takes(location) => put(&mut self.map, location, job.number()),
                    Effect::Gives(location) => put(&mut self.map, location, 0),
                    Effect::Nothing => {}
                }
                self.name_slots(job);
            }
            Told::Stuck(number) => {
                let stuck = &mut self.stuck[index(job)];
                if let (None, Next::Statement(statement)) = (&stuck, next) {
                    let before = stuck::Before { device: self.device, map: &self.map, job, machine };
                    *stuck = Some(stuck::Stuck::of(self.steps.len() + 1, number, statement, &before));
                }
            }
            Told::Finished => {}
        }
        let after = self.machines[index(job)].next().into();
        let (map, slots) = (self.map.clone(), self.slots.clone());
        self.steps.push(Step { job, outcome, record, item: next.into(), next: after, measured, guard, route, map, slots });
    }

    /// Writes down which slots hold the qubits of a job that moved.
    fn name_slots(&mut self, job: Job) {
        for (location, slot) in self.slots.iter_mut().enumerate() {
            if self.device.has(job, location) {
                *slot = None;
            }
        }
        for (location, slot) in self.machines[index(job)].held() {
            if self.map.get(location) == Some(&job.number()) {
                self.slots[location].get_or_insert(slot);
            }
        }
    }
}

fn put(map: &mut [u8], location: usize, job: u8) {
    if let Some(byte) = map.get_mut(location) {
        *byte = job;
    }
}

/// The slot that decides what an if or a while does.
fn guard_of(kind: &Kind) -> Option<u8> {
    match kind {
        Kind::If { guard, .. } | Kind::While { guard, .. } => Some(*guard),
        _ => None,
    }
}
