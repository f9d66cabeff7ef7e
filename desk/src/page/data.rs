//! The data of a page: the device, both listings, and what each step changes.
//!
//! Members that say nothing are left out. Lines are counted from 1, as steps are: the first of the list is step 1.

use crate::device::Device;
use crate::json::Json;
use crate::layout::Layout;
use crate::machine::{Machine, Next, Slot};
use crate::program::{Body, Kind, Program, Statement};
use crate::replay::rows::became;
use crate::replay::stuck::Stuck;
use crate::replay::{index, Item, Replay, Step};
use abwakiris::{Job, Told};
use std::collections::HashMap;
use std::hash::Hash;

/// All that a page knows of a run.
pub fn data(device: &Device, layout: &Layout, programs: [(&str, &Program); 2], replay: &Replay) -> Json {
    let pair = |&(a, b): &(usize, usize)| Json::list([a, b]);
    let drawn = Json::object([
        ("owners", Json::list(device.owners.iter().copied())),
        ("edges", Json::list(device.edges.iter().map(pair))),
        ("cells", Json::list(layout.cells.iter().map(pair))),
    ]);
    let jobs = Json::list(Job::ALL.iter().zip(programs).map(|(&job, (name, program))| of_job(job, name, program, replay)));
    let mut changes = Changes::new(programs.map(|(_, program)| program), device.locations());
    let steps = Json::list(replay.steps.iter().map(|step| changes.step(step)));
    Json::object([
        ("device", drawn),
        ("jobs", jobs),
        ("steps", steps),
        ("routes", Json::list(changes.routes.list)),
        ("calls", Json::list(changes.calls.list)),
        ("moved", Json::list([replay.moved.first, replay.moved.second])),
        ("map", Json::list(replay.map.iter().copied())),
    ])
}

fn of_job(job: Job, name: &str, program: &Program, replay: &Replay) -> Json {
    let lines = Json::list(program.listing.lines.iter().map(|line| line.text.as_str()));
    let object = Json::object([("name", name.into()), ("lines", lines), ("became", Json::list(became(program, replay, job)))]);
    let object = with_next(object, program, replay.begins[index(job)]);
    match replay.stuck(job) {
        Some(stuck) => object.with("stuck", of_stuck(stuck, program)),
        None => object,
    }
}

fn of_stuck(stuck: &Stuck, program: &Program) -> Json {
    Json::object([
        ("step", stuck.step.into()),
        ("number", stuck.number.number().into()),
        ("words", stuck.number.words().into()),
        ("line", program.listing.number(stuck.at).into()),
        ("found", stuck.found.as_str().into()),
        ("about", Json::list(stuck.about.iter().copied())),
        ("reached", Json::list(stuck.reached.iter().copied())),
    ])
}

/// The line of what a job is at, none where it has finished, and whether it is the call of a return.
fn with_next(object: Json, program: &Program, item: Item) -> Json {
    let object = object.with("next", item.offset().map(|at| program.listing.number(at)));
    if let Item::Return(_) = item {
        return object.with("next_returns", true);
    }
    object
}

/// Values that come again and again, each written once.
struct Table<K> {
    list: Vec<Json>,
    known: HashMap<K, usize>,
}

impl<K: Hash + Eq> Table<K> {
    fn new() -> Table<K> {
        Table { list: vec![], known: HashMap::new() }
    }

    fn index(&mut self, key: K, value: impl FnOnce(&K) -> Json) -> usize {
        if let Some(&index) = self.known.get(&key) {
            return index;
        }
        self.list.push(value(&key));
        self.known.insert(key, self.list.len() - 1);
        self.list.len() - 1
    }
}

/// A call that is open: the job, the open call around it, its offset, its locations.
type Call = (Job, Option<usize>, usize, Vec<usize>);

/// What a job shows of itself: the slots of the body that is being run, and its open calls.
struct Shown<'a> {
    program: &'a Program,
    machine: Machine<'a>,
    slots: [Slot; 32],
    open: Vec<usize>,
}

/// Goes over the steps and says what each changes.
struct Changes<'a> {
    jobs: [Shown<'a>; 2],
    map: Vec<u8>,
    slots: Vec<Option<u8>>,
    routes: Table<Vec<usize>>,
    calls: Table<Call>,
}

impl<'a> Changes<'a> {
    fn new(programs: [&'a Program; 2], locations: usize) -> Changes<'a> {
        let jobs = programs.map(|program| Shown { program, machine: Machine::new(program), slots: [Slot::Unbound; 32], open: vec![] });
        Changes { jobs, map: vec![0; locations], slots: vec![None; locations], routes: Table::new(), calls: Table::new() }
    }

    fn step(&mut self, step: &Step) -> Json {
        let program = self.jobs[index(step.job)].program;
        let told = match step.record.told {
            Told::Moved => "moved",
            Told::Finished => "finished",
            Told::Stuck(_) => "stuck",
        };
        let mut object = Json::object([("job", step.job.number().into()), ("told", told.into())]);
        if let Told::Stuck(number) = step.record.told {
            object = object.with("number", number.number());
        }
        if let Some(at) = step.item.offset() {
            object = object.with("line", program.listing.number(at)).with("offset", at);
        }
        if let Item::Return(_) = step.item {
            object = object.with("returns", true);
        }
        if step.record.told != Told::Moved {
            return object;
        }
        if step.measured {
            object = object.with("outcome", u8::from(step.outcome));
        }
        if let Some(guard) = step.guard {
            object = object.with("guard", guard);
        }
        if !step.route.is_empty() {
            let route = self.routes.index(step.route.clone(), |route| Json::list(route.iter().copied()));
            object = object.with("edges", step.record.edges).with("route", route);
        }
        object = with_next(object, program, step.next);
        object = with_list(object, "changes", self.on_device(step));
        self.of_job(step, object)
    }

    /// The locations whose job or slot is another than before the step, with both.
    fn on_device(&mut self, step: &Step) -> Vec<Json> {
        let mut changed = vec![];
        for (location, (job, slot)) in step.map.iter().zip(&step.slots).enumerate() {
            if self.map.get(location) != Some(job) || self.slots.get(location) != Some(slot) {
                changed.push(Json::List(vec![location.into(), (*job).into(), (*slot).into()]));
            }
        }
        self.map.clone_from(&step.map);
        self.slots.clone_from(&step.slots);
        changed
    }

    /// What a moved step changes of its job: slots, with what they hold in words, and the open call.
    fn of_job(&mut self, step: &Step, object: Json) -> Json {
        let shown = &mut self.jobs[index(step.job)];
        let at = handled(&shown.machine);
        shown.machine.moves(step.outcome);
        let depth = shown.machine.frames.len() - 1;
        let frame = shown.machine.frame();
        let mut changed = vec![];
        for (slot, (now, before)) in frame.slots.iter().zip(&shown.slots).enumerate() {
            if now != before {
                changed.push(Json::List(vec![slot.into(), holds(*now).into()]));
            }
        }
        shown.slots = frame.slots;
        let object = at.into_iter().fold(object, |object, at| object.with("at", at));
        let object = with_list(object, "slots", changed);
        if depth == shown.open.len() {
            return object;
        }
        if let (Some(call), true) = (frame.call, depth > shown.open.len()) {
            let key = (step.job, shown.open.last().copied(), call.at, frame.locations.clone());
            let (program, body) = (shown.program, frame.body);
            shown.open.push(self.calls.index(key, |key| of_call(key, program, body)));
        }
        shown.open.truncate(depth);
        object.with("call", shown.open.last().copied())
    }
}

/// Where the qubit is that a gate or a measurement handles next.
fn handled(machine: &Machine) -> Option<usize> {
    match machine.next() {
        Next::Statement(Statement { kind: Kind::Gate { slot } | Kind::Measure { slot, .. }, .. }) => machine.frame().qubit(*slot),
        _ => None,
    }
}

fn of_call((job, from, at, locations): &Call, program: &Program, body: Body) -> Json {
    let function = if let Body::Function(number) = body { Some(number) } else { None };
    Json::object([
        ("job", job.number().into()),
        ("from", (*from).into()),
        ("line", program.listing.number(*at).into()),
        ("function", function.into()),
        ("locations", Json::list(locations.iter().copied())),
    ])
}

fn with_list(object: Json, name: &str, list: Vec<Json>) -> Json {
    if list.is_empty() {
        return object;
    }
    object.with(name, Json::List(list))
}

/// What a slot holds, in words; none for nothing.
fn holds(slot: Slot) -> Option<String> {
    match slot {
        Slot::Unbound => None,
        Slot::Qubit(location) => Some(format!("at {location}")),
        Slot::Bool(value) => Some(format!("= {}", u8::from(value))),
        Slot::Reference(value) => Some(format!("holds {}", u8::from(value))),
    }
}
