//! Bodies as they are come to: a visit is a body at actual locations, with what is occupied when it begins.
//!
//! In a program that is typed the visit settles where every qubit of the body is at each of its statements, whatever the outcomes: both blocks of an if end
//! alike, and a loop keeps its qubits. So a body is gone over once for each visit, and what was seen there is remembered. A visit is clear where every merge in
//! it and below it has a path; only those that are not get a number.

use crate::program::{Block, Body, Kind, Program, Statement};
use crate::region::{Locations, Region};
use std::collections::{HashMap, HashSet};
use std::rc::Rc;

/// The number of a visit that is not clear.
pub type Id = usize;

/// The most clear visits of each body that are remembered.
const MOST_REMEMBERED: usize = 8_000;

/// A body at actual locations.
#[derive(Clone, Debug, PartialEq, Eq, Hash)]
pub struct Visit {
    pub body: Body,
    /// The actual location of each parameter; none for main.
    pub locations: Vec<usize>,
    /// What is occupied when it begins.
    pub occupied: Locations,
}

/// What is met in a visit, in the check's order. Calls that are clear are left out.
#[derive(Clone, Copy, Debug)]
pub enum Met {
    /// The merge at this offset has no path.
    Blocked(usize),
    /// The call at this offset is this visit.
    Call(usize, Id),
}

/// The same, before it is known which calls are clear.
enum Seen {
    Blocked(usize),
    Call(usize, Visit),
}

/// Where the qubits are at a statement.
#[derive(Clone, Copy, Debug, Default)]
pub struct Standing {
    /// The location of the qubit in each slot.
    pub slots: [Option<usize>; 32],
    pub occupied: Locations,
}

/// What a call leaves of an argument.
#[derive(Clone, Copy, Debug, PartialEq, Eq)]
pub enum Left {
    /// The callee ends without it.
    Gone,
    /// The qubit that was given.
    Same,
    /// A qubit in its place that the callee may have made.
    Remade,
}

/// What callers need to know of a function.
#[derive(Clone, Debug)]
struct Summary {
    /// Whether a merge is in it or in a function that it calls.
    merges: bool,
    arguments: Vec<Left>,
}

/// All visits of a program by one job, as far as they were asked for.
pub struct Visits<'a> {
    pub program: &'a Program,
    pub region: Region<'a>,
    functions: Vec<Summary>,
    ids: HashMap<Rc<Visit>, Id>,
    visits: Vec<Rc<Visit>>,
    met: Vec<Option<Rc<Vec<Met>>>>,
    clear: HashMap<Body, HashSet<Visit>>,
}

impl<'a> Visits<'a> {
    /// The visits of this program by the job of this region; none is asked for yet.
    pub fn of(program: &'a Program, region: Region<'a>) -> Visits<'a> {
        let mut visits = Visits { program, region, functions: vec![], ids: HashMap::new(), visits: vec![], met: vec![], clear: HashMap::new() };
        for function in &program.functions {
            let parameters: Vec<usize> = (0..function.parameters).collect();
            let mut standing = Standing::default();
            (0..function.arguments).for_each(|i| standing.slots[i] = Some(i));
            let mut merges = false;
            let mut freed = [false; 32];
            visits.go(&function.body, Some(&parameters), &mut standing, &mut |statement, _| {
                merges |= match &statement.kind {
                    Kind::Merge { .. } => true,
                    Kind::Call { function, .. } => visits.merges(*function),
                    _ => false,
                };
                visits.frees(statement).into_iter().for_each(|slot| freed[slot] = true);
            });
            let left = |i: usize| match standing.slots[i] {
                Some(location) if location == i && freed[i] => Left::Remade,
                Some(location) if location == i => Left::Same,
                _ => Left::Gone,
            };
            let arguments = (0..function.arguments).map(left).collect();
            visits.functions.push(Summary { merges, arguments });
        }
        visits
    }

    /// The visit of main; none where it is clear.
    pub fn main(&mut self) -> Option<Id> {
        self.id(Visit::of_main())
    }

    /// Where the qubits are at main's end.
    pub fn at_end(&self) -> Standing {
        self.over(&Visit::of_main(), &mut |_, _| {})
    }

    /// The number of a visit; none where every merge of it and of those below it has a path. It goes as deep as functions call each other.
    pub fn id(&mut self, visit: Visit) -> Option<Id> {
        if let Some(&id) = self.ids.get(&visit) {
            return Some(id);
        }
        if self.clear.get(&visit.body).map_or(false, |clear| clear.contains(&visit)) {
            return None;
        }
        let is_blocked = self.seen(&visit).into_iter().any(|seen| match seen {
            Seen::Blocked(_) => true,
            Seen::Call(_, below) => self.id(below).is_some(),
        });
        if !is_blocked {
            let clear = self.clear.entry(visit.body).or_default();
            if clear.len() < MOST_REMEMBERED {
                clear.insert(visit);
            }
            return None;
        }
        let (id, visit) = (self.visits.len(), Rc::new(visit));
        self.visits.push(Rc::clone(&visit));
        self.met.push(None);
        self.ids.insert(visit, id);
        Some(id)
    }

    /// The visit of this number.
    pub fn visit(&self, id: Id) -> Rc<Visit> {
        Rc::clone(&self.visits[id])
    }

    /// Whether a merge is in a function or below it.
    pub fn merges(&self, function: usize) -> bool {
        self.functions.get(function).map_or(false, |summary| summary.merges)
    }

    /// What a call leaves of an argument.
    pub fn left(&self, function: usize, argument: usize) -> Left {
        self.functions.get(function).and_then(|summary| summary.arguments.get(argument)).copied().unwrap_or(Left::Gone)
    }

    /// The slots whose qubit a statement may free.
    fn frees(&self, statement: &Statement) -> Vec<usize> {
        match &statement.kind {
            Kind::Free { slot } => vec![usize::from(*slot)],
            Kind::Call { function, slots, .. } => {
                let freed = slots.iter().enumerate().filter(|(i, _)| self.left(*function, *i) != Left::Same);
                freed.map(|(_, &slot)| usize::from(slot)).collect()
            }
            _ => vec![],
        }
    }

    /// What is met in a visit.
    pub fn met(&mut self, id: Id) -> Rc<Vec<Met>> {
        if let Some(met) = &self.met[id] {
            return Rc::clone(met);
        }
        let mut met = vec![];
        for seen in self.seen(&self.visit(id)) {
            match seen {
                Seen::Blocked(at) => met.push(Met::Blocked(at)),
                Seen::Call(at, visit) => met.extend(self.id(visit).map(|id| Met::Call(at, id))),
            }
        }
        let met = Rc::new(met);
        self.met[id] = Some(Rc::clone(&met));
        met
    }

    /// The merges without a path and the calls of a visit. Callees without a merge are left out.
    fn seen(&self, visit: &Visit) -> Vec<Seen> {
        let mut seen = vec![];
        self.over(visit, &mut |statement, standing| match &statement.kind {
            Kind::Merge { first, second, .. } => {
                let ends = (standing.slots[usize::from(*first)], standing.slots[usize::from(*second)]);
                if let (Some(first), Some(second)) = ends {
                    if !self.region.joined(&standing.occupied, first, second) {
                        seen.push(Seen::Blocked(statement.at));
                    }
                }
            }
            Kind::Call { function, locations, .. } if self.merges(*function) => {
                let locations = actual(locations, visit.parameters());
                seen.push(Seen::Call(statement.at, Visit { body: Body::Function(*function), locations, occupied: standing.occupied }));
            }
            _ => {}
        });
        seen
    }

    /// Where the qubits are in a visit when this statement comes.
    pub fn standing(&self, visit: &Visit, at: usize) -> Standing {
        let mut there = Standing::default();
        self.over(visit, &mut |statement, standing| {
            if statement.at == at {
                there = *standing;
            }
        });
        there
    }

    /// Goes over the body of a visit; gives where the qubits are at its end.
    fn over(&self, visit: &Visit, see: &mut dyn FnMut(&'a Statement, &Standing)) -> Standing {
        let mut standing = Standing { occupied: visit.occupied, ..Standing::default() };
        if let Body::Function(number) = visit.body {
            for (i, &location) in visit.locations.iter().enumerate().take(self.program.functions[number].arguments) {
                standing.slots[i] = Some(location);
            }
        }
        self.go(self.program.body(visit.body), visit.parameters(), &mut standing, see);
        standing
    }

    /// Goes over a block in the check's order and shows each statement with where the qubits are before it.
    fn go(&self, block: &'a Block, parameters: Option<&[usize]>, standing: &mut Standing, see: &mut dyn FnMut(&'a Statement, &Standing)) {
        for statement in &block.statements {
            see(statement, standing);
            match &statement.kind {
                Kind::Init { slot, location } => {
                    let location = actual_one(*location, parameters);
                    standing.slots[usize::from(*slot)] = Some(location);
                    standing.occupied.put(location);
                }
                Kind::Free { slot } => standing.lose(*slot),
                Kind::If { then, otherwise, .. } => {
                    let mut other = *standing;
                    self.go(then, parameters, standing, see);
                    self.go(otherwise, parameters, &mut other, see);
                }
                Kind::While { body, .. } => self.go(body, parameters, standing, see),
                Kind::Call { function, slots, .. } => {
                    let gone = slots.iter().enumerate().filter(|(i, _)| self.left(*function, *i) == Left::Gone);
                    gone.for_each(|(_, &slot)| standing.lose(slot));
                }
                _ => {}
            }
        }
    }
}

impl Visit {
    fn of_main() -> Visit {
        Visit { body: Body::Main, locations: vec![], occupied: Locations::default() }
    }

    /// The actual locations of the parameters, where location bytes name such.
    fn parameters(&self) -> Option<&[usize]> {
        match self.body {
            Body::Main => None,
            Body::Function(_) => Some(&self.locations),
        }
    }
}

impl Standing {
    fn lose(&mut self, slot: u8) {
        if let Some(location) = self.slots[usize::from(slot)].take() {
            self.occupied.take(location);
        }
    }
}

/// The locations that location bytes mean.
fn actual(bytes: &[u8], parameters: Option<&[usize]>) -> Vec<usize> {
    bytes.iter().map(|&byte| actual_one(byte, parameters)).collect()
}

fn actual_one(byte: u8, parameters: Option<&[usize]>) -> usize {
    parameters.map_or(usize::from(byte), |actual| actual.get(usize::from(byte)).copied().unwrap_or(usize::MAX))
}
