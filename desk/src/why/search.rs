//! Searches for runs through the bodies of one program: from a start to a goal, both steps of a body's graph.
//!
//! A body can be searched alone. Bools and references never pass from one body to another (`flow.rs`), and where the qubits are follows from the visit
//! alone (`visits.rs`), so no outcome outside a body changes what a job can do in it. A call is one step of its body's search: two, the call and the return,
//! and the fewest through its callee, which is searched for once for each visit and remembered here.
//!
//! `search/seek.rs` has the search itself.

mod seek;

use super::flow::{Does, Flow, Graph, Number};
use super::possible::{after, possible, Values};
use super::visits::{Id, Met, Visit, Visits};
use crate::program::Body;
use seek::Seek;
use std::cmp::Reverse;
use std::collections::{BTreeSet, BinaryHeap, HashMap};
use std::rc::Rc;

/// The most grounds that are remembered.
const MOST_GROUNDS: usize = 1_000;

/// So many steps that a ground is laid over count as a state.
const STEPS_A_STATE: usize = 8;

/// A search counts as so many states, beside those that it looks at.
const STATES_A_SEARCH: usize = 4;

/// A body as a search finds it.
#[derive(Clone, Copy, Debug, PartialEq, Eq, Hash)]
pub enum Where {
    /// Every merge in it and below it has a path.
    Clear(Body),
    Visit(Id),
}

/// Where a run starts: a step, and what the slots hold.
#[derive(Clone, Copy, Debug, PartialEq, Eq, Hash)]
pub struct Start {
    pub step: Number,
    pub values: u32,
}

impl Start {
    /// The start of a body.
    pub const ENTRY: Start = Start { step: 0, values: 0 };
}

/// What a search comes to.
#[derive(Clone, Debug)]
pub enum Run {
    Found(Found),
    /// There is none, for these reasons.
    Never(Vec<Against>),
    /// A limit was met.
    Unknown,
}

/// A run that was found.
#[derive(Clone, Debug)]
pub struct Found {
    /// How many steps it has, where it is the shortest; else about so many.
    pub steps: u64,
    pub shortest: bool,
    pub hops: Vec<Hop>,
}

/// A part of a run through a body.
#[derive(Clone, Copy, Debug)]
pub enum Hop {
    /// This step, with the outcome where it matters.
    Step(Number, Option<bool>),
    /// All of an if, as its guard will have it: from its step to where its blocks meet.
    Fork(Number, Number),
}

/// What keeps a job from going on, at the statement of this offset.
#[derive(Clone, Copy, Debug, PartialEq, Eq, PartialOrd, Ord)]
pub enum Against {
    /// The guard is never of the value that is needed.
    Guard { at: usize, needed: bool },
    /// The merge has no path either.
    NoPath { at: usize },
    /// The callee never returns.
    NoReturn { at: usize },
}

/// Searches in one program, which share what they find of callees.
pub struct Search<'a> {
    pub flow: &'a Flow,
    pub visits: Visits<'a>,
    /// The states that were looked at.
    pub states: usize,
    /// How many more may be.
    left: usize,
    /// The runs through whole bodies.
    through: HashMap<Where, Rc<Run>>,
    grounds: HashMap<(Body, Start, BTreeSet<usize>), Rc<Ground>>,
    /// The fewest steps through each function, guards left out.
    least: Vec<u64>,
}

/// What is known of a body before anything is searched for. It is the same for all visits in which the same merges have no path.
struct Ground {
    /// What slots may hold before each step; none where the job never comes.
    possible: Vec<Option<Values>>,
    /// The fewest steps from the start to each step, guards left out.
    ahead: Vec<u64>,
}

impl<'a> Search<'a> {
    /// Searches that look at so many states at most.
    pub fn of(flow: &'a Flow, visits: Visits<'a>, most: usize) -> Search<'a> {
        let mut search = Search { flow, visits, states: 0, left: most, through: HashMap::new(), grounds: HashMap::new(), least: vec![] };
        for function in 0..search.visits.program.functions.len() {
            let body = Body::Function(function);
            let least = search.ground(body, Start::ENTRY, &BTreeSet::new()).ahead[flow.graph(body).end()];
            search.least.push(least);
        }
        search
    }

    /// Lets them look at so many states more.
    pub fn allow(&mut self, most: usize) {
        self.left = most;
    }

    /// A run through a body from a start to a goal; the shortest, where the limits allow to know it.
    pub fn run(&mut self, place: Where, start: Start, goal: Number) -> Run {
        if self.left == 0 {
            return Run::Unknown;
        }
        self.left = self.left.saturating_sub(STATES_A_SEARCH);
        match Seek::of(self, place, start, goal, false).run() {
            Run::Unknown => Seek::of(self, place, start, goal, true).run(),
            run => run,
        }
    }

    /// A run through a whole body.
    pub fn through(&mut self, place: Where) -> Rc<Run> {
        if let Some(run) = self.through.get(&place) {
            return Rc::clone(run);
        }
        let end = self.flow.graph(self.body(place)).end();
        let run = Rc::new(self.run(place, Start::ENTRY, end));
        self.through.insert(place, Rc::clone(&run));
        run
    }

    /// Which body it is.
    pub fn body(&self, place: Where) -> Body {
        match place {
            Where::Clear(body) => body,
            Where::Visit(id) => self.visits.visit(id).body,
        }
    }

    /// The body of a visit.
    pub fn place(&mut self, visit: Visit) -> Where {
        let body = visit.body;
        self.visits.id(visit).map_or(Where::Clear(body), Where::Visit)
    }

    /// The callee of the call at an offset.
    pub fn callee(&mut self, place: Where, at: usize, function: usize) -> Where {
        let mut callee = Where::Clear(Body::Function(function));
        if let Where::Visit(id) = place {
            for met in self.visits.met(id).iter() {
                match *met {
                    Met::Call(call, below) if call == at => callee = Where::Visit(below),
                    _ => {}
                }
            }
        }
        callee
    }

    /// The merges of a body that have no path, by offset.
    fn blocked(&mut self, place: Where) -> BTreeSet<usize> {
        match place {
            Where::Clear(_) => BTreeSet::new(),
            Where::Visit(id) => self.visits.met(id).iter().filter_map(|met| if let Met::Blocked(at) = met { Some(*at) } else { None }).collect(),
        }
    }

    /// The ground of a body in which these merges have no path.
    fn ground(&mut self, body: Body, start: Start, blocked: &BTreeSet<usize>) -> Rc<Ground> {
        let key = (body, start, blocked.clone());
        if let Some(ground) = self.grounds.get(&key) {
            return Rc::clone(ground);
        }
        let graph = self.flow.graph(body);
        let (possible, looked) = possible(graph, start, blocked);
        self.left = self.left.saturating_sub(looked / STEPS_A_STATE);
        let ahead = self.ahead(graph, start.step, &possible, blocked);
        let ground = Rc::new(Ground { possible, ahead });
        if self.grounds.len() < MOST_GROUNDS {
            self.grounds.insert(key, Rc::clone(&ground));
        }
        ground
    }

    /// The fewest steps from one step to each other, guards heeded only as far as they have one value.
    fn ahead(&self, graph: &Graph, from: Number, possible: &[Option<Values>], blocked: &BTreeSet<usize>) -> Vec<u64> {
        let mut fewest = vec![u64::MAX; graph.steps.len()];
        let mut waiting = BinaryHeap::from([Reverse((0, from))]);
        while let Some(Reverse((steps, here))) = waiting.pop() {
            if steps >= fewest[here] {
                continue;
            }
            fewest[here] = steps;
            let moves = match graph.steps[here].does {
                Does::Calls { function } => self.least[function].saturating_add(2),
                _ => 1,
            };
            // a sum beyond all numbers is still a way
            let there = steps.saturating_add(moves).min(u64::MAX - 1);
            if let Some(values) = &possible[here] {
                waiting.extend(after(graph, here, values, blocked).into_iter().map(|(next, _)| Reverse((there, next))));
            }
        }
        fewest
    }
}
