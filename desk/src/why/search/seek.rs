//! One search for a run through a body, with the fewest steps from a start to a goal.
//!
//! **State.** The search goes backward from the goal. A state is a step and the wishes that must hold before it. A wish is a value for a slot
//! (`wishes.rs`): a guard on the way to the goal wishes for its slot to be true or false, as the way goes on; one step earlier a copy passes the wish on to
//! the slot that is copied, a `bool` grants it or ends this way, and a measurement grants it by its outcome. So a state stands for all contents of the slots
//! from which the same steps lead to the goal, and slots that no guard asks for are in no state. Its cost is the number of these steps.
//!
//! **Why it is exact.** The wishes before a step are those, and no more, that make the wishes after it hold. So every run to the goal goes over states of
//! the search, and a state at the start whose wishes the slots grant there is a run to the goal. The next state is always the one with the least sum of its
//! cost and of the fewest steps from the start to it, guards left out, which are never more than it takes (A*). So the first such state is a run with the
//! fewest steps. There are finitely many states, so where they run out there is no run: the guards keep the job from the goal. A state is left out only
//! where its wishes cannot be granted at its step (`possible.rs`), where it was found before at no more cost, or where one that was looked at earlier at the
//! same step, and so costs no more, has no wish that this one has not.
//!
//! **Limits.** One search looks at `MOST_STATES` states at most, and all searches together at as many as they are allowed. Where a limit is met nothing is
//! said of what was not looked at: neither that there is no run, nor that one is the shortest. Then a second, looser search makes straight for the start,
//! and goes over an if as a whole where its blocks write no slot that is wished for: then its guard does not matter. It is as sure of what it finds and of
//! what there is not, but what it finds may not be the shortest.

use super::{Against, Found, Ground, Hop, Run, Search, Start, Where};
use crate::why::flow::{Before, Does, Fork, Graph, Number};
use crate::why::wishes::Wishes;
use std::cmp::Reverse;
use std::collections::{BTreeSet, BinaryHeap, HashMap};
use std::rc::Rc;

/// The most states of one search.
const MOST_STATES: usize = 120_000;

/// How much more than a step behind it the looser search minds a step that is still before it.
const STRAIGHT: u64 = 16;

/// How many of the first states at a step a new one is held against.
const MOST_COMPARED: usize = 64;

/// The steps from a state to the goal, and how many outcomes of 1 they need, so that of two short ways the plainer is taken.
#[derive(Clone, Copy, Debug, PartialEq, Eq, PartialOrd, Ord)]
struct Cost {
    steps: u64,
    ones: u32,
}

/// A state: before this step these wishes must hold.
#[derive(Clone, Copy)]
struct State {
    step: Number,
    wishes: Wishes,
    cost: Cost,
    /// What leads on to the state of the number `then`.
    hop: Hop,
    then: usize,
}

/// The number of a state to look at, the best first: the least cost from start to goal, and of those the nearest to the start.
type Waiting = Reverse<(Cost, Reverse<u64>, usize)>;

/// In how many steps a statement moves.
#[derive(Clone, Copy, Debug)]
enum Moves {
    In(u64),
    Never,
    Unknown,
}

/// One search.
pub struct Seek<'s, 'a> {
    search: &'s mut Search<'a>,
    graph: &'a Graph,
    place: Where,
    start: Start,
    goal: Number,
    loose: bool,
    /// The merges without a path.
    blocked: BTreeSet<usize>,
    ground: Rc<Ground>,
    /// In how many steps each statement moves, as far as that is known.
    moves: Vec<Option<Moves>>,
    /// All states that were found.
    states: Vec<State>,
    waiting: BinaryHeap<Waiting>,
    /// The least cost of each state.
    best: HashMap<(Number, Wishes), Cost>,
    /// The wishes of the states that were looked at, for each step.
    looked_at: Vec<Vec<Wishes>>,
    /// What keeps the job from going on, as far as it was seen.
    against: BTreeSet<Against>,
    /// Whether what is found is the shortest, if nothing was left out.
    shortest: bool,
    /// Whether something was left out since the limit of a callee was met.
    unknown: bool,
}

impl<'s, 'a> Seek<'s, 'a> {
    /// The search for a run through a body from a start to a goal, the looser one where that is asked for.
    pub fn of(search: &'s mut Search<'a>, place: Where, start: Start, goal: Number, loose: bool) -> Seek<'s, 'a> {
        let graph = search.flow.graph(search.body(place));
        let blocked = search.blocked(place);
        Seek {
            ground: search.ground(search.body(place), start, &blocked),
            moves: vec![None; graph.steps.len()],
            states: vec![],
            waiting: BinaryHeap::new(),
            best: HashMap::new(),
            looked_at: vec![vec![]; graph.steps.len()],
            against: BTreeSet::new(),
            shortest: !loose,
            unknown: false,
            search,
            graph,
            place,
            start,
            goal,
            loose,
            blocked,
        }
    }

    /// Looks at states until one is a run, there are no more, or a limit is met.
    pub fn run(mut self) -> Run {
        if self.ground.possible[self.goal].is_none() {
            self.search.states += 1;
            self.stand_before_goal();
        }
        let none = Cost { steps: 0, ones: 0 };
        self.found(State { step: self.goal, wishes: Wishes::default(), cost: none, hop: Hop::Step(self.goal, None), then: usize::MAX });
        let mut looked = 0;
        while let Some(number) = self.next() {
            let State { step, wishes, cost, .. } = self.states[number];
            if step == self.start.step && wishes.granted_by(self.start.values) {
                return Run::Found(Found { steps: cost.steps, shortest: self.shortest && !self.unknown, hops: self.hops(number) });
            }
            if looked == MOST_STATES || self.search.left == 0 {
                return Run::Unknown;
            }
            looked += 1;
            self.search.left -= 1;
            self.search.states += 1;
            self.looked_at[step].push(wishes);
            self.look_before(number);
        }
        if self.unknown {
            return Run::Unknown;
        }
        Run::Never(self.against.into_iter().collect())
    }

    /// The next state to look at.
    fn next(&mut self) -> Option<usize> {
        while let Some(Reverse((_, _, number))) = self.waiting.pop() {
            if !self.is_needless(&self.states[number]) {
                return Some(number);
            }
        }
        None
    }

    /// Whether a state was found at less cost, or wishes for all that one wishes for that was looked at.
    fn is_needless(&self, state: &State) -> bool {
        let cheaper = self.best.get(&(state.step, state.wishes)).map_or(false, |&best| best < state.cost);
        cheaper || self.looked_at[state.step].iter().take(MOST_COMPARED).any(|fewer| fewer.are_among(&state.wishes))
    }

    /// Takes a state up to be looked at, unless it cannot be or was found before at no more cost.
    fn found(&mut self, state: State) {
        let State { step, wishes, cost, .. } = state;
        let is_possible = self.ground.possible[step].map_or(false, |values| values.may_grant(&wishes));
        if !is_possible || self.best.get(&(step, wishes)).map_or(false, |&best| best <= cost) {
            return;
        }
        self.best.insert((step, wishes), cost);
        let ahead = if self.loose { self.ground.ahead[step].saturating_mul(STRAIGHT) } else { self.ground.ahead[step] };
        let whole = Cost { steps: cost.steps.saturating_add(ahead), ..cost };
        self.waiting.push(Reverse((whole, Reverse(cost.steps), self.states.len())));
        self.states.push(state);
    }

    /// Finds the states from which one step, or one if as a whole, leads to the state of this number.
    fn look_before(&mut self, number: usize) {
        let graph = self.graph;
        let state = self.states[number];
        let forks = if self.loose { self.forks(state.step, &state.wishes) } else { vec![] };
        for fork in &forks {
            let steps = self.ground.ahead[state.step].saturating_sub(self.ground.ahead[fork.step]).max(1);
            let cost = Cost { steps: state.cost.steps.saturating_add(steps), ..state.cost };
            self.found(State { step: fork.step, cost, hop: Hop::Fork(fork.step, state.step), then: number, ..state });
        }
        for before in graph.before[state.step].iter().filter(|before| !forks.iter().any(|fork| fork.has(before.step))) {
            match self.moves(before.step) {
                Moves::In(steps) if !self.never_goes(before) => self.step_back(number, before, steps),
                Moves::Unknown => self.unknown = true,
                _ => self.stands_against(before),
            }
        }
    }

    /// Finds the state from which a step that moves in so many steps leads to the state of this number, if its wishes can hold then.
    fn step_back(&mut self, number: usize, before: &Before, steps: u64) {
        let state = self.states[number];
        if let Some(earlier) = state.wishes.before(&self.graph.steps[before.step], before.taken) {
            let ones = state.cost.ones + u32::from(earlier.outcome == Some(true));
            let cost = Cost { steps: state.cost.steps.saturating_add(steps), ones };
            self.found(State { step: before.step, wishes: earlier.wishes, cost, hop: Hop::Step(before.step, earlier.outcome), then: number });
        }
    }

    /// In how many steps a statement moves here.
    fn moves(&mut self, step: Number) -> Moves {
        if let Some(moves) = self.moves[step] {
            return moves;
        }
        let moves = match (self.graph.steps[step].does, self.graph.steps[step].at) {
            (Does::Calls { function }, Some(at)) => {
                let callee = self.search.callee(self.place, at, function);
                match &*self.search.through(callee) {
                    Run::Found(found) => {
                        self.shortest &= found.shortest;
                        Moves::In(found.steps.saturating_add(2))
                    }
                    Run::Never(_) => Moves::Never,
                    Run::Unknown => Moves::Unknown,
                }
            }
            (_, Some(at)) if self.blocked.contains(&at) => Moves::Never,
            _ => Moves::In(1),
        };
        self.moves[step] = Some(moves);
        moves
    }

    /// The ifs before a step that can be gone over as a whole with these wishes. Of two that stand in each other the outer one is taken.
    fn forks(&mut self, step: Number, wishes: &Wishes) -> Vec<&'a Fork> {
        let graph = self.graph;
        let mut whole: Vec<&'a Fork> = vec![];
        for fork in graph.forks.iter().filter(|fork| fork.join == step && !fork.loops && !wishes.touch(fork.writes)) {
            let has_start = fork.step != self.start.step && fork.has(self.start.step);
            if !has_start && !whole.iter().any(|outer| outer.has(fork.step)) && (fork.step..fork.end).all(|step| matches!(self.moves(step), Moves::In(_))) {
                whole.push(fork);
            }
        }
        whole
    }

    /// Whether the job comes to a guard, but never with the value that leads on.
    fn never_goes(&self, before: &Before) -> bool {
        match (self.ground.possible[before.step], self.graph.steps[before.step].does) {
            (Some(values), Does::Guards { guard, .. }) => !values.may_be(guard, before.taken),
            _ => false,
        }
    }

    /// Remembers what keeps the job from going on at a step that it comes to.
    fn stands_against(&mut self, before: &Before) {
        let step = &self.graph.steps[before.step];
        // in a loop the goal comes before itself, and says nothing of why it is not come to
        if let (Some(_), Some(at), true) = (self.ground.possible[before.step], step.at, before.step != self.goal) {
            self.against.extend(match step.does {
                Does::Guards { .. } => Some(Against::Guard { at, needed: before.taken }),
                Does::Measures { .. } => Some(Against::NoPath { at }),
                Does::Calls { .. } => Some(Against::NoReturn { at }),
                _ => None,
            });
        }
    }

    /// The same for a goal that the job never comes to: goes back from it to the steps that it does come to.
    fn stand_before_goal(&mut self) {
        let graph = self.graph;
        let mut waiting = vec![self.goal];
        let mut seen = BTreeSet::from([self.goal]);
        while let Some(step) = waiting.pop() {
            for before in &graph.before[step] {
                if self.ground.possible[before.step].is_some() {
                    self.stands_against(before);
                } else if seen.insert(before.step) {
                    waiting.push(before.step);
                }
            }
        }
    }

    /// The hops from a state to the goal.
    fn hops(&self, from: usize) -> Vec<Hop> {
        let mut hops = vec![];
        let mut here = &self.states[from];
        while let Some(then) = self.states.get(here.then) {
            hops.push(here.hop);
            here = then;
        }
        hops
    }
}
