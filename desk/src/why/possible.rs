//! What a slot may hold before each step of a body, each slot for itself: false, true, or either.
//!
//! This goes forward from the start of a run. A guard that can have one value only is gone through one way only, so many places are seen to be out of reach
//! before anything is searched for.

use super::flow::{Does, Graph, Number};
use super::search::Start;
use super::wishes::Wishes;
use std::collections::BTreeSet;

/// The values that slots may hold, a bit for each slot.
#[derive(Clone, Copy, Debug, PartialEq, Eq)]
pub struct Values {
    pub zero: u32,
    pub one: u32,
}

impl Values {
    /// Whether a slot may hold this value.
    pub fn may_be(&self, slot: u8, value: bool) -> bool {
        (if value { self.one } else { self.zero }) >> slot & 1 == 1
    }

    /// Whether all wishes may be granted.
    pub fn may_grant(&self, wishes: &Wishes) -> bool {
        wishes.are_within(self.zero, self.one)
    }

    fn or(&self, other: &Values) -> Values {
        Values { zero: self.zero | other.zero, one: self.one | other.one }
    }

    fn with(&self, slot: u8, zero: bool, one: bool) -> Values {
        let put = |bits: u32, bit: bool| bits & !(1 << slot) | u32::from(bit) << slot;
        Values { zero: put(self.zero, zero), one: put(self.one, one) }
    }
}

/// The values before each step; none where the job never comes. The merges at these offsets do not move. And how many steps were looked at, a step again
/// each time.
pub fn possible(graph: &Graph, start: Start, blocked: &BTreeSet<usize>) -> (Vec<Option<Values>>, usize) {
    let mut looked = 0;
    let mut before: Vec<Option<Values>> = vec![None; graph.steps.len()];
    before[start.step] = Some(Values { zero: !start.values, one: start.values });
    let mut waiting = BTreeSet::from([start.step]);
    while let Some(&here) = waiting.iter().next() {
        waiting.remove(&here);
        looked += 1;
        if let Some(values) = before[here] {
            for (next, values) in after(graph, here, &values, blocked) {
                let more = before[next].map_or(values, |known| known.or(&values));
                if before[next] != Some(more) {
                    before[next] = Some(more);
                    waiting.insert(next);
                }
            }
        }
    }
    (before, looked)
}

/// The steps that may come after a step, each with the values then.
pub fn after(graph: &Graph, here: Number, values: &Values, blocked: &BTreeSet<usize>) -> Vec<(Number, Values)> {
    let step = &graph.steps[here];
    let next = step.next;
    match step.does {
        Does::Measures { .. } if step.at.map_or(false, |at| blocked.contains(&at)) => vec![],
        Does::Measures { into } => vec![(next, values.with(into, true, true))],
        Does::Copies { into, from } => vec![(next, values.with(into, values.may_be(from, false), values.may_be(from, true)))],
        Does::Makes { into, value } => vec![(next, values.with(into, !value, value))],
        Does::Guards { guard, taken } => {
            let ways = [(taken, true), (next, false)].into_iter().filter(|&(_, value)| values.may_be(guard, value));
            ways.map(|(to, value)| (to, values.with(guard, !value, value))).collect()
        }
        Does::Nothing | Does::Calls { .. } => vec![(next, *values)],
        Does::Ends => vec![],
    }
}
