//! What is in the way of a merge: a qubit without which there is a corridor, several, or no qubit at all.
//!
//! Every corridor that is named here is the library's route.

use super::trail::Trail;
use crate::region::{Locations, Region};
use std::collections::VecDeque;

/// The device as the merge finds it.
#[derive(Clone, Debug)]
pub struct Way {
    pub ends: [usize; 2],
    pub occupied: Locations,
    /// The free locations of the region that are reached from each end.
    pub reached: [Vec<usize>; 2],
    /// All free locations of the region.
    pub free: Vec<usize>,
    pub blocked: Blocked,
}

/// What keeps two ends apart.
#[derive(Clone, Debug)]
pub enum Blocked {
    /// Each of these qubits alone: where it is, and the route without it.
    One(Vec<(usize, Vec<usize>)>),
    /// All of these together, no fewer, and the route without them.
    Several(Vec<usize>, Vec<usize>),
    /// No corridor joins the ends even on an empty region.
    Region,
}

impl Way {
    /// The way between the ends of the merge that the trail leads to.
    pub fn of(region: &Region<'_>, trail: &Trail<'_>) -> Way {
        let [first, second] = trail.ends;
        let occupied = trail.last().standing.occupied;
        let reached = trail.ends.map(|end| region.reached(&occupied, end).list());
        Way { ends: trail.ends, occupied, reached, free: region.all.without(&occupied).list(), blocked: blocked(region, &occupied, first, second) }
    }
}

fn blocked(region: &Region<'_>, occupied: &Locations, first: usize, second: usize) -> Blocked {
    let others: Vec<usize> = occupied.list().into_iter().filter(|&location| location != first && location != second).collect();
    let singles = others.iter().filter_map(|&location| route_without(region, occupied, &[location], first, second).map(|route| (location, route)));
    let singles: Vec<(usize, Vec<usize>)> = singles.collect();
    if !singles.is_empty() {
        return Blocked::One(singles);
    }
    let fewest = fewest(region, occupied, first, second).unwrap_or_default();
    match route_without(region, occupied, &fewest, first, second) {
        Some(route) => Blocked::Several(fewest, route),
        None => Blocked::Region,
    }
}

/// The library's route where the qubits at these locations are away.
fn route_without(region: &Region<'_>, occupied: &Locations, away: &[usize], first: usize, second: usize) -> Option<Vec<usize>> {
    let mut left = *occupied;
    away.iter().for_each(|&location| left.take(location));
    region.device.route(region.job, &left.occupancy(region.device.locations()), first, second)
}

/// The fewest occupied locations that a corridor between the ends goes over, rising. A location costs one where it is occupied, else nothing, and the
/// cheapest locations are gone over first.
fn fewest(region: &Region<'_>, occupied: &Locations, first: usize, second: usize) -> Option<Vec<usize>> {
    let n = region.device.locations();
    let mut before: Vec<Option<usize>> = vec![None; n];
    let mut done = Locations::default();
    let mut waiting = VecDeque::from([(first, first)]);
    while let Some((here, from)) = waiting.pop_front() {
        if done.has(here) {
            continue;
        }
        done.put(here);
        before[here] = Some(from);
        if here == second {
            break;
        }
        for next in region.near(here).without(&done).list() {
            if next == second || !occupied.has(next) {
                waiting.push_front((next, here));
            } else {
                waiting.push_back((next, here));
            }
        }
    }
    let mut over = Locations::default();
    let mut here = second;
    while here != first {
        if occupied.has(here) && here != second {
            over.put(here);
        }
        here = before[here]?;
    }
    Some(over.list())
}
