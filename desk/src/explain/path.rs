//! A merge or a route without a path: where its ends are, by which calls the check comes there, and what is reached from the first end.

use super::found::Words;
use super::part::Values;
use super::words::Of;
use crate::numbers::first_of;
use crate::program::{Body, Kind};
use crate::region::Region;
use crate::why::trail::Trail;
use crate::why::visits::Visits;

/// What is found at a merge: where its qubits are, of one in a function also by which calls, and which free locations are reached from the first.
pub(super) fn at_merge(words: &Words, place: usize) -> Option<(Of, Values, Vec<String>)> {
    let mut visits = Visits::of(words.program, Region::of(words.device, words.job));
    let trail = Trail::find(&mut visits).filter(|trail| trail.merge().at == place)?;
    let (slots, [first, second]) = (merged(&trail)?, trail.ends);
    let occupied = trail.last().standing.occupied;
    let has_route = |occupancy: &[u8]| words.device.route(words.job, occupancy, first, second).is_some();
    if has_route(&occupied.occupancy(words.device.locations())) {
        return None; // the library knows a path where the walk does not
    }
    let mut lines = vec![format!("slot {} is at location {first}, slot {} at location {second}", slots[0], slots[1])];
    if words.body != Body::Main {
        lines.insert(0, by_calls(words, &trail));
    }
    lines.push(reach(first, &visits.region.reached(&occupied, first).list()));
    let is_joined = has_route(&vec![0; words.device.locations()]);
    if !is_joined {
        lines.push(format!("even with every location of {} free no corridor joins {first} and {second}", words.job));
    }
    let values = vec![("{slots}", format!("slots {} and {}", slots[0], slots[1]))];
    Some((if is_joined { Of::Merge } else { Of::Apart }, values, lines))
}

/// The slots of the merge.
fn merged(trail: &Trail) -> Option<[u8; 2]> {
    match trail.merge().kind {
        Kind::Merge { first, second, .. } => Some([first, second]),
        _ => None,
    }
}

/// The calls that the check comes by, main's first. The lines of the outermost and of the innermost are shown too.
fn by_calls(words: &Words, trail: &Trail) -> String {
    let calls: Vec<usize> = trail.legs.iter().map(|leg| leg.site.at).filter(|&at| at != trail.merge().at).collect();
    match calls[..] {
        [outermost, .., innermost] => {
            let lines: Vec<usize> = calls.iter().map(|&call| words.program.listing.number(call)).collect();
            words.named.borrow_mut().extend([outermost, innermost].map(|call| words.program.listing.number(call)));
            format!("the check comes there by the calls of lines {}", first_of(&lines))
        }
        _ => calls.first().map_or(String::new(), |&call| {
            let text = words.program.listing.text(words.program.listing.number(call));
            format!("the check comes there by the call of {}, {text}", words.line(call))
        }),
    }
}

/// Which free locations are reached from an end, in words.
pub fn reach(end: usize, reached: &[usize]) -> String {
    match reached {
        [] => format!("no free location is reached from {end}"),
        [one] => format!("of the free locations only {one} is reached from {end}"),
        many => format!("of the free locations {} are reached from {end}", first_of(many)),
    }
}
