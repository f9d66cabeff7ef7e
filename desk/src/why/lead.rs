//! The outcomes that lead to a merge without a path: a run of the job alone that is stuck there.
//!
//! What a body does depends on no bool of another. So the shortest run along a trail is the shortest run to the site in each of its bodies, one after the
//! other.

use super::search::{Against, Found, Run, Search, Start, Where};
use super::steps::{all_moved_until, records, schedule, write, Step};
use super::trail::Trail;
use crate::program::Body;
use abwakiris::{Number, Told, MOST_STEPS};

/// What the search for outcomes came to.
#[derive(Clone, Debug)]
pub enum Lead {
    /// These steps; the library ran them, and the last is stuck at the merge.
    Found {
        steps: Vec<Step>,
        /// Whether there is no shorter run.
        shortest: bool,
    },
    /// No outcomes lead there: in this body the job never comes to the site, an offset, for these reasons.
    Never { body: Body, site: usize, against: Vec<Against> },
    /// A run that comes there has this many steps at least, more than a schedule can have; `u64::MAX` where they are beyond all numbers.
    TooLong { fewest: u64 },
    /// A limit was met.
    GivenUp,
}

/// The outcomes that lead to the merge at the end of a trail.
pub fn lead(search: &mut Search<'_>, trail: &Trail<'_>) -> Lead {
    let runs: Vec<Run> = trail.legs.iter().map(|leg| to_site(search, Where::Visit(leg.id), leg.site.at)).collect();
    for (leg, run) in trail.legs.iter().zip(&runs) {
        if let Run::Never(against) = run {
            return Lead::Never { body: leg.visit.body, site: leg.site.at, against: against.clone() };
        }
    }
    let found: Vec<Found> = runs.into_iter().filter_map(|run| if let Run::Found(found) = run { Some(found) } else { None }).collect();
    if found.len() < trail.legs.len() {
        return Lead::GivenUp;
    }
    let shortest = found.iter().all(|found| found.shortest);
    match written(search, trail, &found) {
        Some(steps) if is_stuck_there(search, trail, &steps) => Lead::Found { steps, shortest },
        // the calls, and the merge itself, are steps too
        None if shortest => Lead::TooLong { fewest: found.iter().fold(found.len() as u64, |sum, found| sum.saturating_add(found.steps)) },
        _ => Lead::GivenUp,
    }
}

/// The steps through all bodies of a trail. None where a schedule cannot have so many.
fn written(search: &mut Search<'_>, trail: &Trail<'_>, found: &[Found]) -> Option<Vec<Step>> {
    let mut steps = vec![];
    for (leg, found) in trail.legs.iter().zip(found) {
        write(search, Where::Visit(leg.id), 0, &found.hops, &mut steps)?;
        steps.push(Step::plain(leg.site.at));
    }
    (steps.len() <= MOST_STEPS).then_some(steps)
}

/// A run through a body to a statement.
pub fn to_site(search: &mut Search<'_>, place: Where, at: usize) -> Run {
    match search.flow.graph(search.body(place)).at(at) {
        Some(site) => search.run(place, Start::ENTRY, site),
        None => Run::Unknown,
    }
}

/// Whether the library's run of these steps is stuck at the merge, with 21 and at the last step only.
fn is_stuck_there(search: &Search<'_>, trail: &Trail<'_>, steps: &[Step]) -> bool {
    let region = &search.visits.region;
    let records = records(region.device, search.visits.program, region.job, &schedule(region.job, steps));
    records.map_or(false, |records| all_moved_until(&records, Told::Stuck(Number::NoPath), Some(trail.merge().at)))
}
