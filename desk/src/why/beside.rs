//! A run that does not halt, beside one that does: both begin alike for as long as they can.
//!
//! If some run that begins with the first k steps ends well, then so does one that begins with fewer. So the longest beginning is found by halving.

use super::search::{Run, Search, Start, Where};
use super::steps::{all_moved_until, records, schedule, write, Step};
use super::visits::Visit;
use crate::machine::{Effect, Machine, Next, Slot};
use crate::program::{Body, Kind, Statement};
use crate::region::Locations;
use abwakiris::{Told, MOST_STEPS};

/// What the search for a run that does not halt came to.
#[derive(Clone, Debug)]
pub enum Beside {
    /// A run of all these steps, after which the job is finished, as the library told. The step of this number, from 0, is the first that is not as in the
    /// run that halts.
    Found { steps: Vec<Step>, parts_at: usize },
    /// No run of the job ends within the steps of a schedule.
    Never,
    /// A limit was met.
    GivenUp,
}

/// How a beginning can be ended.
enum Ending {
    Steps(Vec<Step>),
    Never,
    Unknown,
}

/// A run that does not halt, beside these steps, of which the last is stuck.
pub fn beside(search: &mut Search<'_>, stuck: &[Step]) -> Beside {
    let mut best = match ending(search, &[]) {
        Ending::Steps(steps) => steps,
        Ending::Never => return Beside::Never,
        Ending::Unknown => return Beside::GivenUp,
    };
    let (mut good, mut bad) = (0, stuck.len().saturating_sub(1));
    while good + 1 < bad {
        let middle = (good + bad) / 2;
        match ending(search, &stuck[..middle]) {
            Ending::Steps(steps) => {
                best = [&stuck[..middle], &steps].concat();
                good = middle;
            }
            _ => bad = middle,
        }
    }
    let parts_at = best.iter().zip(stuck).take_while(|(one, other)| one.at == other.at && one.outcome == other.outcome).count();
    if is_finished(search, &best) {
        Beside::Found { steps: best, parts_at }
    } else {
        Beside::GivenUp
    }
}

/// Steps after these that end the job.
fn ending(search: &mut Search<'_>, begun: &[Step]) -> Ending {
    let mut steps = vec![];
    let mut shortest = true;
    for Open { place, start, call } in opened(search, begun) {
        let end = search.flow.graph(search.body(place)).end();
        match search.run(place, start, end) {
            Run::Found(found) => {
                shortest &= found.shortest;
                if write(search, place, start.values, &found.hops, &mut steps).is_none() {
                    break;
                }
            }
            Run::Never(_) => return Ending::Never,
            Run::Unknown => return Ending::Unknown,
        }
        steps.extend(call.map(|call| Step::plain(call.at))); // the return
    }
    // one step more must fit, in which the library says that the job is finished
    match begun.len() + steps.len() < MOST_STEPS {
        true => Ending::Steps(steps),
        false if shortest => Ending::Never,
        false => Ending::Unknown,
    }
}

/// A body that is open after some steps.
struct Open<'a> {
    place: Where,
    start: Start,
    /// The call that it was entered by.
    call: Option<&'a Statement>,
}

/// The bodies that are open after these steps, the innermost first.
fn opened<'a>(search: &mut Search<'a>, begun: &[Step]) -> Vec<Open<'a>> {
    let program = search.visits.program;
    let mut machine = Machine::new(program);
    let mut visits = vec![Visit { body: Body::Main, locations: vec![], occupied: Locations::default() }];
    let mut occupied = Locations::default();
    for step in begun {
        match machine.next() {
            Next::Statement(Statement { kind: Kind::Call { function, locations, .. }, .. }) => {
                let locations = locations.iter().map(|&byte| machine.frame().location(byte)).collect();
                visits.push(Visit { body: Body::Function(*function), locations, occupied });
            }
            Next::Return(_) => {
                visits.pop();
            }
            _ => {}
        }
        match machine.moves(step.outcome) {
            Effect::Takes(location) => occupied.put(location),
            Effect::Gives(location) => occupied.take(location),
            _ => {}
        }
    }
    let mut next = machine.next().offset().filter(|_| matches!(machine.next(), Next::Statement(_)));
    let mut open = vec![];
    for (frame, visit) in machine.frames.iter().zip(visits).rev() {
        let graph = search.flow.graph(frame.body);
        // the innermost body is at its next statement, the others are past their call
        let past = !open.is_empty();
        let step = next.and_then(|at| graph.at(at)).map_or(graph.end(), |step| if past { graph.steps[step].next } else { step });
        let values = frame.slots.iter().enumerate().filter(|(_, held)| matches!(held, Slot::Bool(true) | Slot::Reference(true)));
        let values = values.fold(0, |values, (slot, _)| values | 1 << slot);
        open.push(Open { place: search.place(visit), start: Start { step, values }, call: frame.call });
        next = frame.call.map(|call| call.at);
    }
    open
}

/// Whether the library's run of these steps moves all the time, and then says that the job is finished.
fn is_finished(search: &Search<'_>, steps: &[Step]) -> bool {
    let region = &search.visits.region;
    let mut whole = schedule(region.job, steps);
    whole.push(region.job, false);
    let records = records(region.device, search.visits.program, region.job, &whole);
    records.map_or(false, |records| all_moved_until(&records, Told::Finished, None))
}
