//! Why a program is refused with 21: the trail to the merge, the device there, what is in the way, and the outcomes that lead there.
//!
//! The check refuses with 21 only what is typed. So at each statement the kinds of the slots, the places of the qubits and the occupied locations follow from
//! the calls that are open; only bools and references differ from run to run, and they stay in the body that has them. The walks here rest on that. They
//! decide nothing: the merge that they name is the one of the library's refusal, each corridor is the library's route, and each schedule was run by it.

pub mod beside;
pub mod elsewhere;
mod flow;
mod held;
mod json;
pub mod lead;
pub mod live;
mod outcomes;
mod possible;
pub mod search;
pub mod steps;
pub(crate) mod trail;
pub(crate) mod visits;
pub mod way;
mod wishes;
pub mod words;

use crate::device::Device;
use crate::program::Program;
use crate::region::Region;
use abwakiris::Job;
use beside::{beside, Beside};
use elsewhere::{elsewhere, Elsewhere};
use flow::Flow;
use held::{held, Held};
use lead::{lead, Lead};
use search::Search;
use trail::Trail;
use visits::Visits;
use way::Way;

/// The most states that are looked at for the outcomes, and as many again for a run beside them.
const MOST_STATES: usize = 400_000;

/// All that there is to say.
#[derive(Clone, Debug)]
pub struct Why<'a> {
    pub trail: Trail<'a>,
    pub held: Vec<Held>,
    pub way: Way,
    pub lead: Lead,
    /// The states that were looked at for it.
    pub states: usize,
    /// A run that does not halt, where outcomes were found that halt the job.
    pub beside: Option<Beside>,
    /// Another merge that halts the job, where no outcomes lead to this one.
    pub elsewhere: Option<Elsewhere>,
}

impl<'a> Why<'a> {
    /// Why the library refused with 21 at this place; none where the walk comes to another merge, to none, or to one that the library has a path for.
    pub fn of(device: &'a Device, program: &'a Program, job: Job, place: usize) -> Option<Why<'a>> {
        let mut visits = Visits::of(program, Region::of(device, job));
        let trail = Trail::find(&mut visits).filter(|trail| trail.merge().at == place)?;
        let held = held(&visits, &trail);
        let way = Way::of(&visits.region, &trail);
        let occupancy = way.occupied.occupancy(device.locations());
        if device.route(job, &occupancy, way.ends[0], way.ends[1]).is_some() {
            return None; // the library knows a path where the walk does not
        }
        let flow = Flow::of(program);
        let mut search = Search::of(&flow, visits, MOST_STATES);
        let lead = lead(&mut search, &trail);
        let states = search.states;
        search.allow(MOST_STATES);
        let beside = if let Lead::Found { steps, .. } = &lead { Some(beside(&mut search, steps)) } else { None };
        let elsewhere = if let Lead::Never { .. } = &lead { Some(elsewhere(&mut search)) } else { None };
        Some(Why { trail, held, way, lead, states, beside, elsewhere })
    }
}
