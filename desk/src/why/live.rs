//! The qubits that an accepted program leaves live: main's slots at its end, where each qubit is, and the lines that may have made it.
//!
//! How many there are the library says. What is typed settles where they are, whatever the outcomes; where the walk comes to another number, nothing is said.

use super::held::made_at_end;
use super::visits::Visits;
use crate::device::Device;
use crate::json::Json;
use crate::numbers::listed;
use crate::program::Program;
use crate::region::Region;
use abwakiris::{Counted, Job};

/// A qubit that is left live.
#[derive(Clone, Debug, PartialEq, Eq)]
pub struct Live {
    /// The slot of main that holds it.
    pub slot: usize,
    pub location: usize,
    /// The lines of the listing that may have made it, rising.
    pub lines: Vec<usize>,
}

/// The qubits that a program leaves live, of which the library answered this, by slot.
pub fn live(device: &[u8], program: &[u8], job: Job, counted: Counted) -> Vec<Live> {
    let live = match (Device::read(device), Program::read(program)) {
        (Ok(device), Ok(program)) if counted.live > 0 => at_end(&device, &program, job),
        _ => vec![],
    };
    if live.len() == usize::from(counted.live) {
        live
    } else {
        vec![]
    }
}

/// The qubits in main's slots at its end.
fn at_end(device: &Device, program: &Program, job: Job) -> Vec<Live> {
    let visits = Visits::of(program, Region::of(device, job));
    let slots = visits.at_end().slots;
    let made = made_at_end(&visits);
    let held = |(slot, (location, made)): (usize, (Option<usize>, _))| Some(Live { slot, location: location?, lines: lines(program, made) });
    slots.into_iter().zip(&made).enumerate().filter_map(held).collect()
}

/// The lines of these offsets.
fn lines<'a>(program: &Program, offsets: impl IntoIterator<Item = &'a usize>) -> Vec<usize> {
    offsets.into_iter().map(|&at| program.listing.number(at)).collect()
}

impl Live {
    /// A line for people.
    pub fn text(&self) -> String {
        format!("  slot {} at location {}, made at line {}\n", self.slot, self.location, listed(&self.lines, "or"))
    }

    /// For machines.
    pub fn json(&self) -> Json {
        Json::object([("slot", self.slot.into()), ("location", self.location.into()), ("made_at_lines", self.lines.clone().into())])
    }
}
