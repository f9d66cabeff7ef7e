//! Why a merge has no path, in sections for people. Those of runs are in `outcomes.rs`.

use super::held::Held;
use super::steps::{schedule, Step};
use super::trail::{Entered, Leg};
use super::way::Blocked;
use super::Why;
use crate::device::Device;
use crate::layout::Layout;
use crate::numbers::{joined, listed};
use crate::picture::{Mark, Picture};
use crate::program::{Body, Kind, Program};
use crate::terminal;
use abwakiris::Job;

/// What the words are about.
#[derive(Clone, Copy)]
pub struct Words<'a> {
    pub why: &'a Why<'a>,
    pub device: &'a Device,
    pub program: &'a Program,
    pub job: Job,
    /// The names of both files, as a shell takes them.
    pub names: [&'a str; 2],
}

impl Words<'_> {
    /// All sections.
    pub fn text(&self, layout: &Layout) -> String {
        let sections = [
            ("How the check comes there", self.trail()),
            ("The device there", self.there(layout)),
            ("In the way", self.in_the_way()),
            ("The outcomes that lead there", self.outcomes()),
            ("A run that does not halt", self.beside()),
        ];
        let shown = sections.iter().filter(|(_, text)| !text.is_empty());
        shown.map(|(title, text)| format!("\n{title}\n\n{text}")).collect()
    }

    /// The number of the line of an offset, and its text.
    pub fn line(&self, at: usize) -> (usize, &str) {
        let number = self.program.listing.number(at);
        (number, self.program.listing.text(number))
    }

    /// The schedule of these steps, in hex digits.
    pub fn digits(&self, steps: &[Step]) -> String {
        schedule(self.job, steps).iter().map(|byte| format!("{byte:02X}")).collect()
    }

    fn trail(&self) -> String {
        let mut rows = vec![];
        let mut depth = 0;
        for leg in &self.why.trail.legs {
            rows.push(Row { line: String::new(), depth, text: leg.visit.body.to_string(), note: parameters(&leg.visit.locations) });
            depth += 1;
            for entered in &leg.entered {
                rows.push(self.row(entered.statement.at, depth, self.guard(entered)));
                depth += 1;
            }
            rows.push(self.row(leg.site.at, depth, ends(leg)));
            depth += 1;
        }
        table(&rows)
    }

    fn row(&self, at: usize, depth: usize, note: String) -> Row {
        let (line, text) = self.line(at);
        Row { line: line.to_string(), depth, text: text.to_string(), note }
    }

    /// What the guard of a block is where the block is gone into.
    fn guard(&self, entered: &Entered<'_>) -> String {
        let guard = entered.guard;
        match (&entered.statement.kind, entered.value) {
            (Kind::While { .. }, _) => format!("slot {guard} holds 1: its block"),
            (_, true) => format!("slot {guard} is 1: its first block"),
            (_, false) => format!("slot {guard} is 0: its second block, after line {}", self.line(entered.at).0),
        }
    }

    /// The device when the merge comes.
    pub fn picture(&self) -> Picture {
        let (line, _) = self.line(self.why.trail.merge().at);
        let mut picture = Picture::of(self.device, Some(self.job), format!("the region of {} when line {line} comes", self.job));
        let mut put = |location: usize, mark: Mark| {
            if let Some(place) = picture.marks.get_mut(location) {
                *place = mark;
            }
        };
        let way = &self.why.way;
        way.reached[0].iter().for_each(|&location| put(location, Mark::Reached));
        self.why.held.iter().for_each(|held| put(held.location, Mark::Held(self.job, held.slot())));
        put(way.ends[0], Mark::First);
        put(way.ends[1], Mark::Second);
        picture
    }

    fn there(&self, layout: &Layout) -> String {
        let mut text = terminal::drawn(self.device, layout, &self.picture());
        text.push('\n');
        let width = self.why.held.iter().map(|held| held.location.to_string().len()).max().unwrap_or(0);
        for held in &self.why.held {
            text.push_str(&format!("  location {:width$}: {}\n", held.location, self.held(held)));
        }
        text
    }

    /// Who holds a location, and since when.
    fn held(&self, held: &Held) -> String {
        let mut words = vec![];
        let end = self.why.way.ends.iter().position(|&end| end == held.location);
        words.extend(end.map(|end| ["the first end", "the second end"][end].to_string()));
        words.push(holders(held));
        let lines: Vec<usize> = held.made.iter().map(|&at| self.line(at).0).collect();
        if !lines.is_empty() {
            words.push(format!("made at line {}", listed(&lines, "or")));
        }
        words.join(", ")
    }

    fn in_the_way(&self) -> String {
        let [first, second] = self.why.way.ends;
        match &self.why.way.blocked {
            Blocked::One(singles) if singles.len() == 1 => {
                let one = |(location, route): &(usize, Vec<usize>)| (self.qubit(*location), in_order(route));
                let words = |(qubit, route)| format!("  The qubit at {qubit} is in the way. Without it there is this corridor: {route}\n");
                singles.iter().map(one).map(words).collect()
            }
            Blocked::One(singles) => {
                let mut text = format!("  {} qubits are in the way, and it is enough that one of them is not there:\n", singles.len());
                for (location, route) in singles {
                    text.push_str(&format!("  - without the one at {} there is this corridor: {}\n", self.qubit(*location), in_order(route)));
                }
                text
            }
            Blocked::Several(locations, route) => {
                let corridor = in_order(route);
                let mut text = format!("  More than one qubit is in the way. Without these {} there is this corridor: {corridor}\n", locations.len());
                locations.iter().for_each(|&location| text.push_str(&format!("  - {}\n", self.qubit(location))));
                text
            }
            Blocked::Region => {
                let none = format!("No qubit: even on an empty region of {} no corridor joins locations {first} and {second}.", self.job);
                format!("  {none}\n  A corridor goes along edges between two locations of {} only.\n", self.job)
            }
        }
    }

    /// A location that is in the way, and what is there.
    fn qubit(&self, location: usize) -> String {
        let held = self.why.held.iter().find(|held| held.location == location);
        format!("location {location}{}", held.map_or(String::new(), |held| format!(" ({})", self.held(held))))
    }
}

/// A line of the trail.
struct Row {
    line: String,
    depth: usize,
    text: String,
    note: String,
}

/// The rows with their notes below each other, as far as the texts are not too long. Each is indented by its depth, less where it is very deep.
fn table(rows: &[Row]) -> String {
    const WIDEST: usize = 48;
    const DEEPEST: usize = 16;
    let step = if rows.iter().any(|row| row.depth > DEEPEST) { 1 } else { 2 };
    let lines = rows.iter().map(|row| row.line.len()).max().unwrap_or(0);
    let texts = rows.iter().map(|row| step * row.depth + row.text.len()).filter(|&width| width <= WIDEST).max().unwrap_or(0);
    let mut table = String::new();
    for row in rows {
        let text = format!("{:indent$}{}", "", row.text, indent = step * row.depth);
        let line = format!("  {:>lines$}  {text:texts$}   {}", row.line, row.note);
        table.push_str(line.trim_end());
        table.push('\n');
    }
    table
}

/// Where the parameters of a function are.
fn parameters(locations: &[usize]) -> String {
    let parameters: Vec<usize> = (0..locations.len()).collect();
    match locations {
        [] => String::new(),
        [one] => format!("parameter 0 is location {one}"),
        many => format!("parameters {} are locations {}", in_order(&parameters), in_order(many)),
    }
}

/// Where the qubits of the merge are, if it is one.
fn ends(leg: &Leg<'_>) -> String {
    let at = |slot: u8| leg.standing.slots[usize::from(slot)].map_or("nowhere".to_string(), |location| format!("at location {location}"));
    match leg.site.kind {
        Kind::Merge { first, second, .. } => format!("slot {first} is {}, slot {second} {}", at(first), at(second)),
        _ => String::new(),
    }
}

/// The slots that hold a qubit: of many the outermost and the innermost, for an argument goes from call to call.
fn holders(held: &Held) -> String {
    let one = |&(body, slot): &(Body, u8)| format!("slot {slot} of {body}");
    match &held.holders[..] {
        [outermost, between @ .., innermost] if between.len() > 1 => format!("{}, .. and {}", one(outermost), one(innermost)),
        few => few.iter().map(one).collect::<Vec<String>>().join(" and "),
    }
}

/// Locations, or parameters, in order.
fn in_order(locations: &[usize]) -> String {
    joined(locations, " ")
}
