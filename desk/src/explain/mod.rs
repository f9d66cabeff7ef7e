//! A refusal in words: where it is, what the rule asks, what was found there, and what usually mends it.

mod count;
mod excerpt;
mod found;
mod in_device;
mod in_listing;
mod in_no_file;
mod in_program;
mod lines;
mod part;
mod partial;
pub(crate) mod path;
pub mod typing;
pub mod words;

use crate::input::Named;
use crate::json::Json;
use crate::replay::index;
use crate::said::{shown, Said};
use abwakiris::{File, Job, Refusal};
use excerpt::Excerpt;
use part::Part;
use std::ffi::OsStr;
use words::filled;

/// What a call was given, as far as it is known.
#[derive(Clone, Copy, Debug, Default)]
pub struct Given<'a> {
    pub device: Option<&'a Named>,
    /// The program of job 1 and that of job 2. A program that is read for no job is the first.
    pub programs: [Option<&'a Named>; 2],
    pub schedule: Option<&'a Named>,
    /// The text that was read as a listing.
    pub text: Option<&'a Named>,
    /// The job of a check or a route.
    pub job: Option<Job>,
    /// The number that was given for a job where it is none.
    pub job_number: Option<u64>,
    /// The ends of a route.
    pub ends: Option<[u64; 2]>,
}

impl<'a> Given<'a> {
    /// The file that a refusal's place is in.
    pub fn file(&self, file: File) -> Option<&'a Named> {
        match file {
            File::Device => self.device,
            File::Schedule => self.schedule,
            File::Listing => self.text,
            File::Program(None) => self.programs[0],
            File::Program(Some(job)) => self.programs[index(job)],
            _ => None,
        }
    }
}

/// A refusal in words.
#[derive(Clone, Debug)]
pub struct Explained {
    pub refusal: Refusal,
    /// The file that the place is in, by the name that it was given by.
    pub name: Option<String>,
    /// What is at the place.
    pub at: Option<String>,
    /// The number of the line, from 1: of the program's listing, or of the text that was read as one.
    pub line: Option<usize>,
    /// The line itself, without its indent.
    pub statement: Option<String>,
    pub excerpts: Vec<Excerpt>,
    /// What the rule asks.
    pub asked: Option<String>,
    /// What was found instead, a line each. Who has found more may add to it.
    pub found: Vec<String>,
    /// What usually mends it.
    pub mend: Option<String>,
    /// The command that says more.
    pub see: Option<String>,
}

/// The refusal of a call that was given this, in words.
pub fn explained(refusal: Refusal, given: &Given) -> Explained {
    let mut part = said(refusal, given);
    if let Some(job) = job_of(refusal, given) {
        part.values.push(("{job}", job.to_string()));
    }
    let case = words::row(refusal.number).and_then(|row| row.case(part.case));
    Explained {
        refusal,
        name: given.file(refusal.file).map(|named| named.name.clone()),
        at: part.at,
        line: part.line,
        statement: part.statement,
        excerpts: part.excerpts,
        asked: case.map(|case| filled(case.asked, &part.values)),
        found: part.found,
        mend: case.map(|case| filled(case.mend, &part.values)),
        see: part.see,
    }
}

/// The job that the refusal is about.
fn job_of(refusal: Refusal, given: &Given) -> Option<Job> {
    match refusal.file {
        File::Program(Some(job)) => Some(job),
        _ => given.job,
    }
}

/// What there is to say of the refusal.
fn said(refusal: Refusal, given: &Given) -> Part {
    let (number, place) = (refusal.number.number(), refusal.place as usize);
    let bytes = given.file(refusal.file).map(|named| named.bytes.as_slice());
    match (refusal.file, bytes) {
        (File::NoFile, _) => in_no_file::said(number, place, given),
        (File::Device, Some(bytes)) => in_device::said(number, place, bytes),
        (File::Schedule, Some(bytes)) => in_no_file::in_schedule(number, place, bytes),
        (File::Listing, Some(bytes)) => in_listing::said(place, bytes),
        (File::Program(_), Some(bytes)) => in_program::said(refusal, bytes, given),
        _ => Part::default(),
    }
}

impl Explained {
    /// For people.
    pub fn text(&self) -> String {
        let width = self.excerpts.iter().map(Excerpt::width).max().unwrap_or(1);
        let mut text = format!("refused {}\n", self.refusal.number);
        if let Some(place) = self.place() {
            text.push_str(&format!("{:width$}--> {place}\n", ""));
        }
        for excerpt in &self.excerpts {
            text.push_str(&excerpt.drawn(width));
        }
        if !self.excerpts.is_empty() {
            text.push_str(&format!("{:width$} |\n", ""));
        }
        for (name, line) in self.notes() {
            text.push_str(&format!("{:width$} = {name}: {line}\n", ""));
        }
        text
    }

    /// File and offset, and what is there.
    fn place(&self) -> Option<String> {
        if self.refusal.file == File::NoFile {
            return self.at.clone();
        }
        let name = self.name.clone().unwrap_or_else(|| self.refusal.file.to_string());
        let at = self.at.as_ref().map_or(String::new(), |at| format!(", {at}"));
        Some(format!("{}:{}{at}", shown(OsStr::new(&name)), self.refusal.place))
    }

    /// The lines below the excerpt.
    fn notes(&self) -> Vec<(&'static str, &str)> {
        let asked = self.asked.iter().map(|line| ("asked", line));
        let found = self.found.iter().map(|line| ("found", line));
        let mend = self.mend.iter().map(|line| ("mend", line));
        let see = self.see.iter().map(|line| ("see", line));
        asked.chain(found).chain(mend).chain(see).map(|(name, line)| (name, line.as_str())).collect()
    }

    /// For machines.
    pub fn json(&self) -> Json {
        Json::object([
            ("number", self.refusal.number.number().into()),
            ("words", self.refusal.number.words().into()),
            ("place", self.refusal.place.into()),
            ("file", kind(self.refusal.file).into()),
            ("name", self.name.clone().into()),
            ("at", self.at.clone().into()),
            ("line", self.line.into()),
            ("text", self.statement.clone().into()),
            ("asked", self.asked.clone().into()),
            ("found", self.found.clone().into()),
            ("mend", self.mend.clone().into()),
        ])
    }
}

/// Which of the files it is.
fn kind(file: File) -> &'static str {
    match file {
        File::NoFile => "none",
        File::Device => "device",
        File::Schedule => "schedule",
        File::Listing => "listing",
        File::Program(_) => "program",
        _ => "unknown",
    }
}

/// What a command says where the library refused.
pub fn refused(command: &str, json: bool, refusal: Refusal, given: &Given) -> Said {
    let explained = explained(refusal, given);
    let machine = || {
        let head = Json::head(command, false);
        let head = if let Some(job) = given.job { head.with("job", job.number()) } else { head };
        head.with("refusal", explained.json())
    };
    Said::of(false, json, || explained.text(), machine)
}
