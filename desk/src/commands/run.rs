//! `abwakiris run`: a run of two jobs, step by step, and the map that it leaves.

use super::common::{job_program, refused};
use super::Command;
use crate::args::{Asked, Takes};
use crate::device::Device;
use crate::explain::Given;
use crate::input::{self, Named};
use crate::json::Json;
use crate::layout::Layout;
use crate::numbers::many;
use crate::picture::Picture;
use crate::program::Program;
use crate::replay::rows::{at, became, rows, Row};
use crate::replay::{index, of_files, Item, Replay, Step};
use crate::said::{Said, Trouble};
use crate::terminal;
use abwakiris::{Job, Told};

pub const COMMAND: Command = Command {
    name: "run",
    usage: "DEVICE FIRST SECOND SCHEDULE",
    about: "a run of two jobs, step by step, and the map that it leaves",
    help: "FIRST is the program of job 1, SECOND that of job 2; `none` is the program that does nothing.\n\
           SCHEDULE is hex digits, two a step, or a file of such text or of the bytes: 10 and 11 are steps of job 1 with\n\
           outcome 0 and 1, 20 and 21 those of job 2. Steps are counted from 1. All further steps of a job that is stuck\n\
           or finished share a row where they follow each other. Of a merge the table has the locations of its\n\
           route, in its order. A run with a stuck job has status 0 too: the library ran it.",
    example: "samples/story-device samples/story-program none 10101010101011101010",
    takes: (4, 4),
    options: &[Takes::Width],
    does,
};

fn does(asked: &Asked) -> Result<Said, Trouble> {
    let width = asked.width()?;
    let device = input::file(&asked.words[0])?;
    let programs = [job_program(&asked.words[1])?, job_program(&asked.words[2])?];
    let schedule = input::schedule(&asked.words[3])?;
    let given = Given { device: Some(&device), programs: [Some(&programs[0]), Some(&programs[1])], schedule: Some(&schedule), ..Given::default() };
    match of_files(&device.bytes, [&programs[0].bytes, &programs[1].bytes], &schedule.bytes) {
        Err(refusal) => Ok(refused(asked, refusal, &given)),
        Ok((device, read, replay)) => {
            let run = Run { given: &given, device, programs: [&read[0], &read[1]], replay: &replay };
            Ok(Said::of(true, asked.json, || run.text(width), || run.json()))
        }
    }
}

/// A run that the library accepted.
struct Run<'a> {
    given: &'a Given<'a>,
    device: Device,
    programs: [&'a Program; 2],
    replay: &'a Replay,
}

impl Run<'_> {
    fn name(&self, file: Option<&Named>) -> String {
        file.map_or(String::new(), |named| named.name.clone())
    }

    fn text(&self, width: Option<usize>) -> String {
        let steps = many(self.replay.steps.len(), "step");
        let [first, second] = self.given.programs.map(|program| self.name(program));
        let mut text = format!("ran {steps}: {first} as job 1 and {second} as job 2 on {}\n\n", self.name(self.given.device));
        let rows = rows(self.programs, self.replay);
        if !rows.is_empty() {
            text.push_str(&table(&rows));
            text.push('\n');
        }
        for (&job, program) in Job::ALL.iter().zip(self.programs) {
            let lines = became(program, self.replay, job).join("\n       ");
            text.push_str(&format!("{job}: {lines}\n"));
        }
        text.push('\n');
        text.push_str(&terminal::drawn(&self.device, &Layout::of(&self.device, width), &self.map(&steps)));
        text
    }

    /// The map that the library left, with the slots as they were followed.
    fn map(&self, steps: &str) -> Picture {
        let slots = self.replay.steps.last().map_or(&[][..], |step| &step.slots);
        Picture::of(&self.device, None, format!("the map after {steps}")).with_map(&self.replay.map, slots)
    }

    fn json(&self) -> Json {
        let steps = self.replay.steps.iter().enumerate().map(|(i, step)| self.step(i + 1, step));
        Json::head(COMMAND.name, true)
            .with("steps", Json::list(steps))
            .with("moved", Json::list(Job::ALL.iter().map(|&job| self.replay.moved(job))))
            .with("jobs", Json::list(Job::ALL.iter().map(|&job| self.job(job))))
            .with("map", Json::list(self.replay.map.iter().copied()))
    }

    fn step(&self, number: usize, step: &Step) -> Json {
        let (told, reason) = match step.record.told {
            Told::Moved => ("moved", None),
            Told::Finished => ("finished", None),
            Told::Stuck(number) => ("stuck", Some(number.number())),
        };
        let at = at(self.program(step.job), step.item);
        Json::object([
            ("step", number.into()),
            ("job", step.job.number().into()),
            ("outcome", step.measured.then_some(u8::from(step.outcome)).into()),
            ("told", told.into()),
            ("number", reason.into()),
            ("edges", step.record.edges.into()),
            ("route", Json::list(step.route.iter().copied())),
            ("line", at.as_ref().map(|(line, _)| *line).into()),
            ("text", at.map(|(_, text)| text).into()),
            ("offset", step.record.offset.into()),
        ])
    }

    /// What became of a job.
    fn job(&self, job: Job) -> Json {
        let stuck = self.replay.stuck(job);
        let at = at(self.program(job), self.replay.ends(job));
        let ended = match (stuck, self.replay.ends(job)) {
            (Some(_), _) => "stuck",
            (None, Item::Finished) => "finished",
            (None, _) => "going",
        };
        Json::object([
            ("job", job.number().into()),
            ("moved", self.replay.moved(job).into()),
            ("ended", ended.into()),
            ("number", stuck.map(|stuck| stuck.number.number()).into()),
            ("step", stuck.map(|stuck| stuck.step).into()),
            ("line", at.as_ref().map(|(line, _)| *line).into()),
            ("text", at.map(|(_, text)| text).into()),
            ("found", stuck.map(|stuck| stuck.found.clone()).into()),
        ])
    }

    fn program(&self, job: Job) -> &Program {
        self.programs[index(job)]
    }
}

/// The rows below their header. A statement that is wider than most only widens its own row.
fn table(rows: &[Row]) -> String {
    const WIDEST: usize = 40;
    let dash = || "-".to_string();
    let cells: Vec<[String; 6]> = rows
        .iter()
        .map(|row| {
            let outcome = row.outcome.map_or_else(dash, |outcome| u8::from(outcome).to_string());
            let (line, text) = row.at.as_ref().map_or_else(|| (dash(), dash()), |(line, text)| (line.to_string(), text.clone()));
            [row.numbers(), row.job.number().to_string(), outcome, line, text, row.happened.clone()]
        })
        .collect();
    let header = ["step", "job", "outcome", "line", "statement", "what happened"].map(String::from);
    let width = |i: usize| cells.iter().chain([&header]).map(|row| row[i].len()).filter(|&length| length <= WIDEST).max().unwrap_or(0);
    let widths: Vec<usize> = (0..5).map(width).collect();
    let line = |row: &[String; 6]| {
        let [step, job, outcome, line, text, happened] = row;
        let [a, b, c, d, e] = [widths[0], widths[1], widths[2], widths[3], widths[4]];
        format!("{step:>a$}  {job:>b$}  {outcome:>c$}  {line:>d$}  {text:e$}  {happened}\n")
    };
    std::iter::once(&header).chain(&cells).map(line).collect()
}
