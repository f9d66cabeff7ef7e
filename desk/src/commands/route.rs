//! `abwakiris route`: the route between two locations.

use super::common::{layout, occupied, refused};
use super::Command;
use crate::args::{number, Asked, Takes};
use crate::device::Device;
use crate::explain::Given;
use crate::input;
use crate::json::Json;
use crate::layout::Layout;
use crate::numbers::many;
use crate::picture::{Mark, Picture};
use crate::region::{Locations, Region};
use crate::said::{Said, Trouble};
use crate::terminal;
use abwakiris::{Job, Number, MOST_LOCATIONS};

pub const COMMAND: Command = Command {
    name: "route",
    usage: "DEVICE FROM TO",
    about: "the route between two locations",
    help: "Asks the library for the route of a merge between the locations FROM and TO: the shortest path over free locations of the job's region, and \
           among those the smallest from FROM on. The two ends may be occupied. The device is drawn with the route or, where there is no path, with what is \
           reached from FROM.",
    example: "samples/device-g 0 2 --occupied 1\n\nroute: 0 3 4 5 2 (4 edges)\n..",
    takes: (3, 3),
    options: &[Takes::Job, Takes::Occupied, Takes::Width],
    does,
};

fn does(asked: &Asked) -> Result<Said, Trouble> {
    let ends = [number(&asked.words[1], "FROM")?, number(&asked.words[2], "TO")?];
    let file = input::file(&asked.words[0])?;
    let given = Given { device: Some(&file), ends: Some(ends), ..Given::default() };
    let job = match asked.job()? {
        Ok(job) => job,
        Err(refusal) => return Ok(refused(asked, refusal, &Given { job_number: asked.number(Takes::Job)?, ..given })),
    };
    let given = Given { job: Some(job), ..given };
    let device = match Device::read(&file.bytes) {
        Ok(device) => device,
        Err(refusal) => return Ok(refused(asked, refusal, &given)),
    };
    let scene = Scene { device: &device, job, occupied: occupied(asked, &device)?, ends, layout: layout(asked, &device)? };
    let mut buffer = [0; MOST_LOCATIONS];
    Ok(match abwakiris::route(&device.bytes, job, &scene.occupied, ends[0], ends[1], &mut buffer) {
        Ok(length) => scene.found(asked.json, &buffer[..length]),
        Err(refusal) => {
            let mut said = refused(asked, refusal, &given);
            if refusal.number == Number::NoPath && !asked.json {
                said.out.extend_from_slice(format!("\n{}", scene.drawn(&[])).as_bytes());
            }
            said
        }
    })
}

/// What the library was asked about.
struct Scene<'a> {
    device: &'a Device,
    job: Job,
    /// A byte for each location, 1 where it is occupied.
    occupied: Vec<u8>,
    ends: [u64; 2],
    layout: Layout,
}

impl Scene<'_> {
    fn found(&self, json: bool, route: &[u8]) -> Said {
        let edges = route.len().saturating_sub(1);
        let locations: Vec<String> = route.iter().map(u8::to_string).collect();
        let line = format!("route: {} ({})", locations.join(" "), many(edges, "edge"));
        let machine = || {
            let found = Json::head(COMMAND.name, true).with("job", self.job.number());
            found.with("route", Json::list(route.iter().copied())).with("edges", edges)
        };
        Said::of(true, json, || format!("{line}\n\n{}", self.drawn(route)), machine)
    }

    /// The device with the ends, what is occupied and the route; without one, with what is reached from the first end.
    fn drawn(&self, route: &[u8]) -> String {
        let mut picture = Picture::of(self.device, Some(self.job), format!("from {} to {}, {}", self.ends[0], self.ends[1], self.job));
        picture.route = route.iter().map(|&location| usize::from(location)).collect();
        for (mark, _) in picture.marks.iter_mut().zip(&self.occupied).filter(|(mark, &byte)| **mark == Mark::Free && byte != 0) {
            *mark = Mark::Occupied;
        }
        for (end, mark) in self.ends.into_iter().zip([Mark::First, Mark::Second]) {
            if let Some(at) = usize::try_from(end).ok().and_then(|end| picture.marks.get_mut(end)) {
                *at = mark;
            }
        }
        if route.is_empty() {
            self.reach(&mut picture.marks);
        }
        terminal::drawn(self.device, &self.layout, &picture)
    }

    /// Marks the free locations that are reached over free ones from the first end.
    fn reach(&self, marks: &mut [Mark]) {
        let occupied: Locations = (0..marks.len()).filter(|&location| marks[location] != Mark::Free).collect();
        if let Some(first) = marks.iter().position(|mark| *mark == Mark::First) {
            let reached = Region::of(self.device, self.job).reached(&occupied, first);
            reached.list().into_iter().for_each(|location| marks[location] = Mark::Reached);
        }
    }
}
