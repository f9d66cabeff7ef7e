//! What several commands have alike: a check and its files, a refusal, occupied locations, a job's program, the layout of a picture.

use crate::args::{number, Asked, Takes};
use crate::device::Device;
use crate::explain::{self, Given};
use crate::input::{file, Named};
use crate::json::Json;
use crate::layout::Layout;
use crate::program::Program;
use crate::replay::index;
use crate::said::{trouble, Said, Trouble};
use crate::why::live::{live, Live};
use abwakiris::{Counted, Job, Refusal};
use std::ffi::OsStr;

/// What a command says where the library refused.
pub fn refused(asked: &Asked, refusal: Refusal, given: &Given) -> Said {
    explain::refused(asked.command.name, asked.json, refusal, given)
}

/// The files of a check, and its job.
pub struct Check {
    device: Named,
    program: Named,
    job: Result<Job, Refusal>,
    /// The number that was given for the job.
    number: Option<u64>,
}

impl Check {
    /// Reads the files.
    ///
    /// # Errors
    ///
    /// Where one of them cannot be read, or the job is no number.
    pub fn of(asked: &Asked) -> Result<Check, Trouble> {
        let (device, program) = (file(&asked.words[0])?, file(&asked.words[1])?);
        Ok(Check { device, program, job: asked.job()?, number: asked.number(Takes::Job)? })
    }

    /// What a refusal is explained by.
    pub fn given(&self) -> Given<'_> {
        let mut programs = [None; 2];
        programs[self.job.map_or(0, index)] = Some(&self.program);
        Given { device: Some(&self.device), programs, job: self.job.ok(), job_number: self.number, ..Given::default() }
    }

    /// The library's verdict: for this job so many commands, and so many qubits left live.
    ///
    /// # Errors
    ///
    /// The library's refusal.
    pub fn verdict(&self) -> Result<(Job, Counted), Refusal> {
        let job = self.job?;
        Ok((job, abwakiris::check(&self.device.bytes, &self.program.bytes, job)?))
    }

    /// What is said of a program that the library accepts; to people these lines more.
    pub fn accepted(&self, asked: &Asked, (job, counted): (Job, Counted), more: &str) -> Said {
        let Counted { count, live: number } = counted;
        let left = live(&self.device.bytes, &self.program.bytes, job, counted);
        let text = || {
            let each: String = left.iter().map(Live::text).collect();
            format!("accepted: {} on {} for {job}\ncommands: {count}\nleft live: {number}\n{each}{more}", self.program.name, self.device.name)
        };
        let head = || Json::head(asked.command.name, true).with("job", job.number()).with("count", count);
        Said::of(true, asked.json, text, || head().with("live", number).with("left", Json::list(left.iter().map(Live::json))))
    }
}

/// The occupancy that `--occupied` gives: a byte for each location, 1 where it is occupied.
///
/// # Errors
///
/// Where the value is no list of numbers with commas between, or the device does not have the location.
pub fn occupied(asked: &Asked, device: &Device) -> Result<Vec<u8>, Trouble> {
    let mut occupancy = vec![0; device.locations()];
    let value = match asked.value(Takes::Occupied) {
        Some(value) if !value.is_empty() => value.to_string_lossy(),
        _ => return Ok(occupancy),
    };
    for word in value.split(',') {
        let location = number(OsStr::new(word.trim()), "each location of --occupied")?;
        let byte = usize::try_from(location).ok().and_then(|location| occupancy.get_mut(location));
        match byte {
            Some(byte) => *byte = 1,
            None => return trouble(format!("--occupied: the device has no location {location}; its locations are 0 to {}", device.locations() - 1)),
        }
    }
    Ok(occupancy)
}

/// The program of a job: a file, or the word `none` for the program that does nothing. A file of that name is `./none`.
///
/// # Errors
///
/// Where the file cannot be read.
pub fn job_program(word: &OsStr) -> Result<Named, Trouble> {
    if word == "none" {
        return Ok(Named { name: "none".to_string(), bytes: Program::empty().bytes });
    }
    file(word)
}

/// The layout of a device, in rows of so many locations where `--width` is given.
///
/// # Errors
///
/// Where the width is no number, or 0.
pub fn layout(asked: &Asked, device: &Device) -> Result<Layout, Trouble> {
    Ok(Layout::of(device, asked.width()?))
}
