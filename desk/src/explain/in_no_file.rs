//! A refusal in no file, or in a schedule: the ends of a route, the job, the occupancy, the steps.

use super::excerpt::Excerpt;
use super::found::whose;
use super::part::{byte, Part};
use super::words::Of;
use super::Given;
use crate::device::Device;
use crate::numbers::{first_of, many};

/// What there is to say of a number in no file. The place of 13 is the end.
pub fn said(number: u8, place: usize, given: &Given) -> Part {
    let device = given.device.and_then(|named| Device::read(&named.bytes).ok());
    let route = |at: String, found: Vec<String>| Part { at: Some(at), case: Some(Of::Route), found, ..Part::default() };
    match (number, given.ends) {
        (13, Some(ends)) => {
            let (name, end) = if place == 0 { ("first", ends[0]) } else { ("second", ends[1]) };
            let found = device.map(|device| format!("location {end} {}", whose(&device, end)));
            route(format!("the {name} end of the route, {end}"), found.into_iter().collect())
        }
        (15, Some([end, _])) => route("the ends of the route".to_string(), vec![format!("both ends are {end}")]),
        (21, Some([first, second])) => {
            let found = device.map(|device| on_empty(&device, given, first, second));
            route(format!("the route from {first} to {second}"), found.into_iter().flatten().collect())
        }
        (13 | 15 | 21, None) => Part { case: Some(Of::Route), ..Part::default() },
        (25, _) => Part { found: given.job_number.map(|number| format!("the number is {number}")).into_iter().collect(), ..Part::default() },
        (26, _) => {
            Part { found: device.map(|device| format!("the device has {}", many(device.locations(), "location"))).into_iter().collect(), ..Part::default() }
        }
        _ => Part::default(),
    }
}

/// Whether there is a route where every location is free.
fn on_empty(device: &Device, given: &Given, first: u64, second: u64) -> Option<String> {
    let job = given.job?;
    let (first, second) = (usize::try_from(first).ok()?, usize::try_from(second).ok()?);
    Some(match device.route(job, &vec![0; device.locations()], first, second) {
        Some(route) => {
            format!("occupied locations are in the way: with every location free there is a route of {} locations, {}", route.len(), first_of(&route))
        }
        None => format!("no corridor joins {first} and {second} even with every location free"),
    })
}

/// What there is to say of a number at a place of a schedule.
pub fn in_schedule(number: u8, place: usize, bytes: &[u8]) -> Part {
    if number == 22 {
        return Part { at: Some("the whole schedule".to_string()), found: vec![format!("it has {}", many(bytes.len(), "byte"))], ..Part::default() };
    }
    let value = bytes.get(place).copied().unwrap_or(0);
    let text = bytes.iter().all(|&byte| byte.is_ascii_graphic() || byte.is_ascii_whitespace()).then(|| not_hex(bytes)).flatten();
    Part {
        at: Some(format!("byte {place}")),
        excerpts: vec![Excerpt::of_bytes(bytes, place, 1)],
        found: [format!("byte {place}, counted from 0, is {}", byte(value))].into_iter().chain(text).collect(),
        ..Part::default()
    }
}

/// A text that is no text of hex digits.
fn not_hex(bytes: &[u8]) -> Option<String> {
    let letter = bytes.iter().find(|byte| !byte.is_ascii_hexdigit() && !byte.is_ascii_whitespace() && **byte != b',')?;
    Some(format!("the file is text; a schedule as text has hex digits, spaces and commas only, and no `{}`", char::from(*letter)))
}
