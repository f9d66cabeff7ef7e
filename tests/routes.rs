//! The route call at its limits: which route, which refusal comes first, and which bytes of the buffer are written.
//! The expected answers are written from the document.

mod cases;
mod files;
mod library;

use cases::{filled, written, Tried};
use files::{device, edges, grid, line, owned, with, GRID};
use library::{no, Call, DEVICE, NONE};

/// What a route is asked for, but for the buffer.
struct Asked {
    device: Vec<u8>,
    job: u64,
    occupancy: Vec<u8>,
    ends: (u64, u64),
}

/// A route of job 1 in a device of n locations, these of them occupied.
fn asked(device: &[u8], n: usize, occupied: &[usize], ends: (u64, u64)) -> Asked {
    let mut occupancy = vec![0; n];
    for &l in occupied {
        occupancy[l] = 1;
    }
    Asked { device: device.to_vec(), job: 1, occupancy, ends }
}

/// The same on the document's grid.
fn on_grid(occupied: &[usize], ends: (u64, u64)) -> Asked {
    asked(&grid(), 6, occupied, ends)
}

impl Tried {
    /// The route must be this one, and the buffer's bytes past it must stay.
    fn route_into(&mut self, what: &str, asked: &Asked, room: usize, route: &[u8]) {
        let buffer = filled(room);
        let call = asked.call(&buffer);
        self.expect(what, &call, route.len() as u64, vec![written(&buffer, route)]);
    }

    /// The same in a buffer that it fills and in a longer one.
    fn route(&mut self, what: &str, asked: &Asked, route: &[u8]) {
        self.route_into(what, asked, route.len(), route);
        self.route_into(what, asked, route.len() + 9, route);
    }

    /// The answer must be this refusal, and the buffer must stay as it was.
    fn refused_into(&mut self, what: &str, asked: &Asked, room: usize, packed: u64) {
        self.untouched(what, &asked.call(&filled(room)), packed);
    }

    /// The same with a long buffer and with none: 24 comes last.
    fn refused(&mut self, what: &str, asked: &Asked, packed: u64) {
        self.refused_into(what, asked, 300, packed);
        self.refused_into(what, asked, 0, packed);
    }
}

impl Asked {
    fn call<'a>(&'a self, buffer: &'a [u8]) -> Call<'a> {
        Call::route(&self.device, self.job, &self.occupancy, self.ends.0, self.ends.1, buffer)
    }

    fn for_job(self, job: u64) -> Asked {
        Asked { job, ..self }
    }

    fn occupied_as(self, occupancy: &[u8]) -> Asked {
        Asked { occupancy: occupancy.to_vec(), ..self }
    }
}

const NO_JOB: u64 = 25 << 32;
const NO_OCCUPANCY: u64 = 26 << 32;
const NO_ROOM: u64 = 24 << 32;
const NO_PATH: u64 = 21 << 32;
const ENDS_EQUAL: u64 = 15 << 32;

/// End 0 or 1 is outside the region.
fn outside(end: u64) -> u64 {
    no(13, end, NONE)
}

fn which_route(t: &mut Tried) {
    t.route("document: 0 to 2", &on_grid(&[], (0, 2)), &[0, 1, 2]);
    t.route("document: with 1 occupied", &on_grid(&[1], (0, 2)), &[0, 3, 4, 5, 2]);
    t.refused("document: with 1 and 4", &on_grid(&[1, 4], (0, 2)), NO_PATH);
    t.route("document: 0 to 4", &on_grid(&[], (0, 4)), &[0, 1, 4]);
    t.refused("document: with 1 and 3 occupied", &on_grid(&[1, 3], (0, 4)), NO_PATH);
    t.route("document: then 0 to 1", &on_grid(&[1, 3], (0, 1)), &[0, 1]);
    t.route("edges have no direction", &on_grid(&[], (2, 0)), &[2, 1, 0]);
    t.route("the smallest is found from the first end", &on_grid(&[], (4, 0)), &[4, 1, 0]);
    t.route("of three the smallest", &on_grid(&[], (3, 2)), &[3, 0, 1, 2]);
    t.route("of three the smallest, from the other end", &on_grid(&[], (2, 3)), &[2, 1, 0, 3]);
    t.route("of two the smallest", &on_grid(&[0], (3, 2)), &[3, 4, 1, 2]);
    t.route("of two the smallest, from the other end", &on_grid(&[0], (2, 3)), &[2, 1, 4, 3]);
    t.route("the only one", &on_grid(&[0, 1], (3, 2)), &[3, 4, 5, 2]);
    let fork = device(5, &[(0, 1), (0, 3), (1, 4), (2, 3), (2, 4)]);
    t.route("shortest before smallest", &asked(&fork, 5, &[], (3, 4)), &[3, 2, 4]);
    t.route("then the longer one", &asked(&fork, 5, &[2], (3, 4)), &[3, 0, 1, 4]);
    // 0 to 3 are joined with every location, the others with hardly any
    let full = device(256, &edges(1024));
    t.route("1,024 edges", &asked(&full, 256, &[], (254, 255)), &[254, 0, 255]);
    t.route("1,024 edges, 0 occupied", &asked(&full, 256, &[0], (255, 254)), &[255, 1, 254]);
    t.route("1,024 edges, 0 to 2 occupied", &asked(&full, 256, &[0, 1, 2], (254, 255)), &[254, 3, 255]);
    t.refused("1,024 edges, 0 to 3 occupied", &asked(&full, 256, &[0, 1, 2, 3], (254, 255)), NO_PATH);
    t.refused("no edges", &asked(&device(2, &[]), 2, &[], (0, 1)), NO_PATH);
}

fn ends(t: &mut Tried) {
    let one = device(1, &[]);
    t.refused("n 1, ends equal", &asked(&one, 1, &[], (0, 0)), ENDS_EQUAL);
    t.refused("n 1, first end outside", &asked(&one, 1, &[], (1, 0)), outside(0));
    t.refused("n 1, second end outside", &asked(&one, 1, &[], (0, 1)), outside(1));
    t.refused("n 1, both outside and equal", &asked(&one, 1, &[], (1, 1)), outside(0));
    t.refused("ends equal", &on_grid(&[], (5, 5)), ENDS_EQUAL);
    t.refused("ends equal and occupied", &on_grid(&[5], (5, 5)), ENDS_EQUAL);
    // each of these is a location of the grid or of the line when cut to a byte or to 32 bits
    for far in [6, 255, 256, 257, 1 << 16, 1 << 32, (1 << 40) + 1, 1 << 63, u64::MAX] {
        t.refused(&format!("first end {far}"), &on_grid(&[], (far, 1)), outside(0));
        t.refused(&format!("second end {far}"), &on_grid(&[], (1, far)), outside(1));
        t.refused(&format!("both ends {far}"), &on_grid(&[], (far, far)), outside(0));
    }
    let row = line(256);
    for far in [256, 511, (1 << 32) + 255, (1 << 40) + 1, u64::MAX] {
        t.refused(&format!("first end {far} of 256"), &asked(&row, 256, &[], (far, 0)), outside(0));
        t.refused(&format!("second end {far} of 256"), &asked(&row, 256, &[], (0, far)), outside(1));
    }
    t.route("second end 255 of 256", &asked(&row, 256, &[], (254, 255)), &[254, 255]);
    t.route("first end 255 of 256", &asked(&row, 256, &[], (255, 253)), &[255, 254, 253]);
    t.refused("end 255 of 255", &asked(&line(255), 255, &[], (254, 255)), outside(1));
}

fn jobs(t: &mut Tried) {
    for job in [0, 3, 255, 256, 257, 258, (1 << 32) + 1, (1 << 63) + 2, u64::MAX] {
        t.refused(&format!("job {job}"), &on_grid(&[], (0, 2)).for_job(job), NO_JOB);
    }
    t.refused("job before device", &asked(&[], 0, &[], (0, 0)).for_job(3), NO_JOB);
    t.refused("a job with an empty region", &on_grid(&[], (0, 2)).for_job(2), outside(0));
    t.refused("a job with an empty region, ends equal", &on_grid(&[], (0, 0)).for_job(2), outside(0));
    let nobody = owned(&[0; 6], &GRID);
    t.refused("a device of nobody", &asked(&nobody, 6, &[], (0, 2)), outside(0));
}

fn regions(t: &mut Tried) {
    let corridor = |owner: u8| owned(&[1, owner, 1, 1, 1, 1], &GRID);
    let wall = |owner: u8| owned(&[1, owner, 1, 1, owner, 1], &GRID);
    for owner in [0, 2] {
        let what = |rest: &str| format!("corridor of {owner}: {rest}");
        t.route(&what("round it"), &asked(&corridor(owner), 6, &[], (0, 2)), &[0, 3, 4, 5, 2]);
        t.refused(&what("no other"), &asked(&corridor(owner), 6, &[4], (0, 2)), NO_PATH);
        t.refused(&what("a wall"), &asked(&wall(owner), 6, &[], (0, 2)), NO_PATH);
        t.route(&what("beside a wall"), &asked(&wall(owner), 6, &[], (5, 2)), &[5, 2]);
        t.refused(&what("first end in it"), &asked(&corridor(owner), 6, &[], (1, 0)), outside(0));
        t.refused(&what("second end in it"), &asked(&corridor(owner), 6, &[], (0, 1)), outside(1));
        t.refused(&what("both ends in it"), &asked(&wall(owner), 6, &[], (4, 1)), outside(0));
    }
    t.route("job 2 in its own", &asked(&wall(2), 6, &[], (4, 1)).for_job(2), &[4, 1]);
    t.refused("job 2 in job 1's", &asked(&wall(2), 6, &[], (4, 5)).for_job(2), outside(1));
}

fn occupancies(t: &mut Tried) {
    for byte in [1, 2, 3, 16, 128, 254, 255] {
        let taken = on_grid(&[], (0, 2)).occupied_as(&[0, byte, 0, 0, 0, 0]);
        t.route(&format!("occupancy byte {byte}"), &taken, &[0, 3, 4, 5, 2]);
        let ends = on_grid(&[], (0, 2)).occupied_as(&[byte, 0, byte, 0, 0, 0]);
        t.route(&format!("the ends' own bytes {byte}"), &ends, &[0, 1, 2]);
    }
    t.route("all but the middle occupied", &on_grid(&[0, 2, 3, 4, 5], (0, 2)), &[0, 1, 2]);
    t.route("all occupied, ends adjacent", &on_grid(&[0, 1, 2, 3, 4, 5], (4, 1)), &[4, 1]);
    for length in [0, 5, 7, 12, 256] {
        let what = format!("occupancy of {length} bytes for 6");
        t.refused(&what, &on_grid(&[], (0, 2)).occupied_as(&vec![0; length]), NO_OCCUPANCY);
        t.refused(&(what + ", before ends outside"), &on_grid(&[], (6, 6)).occupied_as(&vec![0; length]), NO_OCCUPANCY);
    }
    for length in [0, 255, 257] {
        let what = format!("occupancy of {length} bytes for 256");
        t.refused(&what, &asked(&line(256), length, &[], (0, 1)), NO_OCCUPANCY);
    }
    let bad = with(&grid(), &[(11, 3)]);
    t.refused("device before occupancy", &asked(&bad, 5, &[], (0, 2)), no(6, 11, DEVICE));
    t.refused("no device", &asked(&[], 0, &[], (0, 2)), no(1, 0, DEVICE));
    t.refused("a device's version", &asked(&with(&grid(), &[(3, 1)]), 6, &[], (0, 2)), no(3, 3, DEVICE));
}

fn buffers(t: &mut Tried) {
    let row = line(256);
    let there: Vec<u8> = (0..=255).collect();
    let back: Vec<u8> = (0..=255).rev().collect();
    for room in [256, 257, 300] {
        t.route_into(&format!("256 locations into {room}"), &asked(&row, 256, &[], (0, 255)), room, &there);
        t.route_into(&format!("256 locations back into {room}"), &asked(&row, 256, &[], (255, 0)), room, &back);
    }
    for room in [0, 1, 254, 255] {
        t.refused_into(&format!("256 locations into {room}"), &asked(&row, 256, &[], (0, 255)), room, NO_ROOM);
    }
    t.refused("256 locations, one between occupied", &asked(&row, 256, &[128], (0, 255)), NO_PATH);
    for room in [0, 1] {
        t.refused_into(&format!("2 locations into {room}"), &on_grid(&[], (0, 1)), room, NO_ROOM);
    }
    for room in [0, 2, 4] {
        t.refused_into(&format!("5 locations into {room}"), &on_grid(&[1], (0, 2)), room, NO_ROOM);
    }
}

fn main() {
    let mut t = Tried::new("routes");
    which_route(&mut t);
    ends(&mut t);
    jobs(&mut t);
    regions(&mut t);
    occupancies(&mut t);
    buffers(&mut t);
    t.end()
}
