// Times the library's run beside a plain one (plain_run.rs) on the same files and schedules, in one run. `run-run` builds it and runs it.
// Devices have 256 locations; schedules have 4,096 steps, and every program is one that the check accepts. Every round gives each side its turn at
// every shape, and a time is the least of all rounds. It is the processor's time of this thread, reading of the files included. Moved counts, and
// every byte of records and map, must be equal.
mod clock;
mod devices;
#[path = "../../bindings/rust/src/exports.rs"]
mod exports;
#[path = "../../tests/files.rs"]
mod files;
mod plain;
mod plain_run;

use clock::of_thread;
use devices::{far, grid, line, random, Edges};
use exports::{abwakiris_check, abwakiris_run};
use files::{boolean, call, calling, chain, device, free, gate, init, merge, only, owned, program_a, refer, repeat, when, Statement};
use plain::word;
use std::hint::black_box;
use std::time::Instant;

// A run: the device, what is run on it, the files, and how many steps of each job must move.
struct Shape {
    device: &'static str,
    what: &'static str,
    files: [Vec<u8>; 3],
    schedule: Vec<u8>,
    moved: [usize; 2],
}

#[derive(Clone, PartialEq)]
struct Buffers {
    records: Vec<u8>,
    map: Vec<u8>,
}

type Side = fn(&Shape, &mut Buffers) -> [usize; 2];

const SIDES: [Side; 2] = [library, plain];

fn library(shape: &Shape, buffers: &mut Buffers) -> [usize; 2] {
    let ([device, first, second], schedule) = (&shape.files, &shape.schedule);
    let Buffers { records, map } = buffers;
    // Every pointer is followed by its own length.
    let answer = unsafe {
        abwakiris_run(
            device.as_ptr(), device.len(), first.as_ptr(), first.len(), second.as_ptr(), second.len(),
            schedule.as_ptr(), schedule.len(), records.as_mut_ptr(), records.len(), map.as_mut_ptr(), map.len(),
        )
    };
    assert!(answer >> 32 == 0, "{}, {}: refused", shape.device, shape.what);
    [answer as usize % 65536, answer as usize / 65536]
}

// Whether the check accepts both programs.
fn accepted(shape: &Shape) -> bool {
    let [device, first, second] = &shape.files;
    let check = |program: &[u8], job| unsafe { abwakiris_check(device.as_ptr(), device.len(), program.as_ptr(), program.len(), job) };
    check(first, 1) >> 32 == 0 && check(second, 2) >> 32 == 0
}

fn plain(shape: &Shape, buffers: &mut Buffers) -> [usize; 2] {
    let [device, first, second] = &shape.files;
    plain_run::run(device, [first, second], &shape.schedule, &mut buffers.records, &mut buffers.map)
}

// Schedules.

const STEPS: usize = 4096;

// Job 1's steps, with either outcome in turn.
fn alone() -> Vec<u8> {
    [0x10, 0x11].repeat(STEPS / 2)
}

// Both jobs by turns.
fn by_turns() -> Vec<u8> {
    [0x10, 0x21, 0x11, 0x20].repeat(STEPS / 4)
}

// Programs. None of them finishes within its steps, but the empty one.

// A bool in slot 30, a reference to it in slot 31, and a body over and over.
fn forever(body: &[Statement]) -> Vec<Statement> {
    vec![boolean(30, 1), refer(31, 30), repeat(31, body)]
}

fn gates(at: u8) -> Vec<u8> {
    only(&[vec![init(0, at)], forever(&vec![gate(0); 600]), vec![free(0)]].concat())
}

// 28 merges of two ends, over and over.
fn merges(a: u8, b: u8) -> Vec<u8> {
    let body: Vec<Statement> = (2..30).map(|outcome| merge(outcome, 0, 1)).collect();
    only(&[vec![init(0, a), init(1, b)], forever(&body), vec![free(0), free(1)]].concat())
}

fn empty_ifs() -> Vec<u8> {
    only(&[vec![boolean(0, 0)], forever(&vec![when(0, &[], &[]); 600])].concat())
}

// The document's functions: function 0 is an init and a free at its parameter, function i calls i - 1 twice; main calls the last.
fn calls(at: u8) -> Vec<u8> {
    calling(&chain(1, 0, &[init(0, 0), free(0)], 15, 2), &[call(14, &[at], &[])])
}

// The same with 16 locations, eight of them arguments.
fn wide_calls() -> Vec<u8> {
    let (at, arguments): (Vec<u8>, Vec<u8>) = ((0..16).collect(), (0..8).collect());
    let inits = arguments.iter().map(|&i| init(i, i)).collect();
    let frees = arguments.iter().map(|&i| free(i)).collect();
    calling(&chain(16, 8, &[init(8, 8), free(8)], 15, 2), &[inits, vec![call(14, &at, &arguments)], frees].concat())
}

// A device whose first eight rows are job 1's and whose others are job 2's.
fn halves() -> Vec<u8> {
    owned(&[[1; 128], [2; 128]].concat(), &grid())
}

fn shapes() -> Vec<Shape> {
    let single = |name, what, edges: &Edges, file| Shape {
        device: name,
        what,
        files: [device(256, edges), file, only(&[])],
        schedule: alone(),
        moved: [STEPS, 0],
    };
    let on_grid = |what, file| single("grid 16x16", what, &grid(), file);
    let far_merges = |name, edges: Edges| {
        let (a, b) = far(&edges);
        single(name, "merges, far ends", &edges, merges(a as u8, b as u8))
    };
    let both = |what, first, second| Shape {
        device: "grid 16x16, halves",
        what,
        files: [halves(), first, second],
        schedule: by_turns(),
        moved: [STEPS / 2; 2],
    };
    vec![
        on_grid("gates", gates(0)),
        on_grid("merges, near ends", merges(0, 1)),
        far_merges("grid 16x16", grid()),
        far_merges("line", line()),
        on_grid("empty ifs", empty_ifs()),
        on_grid("calls, 15 deep", calls(0)),
        on_grid("calls, 15 deep, with 16 locations", wide_calls()),
        both("both jobs by turns, gates", gates(0), gates(255)),
        both("both jobs by turns, far merges and calls", merges(0, 127), calls(255)),
        Shape { moved: [0; 2], ..on_grid("an empty program", only(&[])) },
        Shape { schedule: vec![], moved: [0; 2], ..single("random, 1,024 edges", "no steps", &random(), only(&[])) },
    ]
}

// Buffers for a run, with every byte still to be written.
fn buffers(shape: &Shape) -> Buffers {
    Buffers { records: vec![0xA5; 4 * shape.schedule.len()], map: vec![0xA5; word(&shape.files[0], 5)] }
}

// A side's run, which must move and write this. Gives its time.
fn timed(side: Side, shape: &Shape, written: &Buffers) -> f64 {
    let mut buffers = buffers(shape);
    let begun = of_thread();
    let moved = side(black_box(shape), &mut buffers);
    let time = (of_thread() - begun).as_secs_f64() * 1e6;
    assert!(moved == shape.moved && buffers == *written, "{}, {}: something else was moved or written", shape.device, shape.what);
    time
}

// The least time of a run in microseconds, over one, or as many as five milliseconds have room for.
fn least(side: Side, shape: &Shape, written: &Buffers) -> f64 {
    let all = Instant::now();
    let mut least = timed(side, shape, written);
    while all.elapsed().as_millis() < 5 {
        least = least.min(timed(side, shape, written));
    }
    least
}

// The document's example on both sides: A beside the empty program.
fn example() {
    let files = [files::grid(), program_a(), only(&[])];
    let shape = Shape { device: "G", what: "A", files, schedule: vec![0x10, 0x10, 0x20, 0x10], moved: [3, 0] };
    let records = vec![0, 0, 0, 8, 0, 0, 0, 11, 1, 0, 255, 255, 0, 2, 0, 14];
    let written = Buffers { records, map: vec![1, 0, 1, 0, 0, 0] };
    for side in SIDES {
        timed(side, &shape, &written);
    }
}

fn main() {
    let arguments: Vec<String> = std::env::args().skip(1).collect();
    let rounds: usize = arguments.first().map_or(20, |x| x.parse().expect("the number of rounds"));
    let words = arguments[arguments.len().min(1)..].join(" ");
    example();
    let mut shapes = shapes();
    shapes.retain(|shape| format!("{}, {}", shape.device, shape.what).contains(&words));
    let mut best = vec![[f64::MAX; 2]; shapes.len()];
    for round in 0..rounds {
        for (shape, best) in shapes.iter().zip(&mut best) {
            assert!(accepted(shape), "{}, {}: a program is not accepted", shape.device, shape.what);
            let mut written = buffers(shape);
            library(shape, &mut written);
            for turn in 0..2 {
                let side = (round + turn) % 2;
                best[side] = best[side].min(least(SIDES[side], shape, &written));
            }
        }
    }
    println!("| device | run | library | plain | share |");
    println!("|--|--|--|--|--|");
    for (shape, [library, plain]) in shapes.iter().zip(best) {
        println!("| {} | {} | {library:.0} | {plain:.0} | {:.2} |", shape.device, shape.what, library / plain);
    }
}
