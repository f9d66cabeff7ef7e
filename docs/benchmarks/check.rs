// Times the library's check beside a plain one (plain_check.rs) on the same files, in one run. `run-check` builds it and runs it.
// Devices have 256 locations, all owned by job 1; programs are at the count limit, which 4,096 bytes reach by functions that call each other twice.
// Every round gives each side its turn at every shape, and a time is the least of all rounds. It is the processor's time for this thread, so that
// waiting for a busy processor is not in it. Number, value or place, and file of the answers must be equal.
mod clock;
mod devices;
#[path = "../../bindings/rust/src/exports.rs"]
mod exports;
#[path = "../../tests/files.rs"]
mod files;
mod plain;
mod plain_check;

use clock::of_thread;
use devices::{comb, far, grid, line, random, Edges};
use files::{boolean, call, calling, chain, device, free, gate, init, only, program_a, refer, repeat, when, Function, Statement};
use plain_check::Locations;
use std::hint::black_box;
use std::time::Instant;

fn library(device: &[u8], program: &[u8]) -> u64 {
    unsafe { exports::abwakiris_check(device.as_ptr(), device.len(), program.as_ptr(), program.len(), 1) }
}

// The plain answer, packed as the library packs its own.
fn plain(device: &[u8], program: &[u8], locations: Locations) -> u64 {
    match plain_check::check(device, program, 1, locations) {
        Ok(count) => count as u64,
        Err(no) => no.place as u64 | (no.number as u64) << 32 | 17 << 40,
    }
}

fn plain_with_lists(device: &[u8], program: &[u8]) -> u64 {
    plain(device, program, Locations::List)
}

fn plain_with_arrays(device: &[u8], program: &[u8]) -> u64 {
    plain(device, program, Locations::Array)
}

type Side = fn(&[u8], &[u8]) -> u64;

const SIDES: [Side; 3] = [library, plain_with_lists, plain_with_arrays];

// Programs.

const LIMIT: usize = 65535;

// Slots 0 and 1 measured together.
fn merge(outcome: u8) -> Statement {
    files::merge(outcome, 0, 1)
}

// A bool in slot 0, a reference to it in slot 1, and so many empty loops: each counts 1.
fn loops(times: usize) -> Vec<Statement> {
    [vec![boolean(0, 0), refer(1, 0)], vec![repeat(1, &[]); times]].concat()
}

// A program of so many commands: function 0 has a body that counts `each`, function i calls i - 1 twice, and main gives its calls these locations
// and m qubits, which it holds at the first of them. What the calls leave of the total is filled by merges, or by empty loops where there are no
// two qubits. `last` goes before main's frees; it is counted by the caller.
fn doubling(body: &[Statement], each: usize, at: &[u8], m: u8, last: &[Statement], total: usize) -> Vec<u8> {
    let functions = doubled(body, each, at.len(), m, total);
    let arguments: Vec<u8> = (0..m).collect();
    let mut left = total - 2 * m as usize;
    let mut main: Vec<Statement> = arguments.iter().map(|&i| init(i, at[i as usize])).collect();
    for f in (0..functions.len()).rev() {
        while left >= each << f {
            main.push(call(f as u8, at, &arguments));
            left -= each << f;
        }
    }
    if m >= 2 {
        main.extend((0..left as u8).map(|i| merge(m + i)));
    }
    main.extend_from_slice(last);
    main.extend(arguments.iter().map(|&i| free(i)));
    if m < 2 {
        main.extend(loops(left));
    }
    calling(&functions, &main)
}

// Function 0, and as many that call the one before twice as the total has room for.
fn doubled(body: &[Statement], each: usize, k: usize, m: u8, total: usize) -> Vec<Function> {
    let functions = (1..15).take_while(|f| each << f <= total).count() + 1;
    chain(k as u8, m, body, functions, 2)
}

const EACH: usize = 28;

fn merges() -> Vec<Statement> {
    (2..2 + EACH as u8).map(merge).collect()
}

// Merges of two ends and nothing else, up to the limit.
fn all_merges(a: u8, b: u8) -> Vec<u8> {
    doubling(&merges(), EACH, &[a, b], 2, &[], LIMIT)
}

// The last merge has no path: the neighbours of location 0 are taken before it.
fn cut_off(a: u8, b: u8) -> Vec<u8> {
    let walled = [init(30, 1), init(31, 16), merge(29), free(30), free(31)];
    doubling(&merges(), EACH, &[a, b], 2, &walled, LIMIT - 5)
}

// Calls at 144 pairs of ends, 448 merges at each.
fn pairs() -> Vec<u8> {
    let functions = doubled(&merges(), EACH, 2, 2, EACH << 4);
    let at = |i: usize| {
        let (a, b) = ((i * 89 % 256) as u8, ((i * 151 + 7) % 256) as u8);
        [init(0, a), init(1, b), call(4, &[a, b], &[0, 1]), free(0), free(1)]
    };
    calling(&functions, &(0..144).flat_map(at).collect::<Vec<Statement>>())
}

// Ifs and loops around single merges.
fn ifs_and_loops(a: u8, b: u8) -> Vec<u8> {
    let one = [merge(4)];
    let body = [vec![merge(2), refer(3, 2)], vec![when(2, &one, &one); 5], vec![repeat(3, &one); 6]].concat();
    doubling(&body, EACH, &[a, b], 2, &[], LIMIT)
}

fn empty_ifs() -> Vec<u8> {
    doubling(&[vec![boolean(0, 0)], vec![when(0, &[], &[]); EACH]].concat(), EACH, &[], 0, &[], LIMIT)
}

// The document's example: function 0 is an init and a free at its parameter, main calls all 15 once and has an empty loop.
fn calls() -> Vec<u8> {
    doubling(&[init(0, 0), free(0)], 2, &[0], 0, &[], LIMIT)
}

// The same with 16 locations, eight of them arguments.
fn wide_calls() -> Vec<u8> {
    let at: Vec<u8> = (0..16).collect();
    doubling(&[init(8, 8), free(8)], 2, &at, 8, &[], LIMIT)
}

// A merge and so many gates, over and over.
fn gates(a: u8, b: u8, times: usize) -> Vec<u8> {
    doubling(&[vec![merge(2)], vec![gate(0); times]].concat(), 1, &[a, b], 2, &[], LIMIT)
}

struct Shape {
    device: &'static str,
    program: &'static str,
    files: (Vec<u8>, Vec<u8>),
    answer: u64,
}

fn shapes() -> Vec<Shape> {
    let limit = LIMIT as u64;
    let shape = |name, program, edges: &Edges, file, answer| Shape { device: name, program, files: (device(256, edges), file), answer };
    let far_merges = |name, edges: Edges| {
        let (a, b) = far(&edges);
        shape(name, "merges, far ends", &edges, all_merges(a as u8, b as u8), limit)
    };
    let on_grid = |program, file, answer| shape("grid 16x16", program, &grid(), file, answer);
    let refused = cut_off(0, 255);
    let refused_at = refused.len() as u64 - 14;
    let only_gates = only(&[vec![init(0, 0)], vec![gate(0); 1360], vec![free(0)]].concat());
    vec![
        far_merges("grid 16x16", grid()),
        far_merges("random, 1,024 edges", random()),
        far_merges("line", line()),
        far_merges("comb", comb()),
        on_grid("merges, the last has no path", refused, 21 << 32 | 17 << 40 | refused_at),
        on_grid("merges at 144 pairs of ends", pairs(), 65088),
        on_grid("merges, near ends", all_merges(0, 1), limit),
        shape("line", "merges, near ends", &line(), all_merges(0, 1), limit),
        on_grid("merges in ifs and loops, near ends", ifs_and_loops(0, 1), limit),
        on_grid("empty ifs", empty_ifs(), limit),
        on_grid("calls", calls(), limit),
        on_grid("calls with 16 locations", wide_calls(), limit),
        on_grid("calls, each a merge of near ends", gates(0, 1, 0), limit),
        on_grid("calls, each a merge of near ends and 20 gates", gates(0, 1, 20), limit),
        on_grid("calls, each a merge of near ends and 1,200 gates", gates(0, 1, 1200), limit),
        on_grid("1,360 gates, no calls", only_gates, 2),
        shape("random, 1,024 edges", "nothing", &random(), only(&[]), 0),
    ]
}

// The least time of a check in microseconds, over one, or as many as five milliseconds have room for.
fn least(side: Side, shape: &Shape) -> f64 {
    let (device, program) = &shape.files;
    let mut least = f64::MAX;
    let all = Instant::now();
    while least == f64::MAX || all.elapsed().as_millis() < 5 {
        let begun = of_thread();
        let answer = side(black_box(device), black_box(program));
        least = least.min((of_thread() - begun).as_secs_f64() * 1e6);
        assert_eq!(answer, shape.answer, "{}, {}", shape.device, shape.program);
    }
    least
}

// Small cases on which all sides must agree: program A on device G, A with a wall between its ends, and A's ends up to the limit.
fn examples() {
    let g = files::grid();
    let walled = [init(0, 0), init(1, 2), init(2, 1), init(3, 4), merge(4), free(0), free(1), free(2), free(3)];
    for (file, answer) in [(program_a(), 5), (only(&walled), 21 << 32 | 17 << 40 | 20), (all_merges(0, 2), LIMIT as u64)] {
        for side in SIDES {
            assert_eq!(side(&g, &file), answer);
        }
    }
}

fn main() {
    let arguments: Vec<String> = std::env::args().skip(1).collect();
    let rounds: usize = arguments.first().map_or(8, |x| x.parse().expect("the number of rounds"));
    let words = arguments[arguments.len().min(1)..].join(" ");
    examples();
    let mut shapes = shapes();
    shapes.retain(|shape| format!("{}, {}", shape.device, shape.program).contains(&words));
    let mut best = vec![[f64::MAX; 3]; shapes.len()];
    for round in 0..rounds {
        for (shape, best) in shapes.iter().zip(&mut best) {
            for turn in 0..3 {
                let side = (round + turn) % 3;
                best[side] = best[side].min(least(SIDES[side], shape));
            }
        }
    }
    println!("| device | program | library | plain, lists | share | plain, arrays | share |");
    println!("|--|--|--|--|--|--|--|");
    for (shape, [library, lists, arrays]) in shapes.iter().zip(best) {
        print!("| {} | {} | {library:.0} |", shape.device, shape.program);
        println!(" {lists:.0} | {:.2} | {arrays:.0} | {:.2} |", library / lists, library / arrays);
    }
}
