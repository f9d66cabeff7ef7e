//! Eight threads in the library at once: each goes over the same generated calls ten times, beginning at another place, and must find every answer and
//! every byte of every buffer as one thread alone found them.

mod generator;
mod library;
mod reference;

use generator::{Case, Random};
use library::{Call, Outcome, EMPTY};
use std::sync::Barrier;
use std::thread;

const THREADS: usize = 8;
const CASES: usize = 2_000;
const ROUNDS: usize = 10;
const SEED: u64 = 8;
const EXPORTS: usize = 7;

/// The outcome of call i of the list; or what it touched that was not its own.
fn outcome(calls: &[Call], i: usize) -> Result<Outcome, String> {
    calls[i].perform(EMPTY[i % EMPTY.len()]).map(|(outcome, _)| outcome)
}

/// Goes over the list in rounds, the first call after the last one. Gives the calls that did not come out as they did alone.
fn different(calls: &[Call], alone: &[Outcome], first: usize) -> Vec<usize> {
    let around = (0..calls.len()).cycle().skip(first).take(ROUNDS * calls.len());
    around.filter(|&i| outcome(calls, i).as_ref() != Ok(&alone[i])).collect()
}

fn main() {
    let cases: Vec<Case> = (0..CASES).map(|i| generator::case(&mut Random::new(SEED, i as u64))).collect();
    let calls: Vec<Call> = cases.iter().map(Case::call).collect();
    let mut of_export = [0; EXPORTS];
    for call in &calls {
        of_export[call.export as usize] += 1;
    }
    assert!(of_export.iter().all(|&count| count > 0), "every export is called");
    let alone: Vec<Outcome> = (0..CASES).map(|i| outcome(&calls, i).expect("nothing else is touched")).collect();
    let start = Barrier::new(THREADS);
    let found: Vec<Vec<usize>> = thread::scope(|scope| {
        let go = |first: usize| {
            start.wait();
            different(&calls, &alone, first)
        };
        let threads: Vec<_> = (0..THREADS).map(|t| scope.spawn(move || go(t * CASES / THREADS))).collect();
        threads.into_iter().map(|thread| thread.join().expect("a thread that ends")).collect()
    });
    let mut wrong = 0;
    for (t, calls) in found.iter().enumerate() {
        if let Some(i) = calls.first() {
            println!("threads, thread {t}: {} calls came out otherwise than alone, the first is case {i} of seed {SEED}", calls.len());
        }
        wrong += calls.len();
    }
    let [device, program, check, route, run, list, unlist] = of_export;
    let each = format!("{device} read_device, {program} read_program, {check} check, {route} route, {run} run, {list} list, {unlist} unlist");
    println!("threads: {THREADS} threads, each {ROUNDS} times {CASES} calls ({each}), {wrong} different");
    std::process::exit(if wrong == 0 { 0 } else { 1 })
}
