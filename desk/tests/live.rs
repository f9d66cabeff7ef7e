//! The qubits that are left live, on generated programs: as many as the library says, made by lines that make them, and at the locations that the job occupies
//! when it has finished in a run.

#[path = "parts/repository.rs"]
mod repository;

use abwakiris::{check, locations, run, Counted, Job, Records, Told, MOST_STEPS, RECORD_BYTES};
use abwakiris_desk::program::Program;
use abwakiris_desk::why::live::{live, Live};
use generator::{Case, Random};
use repository::{generator, library, reference};

const CASES: u64 = 12_000;
const SEED: u64 = 16;

/// The locations that the job occupies after as many steps of it alone as a schedule has, each with this outcome; none where it has not finished then.
fn occupied(device: &[u8], program: &[u8], job: Job, outcome: u8) -> Option<Vec<usize>> {
    let empty = Program::empty().bytes;
    let programs = if job == Job::ONE { [program, &empty] } else { [&empty, program] };
    let schedule = [16 * job.number() + outcome; MOST_STEPS];
    let (mut records, mut map) = (vec![0; RECORD_BYTES * schedule.len()], vec![0; locations(device).unwrap()]);
    run(device, programs[0], programs[1], &schedule, &mut records, &mut map).unwrap();
    let finished = Records::new(&records).next_back().unwrap().told == Told::Finished;
    finished.then(|| (0..map.len()).filter(|&location| map[location] == job.number()).collect())
}

/// Each line that may have made a qubit is its init, or a call that is given it.
fn made_there(program: &[u8], qubit: &Live) {
    let listing = Program::read(program).unwrap().listing;
    assert!(!qubit.lines.is_empty());
    for &line in &qubit.lines {
        let (text, (slot, location)) = (listing.text(line), (qubit.slot, qubit.location));
        let call = || text.starts_with("call ") && text.split(" with ").nth(1).map_or(false, |slots| slots.split(' ').any(|word| word == slot.to_string()));
        let is_init = text == format!("init {slot} {location}") || text == format!("magic {slot} {location}");
        assert!(is_init || call(), "{text} does not make the qubit in slot {slot} at {location}");
    }
}

/// The locations of the qubits that are left live, rising.
fn left(device: &[u8], program: &[u8], job: Job, counted: Counted) -> Vec<usize> {
    let left = live(device, program, job, counted);
    assert_eq!(left.len(), usize::from(counted.live));
    assert!(left.windows(2).all(|pair| pair[0].slot < pair[1].slot));
    left.iter().for_each(|qubit| made_there(program, qubit));
    let mut locations: Vec<usize> = left.iter().map(|qubit| qubit.location).collect();
    locations.sort_unstable();
    locations
}

/// The generated checks that are accepted: device, program and job, and the library's answer.
fn accepted() -> impl Iterator<Item = (Vec<u8>, Vec<u8>, Job, Counted)> {
    (0..CASES).filter_map(|index| match generator::case(&mut Random::new(SEED, index)) {
        Case::Check { device, program, job, .. } => {
            let job = Job::try_from(job).ok()?;
            let counted = check(&device, &program, job).ok()?;
            Some((device, program, job, counted))
        }
        _ => None,
    })
}

#[test]
fn generated() {
    let (mut some, mut finished) = (0, 0);
    for (device, program, job, counted) in accepted() {
        let left = left(&device, &program, job, counted);
        some += usize::from(!left.is_empty());
        for occupied in [0, 1].into_iter().filter_map(|outcome| occupied(&device, &program, job, outcome)) {
            assert_eq!(occupied, left);
            finished += usize::from(!left.is_empty());
        }
    }
    assert!(some > 200 && finished > 200, "only {some} programs leave a qubit live, and {finished} runs of them finish");
}

/// Where the walk comes to another number than the library, nothing is said.
#[test]
fn another_number() {
    let (device, program) = (include_bytes!("../../samples/device-g"), include_bytes!("../../samples/program-live"));
    assert_eq!(live(device, program, Job::ONE, Counted { count: 4, live: 1 }), [Live { slot: 1, location: 2, lines: vec![4] }]);
    assert_eq!(live(device, program, Job::ONE, Counted { count: 4, live: 2 }), []);
    assert_eq!(live(device, program, Job::ONE, Counted { count: 4, live: 0 }), []);
    assert_eq!(live(device, b"", Job::ONE, Counted { count: 4, live: 1 }), []);
}
