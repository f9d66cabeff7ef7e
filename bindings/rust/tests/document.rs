//! The document's examples through the safe calls.

#[path = "../src/exports.rs"]
mod exports;

use abwakiris::{check, locations, read_device, read_program, route, run};
use abwakiris::{Counted, File, Job, Moved, Number, Record, Records, Refusal, Schedule, Told, MOST_LIVE, RECORD_BYTES};

/// Device G: 2 rows of 3 locations, all owned by job 1.
const G: &[u8] = b"QLG\x00\x01\x00\x06\x00\x07\x01\x01\x01\x01\x01\x01\x00\x01\x00\x03\x01\x02\x01\x04\x02\x05\x03\x04\x04\x05";

const EMPTY: &[u8] = b"QLS\x00\x01\x00\x00\x00";

/// Program A: inits at 0 and 2, a merge of both, two frees.
const A: &[u8] = b"QLS\x00\x01\x00\x00\x10\x01\x00\x00\x01\x01\x02\x06\x02\x00\x00\x00\x01\x03\x00\x03\x01";

const OF_ONE: File = File::Program(Some(Job::ONE));
const OF_TWO: File = File::Program(Some(Job::TWO));

/// A program without functions, from main's statements.
fn program(main: &[u8]) -> Vec<u8> {
    [b"QLS\x00\x01\x00\x00", &[main.len() as u8][..], main].concat()
}

fn no(number: Number, place: u32, file: File) -> Refusal {
    Refusal { number, place, file }
}

#[test]
fn readers() {
    assert_eq!(read_device(G), Ok(()));
    assert_eq!(locations(G), Ok(6));
    assert_eq!(read_device(&[]), Err(no(Number::FileTooShort, 0, File::Device)));
    assert_eq!(locations(&[]), Err(no(Number::FileTooShort, 0, File::Device)));
    assert_eq!(read_device(&[G, &[0]].concat()), Err(no(Number::DeviceLength, 0, File::Device)));
    assert_eq!(read_program(A), Ok(()));
    assert_eq!(read_program(&[EMPTY, &[0]].concat()), Err(no(Number::Fit, 8, File::Program(None))));
}

/// A device of so many locations without an edge has as many as its header says.
#[test]
fn numbers_of_locations() {
    for n in [1, 2, 255, 256] {
        let device = [b"QLG\x00\x01", &(n as u16).to_be_bytes()[..], &[0, 0], &vec![1; n]].concat();
        assert_eq!(locations(&device), Ok(n));
        assert_eq!(read_device(&device), Ok(()));
    }
    assert_eq!(locations(b"QLG\x00\x01\x00\x00\x00\x00"), Err(no(Number::Limit, 5, File::Device)));
}

fn counted(count: u16, live: u16) -> Result<Counted, Refusal> {
    Ok(Counted { count, live })
}

#[test]
fn checks() {
    assert_eq!(check(G, EMPTY, Job::ONE), counted(0, 0));
    assert_eq!(check(G, EMPTY, Job::TWO), counted(0, 0));
    assert_eq!(check(G, A, Job::ONE), counted(5, 0));
    assert_eq!(check(G, &program(&A[8..22]), Job::ONE), counted(4, 1));
    assert_eq!(check(G, A, Job::TWO), Err(no(Number::OutsideRegion, 8, OF_TWO)));
    assert_eq!(check(G, &[EMPTY, &[0]].concat(), Job::ONE), Err(no(Number::Fit, 8, OF_ONE)));
    let outlives = program(&[13, 0, 1, 7, 1, 0, 11, 1, 0, 3, 1, 2, 0]); // a loop that does not free what it makes
    assert_eq!(check(G, &outlives, Job::ONE), Err(no(Number::QubitOutlives, 16, OF_ONE)));
    let walled = [1, 0, 0, 1, 1, 2, 1, 2, 1, 1, 3, 4, 6, 4, 0, 0, 0, 1, 3, 0, 3, 1, 3, 2, 3, 3];
    assert_eq!(check(G, &program(&walled), Job::ONE), Err(no(Number::NoPath, 20, OF_ONE)));
    assert_eq!(check(G, A, Job::TWO).unwrap_err().to_string(), "13: location outside the region (at 8 in the program of job 2)");
}

/// A qubit in every slot, on a device of as many locations; in a run they stay where they are.
#[test]
fn left_live() {
    let most = MOST_LIVE as u8;
    let device = [b"QLG\x00\x01\x00", &[most, 0, 0][..], &vec![1; MOST_LIVE as usize]].concat();
    let every = program(&(0..most).flat_map(|i| [1, i, i]).collect::<Vec<u8>>());
    assert_eq!(check(&device, &every, Job::ONE), counted(32, 32));
    let schedule = Schedule::new().step(Job::ONE, false).repeat(33);
    let (mut records, mut map) = (vec![0; RECORD_BYTES * schedule.len()], vec![0; locations(&device).unwrap()]);
    assert_eq!(run(&device, &every, EMPTY, &schedule, &mut records, &mut map), Ok(Moved { first: 32, second: 0 }));
    assert_eq!(Records::new(&records).next_back().unwrap().told, Told::Finished);
    assert_eq!(map, [1; 32]);
}

/// A number that is no job is refused before a call just as the call refuses it; the whole number counts.
#[test]
fn numbers_that_are_no_job() {
    for number in [0, 3, 257, 1 << 32 | 1, u64::MAX] {
        let refusal = Job::try_from(number).unwrap_err();
        assert_eq!(refusal, no(Number::Job, 0, File::NoFile));
        let packed = u64::from(refusal.place) | u64::from(refusal.number.number()) << 32;
        let mut buffer = [0xAA; 6];
        let (checked, routed) = unsafe {
            (
                exports::abwakiris_check(G.as_ptr(), G.len(), A.as_ptr(), A.len(), number),
                exports::abwakiris_route(G.as_ptr(), G.len(), number, [0; 6].as_ptr(), 6, 0, 2, buffer.as_mut_ptr(), buffer.len()),
            )
        };
        assert_eq!((checked, routed), (packed, packed));
        assert_eq!(buffer, [0xAA; 6]);
    }
}

#[test]
fn ends_that_are_no_location() {
    let mut buffer = [0xAA; 6];
    assert_eq!(route(G, Job::ONE, &[0; 6], 0, 256, &mut buffer), Err(no(Number::OutsideRegion, 1, File::NoFile)));
    assert_eq!(route(G, Job::ONE, &[0; 6], 1 << 32, 0, &mut buffer), Err(no(Number::OutsideRegion, 0, File::NoFile)));
    assert_eq!(buffer, [0xAA; 6]);
}

#[test]
fn routes() {
    let mut buffer = [0xAA; 6];
    assert_eq!(route(G, Job::ONE, &[0; 6], 0, 2, &mut buffer), Ok(3));
    assert_eq!(buffer, [0, 1, 2, 0xAA, 0xAA, 0xAA]);
    assert_eq!(route(G, Job::ONE, &[0, 1, 0, 0, 0, 0], 0, 2, &mut buffer), Ok(5));
    assert_eq!(buffer, [0, 3, 4, 5, 2, 0xAA]);
    assert_eq!(route(G, Job::ONE, &[0, 1, 0, 0, 1, 0], 0, 2, &mut buffer), Err(no(Number::NoPath, 0, File::NoFile)));
    assert_eq!(route(G, Job::ONE, &[0, 1, 0, 0, 0, 0], 0, 2, &mut buffer[..4]), Err(no(Number::BufferTooShort, 0, File::NoFile)));
    assert_eq!(route(G, Job::ONE, &[0; 5], 0, 2, &mut []), Err(no(Number::OccupancyLength, 0, File::NoFile)));
    assert_eq!(buffer, [0, 3, 4, 5, 2, 0xAA]);
}

#[test]
fn runs() {
    let (mut records, mut map) = ([0xAA; 17], [0xAA; 7]);
    let moved = run(G, A, EMPTY, &[0x10, 0x10, 0x20, 0x10], &mut records, &mut map);
    assert_eq!(moved, Ok(Moved { first: 3, second: 0 }));
    assert_eq!(records[..16], [0, 0, 0, 0x08, 0, 0, 0, 0x0B, 1, 0, 0xFF, 0xFF, 0, 2, 0, 0x0E]);
    assert_eq!(map[..6], [1, 0, 1, 0, 0, 0]);
    assert_eq!((records[16], map[6]), (0xAA, 0xAA));
    let refused = run(G, A, EMPTY, &[0x10, 0x12], &mut records, &mut map);
    assert_eq!(refused, Err(no(Number::ScheduleByte, 1, File::Schedule)));
    let refused = run(G, A, &EMPTY[..7], &[], &mut records, &mut map);
    assert_eq!(refused, Err(no(Number::FileTooShort, 0, OF_TWO)));
}

/// The same run by a schedule that is built and records that are taken apart.
#[test]
fn run_by_steps() {
    let schedule = Schedule::new().step(Job::ONE, false).repeat(2).step(Job::TWO, false).step(Job::ONE, false);
    let (mut records, mut map) = (vec![0; RECORD_BYTES * schedule.len()], vec![0; locations(G).unwrap()]);
    assert_eq!(run(G, A, EMPTY, &schedule, &mut records, &mut map), Ok(Moved { first: 3, second: 0 }));
    let moved = |edges, offset| Record { told: Told::Moved, edges, offset: Some(offset) };
    let finished = Record { told: Told::Finished, edges: 0, offset: None };
    assert_eq!(Records::new(&records).collect::<Vec<_>>(), [moved(0, 8), moved(0, 11), finished, moved(2, 14)]);
    assert_eq!(map, [1, 0, 1, 0, 0, 0]);
}

/// The second job owns nothing, so its init is stuck, with the number that the check gives.
#[test]
fn stuck() {
    let (mut records, mut map) = ([0; 4], [0; 6]);
    assert_eq!(run(G, EMPTY, A, &Schedule::new().step(Job::TWO, true), &mut records, &mut map), Ok(Moved { first: 0, second: 0 }));
    let record = Records::new(&records).next().unwrap();
    assert_eq!(record, Record { told: Told::Stuck(Number::OutsideRegion), edges: 0, offset: Some(8) });
}
