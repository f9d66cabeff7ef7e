//! Generated calls of every kind: whatever is refused is put into words without a panic, and the walks of the tool come to the library's number and place.

use crate::generator::{self, Case, Random};
use crate::named;
use abwakiris::{check, read_device, read_listing, read_program, route, run, write_listing, File, Job, Refusal};
use abwakiris_desk::device::Device;
use abwakiris_desk::explain::{explained, typing, Explained, Given};
use abwakiris_desk::program::Program;

const CASES: u64 = 8_000;
const TEXTS: u64 = 60;
const SEED: u64 = 15;

/// What a call was given and why it was refused, in words; none where it was not.
fn refused(case: &Case) -> Option<Explained> {
    match case {
        Case::ReadDevice { device } => {
            let device = named("device", device);
            let refusal = read_device(&device.bytes).err()?;
            Some(explained(refusal, &Given { device: Some(&device), ..Given::default() }))
        }
        Case::ReadProgram { program } | Case::WriteListing { program, .. } => {
            let program = named("program", program);
            let refusal = read_program(&program.bytes).err()?;
            assert_eq!(write_listing(&program.bytes), Err(refusal));
            Some(explained(refusal, &Given { programs: [Some(&program), None], ..Given::default() }))
        }
        Case::ReadListing { text, .. } => {
            let text = named("text", text);
            let refusal = read_listing(&text.bytes).err()?;
            Some(explained(refusal, &Given { text: Some(&text), ..Given::default() }))
        }
        Case::Check { device, program, job, .. } => checked(device, program, *job),
        Case::Route { device, job, occupancy, first, second, buffer } => routed(device, *job, occupancy, [*first, *second], buffer.len()),
        Case::Run { device, one, two, schedule, records, map } => {
            let (device, one, two, schedule) = (named("device", device), named("one", one), named("two", two), named("schedule", schedule));
            let (mut records, mut map) = (records.clone(), map.clone());
            let refusal = run(&device.bytes, &one.bytes, &two.bytes, &schedule.bytes, &mut records, &mut map).err()?;
            Some(explained(refusal, &Given { device: Some(&device), programs: [Some(&one), Some(&two)], schedule: Some(&schedule), ..Given::default() }))
        }
    }
}

fn no_job(number: u64, refusal: Refusal) -> Explained {
    explained(refusal, &Given { job_number: Some(number), ..Given::default() })
}

fn checked(device: &[u8], program: &[u8], number: u64) -> Option<Explained> {
    let (device, program) = (named("device", device), named("program", program));
    let job = match Job::try_from(number) {
        Ok(job) => job,
        Err(refusal) => return Some(no_job(number, refusal)),
    };
    let answer = check(&device.bytes, &program.bytes, job);
    agrees(&device.bytes, &program.bytes, job, answer.err());
    let mut programs = [None; 2];
    programs[usize::from(job.number()) - 1] = Some(&program);
    Some(explained(answer.err()?, &Given { device: Some(&device), programs, job: Some(job), ..Given::default() }))
}

/// The walk over typing refuses where the library's typing does, with the same number and place, and nowhere else.
fn agrees(device: &[u8], program: &[u8], job: Job, refusal: Option<Refusal>) {
    if let (Ok(device), Ok(program)) = (Device::read(device), Program::read(program)) {
        let of_typing = refusal.filter(|refusal| (11..=19).contains(&refusal.number.number()));
        let found = typing::at_refusal(&device, &program, job);
        let found = found.map(|found| (found.why.number(), found.place as u32));
        assert_eq!(found, of_typing.map(|refusal| (refusal.number.number(), refusal.place)));
    }
}

fn routed(device: &[u8], number: u64, occupancy: &[u8], ends: [u64; 2], length: usize) -> Option<Explained> {
    let device = named("device", device);
    let job = match Job::try_from(number) {
        Ok(job) => job,
        Err(refusal) => return Some(no_job(number, refusal)),
    };
    let refusal = route(&device.bytes, job, occupancy, ends[0], ends[1], &mut vec![0; length]).err()?;
    Some(explained(refusal, &Given { device: Some(&device), job: Some(job), ends: Some(ends), ..Given::default() }))
}

#[test]
fn whatever_is_refused() {
    let (mut times, mut checks) = ([0; 28], 0);
    for index in 0..CASES {
        let case = generator::case(&mut Random::new(SEED, index));
        checks += u64::from(matches!(case, Case::Check { .. }));
        if let Some(explained) = refused(&case) {
            let (text, json) = (explained.text(), explained.json().to_string());
            times[usize::from(explained.refusal.number.number())] += 1;
            whole(&explained, &text, &json, index);
        }
    }
    let missing: Vec<usize> = (1..28).filter(|&number| times[number] == 0).collect();
    assert!(missing.is_empty(), "no case is refused by {missing:?}");
    assert!(checks > CASES / 4, "only {checks} of the cases are checks");
}

/// All that is to be said is there.
fn whole(explained: &Explained, text: &str, json: &str, index: u64) {
    let number = explained.refusal.number.number();
    assert!(explained.asked.is_some() && explained.mend.is_some(), "case {index} has no words of its own:\n{text}");
    assert!(!explained.found.is_empty() || number == 24, "case {index} has nothing found:\n{text}");
    assert!(text.is_ascii() && json.is_ascii() && text.ends_with('\n') && !json.contains('\n'), "case {index}:\n{text}");
    let notes = [&explained.asked, &explained.mend].map(|note| note.clone().unwrap_or_default());
    assert!(notes.iter().all(|note| !note.contains('{')), "case {index} has a word that is not filled in:\n{text}");
    assert!(text.lines().all(|line| line.len() < 400 && !line.ends_with(' ')), "case {index}:\n{text}");
    let in_file = explained.refusal.file != File::NoFile;
    assert!(!in_file || text.contains(&format!(":{}", explained.refusal.place)), "case {index} has no place:\n{text}");
}

/// Texts that stand beside a listing in one way or another: of each that is none the tool says what is wrong.
#[test]
fn texts_that_are_no_listing() {
    let mut times = 0;
    for index in 0..TEXTS {
        for text in &generator::listing_case(&mut Random::new(SEED, index)).texts {
            let text = named("text", text);
            if let Err(refusal) = read_listing(&text.bytes) {
                let explained = explained(refusal, &Given { text: Some(&text), ..Given::default() });
                whole(&explained, &explained.text(), &explained.json().to_string(), index);
                times += 1;
            }
        }
    }
    assert!(times > 1_000, "only {times} texts are refused");
}
