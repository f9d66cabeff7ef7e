//! Refusals in words: what a person sees and what a machine reads, for each number.

#[path = "explained/generated.rs"]
mod generated;
#[path = "explained/numbers.rs"]
mod numbers;
#[path = "explained/page.rs"]
mod page;
#[path = "parts/repository.rs"]
mod repository;

use abwakiris::{check, read_listing, route, run, Job, Refusal};
use abwakiris_desk::explain::{explained, Explained, Given};
use abwakiris_desk::input::Named;
use repository::{files, generator, library, reference};

fn named(name: &str, bytes: &[u8]) -> Named {
    Named { name: name.to_string(), bytes: bytes.to_vec() }
}

/// A refusal as it is shown.
struct Seen(Explained);

impl Seen {
    /// It is this number at this place, and these words stand in the text; those that are found and asked stand in the JSON too.
    fn is(&self, number: u8, place: u32, words: &[&str]) -> &Seen {
        let (text, json) = (self.0.text(), self.0.json().to_string());
        assert_eq!((self.0.refusal.number.number(), self.0.refusal.place), (number, place), "{text}");
        assert!(text.starts_with(&format!("refused {number}: {}\n", self.0.refusal.number.words())), "{text}");
        assert!(json.starts_with(&format!("{{\"number\":{number},\"words\":\"{}\",\"place\":{place},", self.0.refusal.number.words())), "{json}");
        for word in words {
            assert!(text.contains(word), "there is no\n{word}\nin\n{text}");
        }
        for note in [&self.0.asked, &self.0.mend].into_iter().flatten().chain(&self.0.found) {
            assert!(text.contains(note.as_str()), "there is no\n{note}\nin\n{text}");
            let quoted = abwakiris_desk::json::Json::from(note.as_str()).to_string();
            assert!(json.contains(&quoted), "there is no\n{quoted}\nin\n{json}");
        }
        self
    }

    /// The line of the listing or of the text, as a machine reads it.
    fn on_line(&self, number: usize, statement: &str) {
        assert_eq!((self.0.line, self.0.statement.as_deref()), (Some(number), Some(statement)));
        let json = self.0.json().to_string();
        assert!(json.contains(&format!("\"line\":{number},\"text\":\"{statement}\",")), "{json}");
    }
}

/// A check that is refused.
fn checked(device: &[u8], program: &[u8], job: u64) -> Seen {
    let (device, program) = (named("samples/device-g", device), named("program-walled", program));
    let job = match Job::try_from(job) {
        Ok(job) => job,
        Err(refusal) => return Seen(explained(refusal, &Given { job_number: Some(job), ..Given::default() })),
    };
    let refusal = check(&device.bytes, &program.bytes, job).unwrap_err();
    let mut programs = [None; 2];
    programs[usize::from(job.number()) - 1] = Some(&program);
    Seen(explained(refusal, &Given { device: Some(&device), programs, job: Some(job), ..Given::default() }))
}

/// A text that is no listing.
fn listed(text: &[u8]) -> Seen {
    let text = named("text", text);
    Seen(explained(read_listing(&text.bytes).unwrap_err(), &Given { text: Some(&text), ..Given::default() }))
}

/// A route that is refused, with these locations occupied.
fn routed(device: &[u8], job: u64, occupied: &[usize], ends: [u64; 2]) -> Seen {
    let device = named("device", device);
    let job = Job::try_from(job).unwrap();
    let mut occupancy = vec![0; abwakiris::locations(&device.bytes).unwrap()];
    occupied.iter().for_each(|&location| occupancy[location] = 1);
    let refusal = route(&device.bytes, job, &occupancy, ends[0], ends[1], &mut [0; 256]).unwrap_err();
    Seen(explained(refusal, &Given { device: Some(&device), job: Some(job), ends: Some(ends), ..Given::default() }))
}

/// A run that is refused.
fn ran(programs: [&[u8]; 2], schedule: &[u8]) -> Seen {
    let (device, one, two, schedule) = (named("device", &files::grid()), named("one", programs[0]), named("two", programs[1]), named("schedule", schedule));
    let mut records = vec![0; 4 * schedule.bytes.len()];
    let refusal = run(&device.bytes, &one.bytes, &two.bytes, &schedule.bytes, &mut records, &mut [0; 6]).unwrap_err();
    Seen(explained(refusal, &Given { device: Some(&device), programs: [Some(&one), Some(&two)], schedule: Some(&schedule), ..Given::default() }))
}

/// A refusal of which nothing more is known.
fn alone(refusal: Refusal) -> Seen {
    Seen(explained(refusal, &Given::default()))
}
