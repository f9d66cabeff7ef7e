//! A question to the tool: the words of a command line, the files that they name, and the library's own answer to the same question.

#![allow(dead_code)] // each test asks some of them

use abwakiris::{File, Job, Record, Records, Refusal, Told, RECORD_BYTES};
use abwakiris_desk::commands::COMMANDS;
use abwakiris_desk::json::Json;

pub struct Question {
    /// The words after `abwakiris`, without `--json`. A file goes by its name below.
    pub words: Vec<String>,
    pub files: Vec<(&'static str, Vec<u8>)>,
    pub answer: Answer,
    /// What the programs of job 1 and job 2 are called.
    programs: [&'static str; 2],
    schedule: &'static str,
}

/// What must come of it.
pub enum Answer {
    /// The library accepts. A line for machines has these members.
    Accepted(Vec<(&'static str, Json)>),
    /// The library refuses.
    Refused(Refusal),
    /// The library is not asked, and something is said.
    Plain,
    /// It cannot be tried.
    Trouble,
}

impl Answer {
    pub fn status(&self) -> u8 {
        match self {
            Answer::Accepted(_) | Answer::Plain => 0,
            Answer::Refused(_) => 1,
            Answer::Trouble => 2,
        }
    }

    fn of(answer: Result<Vec<(&'static str, Json)>, Refusal>) -> Answer {
        answer.map_or_else(Answer::Refused, Answer::Accepted)
    }
}

impl Question {
    pub fn new(words: &[&str], files: Vec<(&'static str, Vec<u8>)>, answer: Answer) -> Question {
        let words = words.iter().map(|word| word.to_string()).collect();
        Question { words, files, answer, programs: ["program"; 2], schedule: "the schedule (hex digits)" }
    }

    /// The command.
    pub fn command(&self) -> &str {
        self.words.first().map_or("", String::as_str)
    }

    /// The same with words more at the end.
    #[must_use]
    pub fn with(mut self, words: &[&str]) -> Question {
        self.words.extend(words.iter().map(|word| word.to_string()));
        self
    }

    /// The words that ask the same for machines; none where there is no such command, or help is asked for, or what it makes goes to a file.
    pub fn for_machines(&self) -> Option<Vec<String>> {
        let takes = COMMANDS.iter().any(|command| command.name == self.command());
        let is_other = self.words.iter().any(|word| word == "-o" || word == "--help");
        let words = self.words.iter().cloned();
        (takes && !is_other).then(|| words.clone().take(1).chain(["--json".to_string()]).chain(words.skip(1)).collect())
    }

    /// The name of the file that a refusal is in, as it is given here.
    pub fn name(&self, file: File) -> Option<&'static str> {
        match file {
            File::Device => Some("device"),
            File::Schedule => Some(self.schedule),
            File::Listing => Some("text"),
            File::Program(None) => Some("program"),
            File::Program(Some(job)) => Some(self.programs[usize::from(job.number()) - 1]),
            _ => None,
        }
    }
}

/// `--job N`, which is left out for job 1.
fn for_job(job: u64) -> Vec<String> {
    if job == 1 {
        vec![]
    } else {
        vec!["--job".to_string(), job.to_string()]
    }
}

fn of_check(command: &str, device: &[u8], program: &[u8], job: u64) -> Question {
    let counted = Job::try_from(job).and_then(|job| abwakiris::check(device, program, job));
    let answer = Answer::of(counted.map(|counted| vec![("job", job.into()), ("count", counted.count.into()), ("live", counted.live.into())]));
    let mut question = Question::new(&[command, "device", "program"], vec![("device", device.to_vec()), ("program", program.to_vec())], answer);
    question.words.extend(for_job(job));
    question
}

pub fn check(device: &[u8], program: &[u8], job: u64) -> Question {
    of_check("check", device, program, job)
}

pub fn why(device: &[u8], program: &[u8], job: u64) -> Question {
    of_check("why", device, program, job)
}

/// The route between two locations, some others being occupied.
pub fn route(device: &[u8], from: u64, to: u64, job: u64, occupied: &[usize]) -> Question {
    let mut occupancy = vec![0; abwakiris::locations(device).unwrap_or(0)];
    for &location in occupied {
        occupancy[location] = 1;
    }
    let mut buffer = [0; abwakiris::MOST_LOCATIONS];
    let found = Job::try_from(job).and_then(|job| abwakiris::route(device, job, &occupancy, from, to, &mut buffer));
    let answer = Answer::of(found.map(|length| vec![("job", job.into()), ("route", Json::list(buffer[..length].iter().copied()))]));
    let mut question = Question::new(&["route", "device", &from.to_string(), &to.to_string()], vec![("device", device.to_vec())], answer);
    question.words.extend(for_job(job));
    if occupied.is_empty() {
        return question;
    }
    let list: Vec<String> = occupied.iter().map(usize::to_string).collect();
    question.with(&["--occupied", &list.join(",")])
}

/// What a job of a run has: a program, or none.
fn programs<'a>(first: Option<&'a [u8]>, second: Option<&'a [u8]>) -> [(&'static str, Option<&'a [u8]>); 2] {
    [(first.map_or("none", |_| "first"), first), (second.map_or("none", |_| "second"), second)]
}

/// The answer to a run.
fn ran(device: &[u8], programs: [Option<&[u8]>; 2], schedule: &[u8]) -> Answer {
    let [first, second] = programs.map(|program| program.unwrap_or(b"QLS\0\x01\0\0\0"));
    let mut records = vec![0; RECORD_BYTES * schedule.len()];
    let mut map = vec![0; abwakiris::locations(device).unwrap_or(0)];
    let moved = abwakiris::run(device, first, second, schedule, &mut records, &mut map);
    let steps = || Json::list(Records::new(&records).map(step));
    Answer::of(moved.map(|moved| vec![("moved", Json::list([moved.first, moved.second])), ("map", Json::list(map)), ("steps", steps())]))
}

/// What a line for machines has of a step, by its record.
fn step(record: Record) -> Json {
    let (told, number) = match record.told {
        Told::Moved => ("moved", None),
        Told::Finished => ("finished", None),
        Told::Stuck(number) => ("stuck", Some(number.number())),
    };
    Json::object([("told", told.into()), ("number", number.into()), ("edges", record.edges.into()), ("offset", record.offset.into())])
}

/// A run under a schedule in hex digits on the command line.
pub fn run(device: &[u8], first: Option<&[u8]>, second: Option<&[u8]>, schedule: &[u8]) -> Question {
    let words = ["run", "device", programs(first, second)[0].0, programs(first, second)[1].0, &spaced(schedule)];
    let mut question = Question::new(&words, vec![("device", device.to_vec())], ran(device, [first, second], schedule));
    question.lend(first, second);
    question
}

/// The same under a schedule in a file that has these bytes.
pub fn run_by_file(device: &[u8], first: Option<&[u8]>, second: Option<&[u8]>, schedule: &[u8], file: &[u8]) -> Question {
    let mut question = run(device, first, second, schedule);
    question.words[4] = "schedule".to_string();
    question.files.push(("schedule", file.to_vec()));
    question.schedule = if file == schedule { "schedule (bytes)" } else { "schedule (hex digits)" };
    question
}

/// The device after a run.
pub fn show_run(device: &[u8], first: Option<&[u8]>, second: Option<&[u8]>, schedule: &[u8]) -> Question {
    let words = ["show", "device", programs(first, second)[0].0, programs(first, second)[1].0, "--run", &spaced(schedule)];
    let mut question = Question::new(&words, vec![("device", device.to_vec())], Answer::Plain);
    question.answer = match ran(device, [first, second], schedule) {
        Answer::Accepted(_) => Answer::Accepted(vec![]),
        refused => refused,
    };
    question.lend(first, second);
    question
}

impl Question {
    fn lend(&mut self, first: Option<&[u8]>, second: Option<&[u8]>) {
        for (name, program) in programs(first, second) {
            self.files.extend(program.map(|program| (name, program.to_vec())));
        }
        self.programs = ["first", "second"];
    }
}

/// Bytes in hex, two digits a byte, with spaces between.
pub fn spaced(bytes: &[u8]) -> String {
    let words: Vec<String> = bytes.iter().map(|byte| format!("{byte:02x}")).collect();
    words.join(" ")
}

pub fn list(program: &[u8]) -> Question {
    let line = |line: &str| Json::object([("text", line.into())]);
    let answer = Answer::of(abwakiris::write_listing(program).map(|text| vec![("lines", Json::list(text.lines().map(line)))]));
    Question::new(&["list", "program"], vec![("program", program.to_vec())], answer)
}

pub fn unlist(text: &[u8]) -> Question {
    let answer = Answer::of(abwakiris::read_listing(text).map(|program| vec![("hex", spaced(&program).replace(' ', "").into())]));
    Question::new(&["unlist", "text"], vec![("text", text.to_vec())], answer)
}

pub fn show(device: &[u8]) -> Question {
    let answer = Answer::of(abwakiris::read_device(device).map(|()| vec![]));
    Question::new(&["show", "device"], vec![("device", device.to_vec())], answer)
}

/// The device and the region of a job.
pub fn show_for(device: &[u8], job: u64) -> Question {
    let mut question = show(device);
    if let Err(refusal) = Job::try_from(job) {
        question.answer = Answer::Refused(refusal);
    }
    question.with(&["--job", &job.to_string()])
}

pub fn bundle(device: &[u8], program: &[u8]) -> Question {
    Question::new(&["bundle", "device", "program"], vec![("device", device.to_vec()), ("program", program.to_vec())], Answer::Plain)
}
