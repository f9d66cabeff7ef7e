//! Questions asked in this process: what a command line says, without starting the tool.

use crate::faults::Faults;
use crate::machine_line;
use crate::question::{Answer, Question};
use crate::scratch::Scratch;
use abwakiris_desk::args::{taken, Taken};
use abwakiris_desk::said::{Said, Trouble};
use std::ffi::OsString;
use std::panic::{catch_unwind, AssertUnwindSafe};

/// A folder for the files of the questions.
pub struct Here {
    scratch: Scratch,
}

/// The names that files go by in a question.
const NAMES: [&str; 8] = ["device", "program", "first", "second", "schedule", "text", "picture.svg", "page.html"];

impl Here {
    pub fn new(name: &str) -> Here {
        Here { scratch: Scratch::new(name) }
    }

    /// Asks for people and for machines. Panics where an answer is wrong, and says what was asked: which case, and the files as they were left.
    pub fn try_all(&self, what: &str, questions: Vec<Question>) {
        for question in questions {
            let faults = self.faults(&question);
            if !faults.0.is_empty() {
                let files: Vec<String> = question.files.iter().map(|(name, bytes)| format!("{name}: {}", crate::question::spaced(bytes))).collect();
                panic!("{what}: {:?}\n  {}\nwith\n  {}", question.words, faults.0.join("\n  "), files.join("\n  "));
            }
        }
    }

    fn faults(&self, question: &Question) -> Faults {
        let mut faults = Faults::default();
        for (name, bytes) in &question.files {
            std::fs::write(self.scratch.path().join(name), bytes).expect("a file of the question");
        }
        if let Some(said) = self.said(&question.words, &mut faults) {
            faults.same("status", question.answer.status(), status(&said));
            first_line(question, &said, &mut faults);
        }
        if let Some(said) = question.for_machines().and_then(|words| self.said(&words, &mut faults)) {
            faults.same("status with --json", question.answer.status(), status(&said));
            if let Ok(said) = said {
                machine_line::value(question, &said.out, &mut faults);
            }
        }
        faults
    }

    /// What a command line says; none where it panics.
    fn said(&self, words: &[String], faults: &mut Faults) -> Option<Result<Said, Trouble>> {
        let here = |word: &String| {
            if NAMES.contains(&word.as_str()) {
                self.scratch.path().join(word).into_os_string()
            } else {
                OsString::from(word)
            }
        };
        let words: Vec<OsString> = words.iter().map(here).collect();
        let said = catch_unwind(AssertUnwindSafe(|| match taken(words)? {
            Taken::Help(page) => Ok(Said::accepted(page)),
            Taken::Asked(asked) => (asked.command.does)(&asked),
        }));
        faults.unless(said.is_ok(), || "it panicked".to_string());
        said.ok()
    }
}

fn status(said: &Result<Said, Trouble>) -> u8 {
    said.as_ref().map_or(2, |said| u8::from(!said.accepted))
}

/// A refusal for people begins with its number and its words.
fn first_line(question: &Question, said: &Result<Said, Trouble>, faults: &mut Faults) {
    if let (Answer::Refused(refusal), Ok(said)) = (&question.answer, said) {
        let first = format!("refused {}: {}\n", refusal.number.number(), refusal.number.words());
        faults.unless(said.out.starts_with(first.as_bytes()), || format!("it should begin with {first:?}"));
    }
}
