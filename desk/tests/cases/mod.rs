//! The cases: command lines, the files that they need, and facts that their outputs must have.
//!
//! The facts come from the documents: the number and the place of a refusal from `docs/FORMAT.md` and `docs/listing.md`, the words from what each number must
//! tell. Files are built out of their parts, by `tests/files.rs` and by `given.rs`.

mod bundle;
mod check;
mod count_and_paths;
mod device_files;
mod given;
mod help;
mod listings;
mod program_files;
mod refusal;
mod route;
mod run;
mod show;
mod typing;
mod usage;
mod why;

use crate::question::{Answer, Question};
use std::path::Path;

/// Command lines in a folder of their own. What they come to is stored under the name.
pub struct Case {
    pub name: &'static str,
    pub lines: Vec<Line>,
}

pub struct Line {
    pub question: Question,
    /// The number and the place that the documents give.
    pub refused: Option<(u8, u32)>,
    /// Texts that standard output must have, or standard error where it cannot be tried.
    pub says: Vec<&'static str>,
    /// Texts that must be in what a refusal says it found.
    pub finds: Vec<&'static str>,
    /// Steps of this job alone that end stuck with 21 at the place, and must be printed.
    pub stuck_by: Vec<u8>,
    /// Files that are written, and whether what is in them is stored too.
    pub writes: Vec<(&'static str, bool)>,
    /// For standard input.
    pub input: Vec<u8>,
    /// Makes in the folder what is not a file of some bytes.
    pub prepares: fn(&Path),
}

/// A case of one command line.
fn case(name: &'static str, question: Question) -> Case {
    Case { name, lines: vec![] }.and(question)
}

impl Case {
    /// A command line more. What follows is about it.
    fn and(mut self, question: Question) -> Case {
        let line = Line { question, refused: None, says: vec![], finds: vec![], stuck_by: vec![], writes: vec![], input: vec![], prepares: |_| {} };
        self.lines.push(line);
        self
    }

    fn on_last(mut self, change: impl FnOnce(&mut Line)) -> Case {
        change(self.lines.last_mut().expect("a case has a line"));
        self
    }

    /// It is refused with this number at this place.
    fn refused(self, number: u8, place: u32) -> Case {
        self.on_last(|line| line.refused = Some((number, place)))
    }

    fn says(self, texts: &[&'static str]) -> Case {
        self.on_last(|line| line.says.extend(texts))
    }

    fn finds(self, texts: &[&'static str]) -> Case {
        self.on_last(|line| line.finds.extend(texts))
    }

    /// It prints this schedule, which ends stuck with 21 at the place.
    fn stuck_by(self, schedule: &[u8]) -> Case {
        self.on_last(|line| line.stuck_by = schedule.to_vec())
    }

    /// It writes this file, whose bytes are stored too.
    fn writes(self, file: &'static str) -> Case {
        self.on_last(|line| line.writes.push((file, true)))
    }

    /// It writes this file, which another test looks into.
    fn writes_page(self, file: &'static str) -> Case {
        self.on_last(|line| line.writes.push((file, false)))
    }

    fn input(self, bytes: &[u8]) -> Case {
        self.on_last(|line| line.input = bytes.to_vec())
    }

    fn prepares(self, how: fn(&Path)) -> Case {
        self.on_last(|line| line.prepares = how)
    }
}

/// A command line that says something and asks the library nothing.
fn plain(words: &[&str]) -> Question {
    Question::new(words, vec![], Answer::Plain)
}

/// A command line that cannot be tried.
fn trouble(words: &[&str]) -> Question {
    Question::new(words, vec![], Answer::Trouble)
}

/// All cases.
pub fn all() -> Vec<Case> {
    let parts = [
        help::cases(),
        check::cases(),
        device_files::cases(),
        program_files::cases(),
        typing::cases(),
        count_and_paths::cases(),
        why::cases(),
        route::cases(),
        run::cases(),
        listings::cases(),
        show::cases(),
        bundle::cases(),
        refusal::cases(),
        usage::cases(),
    ];
    parts.into_iter().flatten().collect()
}
