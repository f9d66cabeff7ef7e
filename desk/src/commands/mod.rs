//! The commands: what each takes, what its help page says, and what it does.

mod bundle;
mod check;
mod common;
mod help;
mod list;
mod refusal;
mod route;
mod run;
mod show;
mod unlist;
mod why;

pub use help::overview;

use crate::args::{Asked, Takes};
use crate::said::{Said, Trouble};

/// A command.
pub struct Command {
    pub name: &'static str,
    /// The words after its name, as a help page shows them.
    pub usage: &'static str,
    /// In one line.
    pub about: &'static str,
    /// The rest of its help page: paragraphs, which are wrapped, and lines that begin with a space, which are not.
    pub help: &'static str,
    /// The words of an example, and what it prints where that is short.
    pub example: &'static str,
    /// The least and the most words that are no options.
    pub takes: (usize, usize),
    pub options: &'static [Takes],
    pub does: fn(&Asked) -> Result<Said, Trouble>,
}

/// All commands, in the order of the help page.
pub static COMMANDS: &[Command] =
    &[check::COMMAND, why::COMMAND, route::COMMAND, run::COMMAND, list::COMMAND, unlist::COMMAND, show::COMMAND, bundle::COMMAND, refusal::COMMAND];

impl std::fmt::Debug for Command {
    fn fmt(&self, f: &mut std::fmt::Formatter<'_>) -> std::fmt::Result {
        f.write_str(self.name)
    }
}
