//! The trail: how the check comes to the merge that has no path, over calls, branches and loops.
//!
//! The check goes over main's commands in order: calls at their actual locations, the first block of an if before the second, the body of a loop once. The
//! first merge in this order that has no path is the one that is refused.

use super::visits::{Id, Met, Standing, Visit, Visits};
use crate::program::{Block, Kind, Statement};
use std::rc::Rc;

/// The way through all bodies, main first.
#[derive(Clone, Debug)]
pub struct Trail<'a> {
    pub legs: Vec<Leg<'a>>,
    /// The locations of the qubits that are to be merged.
    pub ends: [usize; 2],
}

/// The way through one body.
#[derive(Clone, Debug)]
pub struct Leg<'a> {
    pub id: Id,
    pub visit: Rc<Visit>,
    /// The blocks that the site is in, the outermost first.
    pub entered: Vec<Entered<'a>>,
    /// The call of the next body; in the last one the merge.
    pub site: &'a Statement,
    /// Where the qubits are when the site comes.
    pub standing: Standing,
}

/// A block of an if or a while that the trail goes into.
#[derive(Clone, Copy, Debug)]
pub struct Entered<'a> {
    pub statement: &'a Statement,
    /// The offset of the line that begins the block: the statement, or its else.
    pub at: usize,
    pub guard: u8,
    /// What the guard is there.
    pub value: bool,
}

impl<'a> Trail<'a> {
    /// The trail to the first merge that has no path.
    pub fn find(visits: &mut Visits<'a>) -> Option<Trail<'a>> {
        let mut sites = vec![];
        let mut below = visits.main();
        while let Some(id) = below {
            let (at, next) = match *visits.met(id).first()? {
                Met::Blocked(at) => (at, None),
                Met::Call(at, next) => (at, Some(next)),
            };
            sites.push((id, at));
            below = next;
        }
        Trail::over(visits, &sites)
    }

    /// The trail over these sites, each in its visit.
    pub fn over(visits: &Visits<'a>, sites: &[(Id, usize)]) -> Option<Trail<'a>> {
        let legs: Vec<Leg> = sites.iter().map(|&(id, at)| Leg::of(visits, id, at)).collect::<Option<_>>()?;
        let last = legs.last()?;
        if let Kind::Merge { first, second, .. } = &last.site.kind {
            let end = |slot: &u8| last.standing.slots[usize::from(*slot)];
            return Some(Trail { ends: [end(first)?, end(second)?], legs });
        }
        None
    }

    /// The last leg, in which the merge is.
    pub fn last(&self) -> &Leg<'a> {
        &self.legs[self.legs.len() - 1]
    }

    /// The merge.
    pub fn merge(&self) -> &'a Statement {
        self.last().site
    }
}

impl<'a> Leg<'a> {
    fn of(visits: &Visits<'a>, id: Id, at: usize) -> Option<Leg<'a>> {
        let visit = visits.visit(id);
        let mut entered = vec![];
        let site = enter(visits.program.body(visit.body), at, &mut entered)?;
        let standing = visits.standing(&visit, at);
        Some(Leg { id, visit, entered, site, standing })
    }
}

/// The statement at an offset, with the blocks that are gone into on the way to it.
fn enter<'a>(block: &'a Block, at: usize, entered: &mut Vec<Entered<'a>>) -> Option<&'a Statement> {
    let statement = block.statements.iter().take_while(|statement| statement.at <= at).last()?;
    if statement.at == at {
        return Some(statement);
    }
    let (guard, inner, value) = match &statement.kind {
        Kind::If { guard, otherwise, .. } if at > otherwise.at => (*guard, otherwise, false),
        Kind::If { guard, then, .. } => (*guard, then, true),
        Kind::While { guard, body } => (*guard, body, true),
        _ => return None,
    };
    let begins = if value { statement.at } else { inner.at };
    entered.push(Entered { statement, at: begins, guard, value });
    enter(inner, at, entered)
}
