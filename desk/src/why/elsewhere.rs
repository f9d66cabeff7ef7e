//! Where no outcomes lead to the refused merge: whether some lead to another merge without a path, so that the job may halt all the same.
//!
//! What a body comes to depends on its visit alone. So each visit that outcomes lead to is gone through once, in the check's order.

use super::lead::{lead, to_site, Lead};
use super::search::{Run, Search, Where};
use super::steps::Step;
use super::trail::Trail;
use super::visits::{Id, Met};
use std::collections::HashSet;

/// The most sites that are searched for.
const MOST_SITES: usize = 500;

/// What the search for another merge came to.
#[derive(Clone, Debug)]
pub enum Elsewhere {
    /// These steps are stuck at the merge of this offset, as the library told.
    Found { at: usize, steps: Vec<Step> },
    /// No outcomes lead to any merge without a path.
    Nowhere,
    /// A limit was met.
    GivenUp,
}

/// Another merge without a path that outcomes lead to.
pub fn elsewhere(search: &mut Search<'_>) -> Elsewhere {
    let main = search.visits.main();
    let mut walk = Walk { search, seen: HashSet::new(), left: MOST_SITES, unknown: false };
    match main.and_then(|main| walk.visit(main, &mut vec![])) {
        Some((at, steps)) => Elsewhere::Found { at, steps },
        None if walk.unknown => Elsewhere::GivenUp,
        None => Elsewhere::Nowhere,
    }
}

struct Walk<'s, 'a> {
    search: &'s mut Search<'a>,
    seen: HashSet<Id>,
    left: usize,
    unknown: bool,
}

impl Walk<'_, '_> {
    /// Goes through a visit that outcomes lead to, over these sites. It goes as deep as functions call each other.
    fn visit(&mut self, id: Id, sites: &mut Vec<(Id, usize)>) -> Option<(usize, Vec<Step>)> {
        for met in self.search.visits.met(id).iter() {
            let (at, below) = match *met {
                Met::Blocked(at) => (at, None),
                Met::Call(at, below) => (at, Some(below)),
            };
            if below.map_or(false, |below| self.seen.contains(&below)) || !self.is_reached(id, at) {
                continue;
            }
            sites.push((id, at));
            let found = match below {
                Some(below) => {
                    self.seen.insert(below);
                    self.visit(below, sites)
                }
                None => self.stuck(at, sites),
            };
            sites.pop();
            if found.is_some() {
                return found;
            }
        }
        None
    }

    fn is_reached(&mut self, id: Id, at: usize) -> bool {
        if self.left == 0 {
            self.unknown = true;
            return false;
        }
        self.left -= 1;
        let run = to_site(self.search, Where::Visit(id), at);
        self.unknown |= matches!(run, Run::Unknown);
        matches!(run, Run::Found(_))
    }

    /// The steps that are stuck at the last of these sites.
    fn stuck(&mut self, at: usize, sites: &[(Id, usize)]) -> Option<(usize, Vec<Step>)> {
        let trail = Trail::over(&self.search.visits, sites)?;
        match lead(self.search, &trail) {
            Lead::Found { steps, .. } => Some((at, steps)),
            _ => {
                self.unknown = true;
                None
            }
        }
    }
}
