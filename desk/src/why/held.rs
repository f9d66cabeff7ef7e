//! Who holds which location where a trail ends, and which line made the qubit; the same of main's slots at its end.

use super::trail::{Leg, Trail};
use super::visits::{Left, Visits};
use crate::program::{Block, Body, Kind};
use std::collections::BTreeSet;

/// An occupied location.
#[derive(Clone, Debug)]
pub struct Held {
    pub location: usize,
    /// The slots that hold its qubit, main's first: an argument is in a slot of the caller and in one of the callee.
    pub holders: Vec<(Body, u8)>,
    /// The offsets of the statements that may have made it.
    pub made: Vec<usize>,
}

impl Held {
    /// The slot in the innermost body that has the qubit.
    pub fn slot(&self) -> Option<u8> {
        self.holders.last().map(|&(_, slot)| slot)
    }
}

/// The occupied locations, rising.
pub fn held(visits: &Visits<'_>, trail: &Trail<'_>) -> Vec<Held> {
    let valid = valid(trail);
    let made: Vec<Made> = trail.legs.iter().map(|leg| makers(visits, leg)).collect();
    let at = |location: usize| {
        let mut held = Held { location, holders: vec![], made: vec![] };
        for (i, leg) in trail.legs.iter().enumerate() {
            for slot in (0..32).filter(|&slot| valid[i][slot] && leg.standing.slots[slot] == Some(location)) {
                held.holders.push((leg.visit.body, slot as u8));
                if !made[i][slot].contains(&GIVEN) {
                    held.made.clear();
                }
                held.made.extend(made[i][slot].iter().filter(|&&at| at != GIVEN));
            }
        }
        held.made.sort_unstable();
        held
    };
    trail.last().standing.occupied.list().into_iter().map(at).collect()
}

/// Which slots of each body still have their qubit: one that is given to a callee has it as long as the callee does.
fn valid(trail: &Trail<'_>) -> Vec<[bool; 32]> {
    let mut valid = vec![[false; 32]; trail.legs.len()];
    for (i, leg) in trail.legs.iter().enumerate().rev() {
        let mut slots = leg.standing.slots.map(|held| held.is_some());
        if let (Kind::Call { slots: given, .. }, Some(callee)) = (&leg.site.kind, trail.legs.get(i + 1)) {
            for (argument, &slot) in given.iter().enumerate() {
                let slot = usize::from(slot);
                slots[slot] = valid[i + 1][argument] && callee.standing.slots[argument] == leg.standing.slots[slot];
            }
        }
        valid[i] = slots;
    }
    valid
}

/// For each slot the statements that may have made its qubit.
pub type Made = [BTreeSet<usize>; 32];

/// Stands for the caller, who gave the qubit.
const GIVEN: usize = usize::MAX;

/// The makers when the site of a leg comes.
fn makers(visits: &Visits<'_>, leg: &Leg<'_>) -> Made {
    let mut made = Made::default();
    if let Body::Function(number) = leg.visit.body {
        let arguments = visits.program.functions[number].arguments;
        made.iter_mut().take(arguments).for_each(|makers| *makers = BTreeSet::from([GIVEN]));
    }
    over(visits, visits.program.body(leg.visit.body), leg.site.at, &mut made);
    made
}

/// The makers at main's end.
pub fn made_at_end(visits: &Visits<'_>) -> Made {
    let mut made = Made::default();
    over(visits, &visits.program.main, NOWHERE, &mut made);
    made
}

/// A site that is in no block.
const NOWHERE: usize = usize::MAX;

/// Goes over a block up to the site; whether it is in this block.
fn over(visits: &Visits<'_>, block: &Block, site: usize, made: &mut Made) -> bool {
    for statement in &block.statements {
        if statement.at == site {
            return true;
        }
        match &statement.kind {
            Kind::Init { slot, .. } => made[usize::from(*slot)] = BTreeSet::from([statement.at]),
            Kind::Free { slot } => made[usize::from(*slot)].clear(),
            Kind::Call { function, slots, .. } => {
                for (argument, &slot) in slots.iter().enumerate() {
                    called(visits.left(*function, argument), statement.at, &mut made[usize::from(slot)]);
                }
            }
            Kind::If { then, otherwise, .. } => {
                let mut other = made.clone();
                if over(visits, then, site, made) {
                    return true;
                }
                if over(visits, otherwise, site, &mut other) {
                    *made = other;
                    return true;
                }
                unite(made, &other);
            }
            Kind::While { body, .. } => {
                let before = made.clone();
                over(visits, body, NOWHERE, made);
                unite(made, &before);
                // before each round but the first there was another one
                if body.statement(site).is_some() {
                    return over(visits, body, site, made);
                }
            }
            _ => {}
        }
    }
    false
}

/// The makers of an argument after a call.
fn called(left: Left, call: usize, makers: &mut BTreeSet<usize>) {
    match left {
        Left::Gone => makers.clear(),
        Left::Remade => {
            makers.insert(call);
        }
        Left::Same => {}
    }
}

/// Where two ways meet, the makers of both.
fn unite(made: &mut Made, other: &Made) {
    for (makers, others) in made.iter_mut().zip(other) {
        makers.extend(others);
    }
}
