//! Devices: lines, grids, combs, trees and others, with regions that lie side by side or through one another. All of them read well.

use super::random::Random;
use super::sizes::Size;
use crate::reference::MOST_EDGES;
use std::collections::BTreeSet;

pub(super) struct Device {
    pub(super) owner: Vec<u8>,
    pub(super) edges: BTreeSet<(usize, usize)>,
}

impl Device {
    pub(super) fn encode(&self) -> Vec<u8> {
        let mut bytes = b"QLG\x00\x01".to_vec();
        bytes.extend((self.owner.len() as u16).to_be_bytes());
        bytes.extend((self.edges.len() as u16).to_be_bytes());
        bytes.extend(&self.owner);
        for &(a, b) in &self.edges {
            bytes.extend([a as u8, b as u8]);
        }
        bytes
    }

    pub(super) fn region(&self, job: u8) -> Vec<usize> {
        (0..self.owner.len()).filter(|&l| self.owner[l] == job).collect()
    }
}

/// A device of this size: first its shape, then whose its locations are, then their names.
pub(super) fn device(random: &mut Random, size: Size) -> Device {
    let n = match size {
        Size::Small => random.between(1, 14),
        Size::Middle => random.between(10, 60),
        Size::Limit => random.pick(&[256, 256, 256, 255, 240]),
    };
    // Large devices are lines more often: only these give the longest routes.
    let shape = if size == Size::Limit && random.one_in(4) { 0 } else { random.below(9) };
    let mut pairs = pairs(random, shape, n);
    // Whole devices for the longest lines, for the same reason.
    let long_line = size == Size::Limit && shape == 0 && random.one_in(2);
    let mut owner = if long_line { vec![random.pick(&[1, 2]); n] } else { owners(random, n) };
    // Other names for the locations, so that the smallest path is not the obvious one.
    if !long_line && random.one_in(3) {
        rename(random, &mut owner, &mut pairs);
    }
    Device { owner, edges: edges(&pairs) }
}

/// The locations that lie next to each other in one of the shapes 0 to 8; a pair may come twice, in either order, or be one location twice.
fn pairs(random: &mut Random, shape: usize, n: usize) -> Vec<(usize, usize)> {
    let any = |random: &mut Random| (random.below(n), random.below(n));
    let mut pairs: Vec<(usize, usize)> = Vec::new();
    match shape {
        // A line.
        0 => pairs.extend((1..n).map(|l| (l - 1, l))),
        // A grid, whose last row may be short.
        1..=3 => {
            let width = random.between(1, 2 + n / 2).min(20);
            for l in 0..n {
                if (l + 1) % width != 0 && l + 1 < n {
                    pairs.push((l, l + 1));
                }
                if l + width < n {
                    pairs.push((l, l + width));
                }
            }
        }
        // A comb: a spine with teeth.
        4 => {
            let spine = random.between(1, n);
            pairs.extend((1..n).map(|l| (if l < spine { l - 1 } else { l - spine }, l)));
        }
        // A tree with some edges more, so connected.
        5 => {
            pairs.extend((1..n).map(|l| (random.below(l), l)));
            pairs.extend((0..random.below(n + 1)).map(|_| any(random)));
        }
        // Any edges, often not connected.
        6 => pairs.extend((0..random.below(2 * n)).map(|_| any(random))),
        // As many edges as there may be.
        7 => pairs.extend((0..3000).map(|_| any(random))),
        // A line with a few shortcuts, which give routes of equal length.
        _ => {
            pairs.extend((1..n).map(|l| (l - 1, l)));
            for _ in 0..random.below(4) {
                let l = random.below(n);
                pairs.push((l, (l + random.between(2, 4)).min(n - 1)));
            }
        }
    }
    pairs
}

fn owners(random: &mut Random, n: usize) -> Vec<u8> {
    match random.below(14) {
        0 | 1 => vec![1; n],
        2 => vec![2; n],
        // Two regions side by side.
        3..=8 => {
            let border = random.between(n / 4, n - n / 4);
            (0..n).map(|l| if l < border { 1 } else { 2 }).collect()
        }
        // Two regions grown through one another.
        9 => (0..n).map(|_| random.pick(&[1, 2])).collect(),
        10 => (0..n).map(|_| random.pick(&[0, 1, 1, 1, 2, 2])).collect(),
        11 => (0..n).map(|_| random.pick(&[0, 1, 1, 1, 1, 1, 1])).collect(),
        // Stripes: a neighbour's corridor lies between the parts of a region.
        12 => {
            let width = random.between(1, 4);
            (0..n).map(|l| if (l / width) % 2 == 0 { 1 } else { 2 }).collect()
        }
        // Nobody's device, or a region of one location.
        _ => {
            let mut owner = vec![random.pick(&[0, 0, 1, 2]); n];
            owner[random.below(n)] = random.pick(&[0, 1, 2]);
            owner
        }
    }
}

/// Gives every location another number, in both lists.
fn rename(random: &mut Random, owner: &mut [u8], pairs: &mut [(usize, usize)]) {
    let mut names: Vec<usize> = (0..owner.len()).collect();
    random.shuffle(&mut names);
    let before = owner.to_vec();
    for (l, &name) in names.iter().enumerate() {
        owner[name] = before[l];
    }
    for pair in pairs {
        *pair = (names[pair.0], names[pair.1]);
    }
}

/// The edges of these pairs, up to the limit.
fn edges(pairs: &[(usize, usize)]) -> BTreeSet<(usize, usize)> {
    let mut edges = BTreeSet::new();
    for &(a, b) in pairs {
        if a != b && edges.len() < MOST_EDGES {
            edges.insert((a.min(b), a.max(b)));
        }
    }
    edges
}
