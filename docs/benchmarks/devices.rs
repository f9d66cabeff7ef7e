// The edges of the benchmarks' devices, which have 256 locations.
#![allow(dead_code)]

use std::collections::{BTreeSet, VecDeque};

pub type Edges = Vec<(usize, usize)>;

pub fn line() -> Edges {
    (0..255).map(|i| (i, i + 1)).collect()
}

// 16 rows of 16; the columns that go from row to row are given.
fn rows(column: fn(usize) -> bool) -> Edges {
    let mut edges = vec![];
    for l in 0..256 {
        if l % 16 < 15 {
            edges.push((l, l + 1));
        }
        if l < 240 && column(l % 16) {
            edges.push((l, l + 16));
        }
    }
    edges
}

pub fn grid() -> Edges {
    rows(|_| true)
}

pub fn comb() -> Edges {
    rows(|column| column == 0)
}

pub fn random() -> Edges {
    let mut seed: u64 = 12345;
    let mut draw = || {
        seed ^= seed << 13;
        seed ^= seed >> 7;
        seed ^= seed << 17;
        (seed >> 20) as usize % 256
    };
    let mut edges = BTreeSet::new();
    while edges.len() < 1024 {
        let (a, b) = (draw(), draw());
        if a < b {
            edges.insert((a, b));
        }
    }
    edges.into_iter().collect()
}

// Two ends that lie as far apart as any two do.
pub fn far(edges: &Edges) -> (usize, usize) {
    let mut near = vec![vec![]; 256];
    for &(a, b) in edges {
        near[a].push(b);
        near[b].push(a);
    }
    let mut best = (0, 0, 0);
    for a in 0..256 {
        let mut level = [usize::MAX; 256];
        level[a] = 0;
        let mut queue = VecDeque::from([a]);
        while let Some(x) = queue.pop_front() {
            best = best.max((level[x], a, x));
            for &y in &near[x] {
                if level[y] == usize::MAX {
                    level[y] = level[x] + 1;
                    queue.push_back(y);
                }
            }
        }
    }
    (best.1, best.2)
}
