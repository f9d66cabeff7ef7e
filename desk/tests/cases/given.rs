//! Devices and programs that several cases are about. Those with a letter are of `docs/FORMAT.md` and `docs/listing.md`.

use crate::files::*;

/// G with the lower row job 2's.
pub fn two() -> Vec<u8> {
    owned(&[1, 1, 1, 2, 2, 2], &GRID)
}

/// G with 4 owned by job 2 and 5 by nobody.
pub fn shared() -> Vec<u8> {
    owned(&[1, 1, 1, 1, 2, 0], &GRID)
}

/// Three in a row, of which job 2 has the middle.
pub fn split() -> Vec<u8> {
    owned(&[1, 2, 1], &[(0, 1), (1, 2)])
}

/// Locations in a ring, all job 1's.
pub fn ring(n: usize) -> Vec<u8> {
    let mut edges: Vec<Edge> = (1..n).map(|b| (b - 1, b)).collect();
    edges.insert(1, (0, n - 1));
    device(n, &edges)
}

/// Rows of locations with these owners, each joined to the next in its row and in its column.
pub fn rows(width: usize, owners: &[u8]) -> Vec<u8> {
    let right = |l: usize| (l % width + 1 < width).then_some((l, l + 1));
    let below = |l: usize| (l + width < owners.len()).then_some((l, l + width));
    let edges: Vec<Edge> = (0..owners.len()).flat_map(|l| right(l).into_iter().chain(below(l))).collect();
    owned(owners, &edges)
}

/// A without its last free: slot 1 is left live.
pub fn program_live() -> Vec<u8> {
    only(&[init(0, 0), init(1, 2), merge(2, 0, 1), free(0)])
}

/// B: the paper's controlled X, again until a measurement gives 0.
pub fn program_b() -> Vec<u8> {
    let (x, z) = (0, 1);
    let gate = |kind: u8, slot: u8| vec![vec![4, kind, slot]];
    let body = [
        init(2, 2),
        vec![6, 3, x, 2, x, 1],
        when(3, &gate(z, 0), &[]),
        vec![6, 4, z, 0, z, 2],
        when(4, &gate(x, 1), &[]),
        vec![5, 5, x, 2],
        when(5, &gate(z, 0), &[]),
        free(2),
    ];
    let again = repeat(3, &[call(0, &[0, 2, 1], &[0, 1]), vec![5, 4, z, 1], set(3, 4)]);
    calling(&[function(3, 2, &body)], &[init(0, 0), init(1, 2), boolean(2, 1), refer(3, 2), again, free(0), free(1)])
}

/// C, for job 2: it names a location that is job 1's.
pub fn program_c() -> Vec<u8> {
    only(&[init(0, 4), init(1, 1), free(0)])
}

/// D: every kind of line.
pub fn program_d() -> Vec<u8> {
    let (x, z) = (0, 1);
    let first = function(1, 1, &[vec![5, 1, z, 0], when(1, &[vec![4, x, 0]], &[])]);
    let second = function(2, 1, &[magic(1, 1), vec![6, 2, z, 0, z, 1], call(0, &[1], &[1]), free(1)]);
    let chosen = when(3, &[set(2, 4)], &[boolean(5, 0), set(2, 5)]);
    let again = repeat(2, &[call(1, &[0, 1], &[0]), vec![5, 3, x, 0], get(4, 2), chosen]);
    calling(&[first, second], &[init(0, 0), boolean(1, 1), refer(2, 1), again, free(0)])
}

/// A merge between 0 and 2 of G with 1 and 4 occupied; it is at 20.
pub fn walled() -> Vec<u8> {
    only(&[init(0, 0), init(1, 2), init(2, 1), init(3, 4), merge(4, 0, 1), free(0), free(1), free(2), free(3)])
}

/// A function that frees its argument: its free is at 10, main's length word at 12.
pub fn losing() -> Function {
    function(1, 1, &[free(0)])
}

/// For a row of three: with outcome 1 a qubit is put down at 1, and the merge between 0 and 2, at 25, has no path.
pub fn by_outcome() -> Vec<u8> {
    let taken = [init(3, 1), merge(4, 0, 1), free(3)];
    only(&[init(0, 0), init(1, 2), measure(2, 0), when(2, &taken, &[merge(4, 0, 1)]), free(0), free(1)])
}
