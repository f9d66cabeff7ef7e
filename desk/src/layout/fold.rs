//! Paths and rings, folded so that they fit a screen.

use super::{Cell, Part, COLUMNS};

/// The longest ring that stands open, as a frame; a longer one is folded.
const LONGEST_FRAME: usize = 44;

/// The cells of a path or of a ring; none for any other part.
pub(super) fn folded(part: &Part) -> Option<Vec<Cell>> {
    if part.near.iter().any(|near| near.len() > 2) {
        return None;
    }
    let end = part.near.iter().position(|near| near.len() < 2);
    let order = along(part, end.unwrap_or(0));
    let cells = if end.is_some() { snake(order.len()) } else { ring(order.len()) };
    let mut placed = vec![(0, 0); part.len()];
    order.iter().zip(cells).for_each(|(&location, cell)| placed[location] = cell);
    Some(placed)
}

/// All of a path or of a ring in order, from one location on.
fn along(part: &Part, start: usize) -> Vec<usize> {
    let mut order = vec![start];
    let mut seen = vec![false; part.len()];
    seen[start] = true;
    while let Some(&next) = order.last().and_then(|&last| part.near[last].iter().find(|&&next| !seen[next])) {
        seen[next] = true;
        order.push(next);
    }
    order
}

/// Rows there and back.
fn snake(length: usize) -> Vec<Cell> {
    let cell = |i: usize| {
        let (row, column) = (i / COLUMNS, i % COLUMNS);
        (row as i32, if row % 2 == 0 { column } else { COLUMNS - 1 - column } as i32)
    };
    (0..length).map(cell).collect()
}

/// A ring of at least three, round a frame or folded. One of odd length leaves out a corner, whose neighbours are near each other then.
fn ring(length: usize) -> Vec<Cell> {
    let even = length + length % 2;
    let (mut cells, rows) = if length <= LONGEST_FRAME { frame(even) } else { comb(even) };
    if length % 2 == 1 {
        cells.retain(|&cell| cell != (rows - 1, 0));
    }
    cells
}

/// A frame about twice as wide as high, clockwise from its left upper corner, and its rows.
fn frame(length: usize) -> (Vec<Cell>, i32) {
    let rows = ((length + 4) / 6).max(2) as i32;
    let columns = (length / 2 + 2) as i32 - rows;
    let mut cells: Vec<Cell> = (0..columns).map(|column| (0, column)).collect();
    cells.extend((1..rows).map(|row| (row, columns - 1)));
    cells.extend((0..columns - 1).rev().map(|column| (rows - 1, column)));
    cells.extend((1..rows - 1).rev().map(|row| (row, 0)));
    (cells, rows)
}

/// Rows there and back from the second column on, in pairs, and the first column back up; and the rows.
fn comb(length: usize) -> (Vec<Cell>, i32) {
    let pairs = (length + 2 * COLUMNS - 1) / (2 * COLUMNS);
    let rows = 2 * pairs as i32;
    let each = length / 2 - pairs; // cells of all upper rows, without the first column
    let mut cells = vec![(0, 0)];
    for pair in 0..pairs {
        let reach = ((pair + 1) * each / pairs - pair * each / pairs) as i32;
        let row = 2 * pair as i32;
        cells.extend((1..=reach).map(|column| (row, column)));
        cells.extend((1..=reach).rev().map(|column| (row + 1, column)));
    }
    cells.extend((1..rows).rev().map(|row| (row, 0)));
    (cells, rows)
}
