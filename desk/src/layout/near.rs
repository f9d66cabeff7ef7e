//! A part of no special shape, laid out so that neighbours stay near.
//!
//! Two pairs of far poles give a first order; then locations change places, first also where that is a little worse, as long as edges get shorter. All numbers
//! are whole and no clock is asked, so the same device always has the same picture.

use super::{Cell, Part, COLUMNS};

/// The cells of a part.
pub(super) fn placed(part: &Part) -> Vec<Cell> {
    let columns = side(part.len() * 5 / 4).clamp(2, COLUMNS);
    let rows = (part.len() * 5 / 4 + columns - 1) / columns + 1;
    let mut board = Board::new(part, rows, columns);
    board.improve();
    board.cells
}

/// The side of a square of at least so many cells.
fn side(cells: usize) -> usize {
    (1..).find(|side| side * side >= cells).unwrap_or(1)
}

/// A number that is smaller where an edge is drawn shorter: along a row or a column best, then diagonal, then the nearer the better.
fn cost(a: Cell, b: Cell) -> i32 {
    let (rows, columns) = ((a.0 - b.0).abs(), (a.1 - b.1).abs());
    match (rows.min(columns), rows.max(columns)) {
        (0, 1) => 4,
        (1, 1) => 7,
        _ => 8 + 4 * (rows + columns),
    }
}

/// Cells with the locations of a part on them.
struct Board<'a> {
    part: &'a Part,
    rows: usize,
    columns: usize,
    cells: Vec<Cell>,
    /// The location on each cell, row by row.
    on: Vec<Option<usize>>,
    seed: u64,
}

impl Board<'_> {
    /// The locations in rows by one pair of poles, in each row by the other.
    fn new(part: &Part, rows: usize, columns: usize) -> Board<'_> {
        let (across, down) = orders(part);
        let mut order: Vec<usize> = (0..part.len()).collect();
        order.sort_by_key(|&location| (down[location], across[location], location));
        let mut board = Board { part, rows, columns, cells: vec![(0, 0); part.len()], on: vec![None; rows * columns], seed: 1 };
        let used = (part.len() + columns - 1) / columns;
        for row in 0..used {
            let mut these = order[row * part.len() / used..(row + 1) * part.len() / used].to_vec();
            these.sort_by_key(|&location| (across[location], location));
            let left = (columns - these.len()) / 2;
            for (column, location) in (left..).zip(these) {
                board.put(Some(location), (row as i32, column as i32));
            }
        }
        board
    }

    fn put(&mut self, location: Option<usize>, cell: Cell) {
        let index = self.index(cell);
        self.on[index] = location;
        if let Some(location) = location {
            self.cells[location] = cell;
        }
    }

    fn index(&self, cell: Cell) -> usize {
        cell.0 as usize * self.columns + cell.1 as usize
    }

    /// A number below this one, from a row of numbers that is always the same.
    fn any(&mut self, below: usize) -> usize {
        self.seed = self.seed.wrapping_mul(6_364_136_223_846_793_005).wrapping_add(1_442_695_040_888_963_407);
        ((self.seed >> 33) as usize) % below.max(1)
    }

    /// Tries places beside neighbours. What may become worse by a change falls from a few edges to nothing.
    fn improve(&mut self) {
        let tries = 500 + 200 * self.part.len();
        for i in 0..tries {
            let allowed = (12 - (i * 16 / tries) as i32).max(0);
            let location = self.any(self.part.len());
            let beside = self.any(self.part.near[location].len());
            let beside = self.cells[self.part.near[location][beside]];
            let (row, column) = (beside.0 + self.any(3) as i32 - 1, beside.1 + self.any(3) as i32 - 1);
            if row >= 0 && column >= 0 && (row as usize) < self.rows && (column as usize) < self.columns {
                self.change(location, (row, column), allowed);
            }
        }
    }

    /// Puts a location on a cell and what is there on its own, unless that is worse by more than is allowed.
    fn change(&mut self, location: usize, cell: Cell, allowed: i32) {
        let from = self.cells[location];
        let other = self.on[self.index(cell)];
        let before = self.length(location, other);
        self.put(other, from);
        self.put(Some(location), cell);
        if self.length(location, other) > before + allowed {
            self.put(Some(location), from);
            self.put(other, cell);
        }
    }

    /// The cost of the edges of one location and of another.
    fn length(&self, location: usize, other: Option<usize>) -> i32 {
        let of = |location: usize| self.part.near[location].iter().map(|&near| cost(self.cells[location], self.cells[near])).sum::<i32>();
        of(location) + other.map_or(0, of)
    }
}

/// Two numbers for each location: how much farther it is from one pole than from the other, for two pairs of poles that lie across each other.
fn orders(part: &Part) -> (Vec<i32>, Vec<i32>) {
    let steps = |from: usize| part.steps(from);
    let far = |steps: &[i32]| (0..part.len()).max_by_key(|&location| (steps[location], usize::MAX - location)).unwrap_or(0);
    let first = steps(far(&steps(0)));
    let second = steps(far(&first));
    let across: Vec<i32> = first.iter().zip(&second).map(|(a, b)| a - b).collect();
    let middle = (0..part.len()).max_by_key(|&location| (first[location] + second[location] - 2 * across[location].abs(), usize::MAX - location)).unwrap_or(0);
    let third = steps(middle);
    let aside = (0..part.len()).max_by_key(|&location| (2 * third[location] - across[location].abs(), usize::MAX - location)).unwrap_or(0);
    let fourth = steps(aside);
    let down = third.iter().zip(&fourth).map(|(a, b)| a - b).collect();
    (across, down)
}
