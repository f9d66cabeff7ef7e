//! Grids: by their numbering, row after row, or by their shape alone.

use super::{Cell, Part, COLUMNS};
use crate::device::Device;

/// The width of the grid that a device is by its numbering, row after row; edges may be missing.
pub fn numbered(device: &Device) -> Option<usize> {
    by_steps(device).or_else(|| rows_alone(device)).or_else(|| by_most(device))
}

/// The width where every edge joins a location to the next one in its row or to the one below.
fn by_steps(device: &Device) -> Option<usize> {
    let width = device.edges.iter().map(|&(a, b)| b - a).max().filter(|&width| width > 1)?;
    let dense = width <= COLUMNS || 2 * device.edges.len() >= device.locations();
    (dense && device.edges.iter().all(|&edge| straight(edge, width))).then_some(width)
}

/// The width where the edges make whole rows and no columns.
fn rows_alone(device: &Device) -> Option<usize> {
    let width = 1 + device.edges.iter().zip(0..).take_while(|&(&edge, i)| edge == (i, i + 1)).count();
    let rows = (device.locations() + width - 1) / width;
    let whole = device.edges.len() == device.locations() - rows && device.edges.iter().all(|&edge| straight(edge, width));
    (whole && width > 1 && width <= COLUMNS && rows <= COLUMNS).then_some(width)
}

/// The width where most edges are a grid's: all but an eighth join neighbours, diagonal ones among them, and there are edges along rows and along columns.
fn by_most(device: &Device) -> Option<usize> {
    let edges = device.edges.len();
    let count = |fits: &dyn Fn((usize, usize)) -> bool| device.edges.iter().filter(|&&edge| fits(edge)).count();
    let along_rows = count(&|(a, b)| b == a + 1);
    let fits = |&width: &usize| {
        let down = count(&|(a, b)| b == a + width);
        let near = count(&|edge| straight(edge, width) || diagonal(edge, width));
        5 * down >= edges && 8 * near >= 7 * edges
    };
    let dense = 2 * edges >= device.locations() && 5 * along_rows >= edges;
    (2..device.locations()).filter(|_| dense).find(fits)
}

fn straight((a, b): (usize, usize), width: usize) -> bool {
    b == a + width || b == a + 1 && b % width != 0
}

fn diagonal((a, b): (usize, usize), width: usize) -> bool {
    b / width == a / width + 1 && (b % width).abs_diff(a % width) == 1
}

/// The cells of a part that is a grid, whatever its numbering: every edge joins neighbours.
pub(super) fn shaped(part: &Part) -> Option<Vec<Cell>> {
    let steps = part.steps(0);
    let is_like = |(a, near): (usize, &Vec<usize>)| near.len() <= 4 && near.iter().all(|&b| steps[a] % 2 != steps[b] % 2);
    if !part.near.iter().enumerate().all(is_like) {
        return None; // too many neighbours, or a ring of odd length
    }
    let cells = Search::new(part).found()?;
    let cells = turned(&cells);
    let (rows, columns) = cells.iter().fold((0, 0), |(rows, columns), cell| (cell.0.max(rows), cell.1.max(columns)));
    let area = (rows as usize + 1) * (columns as usize + 1);
    (area <= 3 * part.len() + 8).then_some(cells)
}

/// The same grid turned or mirrored: wide rather than high, and the small numbers first.
fn turned(cells: &[Cell]) -> Vec<Cell> {
    let turns: [fn(Cell) -> Cell; 8] = [
        |(row, column)| (row, column),
        |(row, column)| (row, -column),
        |(row, column)| (-row, column),
        |(row, column)| (-row, -column),
        |(row, column)| (column, row),
        |(row, column)| (column, -row),
        |(row, column)| (-column, row),
        |(row, column)| (-column, -row),
    ];
    let all = turns.iter().map(|turn| {
        let turned: Vec<Cell> = cells.iter().map(|&cell| turn(cell)).collect();
        let turned = super::from_zero(&turned);
        let (rows, columns) = turned.iter().fold((0, 0), |most, cell| (cell.0.max(most.0), cell.1.max(most.1)));
        (rows > columns, turned)
    });
    let (_, best) = all.min().unwrap_or_default();
    best.into_iter().map(|(row, column)| (row as i32, column as i32)).collect()
}

/// The four cells round one, straight on before the others where a direction is given.
fn round(cell: Cell, on: Option<Cell>) -> Vec<Cell> {
    let mut steps = vec![(0, 1), (1, 0), (0, -1), (-1, 0)];
    if let Some(on) = on {
        steps.sort_by_key(|&step| step != on);
    }
    steps.into_iter().map(|step| (cell.0 + step.0, cell.1 + step.1)).collect()
}

fn are_near(a: Cell, b: Cell) -> bool {
    (a.0 - b.0).abs() + (a.1 - b.1).abs() == 1
}

/// A search for cells: always the location with the fewest cells left comes next, so that squares leave no choice.
struct Search<'a> {
    part: &'a Part,
    cells: Vec<Option<Cell>>,
    /// Whether a cell is taken, over all cells that can be reached.
    taken: Vec<bool>,
    /// What was chosen: the location, and the cells that it has not been at yet.
    chosen: Vec<(usize, Vec<Cell>)>,
    /// The fewest edges between any two locations. Their cells can be no farther apart.
    steps: Vec<Vec<i32>>,
}

impl Search<'_> {
    fn new(part: &Part) -> Search<'_> {
        let side = 2 * part.len() + 3;
        Search {
            part,
            cells: vec![None; part.len()],
            taken: vec![false; side * side],
            chosen: vec![],
            steps: (0..part.len()).map(|from| part.steps(from)).collect(),
        }
    }

    /// A corner first; then one after the other, and back where one has no cell left. It gives up after a number of steps.
    fn found(mut self) -> Option<Vec<Cell>> {
        let corner = (0..self.part.len()).min_by_key(|&location| (self.part.near[location].len(), location))?;
        self.chosen.push((corner, vec![(0, 0)]));
        for _ in 0..10 * self.part.len() + 500 {
            if !self.goes_on() {
                return None;
            }
            match self.next() {
                Some(choice) => self.chosen.push(choice),
                None => return self.cells.into_iter().collect(),
            }
        }
        None
    }

    /// Puts the last chosen location at the next of its cells, or goes back to the last one that has a cell left.
    fn goes_on(&mut self) -> bool {
        while let Some((location, left)) = self.chosen.last_mut() {
            let (location, next) = (*location, left.pop());
            if let Some(cell) = self.cells[location].take() {
                self.take(cell, false);
            }
            if let Some(cell) = next {
                self.cells[location] = Some(cell);
                self.take(cell, true);
                return true;
            }
            self.chosen.pop();
        }
        false
    }

    /// The location beside placed ones that has the fewest cells left, with those cells, the best last.
    fn next(&self) -> Option<(usize, Vec<Cell>)> {
        let open = (0..self.part.len()).filter(|&location| self.cells[location].is_none());
        let beside = open.filter_map(|location| self.left(location).map(|left| (location, left)));
        beside.min_by_key(|(_, left)| left.len())
    }

    /// Whether a location at this cell could still be joined to all that are placed.
    fn is_in_reach(&self, location: usize, (row, column): Cell) -> bool {
        let mut placed = self.cells.iter().zip(&self.steps[location]).filter_map(|(cell, steps)| cell.map(|cell| (cell, steps)));
        placed.all(|(cell, &steps)| (cell.0 - row).abs() + (cell.1 - column).abs() <= steps)
    }

    /// The cells that are left for a location with placed neighbours.
    fn left(&self, location: usize) -> Option<Vec<Cell>> {
        let placed: Vec<usize> = self.part.near[location].iter().copied().filter(|&near| self.cells[near].is_some()).collect();
        let first = *placed.first()?;
        let cell = self.cells[first]?;
        let before = self.part.near[first].iter().find_map(|&near| self.cells[near]);
        let on = before.map(|before| (cell.0 - before.0, cell.1 - before.1));
        let is_near = |cell: Cell| placed.iter().all(|&near| self.cells[near].map_or(false, |at| are_near(at, cell)));
        let fits = |&cell: &Cell| !self.taken[self.index(cell)] && is_near(cell) && self.is_in_reach(location, cell);
        let mut left: Vec<Cell> = round(cell, on).into_iter().filter(fits).collect();
        left.reverse();
        Some(left)
    }

    fn take(&mut self, cell: Cell, taken: bool) {
        let index = self.index(cell);
        self.taken[index] = taken;
    }

    fn index(&self, (row, column): Cell) -> usize {
        let middle = self.part.len() as i32 + 1;
        (row + middle) as usize * (2 * self.part.len() + 3) + (column + middle) as usize
    }
}
