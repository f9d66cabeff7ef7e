//! Where each location of a device stands in a picture: a cell of a grid, by row and column.
//!
//! A device whose edges form a grid stands as that grid; of any other each part that hangs together is laid out so that neighbours stay near.

mod fold;
mod grid;
mod near;

use crate::device::Device;

/// The columns that a picture has where the device does not ask for more: they fit a screen.
const COLUMNS: usize = 16;

/// A row and a column for each location. No two locations have the same.
#[derive(Clone, Debug, PartialEq, Eq)]
pub struct Layout {
    pub cells: Vec<(usize, usize)>,
}

impl Layout {
    /// The layout of a device; rows of so many locations where a width is given.
    pub fn of(device: &Device, width: Option<usize>) -> Layout {
        let cells = match width.or_else(|| grid::numbered(device)) {
            Some(width) => rows_of(width.max(1), device.locations()),
            None => by_parts(device),
        };
        Layout { cells }
    }

    /// How many rows it has.
    pub fn rows(&self) -> usize {
        self.cells.iter().map(|&(row, _)| row + 1).max().unwrap_or(0)
    }

    /// How many columns it has.
    pub fn columns(&self) -> usize {
        self.cells.iter().map(|&(_, column)| column + 1).max().unwrap_or(0)
    }

    /// The location at each cell, row by row.
    pub fn grid(&self) -> Vec<Vec<Option<usize>>> {
        let mut grid = vec![vec![None; self.columns()]; self.rows()];
        for (location, &(row, column)) in self.cells.iter().enumerate() {
            grid[row][column] = Some(location);
        }
        grid
    }

    /// The rows and the columns between the cells of two locations.
    pub fn apart(&self, a: usize, b: usize) -> (usize, usize) {
        let ((a_row, a_column), (b_row, b_column)) = (self.cells[a], self.cells[b]);
        (a_row.abs_diff(b_row), a_column.abs_diff(b_column))
    }
}

/// So many locations in rows of a width.
fn rows_of(width: usize, locations: usize) -> Vec<(usize, usize)> {
    (0..locations).map(|location| (location / width, location % width)).collect()
}

/// A part of a device that hangs together, its locations renumbered from 0 on in their order.
struct Part {
    /// The locations, rising.
    locations: Vec<usize>,
    /// The neighbours of each, by the new numbers, rising.
    near: Vec<Vec<usize>>,
}

/// A cell while a part is laid out; rows and columns may begin anywhere.
type Cell = (i32, i32);

impl Part {
    fn len(&self) -> usize {
        self.near.len()
    }

    /// The fewest edges from one location to each.
    fn steps(&self, from: usize) -> Vec<i32> {
        let mut steps = vec![i32::MAX; self.len()];
        steps[from] = 0;
        let mut order = vec![from];
        let mut next = 0;
        while let Some(&location) = order.get(next) {
            next += 1;
            for &near in &self.near[location] {
                if steps[near] == i32::MAX {
                    steps[near] = steps[location] + 1;
                    order.push(near);
                }
            }
        }
        steps
    }

    /// Its cells, from row 0 and column 0 on.
    fn cells(&self) -> Vec<(usize, usize)> {
        from_zero(&fold::folded(self).or_else(|| grid::shaped(self)).unwrap_or_else(|| near::placed(self)))
    }
}

/// The cells with their first row and column moved to 0.
fn from_zero(cells: &[Cell]) -> Vec<(usize, usize)> {
    let top = cells.iter().map(|cell| cell.0).min().unwrap_or(0);
    let left = cells.iter().map(|cell| cell.1).min().unwrap_or(0);
    cells.iter().map(|cell| ((cell.0 - top) as usize, (cell.1 - left) as usize)).collect()
}

/// Each part on its own, the parts side by side as far as the columns reach and then below; the locations without edges at the end.
fn by_parts(device: &Device) -> Vec<(usize, usize)> {
    let (parts, alone): (Vec<Part>, Vec<Part>) = parts(device).into_iter().partition(|part| part.len() > 1);
    let placed: Vec<(Part, Vec<(usize, usize)>)> = parts.into_iter().map(|part| (part.cells(), part)).map(|(cells, part)| (part, cells)).collect();
    let width = |cells: &[(usize, usize)]| cells.iter().map(|cell| cell.1 + 1).max().unwrap_or(0);
    let height = |cells: &[(usize, usize)]| cells.iter().map(|cell| cell.0 + 1).max().unwrap_or(0);
    let columns = placed.iter().map(|(_, cells)| width(cells)).max().unwrap_or(0).max(COLUMNS);

    let mut all = vec![(0, 0); device.locations()];
    let (mut top, mut left, mut bottom) = (0, 0, 0);
    for (part, cells) in &placed {
        if left > 0 && left + width(cells) > columns {
            top = bottom + usize::from(bottom > top + 1 || height(cells) > 1); // flat parts need no empty row between
            left = 0;
        }
        for (&location, cell) in part.locations.iter().zip(cells) {
            all[location] = (top + cell.0, left + cell.1);
        }
        bottom = bottom.max(top + height(cells));
        left += width(cells) + 1;
    }
    let top = bottom + usize::from(bottom > 1 && !alone.is_empty());
    for (i, location) in alone.iter().flat_map(|part| &part.locations).enumerate() {
        all[*location] = (top + i / COLUMNS, i % COLUMNS);
    }
    all
}

/// The parts of a device, by their smallest locations.
fn parts(device: &Device) -> Vec<Part> {
    let mut new = vec![usize::MAX; device.locations()];
    let mut parts = vec![];
    for start in 0..device.locations() {
        if new[start] != usize::MAX {
            continue;
        }
        let mut locations = vec![start];
        new[start] = 0;
        let mut next = 0;
        while let Some(&location) = locations.get(next) {
            next += 1;
            for &other in device.near(location) {
                if new[other] == usize::MAX {
                    new[other] = 0;
                    locations.push(other);
                }
            }
        }
        locations.sort_unstable();
        locations.iter().enumerate().for_each(|(i, &location)| new[location] = i);
        let near = locations.iter().map(|&location| device.near(location).iter().map(|&other| new[other]).collect()).collect();
        parts.push(Part { locations, near });
    }
    parts
}
