//! The lines that edges are drawn along: straight between neighbouring cells, else in the gaps between rows and columns, so that none runs through a cell.

use crate::device::Device;
use crate::layout::Layout;
use std::collections::HashMap;

/// The side of a cell.
pub const CELL: i32 = 52;
/// Where in a cell its mark has its middle.
pub const MIDDLE: Point = (26, 30);
/// The space between two lanes of a gap.
const LANE: i32 = 4;
/// The most lanes of a gap. Where more edges go side by side, some share a lane.
const MOST_LANES: usize = 15;

/// A point in user units.
pub type Point = (i32, i32);

/// Where cells, gaps and edges are.
pub struct Ways {
    left: i32,
    top: i32,
    /// The space between two rows or columns.
    gap: i32,
    cells: Vec<(usize, usize)>,
    /// The points of each edge from the middle of its smaller end to that of the other.
    edges: HashMap<(usize, usize), Vec<Point>>,
}

/// How an edge gets from one cell to the other.
#[derive(Clone, Copy)]
enum Course {
    /// Straight.
    Direct,
    /// Along this gap between rows. Gap 0 is above row 0.
    Row(usize),
    /// Along this gap between columns.
    Column(usize),
    /// Along this gap between rows, then along this one between columns.
    Both(usize, usize),
}

impl Ways {
    /// The ways of a device, the first cell's gap beginning at this point.
    pub fn new(device: &Device, layout: &Layout, corner: Point) -> Ways {
        let courses: Vec<Course> = device.edges.iter().map(|&(a, b)| course(layout, a, b)).collect();
        let mut lanes = Lanes::default();
        let taken: Vec<[usize; 2]> = device.edges.iter().zip(&courses).map(|(&(a, b), &course)| lanes.take(layout.cells[a], layout.cells[b], course)).collect();
        let most = lanes.most().min(MOST_LANES) as i32;
        let gap = (most * LANE + 8).max(24);
        let mut ways = Ways { left: corner.0 + gap / 2, top: corner.1 + gap / 2, gap, cells: layout.cells.clone(), edges: HashMap::new() };
        let mut ports = Ports::default();
        for ((&(a, b), course), lanes) in device.edges.iter().zip(courses).zip(taken) {
            let points = ways.points(a, b, course, lanes, &mut ports);
            ways.edges.insert((a, b), points);
        }
        ways
    }

    /// From one row or column to the next.
    pub fn pitch(&self) -> i32 {
        CELL + self.gap
    }

    /// The space between two rows or columns.
    pub fn gap(&self) -> i32 {
        self.gap
    }

    /// The left upper corner of a cell.
    pub fn corner(&self, (row, column): (usize, usize)) -> Point {
        (self.left + column as i32 * self.pitch(), self.top + row as i32 * self.pitch())
    }

    /// The middle of the mark of a location.
    pub fn middle(&self, location: usize) -> Point {
        let (x, y) = self.corner(self.cells[location]);
        (x + MIDDLE.0, y + MIDDLE.1)
    }

    /// The points from one end of an edge to the other; none where there is no such edge.
    pub fn between(&self, a: usize, b: usize) -> Vec<Point> {
        let mut points = self.edges.get(&(a.min(b), a.max(b))).cloned().unwrap_or_default();
        if a > b {
            points.reverse();
        }
        points
    }

    /// The middle of a lane in the gap before a row or column.
    fn lane(&self, start: i32, gap: usize, lane: usize) -> i32 {
        let lanes = (self.gap - 8) / LANE;
        let lane = lane as i32 % lanes.max(1);
        let aside = (lane + 1) / 2 * LANE;
        start + gap as i32 * self.pitch() - self.gap / 2 + if lane % 2 == 1 { aside } else { -aside }
    }

    fn points(&self, a: usize, b: usize, course: Course, lanes: [usize; 2], ports: &mut Ports) -> Vec<Point> {
        let (from, to) = (self.middle(a), self.middle(b));
        let across = |lane: usize, gap: usize| self.lane(self.top, gap, lane);
        let down = |lane: usize, gap: usize| self.lane(self.left, gap, lane);
        let sign = |from: i32, to: i32| if from <= to { 1 } else { -1 };
        let right = sign(from.0, to.0);
        let below = sign(from.1, to.1);
        match course {
            Course::Direct => vec![from, to],
            Course::Row(gap) => {
                let y = across(lanes[0], gap);
                let start = from.0 + ports.next(a, sign(from.1, y), right, 0);
                let end = to.0 + ports.next(b, sign(to.1, y), -right, 0);
                vec![from, (start, from.1), (start, y), (end, y), (end, to.1), to]
            }
            Course::Column(gap) => {
                let x = down(lanes[0], gap);
                let start = from.1 + ports.next(a, sign(from.0, x), below, 1);
                let end = to.1 + ports.next(b, sign(to.0, x), -below, 1);
                vec![from, (from.0, start), (x, start), (x, end), (to.0, end), to]
            }
            Course::Both(row_gap, column_gap) => {
                let (y, x) = (across(lanes[0], row_gap), down(lanes[1], column_gap));
                let start = from.0 + ports.next(a, sign(from.1, y), right, 0);
                let end = to.1 + ports.next(b, sign(to.0, x), -below, 1);
                vec![from, (start, from.1), (start, y), (x, y), (x, end), (to.0, end), to]
            }
        }
    }
}

/// The course of an edge.
fn course(layout: &Layout, a: usize, b: usize) -> Course {
    let ((a_row, a_column), (b_row, b_column)) = (layout.cells[a], layout.cells[b]);
    match layout.apart(a, b) {
        (0, 1) | (1, 0) | (1, 1) => Course::Direct,
        (0, _) if is_clear(layout, a, b) => Course::Direct,
        (_, 0) if is_clear(layout, a, b) => Course::Direct,
        (0, _) => Course::Row(if 2 * a_row < layout.rows() { a_row } else { a_row + 1 }),
        (_, 0) => Course::Column(if 2 * a_column < layout.columns() { a_column } else { a_column + 1 }),
        (1, _) => Course::Row(a_row.max(b_row)),
        (_, 1) => Course::Column(a_column.max(b_column)),
        _ => Course::Both(if a_row < b_row { a_row + 1 } else { a_row }, if a_column < b_column { b_column } else { b_column + 1 }),
    }
}

/// Whether no location stands between two in one row or column.
fn is_clear(layout: &Layout, a: usize, b: usize) -> bool {
    let ((a_row, a_column), (b_row, b_column)) = (layout.cells[a], layout.cells[b]);
    let within = |at: usize, a: usize, b: usize| (a.min(b)..=a.max(b)).contains(&at);
    layout.cells.iter().filter(|&&(row, column)| within(row, a_row, b_row) && within(column, a_column, b_column)).count() == 2
}

/// The stretches of a lane that are taken, in half rows or columns.
type Lane = Vec<(usize, usize)>;

/// The lanes of each gap.
#[derive(Default)]
struct Lanes {
    /// By the axis, 0 for gaps between rows, and the gap.
    gaps: HashMap<(u8, usize), Vec<Lane>>,
}

impl Lanes {
    /// Takes a lane in each gap of a course.
    fn take(&mut self, a: (usize, usize), b: (usize, usize), course: Course) -> [usize; 2] {
        match course {
            Course::Direct => [0, 0],
            Course::Row(gap) => [self.free(0, gap, 2 * a.1 + 1, 2 * b.1 + 1), 0],
            Course::Column(gap) => [self.free(1, gap, 2 * a.0 + 1, 2 * b.0 + 1), 0],
            Course::Both(row_gap, column_gap) => [self.free(0, row_gap, 2 * a.1 + 1, 2 * column_gap), self.free(1, column_gap, 2 * row_gap, 2 * b.0 + 1)],
        }
    }

    /// The first lane of a gap that is free over a stretch.
    fn free(&mut self, axis: u8, gap: usize, from: usize, to: usize) -> usize {
        let (from, to) = (from.min(to), from.max(to));
        let lanes = self.gaps.entry((axis, gap)).or_default();
        let is_free = |lane: &Lane| lane.iter().all(|&(start, end)| end < from || to < start);
        match lanes.iter().position(is_free) {
            Some(lane) => {
                lanes[lane].push((from, to));
                lane
            }
            None => {
                lanes.push(vec![(from, to)]);
                lanes.len() - 1
            }
        }
    }

    /// The most lanes of any gap.
    fn most(&self) -> usize {
        self.gaps.values().map(Vec::len).max().unwrap_or(0)
    }
}

/// Where edges leave the sides of cells: beside the middle, each a little farther.
#[derive(Default)]
struct Ports {
    taken: HashMap<(usize, i32, i32, u8), i32>,
}

impl Ports {
    /// How far from the middle the next edge leaves a location's side, towards this direction.
    fn next(&mut self, location: usize, side: i32, towards: i32, axis: u8) -> i32 {
        let taken = self.taken.entry((location, side, towards, axis)).or_insert(0);
        *taken += 1;
        towards * (6 + (*taken - 1) % 5 * 3)
    }
}
