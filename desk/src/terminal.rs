//! Pictures in the terminal: ASCII, no colours.
//!
//! Each location is its number over its mark; what is occupied stands in brackets, what is free does not. Edges between neighbouring cells are drawn, all
//! others are listed below.

use crate::device::Device;
use crate::layout::Layout;
use crate::picture::{Look, Picture, Way};

/// The most columns of characters.
const WIDEST: usize = 118;
/// The characters before a picture.
const MARGIN: usize = 2;

/// The picture, with a line for each mark that is in it.
pub fn drawn(device: &Device, layout: &Layout, picture: &Picture) -> String {
    let mut text: String = picture.title.chars().map(|letter| if matches!(letter, ' '..='~') { letter } else { '?' }).collect();
    text.push_str("\n\n");
    let sheet = Sheet::new(device, layout, picture);
    let bands = sheet.bands();
    for &(from, to) in &bands {
        if bands.len() > 1 {
            text.push_str(&format!("{:MARGIN$}columns {from} to {}\n", "", to - 1));
        }
        text.push_str(&sheet.band(from, to));
        text.push('\n');
    }
    text.push_str(&sheet.further(&bands));
    text.push_str(&sheet.legend());
    text
}

/// A picture with its places in lines of characters.
struct Sheet<'a> {
    device: &'a Device,
    picture: &'a Picture,
    layout: &'a Layout,
    /// The location at each cell.
    grid: Vec<Vec<Option<usize>>>,
    /// The mark of each location as it is written.
    marks: Vec<String>,
    /// The characters from one cell to the next.
    pitch: usize,
    /// The characters before the middle of a cell.
    middle: usize,
}

/// The mark of a look: in brackets where something is there.
fn mark(look: Look, sign: &str) -> String {
    match look {
        Look::First | Look::Second | Look::Held(..) | Look::Occupied => format!("[{sign}]"),
        _ => format!(" {sign} "),
    }
}

impl<'a> Sheet<'a> {
    fn new(device: &'a Device, layout: &'a Layout, picture: &'a Picture) -> Sheet<'a> {
        let marks: Vec<String> = (0..device.locations()).map(|location| mark(picture.look(device, location), &picture.sign(device, location))).collect();
        let content = marks.iter().map(String::len).max().unwrap_or(0).max((device.locations() - 1).to_string().len());
        let columns = layout.columns().max(1);
        let room = (WIDEST - MARGIN) / columns;
        let pitch = if room > content { room.min(content + 4) } else { content + 2 };
        Sheet { device, picture, layout, grid: layout.grid(), marks, pitch, middle: MARGIN + content / 2 }
    }

    /// The first column of each band and the one after its last.
    fn bands(&self) -> Vec<(usize, usize)> {
        let columns = self.layout.columns().max(1);
        let most = ((WIDEST - MARGIN) / self.pitch).max(1);
        let bands = (columns + most - 1) / most;
        (0..bands).map(|band| (band * columns / bands, (band + 1) * columns / bands)).collect()
    }

    /// The location at a cell of a band.
    fn at(&self, row: usize, column: usize) -> Option<usize> {
        *self.grid.get(row)?.get(column)?
    }

    /// How the edge between two cells looks, where there is one.
    fn way(&self, a: Option<usize>, b: Option<usize>) -> Option<Way> {
        let (a, b) = (a?, b?);
        self.device.near(a).contains(&b).then(|| self.picture.way(self.device, a, b))
    }

    /// The lines of some columns.
    fn band(&self, from: usize, to: usize) -> String {
        let mut text = String::new();
        for row in (0..self.grid.len()).filter(|&row| (from..to).any(|column| self.at(row, column).is_some())) {
            for line in [self.numbers(row, from, to), self.marks(row, from, to), self.down(row, from, to)] {
                text.push_str(line.0.trim_end());
                text.push('\n');
            }
        }
        text.trim_end().to_string() + "\n"
    }

    /// The middle of a column in a band that begins at another.
    fn middle(&self, from: usize, column: usize) -> usize {
        self.middle + (column - from) * self.pitch
    }

    fn numbers(&self, row: usize, from: usize, to: usize) -> Line {
        let mut line = Line::default();
        for column in from..to {
            if let Some(location) = self.at(row, column) {
                line.put_round(self.middle(from, column), &location.to_string());
            }
        }
        line
    }

    /// The marks with the edges along the row; an edge to another band stands out at both ends.
    fn marks(&self, row: usize, from: usize, to: usize) -> Line {
        let mut line = Line::default();
        for column in from..to {
            let here = self.at(row, column);
            let next = here.and(self.at(row, column + 1));
            let way = self.way(here, next);
            if let (Some(way), Some(location)) = (way, here) {
                let (start, end) = (self.middle(from, column), self.middle(from, column) + self.pitch);
                let begin = start + (self.marks[location].len() + 1) / 2;
                let before = next.map_or(0, |next| self.marks[next].len() / 2);
                let end = if column + 1 < to { end - before } else { begin + 2 };
                line.edge(begin, end, way);
            }
            if column == from && from > 0 {
                if let Some(way) = self.way(self.at(row, column - 1), here) {
                    line.edge(0, MARGIN, way);
                }
            }
            if let Some(location) = here {
                line.put_round(self.middle(from, column), &self.marks[location]);
            }
        }
        line
    }

    /// The edges to the row below.
    fn down(&self, row: usize, from: usize, to: usize) -> Line {
        let mut line = Line::default();
        for column in from..to {
            let (here, below) = (self.at(row, column), self.at(row + 1, column));
            let middle = self.middle(from, column);
            match self.way(here, below) {
                Some(Way::Open) => line.put(middle, "|"),
                Some(Way::Closed) => line.put(middle, ":"),
                Some(Way::Route) => line.put(middle, "||"),
                None => {}
            }
            if column + 1 < to {
                let falls = self.way(here, self.at(row + 1, column + 1));
                let rises = self.way(self.at(row, column + 1), below);
                let sign = match (falls, rises) {
                    (Some(_), Some(_)) => "X",
                    (Some(_), None) => "\\",
                    (None, Some(_)) => "/",
                    (None, None) => "",
                };
                let times = if [falls, rises].contains(&Some(Way::Route)) { 2 } else { 1 };
                line.put(middle + self.pitch / 2, &sign.repeat(times));
            }
        }
        line
    }

    /// Whether an edge is drawn, and not only listed.
    fn is_drawn(&self, bands: &[(usize, usize)], a: usize, b: usize) -> bool {
        let band = |location: usize| bands.iter().position(|&(from, to)| (from..to).contains(&self.layout.cells[location].1));
        match self.layout.apart(a, b) {
            (0, 1) | (1, 0) => true,
            (1, 1) => band(a) == band(b),
            _ => false,
        }
    }

    /// The edges that are not drawn, in lines.
    fn further(&self, bands: &[(usize, usize)]) -> String {
        let left: Vec<(usize, usize)> = self.device.edges.iter().copied().filter(|&(a, b)| !self.is_drawn(bands, a, b)).collect();
        let mut text = String::new();
        for (closed, title) in [(false, "further edges:".to_string()), (true, format!("further edges, each {}:", self.picture.closed()))] {
            let these = left.iter().map(|&(a, b)| (a, b, self.picture.way(self.device, a, b))).filter(|&(_, _, way)| (way == Way::Closed) == closed);
            let words: Vec<String> = these.map(|(a, b, way)| format!("{a}{}{b}", if way == Way::Route { '=' } else { '-' })).collect();
            if !words.is_empty() {
                text.push_str(&wrapped(&title, &words));
                text.push('\n');
            }
        }
        text
    }

    /// A line for each kind of mark and edge that occurs.
    fn legend(&self) -> String {
        let mut lines: Vec<(String, String)> = self.picture.legend(self.device).into_iter().map(|(look, sign, means)| (mark(look, &sign), means)).collect();
        let ways: Vec<Way> = self.device.edges.iter().map(|&(a, b)| self.picture.way(self.device, a, b)).collect();
        if ways.contains(&Way::Route) {
            lines.push(("=== ||".to_string(), "the route".to_string()));
        }
        if ways.contains(&Way::Closed) {
            lines.push((":: :".to_string(), self.picture.closed()));
        }
        let width = lines.iter().map(|(sign, _)| sign.len()).max().unwrap_or(0);
        lines.iter().map(|(sign, means)| format!("{:MARGIN$}{sign:width$}  {means}\n", "")).collect()
    }
}

/// A title and words after it, in lines.
fn wrapped(title: &str, words: &[String]) -> String {
    let mut text = format!("{:MARGIN$}{title}", "");
    let mut length = text.len();
    for word in words {
        if length + 1 + word.len() > WIDEST {
            text.push_str(&format!("\n{:MARGIN$} ", ""));
            length = MARGIN + 1;
        }
        text.push(' ');
        text.push_str(word);
        length += 1 + word.len();
    }
    text + "\n"
}

/// A line of characters that are put at places.
#[derive(Default)]
struct Line(String);

impl Line {
    /// Puts ASCII text at a place.
    fn put(&mut self, at: usize, text: &str) {
        let missing = (at + text.len()).saturating_sub(self.0.len());
        self.0.push_str(&" ".repeat(missing));
        self.0.replace_range(at..at + text.len(), text);
    }

    /// Puts it with its middle at a place.
    fn put_round(&mut self, middle: usize, text: &str) {
        self.put(middle.saturating_sub(text.len() / 2), text);
    }

    /// Puts an edge from one place to before another.
    fn edge(&mut self, from: usize, to: usize, way: Way) {
        let length = to.saturating_sub(from);
        match way {
            Way::Open => self.put(from, &"-".repeat(length)),
            Way::Route => self.put(from, &"=".repeat(length)),
            Way::Closed => self.put(from + length.saturating_sub(2) / 2, &":".repeat(length.min(2))),
        }
    }
}
