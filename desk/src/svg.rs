//! Pictures as SVG: a file of its own, without scripts and without anything from elsewhere.
//!
//! Colours can be told apart by people who are colour-blind, and everything that a colour tells is told by a sign, a shape or a pattern too.

mod cell;
mod ways;

use crate::device::Device;
use crate::layout::Layout;
use crate::picture::{Look, Mark, Picture, Way};
use cell::Plate;
use ways::{Point, Ways};

/// The space round a picture.
const MARGIN: i32 = 20;
/// The least width of a picture: its words need it.
const NARROWEST: i32 = 560;
/// The height of a line of the title.
const LINE: i32 = 24;
/// The width and the height of a line of the legend.
const ENTRY: (i32, i32) = (380, 34);

/// The picture as a file of its own.
pub fn drawn(device: &Device, layout: &Layout, picture: &Picture) -> String {
    let sheet = Sheet::new(device, layout, picture);
    let (width, height) = sheet.size();
    let mut text = format!(
        "<?xml version=\"1.0\" encoding=\"UTF-8\"?>\n<svg xmlns=\"http://www.w3.org/2000/svg\" viewBox=\"0 0 {width} {height}\" width=\"{width}\" \
         height=\"{height}\" font-family=\"DejaVu Sans, Verdana, Helvetica, Arial, sans-serif\">\n<title>{}</title>\n<defs>\n{}</defs>\n\
         <rect width=\"{width}\" height=\"{height}\" fill=\"#ffffff\"/>\n",
        escaped(&picture.title),
        cell::patterns(),
    );
    for layer in [sheet.words(), sheet.plates(), sheet.edges(), sheet.squares(), sheet.route(), sheet.marks(), sheet.legend()] {
        text.push_str(&layer);
    }
    text.push_str("</svg>\n");
    text
}

/// A text with what XML needs otherwise written so that it stands for itself, and without what XML does not take.
pub fn escaped(text: &str) -> String {
    let mut out = String::new();
    for letter in text.chars() {
        match letter {
            '&' => out.push_str("&amp;"),
            '<' => out.push_str("&lt;"),
            '>' => out.push_str("&gt;"),
            '"' => out.push_str("&quot;"),
            '\'' => out.push_str("&#39;"),
            '\u{0}'..='\u{1F}' | '\u{7F}'..='\u{9F}' | '\u{FFFE}' | '\u{FFFF}' => out.push('\u{FFFD}'),
            other => out.push(other),
        }
    }
    out
}

/// A picture with its places.
struct Sheet<'a> {
    device: &'a Device,
    layout: &'a Layout,
    picture: &'a Picture,
    ways: Ways,
    title: Vec<String>,
    /// The lines of the legend: a swatch, and what it means.
    legend: Vec<(Swatch, String)>,
}

/// What stands before a line of the legend.
enum Swatch {
    Cell(Look, String),
    Plate(u8),
    Way(Way),
}

impl<'a> Sheet<'a> {
    fn new(device: &'a Device, layout: &'a Layout, picture: &'a Picture) -> Sheet<'a> {
        let mut sheet = Sheet { device, layout, picture, ways: Ways::new(device, layout, (MARGIN, 0)), title: vec![], legend: vec![] };
        sheet.title = lines(&picture.title, (sheet.width() - 2 * MARGIN) as usize / 10);
        let top = MARGIN + LINE * sheet.title.len() as i32 + 8;
        sheet.ways = Ways::new(device, layout, (MARGIN, top));
        sheet.legend = sheet.meanings();
        sheet
    }

    fn width(&self) -> i32 {
        (2 * MARGIN + self.layout.columns() as i32 * self.ways.pitch()).max(NARROWEST)
    }

    /// How many lines of the legend stand side by side.
    fn abreast(&self) -> usize {
        ((self.width() - 2 * MARGIN) / ENTRY.0).max(1) as usize
    }

    /// The end of the cells.
    fn bottom(&self) -> i32 {
        self.ways.corner((self.layout.rows(), 0)).1 - self.ways.gap() / 2
    }

    fn size(&self) -> (i32, i32) {
        let lines = (self.legend.len() + self.abreast() - 1) / self.abreast();
        (self.width(), self.bottom() + 16 + lines as i32 * ENTRY.1 + MARGIN)
    }

    fn owner(&self, location: usize) -> u8 {
        self.device.owners.get(location).copied().unwrap_or(0)
    }

    fn plate(&self, location: usize) -> Plate {
        match (self.picture.about, self.owner(location)) {
            (Some(job), owner) if owner != job.number() => Plate::Outside,
            (_, 0) => Plate::Nobody,
            (_, owner) => Plate::Of(owner),
        }
    }

    /// The title.
    fn words(&self) -> String {
        let mut text = String::new();
        for (i, line) in self.title.iter().enumerate() {
            let y = MARGIN + LINE * (i as i32 + 1) - 8;
            text.push_str(&format!("<text x=\"{MARGIN}\" y=\"{y}\" font-size=\"16\" font-weight=\"bold\" fill=\"{}\">{}</text>\n", cell::INK, escaped(line)));
        }
        text
    }

    /// The regions under the cells, with lines where one ends.
    fn plates(&self) -> String {
        let (grid, pitch) = (self.layout.grid(), self.ways.pitch());
        let at = |row: usize, column: usize| grid.get(row).and_then(|line| line.get(column)).and_then(|location| location.map(|location| self.plate(location)));
        let corner = |row: usize, column: usize| {
            let (x, y) = self.ways.corner((row, column));
            (x - self.ways.gap() / 2, y - self.ways.gap() / 2)
        };
        let (mut plates, mut lines) = (String::new(), String::new());
        for row in 0..=self.layout.rows() {
            let mut start = 0;
            for column in 0..=self.layout.columns() {
                let (here, left) = (at(row, column), if column > 0 { at(row, column - 1) } else { None });
                let above = if row > 0 { at(row - 1, column) } else { None };
                let (x, y) = corner(row, column);
                if here != left {
                    let (from, _) = corner(row, start);
                    plates.push_str(&left.map_or(String::new(), |plate| plate.painted((from, y), x - from, pitch) + "\n"));
                    start = column;
                    lines.push_str(&format!("M{x} {y}v{pitch}"));
                }
                if here != above {
                    lines.push_str(&format!("M{x} {y}h{pitch}"));
                }
            }
        }
        format!("<g id=\"regions\">\n{plates}<path d=\"{lines}\" fill=\"none\" stroke=\"#9a9a9a\" stroke-width=\"1.5\"/>\n</g>\n")
    }

    /// Whether an edge between neighbours joins what is reached from the first end.
    fn is_corridor(&self, (a, b): (usize, usize)) -> bool {
        let is_reached = |location: usize| matches!(self.picture.mark(location), Mark::Reached | Mark::First);
        is_reached(a) && is_reached(b) && self.picture.way(self.device, a, b) != Way::Closed && self.ways.between(a, b).len() == 2
    }

    /// The edges, with a corridor under those that join what is reached.
    fn edges(&self) -> String {
        let mut text = String::new();
        let reached: String = self.device.edges.iter().filter(|edge| self.is_corridor(**edge)).map(|&(a, b)| path(&self.ways.between(a, b))).collect();
        for (stroke, width) in [(cell::REACHED_INK, 20), (cell::REACHED, 16)] {
            if !reached.is_empty() {
                text.push_str(&format!("<path d=\"{reached}\" fill=\"none\" stroke=\"{stroke}\" stroke-width=\"{width}\"/>\n"));
            }
        }
        for (id, closed, style) in
            [("closed", true, "stroke=\"#8a8a8a\" stroke-width=\"1.5\" stroke-dasharray=\"2 4\""), ("edges", false, "stroke=\"#333333\" stroke-width=\"2.5\"")]
        {
            text.push_str(&format!("<g id=\"{id}\" fill=\"none\" {style}>\n"));
            for &(a, b) in self.device.edges.iter().filter(|edge| (self.picture.way(self.device, edge.0, edge.1) == Way::Closed) == closed) {
                let points = self.ways.between(a, b);
                let thin = if points.len() > 2 { " stroke-width=\"1.3\"" } else { "" };
                text.push_str(&format!("<path id=\"edge-{a}-{b}\" d=\"{}\"{thin}/>\n", path(&points)));
            }
            text.push_str("</g>\n");
        }
        text
    }

    fn squares(&self) -> String {
        let mut text = String::from("<g id=\"cells\">\n");
        for (location, &place) in self.layout.cells.iter().enumerate() {
            text.push_str(&cell::square(self.ways.corner(place), self.picture.look(self.device, location), self.picture.mark(location)));
            text.push('\n');
        }
        text + "</g>\n"
    }

    /// The route as a thick line over the cells, with an arrow where it ends.
    fn route(&self) -> String {
        let mut points: Vec<Point> = vec![];
        for step in self.picture.route.windows(2) {
            points.extend(self.ways.between(step[0], step[1]));
        }
        points.dedup();
        match arrow(&points) {
            Some((line, head)) => format!("<g id=\"route\" fill=\"none\" stroke-linejoin=\"round\">\n{}{head}</g>\n", thick(&line)),
            None => String::new(),
        }
    }

    /// Numbers and marks, each with words for a pointer that rests on it.
    fn marks(&self) -> String {
        let meanings = self.picture.legend(self.device);
        let mut text = format!("<g id=\"locations\" fill=\"{}\">\n", cell::INK);
        for (location, &place) in self.layout.cells.iter().enumerate() {
            let look = self.picture.look(self.device, location);
            let sign = within(&self.picture.sign(self.device, location));
            let corner = self.ways.corner(place);
            let (x, y, side) = (corner.0, corner.1, ways::CELL);
            let means = meanings.iter().find(|(found, _, _)| *found == look).map_or("", |(_, _, means)| means);
            let means = means.replace("slot N", &format!("slot {}", sign.trim_start_matches('s')));
            text.push_str(&format!("<g id=\"location-{location}\"><title>location {location}: {}</title>", escaped(&means)));
            text.push_str(&format!("<rect x=\"{x}\" y=\"{y}\" width=\"{side}\" height=\"{side}\" fill-opacity=\"0\"/>"));
            text.push_str(&number((x + 5, y + 12), "start", &location.to_string()));
            text.push_str(&cell::mark(corner, look, &sign));
            if !matches!(look, Look::Of(_)) && self.picture.about.map_or(true, |job| !self.device.has(job, location)) {
                let owner = self.owner(location);
                text.push_str(&number((x + side - 5, y + 12), "end", &if owner == 0 { "-".to_string() } else { owner.to_string() }));
            }
            text.push_str("</g>\n");
        }
        text + "</g>\n"
    }

    /// What is explained below the picture.
    fn meanings(&self) -> Vec<(Swatch, String)> {
        let looks = self.picture.legend(self.device);
        let shown = |owner: u8| looks.iter().any(|(look, _, _)| *look == Look::Of(owner));
        let plates: Vec<u8> = (1..=2).filter(|&owner| self.picture.about.is_none() && self.device.owners.contains(&owner) && !shown(owner)).collect();
        let ways: Vec<Way> = self.device.edges.iter().map(|&(a, b)| self.picture.way(self.device, a, b)).collect();
        let outside = |look: Look| if look == Look::Outside { "; the small sign on the right says whose it is" } else { "" };
        let cells = looks.iter().filter(|(look, _, _)| *look != Look::Route); // the line says so
        let mut lines: Vec<(Swatch, String)> =
            cells.map(|(look, sign, means)| (Swatch::Cell(*look, within(sign)), format!("{means}{}", outside(*look)))).collect();
        lines.extend(plates.into_iter().map(|owner| (Swatch::Plate(owner), format!("the region of job {owner}"))));
        for (way, means) in [(Way::Route, "the route".to_string()), (Way::Closed, self.picture.closed())] {
            if ways.contains(&way) {
                lines.push((Swatch::Way(way), means));
            }
        }
        lines
    }

    fn legend(&self) -> String {
        let mut text = format!("<g id=\"legend\" fill=\"{}\">\n", cell::INK);
        for (i, (swatch, means)) in self.legend.iter().enumerate() {
            let (line, column) = ((i / self.abreast()) as i32, (i % self.abreast()) as i32);
            let (x, y) = (MARGIN + column * ENTRY.0, self.bottom() + 16 + line * ENTRY.1);
            let words = format!("<text x=\"{}\" y=\"{}\" font-size=\"13\">{}</text>", x + 44, y + 20, escaped(means));
            text.push_str(&format!("<g transform=\"translate({x} {y}) scale(0.55)\">{}</g>{words}\n", self.swatch(swatch)));
        }
        text + "</g>\n"
    }

    /// A cell as it is in the picture, smaller; or a piece of a line.
    fn swatch(&self, swatch: &Swatch) -> String {
        let plate = |plate: Plate| plate.painted((0, 0), 64, 56);
        let corner = (6, 2);
        match swatch {
            Swatch::Cell(look, sign) => {
                let under = match look {
                    Look::Of(0) => Plate::Nobody,
                    Look::Of(owner) => Plate::Of(*owner),
                    Look::Outside => Plate::Outside,
                    Look::Held(job, _) => Plate::Of(job.number()),
                    _ => self.picture.about.map_or(Plate::Nobody, |job| Plate::Of(job.number())),
                };
                let mark = if *look == Look::Reached { Mark::Reached } else { Mark::Free };
                plate(under) + &cell::square(corner, *look, mark) + &cell::mark(corner, *look, sign)
            }
            Swatch::Plate(owner) => plate(Plate::Of(*owner)) + &cell::mark(corner, Look::Of(*owner), &owner.to_string()),
            Swatch::Way(Way::Route) => arrow(&[(0, 30), (84, 30)]).map_or(String::new(), |(line, head)| thick(&line) + &head),
            Swatch::Way(_) => "<path d=\"M0 30H64\" fill=\"none\" stroke=\"#8a8a8a\" stroke-width=\"3\" stroke-dasharray=\"4 8\"/>".to_string(),
        }
    }
}

/// A sign as it stands on its job's region: without the job.
fn within(sign: &str) -> String {
    sign.rsplit(':').next().unwrap_or(sign).to_string()
}

/// A small number in a corner of a cell, which begins or ends at a point.
fn number((x, y): Point, anchor: &str, number: &str) -> String {
    format!(
        "<text x=\"{x}\" y=\"{y}\" font-size=\"11\" text-anchor=\"{anchor}\" stroke=\"#ffffff\" stroke-width=\"2.5\" paint-order=\"stroke\">{number}</text>"
    )
}

/// A line as the route is drawn.
fn thick(points: &[Point]) -> String {
    let d = path(points);
    let line = |stroke: &str, width: i32, more: &str| format!("<path d=\"{d}\" fill=\"none\" stroke=\"{stroke}\" stroke-width=\"{width}\"{more}/>\n");
    line("#ffffff", 11, "") + &line(cell::ROUTE, 6, " stroke-dasharray=\"11 4\"")
}

/// A line cut so that it ends at the disc of its last point, and the head of an arrow there.
fn arrow(points: &[Point]) -> Option<(Vec<Point>, String)> {
    let (&to, before) = points.split_last()?;
    let &from = before.last()?;
    let (x, y) = (f64::from(to.0 - from.0), f64::from(to.1 - from.1));
    let length = (x * x + y * y).sqrt().max(1.0);
    let (x, y) = (x / length, y / length);
    let disc = f64::from(cell::DISC) + 2.0;
    let at = |back: f64, aside: f64| (f64::from(to.0) - x * back - y * aside, f64::from(to.1) - y * back + x * aside);
    let (tip, left, right) = (at(disc, 0.0), at(disc + 15.0, 9.0), at(disc + 15.0, -9.0));
    let head = format!(
        "<path d=\"M{:.1} {:.1}L{:.1} {:.1}L{:.1} {:.1}Z\" fill=\"{}\" stroke=\"#ffffff\" stroke-width=\"1.5\"/>\n",
        tip.0,
        tip.1,
        left.0,
        left.1,
        right.0,
        right.1,
        cell::ROUTE
    );
    let (x, y) = at(disc + 10.0, 0.0);
    let mut line = before.to_vec();
    line.push((x.round() as i32, y.round() as i32));
    Some((line, head))
}

/// The path through points, its corners rounded.
fn path(points: &[Point]) -> String {
    let mut d = String::new();
    for (i, &(x, y)) in points.iter().enumerate() {
        match (i.checked_sub(1).and_then(|before| points.get(before)), points.get(i + 1)) {
            (None, _) => d.push_str(&format!("M{x} {y}")),
            (Some(_), None) => d.push_str(&format!("L{x} {y}")),
            (Some(&before), Some(&after)) => {
                let (from, to) = (towards((x, y), before), towards((x, y), after));
                d.push_str(&format!("L{} {}Q{x} {y} {} {}", from.0, from.1, to.0, to.1));
            }
        }
    }
    d
}

/// A point a little from one towards another, at most half the way.
fn towards(from: Point, to: Point) -> Point {
    let part = |from: i32, to: i32| from + ((to - from) / 2).clamp(-5, 5);
    (part(from.0, to.0), part(from.1, to.1))
}

/// A text in lines of about so many letters.
fn lines(text: &str, letters: usize) -> Vec<String> {
    let mut lines: Vec<String> = vec![];
    for word in text.split(' ') {
        match lines.last_mut() {
            Some(line) if line.chars().count() + 1 + word.chars().count() <= letters => {
                line.push(' ');
                line.push_str(word);
            }
            _ => lines.push(word.to_string()),
        }
    }
    lines
}
