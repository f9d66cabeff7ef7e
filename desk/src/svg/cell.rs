//! How a cell is painted: its square, and the mark on it. What colours tell, shapes and patterns tell too.

use super::ways::{Point, CELL, MIDDLE};
use crate::picture::{Look, Mark};

/// The radius of a qubit.
pub const DISC: i32 = 17;
/// Ink of lines and letters.
pub const INK: &str = "#222222";
/// The route.
pub const ROUTE: &str = "#7b1e7a";
/// What is reached.
pub const REACHED: &str = "#bfe8d6";
/// Lines and dots of what is reached.
pub const REACHED_INK: &str = "#00694d";
const GREY: &str = "#8a8a8a";

/// The patterns that cells and plates are filled with.
pub fn patterns() -> String {
    let pattern = |id: &str, side: i32, turned: i32, shape: &str| {
        format!(
            "<pattern id=\"{id}\" width=\"{side}\" height=\"{side}\" patternUnits=\"userSpaceOnUse\" patternTransform=\"rotate({turned})\">{shape}</pattern>\n"
        )
    };
    pattern("dots", 8, 0, &format!("<circle cx=\"4\" cy=\"4\" r=\"1.3\" fill=\"{REACHED_INK}\"/>"))
        + &pattern("hatch", 7, 45, "<rect width=\"2\" height=\"7\" fill=\"#a8a8a8\"/>")
        + &pattern("stripes", 10, -45, "<rect width=\"2\" height=\"10\" fill=\"#eebf94\"/>")
}

/// What the plate under a cell says of its region.
#[derive(Clone, Copy, PartialEq, Eq)]
pub enum Plate {
    /// A job's.
    Of(u8),
    /// Nobody's.
    Nobody,
    /// Not in the region that the picture is about.
    Outside,
}

impl Plate {
    /// A rectangle of it.
    pub fn painted(self, (x, y): Point, width: i32, height: i32) -> String {
        let rectangle = |fill: &str| format!("<rect x=\"{x}\" y=\"{y}\" width=\"{width}\" height=\"{height}\" fill=\"{fill}\"/>");
        match self {
            Plate::Of(1) => rectangle("#dfedf9"),
            Plate::Of(_) => rectangle("#fde6d2") + &rectangle("url(#stripes)"),
            Plate::Nobody => rectangle("#f4f4f4"),
            Plate::Outside => rectangle("#e4e4e4"),
        }
    }
}

/// The square of a cell.
pub fn square((x, y): Point, look: Look, mark: Mark) -> String {
    let rectangle = |fill: &str, stroke: &str, width: f64, more: &str| {
        format!("<rect x=\"{x}\" y=\"{y}\" width=\"{CELL}\" height=\"{CELL}\" rx=\"6\" fill=\"{fill}\" stroke=\"{stroke}\" stroke-width=\"{width}\"{more}/>")
    };
    match (look, mark) {
        (Look::Outside, _) => rectangle("#e4e4e4", "none", 0.0, "") + &rectangle("url(#hatch)", GREY, 1.0, " stroke-dasharray=\"3 3\""),
        (_, Mark::Reached) => rectangle(REACHED, "none", 0.0, "") + &rectangle("url(#dots)", REACHED_INK, 2.5, ""),
        (Look::First | Look::Second, _) => rectangle("#ffffff", "#000000", 2.5, ""),
        _ => rectangle("#ffffff", "#666666", 1.2, ""),
    }
}

/// The mark on a cell, its sign in it.
pub fn mark((x, y): Point, look: Look, sign: &str) -> String {
    let middle = (x + MIDDLE.0, y + MIDDLE.1);
    match look {
        Look::First | Look::Second => disc(middle, DISC, "#000000", "#f0e442", 3) + &letters(middle, sign, 22, "#ffffff"),
        Look::Held(job, _) if job.number() == 1 => disc(middle, DISC, "#0067a5", "#00324f", 1) + &letters(middle, sign, size(sign), "#ffffff"),
        Look::Held(..) => disc(middle, DISC - 2, "#fff6ee", "#c04f00", 4) + &letters(middle, sign, size(sign), "#5c2500"),
        Look::Occupied => disc(middle, DISC, "#6b6b6b", INK, 1) + &letters(middle, sign, 20, "#ffffff"),
        Look::Reached => disc(middle, 7, "#ffffff", REACHED_INK, 3),
        Look::Route => String::new(),
        Look::Free => disc(middle, 3, GREY, "none", 0),
        Look::Of(0) => letters(middle, sign, 16, GREY),
        Look::Of(1) => letters(middle, sign, 16, "#4d8fbd"),
        Look::Of(_) => letters(middle, sign, 16, "#b5773f"),
        Look::Outside => letters(middle, sign, 18, "#5a5a5a"),
    }
}

fn disc((x, y): Point, radius: i32, fill: &str, stroke: &str, width: i32) -> String {
    format!("<circle cx=\"{x}\" cy=\"{y}\" r=\"{radius}\" fill=\"{fill}\" stroke=\"{stroke}\" stroke-width=\"{width}\"/>")
}

/// The size that letters of a sign have in a disc.
fn size(sign: &str) -> i32 {
    match sign.len() {
        0..=2 => 15,
        _ => 13,
    }
}

/// Strong letters with their middle at a point.
fn letters((x, y): Point, sign: &str, size: i32, fill: &str) -> String {
    let y = y + size * 36 / 100;
    format!("<text x=\"{x}\" y=\"{y}\" font-size=\"{size}\" font-weight=\"bold\" text-anchor=\"middle\" fill=\"{fill}\">{sign}</text>")
}
