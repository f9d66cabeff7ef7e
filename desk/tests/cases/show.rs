//! `show`: devices drawn in the terminal and as SVG, before and after a run, and a run as a page.

use super::given::*;
use super::{case, Case};
use crate::files::*;
use crate::question::{show, show_for, show_run};

pub fn cases() -> Vec<Case> {
    [in_terminal(), as_svg(), after_runs(), refused()].into_iter().flatten().collect()
}

/// Five rows of five: job 1 above, job 2 below, nobody between and at the middle of each side.
fn regions() -> Vec<u8> {
    rows(5, &[1, 1, 1, 1, 1, 1, 1, 0, 1, 1, 0, 0, 0, 0, 0, 2, 2, 0, 2, 2, 2, 2, 2, 2, 2])
}

fn in_terminal() -> Vec<Case> {
    vec![
        case("show-g", show(&grid())),
        case("show-two-regions", show(&regions())),
        case("show-two-regions-job-2", show_for(&regions(), 2)),
        case("show-occupied", show(&grid()).with(&["--occupied", "1,4"])),
        case("show-ring", show(&ring(8))),
        case("show-ring-width", show(&ring(8)).with(&["--width", "4"])),
        case("show-one-location", show(&device(1, &[]))),
        case("show-no-edges", show(&owned(&[1, 2, 0], &[]))),
        case("show-grid-of-256", show(&rows(16, &[1; 256]))),
    ]
}

fn as_svg() -> Vec<Case> {
    let to = |device: &[u8]| show(device).with(&["-o", "picture.svg"]);
    vec![
        case("show-svg-g", to(&grid())).writes("picture.svg"),
        case("show-svg-two-regions", to(&regions()).with(&["--job", "1", "--occupied", "1,3"])).writes("picture.svg"),
        case("show-svg-ring", to(&ring(5))).writes("picture.svg"),
    ]
}

fn after_runs() -> Vec<Case> {
    let (d, b, c) = (two(), program_b(), program_c());
    let ran = || show_run(&d, Some(&b), Some(&c), &[0x10, 0x20, 0x10, 0x10, 0x10, 0x20, 0x10, 0x10, 0x10, 0x11]);
    let none = show_run(&grid(), Some(&program_a()), None, &[0x10, 0x10, 0x10]);
    vec![
        case("show-run", ran()),
        case("show-run-none", none),
        case("show-run-svg", ran().with(&["-o", "picture.svg"])).writes("picture.svg"),
        case("show-run-page", ran().with(&["-o", "page.html"])).writes_page("page.html"),
    ]
}

fn refused() -> Vec<Case> {
    let g = grid();
    vec![
        case("show-07", show(&device(3, &[(0, 1), (2, 2)]))).refused(7, 14).finds(&["2"]),
        case("show-25", show_for(&g, 3)).refused(25, 0).finds(&["3"]),
        case("show-run-23", show_run(&g, Some(&program_a()), None, &[0x10, 0x30])).refused(23, 1).finds(&["30"]),
        case("show-run-10", show_run(&g, Some(&only(&[free(32)])), None, &[0x10])).refused(10, 9).finds(&["32"]),
    ]
}
