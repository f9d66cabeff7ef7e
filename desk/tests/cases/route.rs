//! `route`: the routes of `docs/FORMAT.md` on device G, and ends that have none.

use super::given::*;
use super::{case, Case};
use crate::files::*;
use crate::question::route;

pub fn cases() -> Vec<Case> {
    let g = grid();
    let on_g = |name: &'static str, from: u64, to: u64, occupied: &[usize]| case(name, route(&g, from, to, 1, occupied));
    vec![
        on_g("route-accepted", 0, 2, &[]).says(&["0 1 2"]),
        on_g("route-accepted-occupied", 0, 2, &[1]).says(&["0 3 4 5 2"]),
        on_g("route-accepted-backwards", 4, 0, &[]).says(&["4 1 0"]),
        on_g("route-accepted-neighbours", 0, 1, &[1, 3]).says(&["0 1"]),
        case("route-accepted-job-2", route(&swapped(&g), 0, 4, 2, &[])),
        case("route-accepted-ring", route(&ring(8), 1, 6, 1, &[])).says(&["1 0 7 6"]),
        case("route-accepted-width", route(&g, 0, 2, 1, &[1]).with(&["--width", "2"])),
        on_g("route-13-first", 6, 2, &[]).refused(13, 0).finds(&["location 6"]),
        on_g("route-13-second", 0, 6, &[]).refused(13, 1).finds(&["location 6"]),
        on_g("route-13-far-beyond", u64::MAX, 0, &[]).refused(13, 0).finds(&["18446744073709551615"]),
        case("route-13-other-job", route(&two(), 0, 4, 1, &[])).refused(13, 1).finds(&["location 4", "job 2"]),
        on_g("route-15", 3, 3, &[]).refused(15, 0).finds(&["3"]),
        on_g("route-21-occupied", 0, 2, &[1, 4]).refused(21, 0).finds(&["0", "2"]),
        on_g("route-21-occupied-near", 0, 4, &[1, 3]).refused(21, 0).finds(&["0", "4"]),
        case("route-21-other-job", route(&split(), 0, 2, 1, &[])).refused(21, 0).finds(&["0", "2"]),
        case("route-25", route(&g, 0, 2, 3, &[])).refused(25, 0).finds(&["3"]),
        case("route-06", route(&with(&g, &[(13, 3)]), 0, 2, 1, &[])).refused(6, 13).says(&["location 4"]),
    ]
}
