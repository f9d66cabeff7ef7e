//! `check` of files that are no device: 1 to 7.

use super::{case, Case};
use crate::files::*;
use crate::question::check;

pub fn cases() -> Vec<Case> {
    let g = grid();
    let of = |name: &'static str, device: &[u8], number: u8, place: u32| case(name, check(device, &program_a(), 1)).refused(number, place);
    vec![
        of("check-01-device-empty", &[], 1, 0).finds(&["empty"]),
        of("check-01-device-short", &g[..8], 1, 0).finds(&["8"]),
        of("check-02-device-is-a-program", &program_a(), 2, 0).finds(&["51 4C 53", "program"]).says(&["QLG"]),
        of("check-02-device-any-bytes", b"\0\x01\xFF\n\x1B[31m...", 2, 0),
        of("check-03-device", &with(&g, &[(4, 2)]), 3, 3).finds(&["2"]),
        of("check-04-device-no-location", &with(&g, &[(6, 0)]), 4, 5).finds(&["0"]).says(&["256"]),
        of("check-04-device-locations", &with(&g, &[(5, 1), (6, 1)]), 4, 5).finds(&["257"]).says(&["256"]),
        of("check-04-device-edges", &with(&g, &[(7, 4), (8, 1)]), 4, 7).finds(&["1025"]).says(&["1024"]),
        of("check-05-device-shorter", &g[..28], 5, 0).finds(&["28"]).says(&["29"]),
        of("check-05-device-longer", &[&g[..], &[0]].concat(), 5, 0).finds(&["30"]).says(&["29"]),
        of("check-06-owner", &with(&g, &[(13, 3)]), 6, 13).finds(&["3"]).says(&["location 4"]),
        of("check-07-edge-falls", &device(3, &[(1, 2), (0, 1)]), 7, 14).finds(&["0", "1"]),
        of("check-07-edge-twice", &device(3, &[(0, 1), (0, 1)]), 7, 14).finds(&["0", "1"]),
        of("check-07-edge-to-itself", &device(3, &[(0, 1), (2, 2)]), 7, 14).finds(&["2"]),
        of("check-07-edge-backwards", &device(3, &[(1, 0)]), 7, 12).finds(&["1", "0"]),
        of("check-07-edge-outside", &device(3, &[(0, 1), (1, 3)]), 7, 14).finds(&["3"]),
    ]
}
