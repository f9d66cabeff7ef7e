//! `bundle`: what the printing program reads.

use super::{case, Case};
use crate::files::*;
use crate::question::bundle;

pub fn cases() -> Vec<Case> {
    let (g, a) = (grid(), program_a());
    vec![
        case("bundle", bundle(&g, &a)),
        case("bundle-to-a-file", bundle(&g, &a).with(&["-o", "bundle"])).writes("bundle"),
        case("bundle-empty-files", bundle(&[], &[])),
    ]
}
