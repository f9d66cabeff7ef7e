//! How large a case is, its device, programs and schedule: small most times, at the limits one time in forty.

use super::random::Random;

#[derive(Clone, Copy, PartialEq, Eq)]
pub(super) enum Size {
    Small,
    Middle,
    Limit,
}

pub(super) fn size(random: &mut Random) -> Size {
    match random.below(40) {
        0 => Size::Limit,
        1..=5 => Size::Middle,
        _ => Size::Small,
    }
}
