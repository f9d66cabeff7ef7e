//! A program that was made, with the number that its check answers where that is known; merges that have no path are thinned out.

use super::trees::{statements_of, Program};
use crate::reference;

/// A program and, when it is known, the number that its check answers on its device.
pub(super) struct Made {
    pub(super) program: Program,
    pub(super) claim: Option<u8>,
}

impl Made {
    pub(super) fn unclaimed(self) -> Made {
        Made { claim: None, ..self }
    }
}

/// Turns each merge that has no path into a measurement, so that the program is accepted.
pub(super) fn thin_out(made: &mut Made, device: &[u8], job: u8) {
    loop {
        let (bytes, marks) = made.program.encode();
        let place = match reference::check(device, &bytes, u64::from(job)) {
            Err(refusal) if refusal.number == 21 => refusal.place,
            _ => return,
        };
        let mut index = 0;
        for body in made.program.bodies() {
            statements_of(body, &mut |statement| {
                if marks.statements[index].at == place {
                    let merge = statement.bytes.clone();
                    statement.bytes = vec![5, merge[1], merge[2], merge[3]];
                }
                index += 1;
            });
        }
    }
}
