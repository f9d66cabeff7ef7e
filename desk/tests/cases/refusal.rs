//! `refusal`: what each number means, and numbers that are none.

use super::{case, plain, trouble, Case};
use abwakiris::Number;

pub fn cases() -> Vec<Case> {
    let one = |case: Case, number: &Number| case.and(plain(&["refusal", &number.number().to_string()])).says(&[number.words()]);
    let all = Number::ALL.iter().fold(Case { name: "refusal", lines: vec![] }, one);
    vec![
        all,
        case("refusal-all", plain(&["refusal"])).says(&["1: device under 9 bytes", "21: no path", "27: "]),
        case("refusal-unknown", trouble(&["refusal", "0"]))
            .and(trouble(&["refusal", "28"]))
            .says(&["28", "1 to 27"])
            .and(trouble(&["refusal", "256"]))
            .says(&["256"])
            .and(trouble(&["refusal", "18446744073709551616"]))
            .and(trouble(&["refusal", "twenty"]))
            .says(&["twenty"]),
    ]
}
