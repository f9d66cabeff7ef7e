//! `check`: accepted, for either job, with qubits left live and without; and a job that is none.

use super::given::*;
use super::{case, Case};
use crate::files::*;
use crate::question::check;

pub fn cases() -> Vec<Case> {
    let once: Vec<Statement> = (0..15).map(|f| call(f, &[0], &[])).chain([boolean(0, 0), refer(1, 0), repeat(1, &[])]).collect();
    let doubling = chain(1, 0, &[init(0, 0), free(0)], 15, 2);
    let every: Vec<Statement> = (0..32).map(|slot| init(slot, 31 - slot)).collect();
    let again = [free(0), init(0, 0)];
    let branch = when(2, &[gate(0)], &[free(0), init(0, 0)]);
    let made_again = calling(&[function(1, 1, &again)], &[init(0, 0), init(1, 5), boolean(2, 1), branch, call(0, &[5], &[1])]);
    let gone = [init(0, 0), init(1, 5), free(1), call(0, &[0], &[0])];
    let by_input = |words: &[&str]| {
        let mut question = check(&grid(), &program_a(), 1);
        question.words = words.iter().map(|word| word.to_string()).collect();
        question
    };
    vec![
        case("check-accepted", check(&grid(), &program_a(), 1)).says(&["accepted: program on device for job 1", "commands: 5", "left live: 0"]),
        case("check-accepted-empty", check(&grid(), &only(&[]), 1)).says(&["commands: 0", "left live: 0"]),
        case("check-accepted-job-2", check(&swapped(&grid()), &program_a(), 2)).says(&["accepted: program on device for job 2", "commands: 5"]),
        case("check-accepted-calls", check(&two(), &program_b(), 1)).says(&["commands: 12"]),
        case("check-accepted-every-kind", check(&grid(), &program_d(), 1)).says(&["commands: 8"]),
        case("check-accepted-most", check(&grid(), &calling(&doubling, &once), 1)).says(&["commands: 65535"]),
        case("check-accepted-options", by_input(&["check", "--job=1", "--", "device", "program"])).says(&["commands: 5"]),
        case("check-accepted-input", by_input(&["check", "-", "program"])).input(&grid()).says(&["accepted: program on standard input for job 1"]),
        case("check-live", check(&grid(), &program_live(), 1)).says(&["commands: 4", "left live: 1\n  slot 1 at location 2, made at line 4\n"]),
        case("check-live-job-2", check(&swapped(&grid()), &program_live(), 2)).says(&["job 2", "left live: 1\n  slot 1 at location 2, made at line 4\n"]),
        case("check-live-every-slot", check(&line(32), &only(&every), 1)).says(&["left live: 32\n", "  slot 31 at location 0, made at line 34\n"]),
        case("check-live-made-again", check(&grid(), &made_again, 1)).says(&["left live: 2\n", "made at line 6 or 13\n", "made at line 7 or 14\n"]),
        case("check-live-none-of-two", check(&grid(), &calling(&[losing()], &gone), 1)).says(&["commands: 4", "left live: 0"]),
        case("check-25-three", check(&grid(), &program_a(), 3)).refused(25, 0).finds(&["3"]),
        case("check-25-none", check(&grid(), &program_a(), 0)).refused(25, 0).finds(&["0"]),
        case("check-25-before-device", check(&[], &[], u64::MAX)).refused(25, 0).finds(&["18446744073709551615"]),
    ]
}
