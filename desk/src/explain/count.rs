//! The command count of each function and of main, for a program that is refused by 20.
//!
//! A function's count is found once and remembered. The largest that a file of 4,096 bytes can have is under 2^100, so no sum here overflows; they saturate all
//! the same.

use crate::numbers::grouped;
use crate::program::{Block, Kind, Program, Statement};

/// How many of the heaviest statements are named.
const HEAVIEST: usize = 3;

/// What is found: main's count, that of each function and how often main itself calls it, and the heaviest statements of main.
pub fn lines(program: &Program) -> Vec<String> {
    let counts = counts(program);
    let main = of_block(&program.main, &counts);
    let mut lines = vec![format!("main counts {} commands", grouped(main))];
    lines.extend(of_functions(program, &counts));
    lines.extend(heaviest(program, &counts));
    lines
}

/// The count of each function, in file order.
fn counts(program: &Program) -> Vec<u128> {
    let mut counts = vec![];
    for function in &program.functions {
        counts.push(of_block(&function.body, &counts));
    }
    counts
}

/// The count of a block, of whose callees these are the counts.
fn of_block(block: &Block, counts: &[u128]) -> u128 {
    block.statements.iter().fold(0, |sum: u128, statement| sum.saturating_add(of_statement(statement, counts)))
}

fn of_statement(statement: &Statement, counts: &[u128]) -> u128 {
    match &statement.kind {
        Kind::Init { .. } | Kind::Free { .. } | Kind::Merge { .. } => 1,
        Kind::If { then, otherwise, .. } => of_block(then, counts).saturating_add(of_block(otherwise, counts)).saturating_add(1),
        Kind::While { body, .. } => of_block(body, counts).saturating_add(1),
        Kind::Call { function, .. } => counts.get(*function).copied().unwrap_or(0),
        Kind::Gate { .. } | Kind::Measure { .. } | Kind::Ref { .. } | Kind::Get { .. } | Kind::Set { .. } | Kind::Bool { .. } => 0,
    }
}

/// How often the statements of a block call each function themselves.
fn calls(block: &Block, times: &mut [u64]) {
    for statement in &block.statements {
        match &statement.kind {
            Kind::Call { function, .. } => {
                if let Some(times) = times.get_mut(*function) {
                    *times += 1;
                }
            }
            _ => statement.blocks().into_iter().for_each(|block| calls(block, times)),
        }
    }
}

fn of_functions(program: &Program, counts: &[u128]) -> Vec<String> {
    let mut times = vec![0; counts.len()];
    calls(&program.main, &mut times);
    let line = |(number, (&count, times)): (usize, (&u128, u64))| {
        let in_main = match times {
            0 => String::new(),
            1 => "; main calls it once".to_string(),
            _ => format!("; main calls it {times} times, {} in all", grouped(count.saturating_mul(u128::from(times)))),
        };
        format!("function {number} counts {}{in_main}", grouped(count))
    };
    counts.iter().zip(times).enumerate().map(line).collect()
}

/// The statements of main's own block that count most; of those that count the same, the first in the file.
fn heaviest(program: &Program, counts: &[u128]) -> Vec<String> {
    let mut weighed: Vec<(u128, &Statement)> = program.main.statements.iter().map(|statement| (of_statement(statement, counts), statement)).collect();
    weighed.sort_by(|(one, first), (other, second)| other.cmp(one).then(first.at.cmp(&second.at)));
    let line = |(count, statement): (u128, &Statement)| {
        let number = program.listing.number(statement.at);
        format!("line {number}, `{}`, counts {}", program.listing.text(number), grouped(count))
    };
    weighed.into_iter().take(HEAVIEST).filter(|(count, _)| *count > 1).map(line).collect()
}
