//! Programs about corridors: two ends that are merged again and again, in calls, in a loop, or with a location between them taken and freed.

use super::devices::Device;
use super::limits::chain;
use super::made::Made;
use super::random::Random;
use super::trees::{simple, Block, Function, Program, Statement};

/// Many merges of two far ends, each one in its own call.
pub(super) fn merging_program(random: &mut Random, region: &[usize]) -> Made {
    let times = if random.one_in(4) { 6 } else { 3 };
    let mut program = chain(2, 2, vec![simple(&[6, 2, 0, 0, 1, 1])], &[times; 6]);
    let (a, b) = (region[0] as u8, region[region.len() - 1] as u8);
    program.main = vec![
        simple(&[1, 0, a]),
        simple(&[2, 1, b]),
        simple(&[12, 6, 2, 2, a, b, 0, 1]),
        simple(&[3, 0]),
        simple(&[3, 1]),
    ];
    Made { program, claim: None }
}

/// A loop that never ends, with a merge of two far ends in it.
pub(super) fn looping_program(region: &[usize]) -> Made {
    let (a, b) = (region[0] as u8, region[region.len() - 1] as u8);
    let body = vec![simple(&[6, 4, 0, 0, 0, 1]), simple(&[4, 2, 1])];
    let main = vec![
        simple(&[1, 0, a]),
        simple(&[1, 1, b]),
        simple(&[13, 2, 1]),
        simple(&[7, 3, 2]),
        Statement { bytes: vec![11, 3], blocks: vec![body] },
        simple(&[3, 0]),
        simple(&[3, 1]),
    ];
    Made { program: Program { functions: Vec::new(), main }, claim: None }
}

/// Two ends that are merged again and again, and a location between them that is taken and freed in between, in ifs, loops and functions. None if the
/// job's region has no such locations.
pub(super) fn corridor_program(random: &mut Random, plan: &Device, job: u8) -> Option<Program> {
    let (a, middle, b) = random.pick_if_any(&corridors(plan, job))?;
    let mut corridor = Corridor { random, ends: (a, b), middle, outcome: 5 };
    let mut taken = false;
    let mut main = vec![simple(&[1, 0, a]), simple(&[1, 1, b])];
    main.push(simple(&[13, 3, corridor.random.below(2) as u8]));
    main.push(simple(&[7, 4, 3]));
    let last = corridor.random.between(1, 3);
    for _ in 0..last {
        main.append(&mut corridor.block(1, &mut taken, true));
        // In main itself the outcomes stay, so they must not be bound again.
        corridor.outcome += 4;
    }
    // Each of them may stay.
    for slot in [2, 1, 0] {
        if (slot != 2 || taken) && !corridor.random.one_in(4) {
            main.push(simple(&[3, slot]));
        }
    }
    Some(Program { functions: functions(), main })
}

/// Each middle between two of its neighbours in the region, as end, middle, end; the ends may also be next to each other.
fn corridors(plan: &Device, job: u8) -> Vec<(u8, u8, u8)> {
    let mut triples = Vec::new();
    let near = |a: usize, b: usize| plan.edges.contains(&(a.min(b), a.max(b)));
    let region = plan.region(job);
    let few = &region[..region.len().min(16)];
    for &middle in few {
        for &a in few {
            for &b in few {
                if near(a, middle) && near(middle, b) && a != b {
                    triples.push((a as u8, middle as u8, b as u8));
                }
            }
        }
    }
    triples
}

/// Functions 0 and 4 leave the middle alone, 1 to 3 take it as a qubit and free it, 5 and 6 take it as a free location.
fn functions() -> Vec<Function> {
    let function = |arguments: usize, parameters: usize, bytes: &[&[u8]]| Function {
        parameters,
        arguments,
        block: bytes.iter().map(|bytes| simple(bytes)).collect(),
    };
    let merge: &[u8] = &[6, 9, 0, 0, 1, 1];
    let again: &[u8] = &[6, 10, 1, 1, 0, 0];
    let (take, free): (&[u8], &[u8]) = (&[2, 2, 2], &[3, 2]);
    vec![
        function(2, 2, &[merge]),
        function(3, 3, &[free, merge]),
        function(3, 3, &[merge, free, again]),
        function(3, 3, &[free]),
        function(2, 2, &[&[12, 0, 2, 2, 1, 0, 1, 0], &[12, 0, 2, 2, 0, 1, 0, 1]]),
        function(2, 3, &[take, merge, free]),
        function(2, 3, &[merge, take, &[12, 1, 3, 3, 0, 1, 2, 0, 1, 2], again]),
    ]
}

/// Main's slots: 0 and 1 the ends, 2 the middle, 3 a bool, 4 a reference, 5 and up outcomes.
struct Corridor<'a> {
    random: &'a mut Random,
    ends: (u8, u8),
    middle: u8,
    /// The slot that the next merge's outcome takes.
    outcome: u8,
}

impl Corridor<'_> {
    /// Statements that end with the middle as it was, unless `free_to_change`; even then a
    /// nested block may not end with a middle that it took, for that qubit would outlive it.
    fn block(&mut self, depth: usize, taken: &mut bool, free_to_change: bool) -> Block {
        let before = *taken;
        let mut block = Vec::new();
        // Outcomes vanish at the end of a block, so their slots can be used again there.
        let outcome = self.outcome;
        for _ in 0..self.random.between(1, 4) {
            block.push(match self.random.below(9) {
                0..=2 => self.toggle(taken),
                3 | 4 if self.outcome < 31 => {
                    self.outcome += 1;
                    simple(&[6, self.outcome - 1, 0, 0, 1, 1])
                }
                5 | 6 if depth < 4 => self.branch(depth, taken),
                7 if depth < 4 => Statement { bytes: vec![11, 4], blocks: vec![self.block(depth + 1, taken, false)] },
                _ => self.call(taken),
            });
        }
        let may_change = free_to_change && (depth == 1 || before);
        if !may_change && *taken != before {
            block.push(self.toggle(taken));
        }
        self.outcome = outcome;
        block
    }

    fn toggle(&self, taken: &mut bool) -> Statement {
        *taken = !*taken;
        if *taken { simple(&[1, 2, self.middle]) } else { simple(&[3, 2]) }
    }

    fn branch(&mut self, depth: usize, taken: &mut bool) -> Statement {
        let change = self.random.one_in(2);
        let (mut in_then, mut in_else) = (*taken, *taken);
        let then = self.block(depth + 1, &mut in_then, change);
        let mut otherwise = self.block(depth + 1, &mut in_else, change);
        if in_then != in_else {
            otherwise.push(self.toggle(&mut in_else));
        }
        *taken = in_then;
        Statement { bytes: vec![10, 3], blocks: vec![then, otherwise] }
    }

    fn call(&mut self, taken: &mut bool) -> Statement {
        let (a, b) = self.ends;
        let f = if *taken { self.random.pick(&[0, 1, 2, 3, 4]) } else { self.random.pick(&[0, 4, 5, 6]) };
        let mut call = match f {
            0 | 4 => vec![12, f, 2, 2, a, b, 0, 1],
            1..=3 => vec![12, f, 3, 3, a, b, self.middle, 0, 1, 2],
            _ => vec![12, f, 3, 2, a, b, self.middle, 0, 1],
        };
        // The ends in the other order, which a merge doesn't mind.
        if self.random.one_in(4) {
            call.swap(4, 5);
            let k = usize::from(call[2]);
            call.swap(4 + k, 5 + k);
        }
        if matches!(f, 1..=3) {
            *taken = false;
        }
        simple(&call)
    }
}
