//! The outcomes that lead to a merge without a path, and a run that does not halt, in words.

use super::beside::Beside;
use super::elsewhere::Elsewhere;
use super::lead::Lead;
use super::search::Against;
use super::steps::Step;
use super::words::Words;
use crate::numbers::many;
use crate::program::Kind;
use abwakiris::{Job, MOST_STEPS};

/// The most steps of a schedule that is written in one piece.
const ONE_PIECE: usize = 64;

/// The most outcomes that are listed.
const MOST_OUTCOMES: usize = 24;

/// The most reasons that are listed; where there are more, none of them says much.
const MOST_REASONS: usize = 4;

impl Words<'_> {
    /// What the search for outcomes came to.
    pub(super) fn outcomes(&self) -> String {
        let states = self.why.states;
        // another call may lead to the same merge, by a shorter run too
        let there = if self.why.trail.legs.len() > 1 { "there by these calls" } else { "there" };
        match &self.why.lead {
            Lead::Found { steps, shortest } => {
                let which = if *shortest {
                    format!("no run {there} is shorter")
                } else {
                    "it is the shortest run that was found, and there may be a shorter one".into()
                };
                format!("  The job halts at step {}; {which}.\n\n{}", steps.len(), self.stuck(steps))
            }
            Lead::Never { body, site, against } => {
                let shown = if against.len() <= MOST_REASONS { &against[..] } else { &[] };
                let mut text = format!("  No outcomes lead {there}: the search saw every state that matters ({states}), and the guards keep the job away.\n");
                text.push_str(&format!("  In {body} it never comes to line {}{}\n", self.line(*site).0, if shown.is_empty() { "." } else { ":" }));
                shown.iter().for_each(|against| text.push_str(&format!("  - {}\n", self.against(against))));
                text + &self.elsewhere()
            }
            Lead::TooLong { fewest } => {
                let fewest = if *fewest == u64::MAX { "more than can be counted".to_string() } else { fewest.to_string() };
                let most = format!("A schedule has at most {MOST_STEPS} steps, and the shortest run that comes {there} has {fewest}.");
                format!("  {most}\n  So there is none to replay.\n")
            }
            Lead::GivenUp => format!("  None were found. {states} states were looked at, and there are more: outcomes may lead there all the same.\n"),
        }
    }

    /// A run that is stuck: its outcomes, and how to replay it.
    fn stuck(&self, steps: &[Step]) -> String {
        let chosen: Vec<(usize, &Step)> = steps.iter().enumerate().filter(|(_, step)| step.chosen).collect();
        let mut text = match chosen.len() {
            0 => "  No outcome matters: every run of the job comes there.\n".to_string(),
            1 => "  One outcome decides its way:\n".to_string(),
            number => format!("  {number} outcomes decide its way:\n"),
        };
        let shown = chosen.iter().take(MOST_OUTCOMES).map(|&(i, step)| self.step(i, step, format!("outcome {}", u8::from(step.outcome))));
        let last = steps.last().map(|last| self.step(steps.len() - 1, last, "stuck: no path".to_string()));
        let rows: Vec<[String; 4]> = shown.chain(last).collect();
        let width = |i: usize| rows.iter().map(|row| row[i].len()).max().unwrap_or(0);
        let [a, b, c] = [width(0), width(1), width(2)];
        for (i, [step, line, statement, what]) in rows.iter().enumerate() {
            if i == MOST_OUTCOMES && chosen.len() > MOST_OUTCOMES {
                text.push_str(&format!("    .. and {} more, which --json has\n", chosen.len() - MOST_OUTCOMES));
            }
            text.push_str(&format!("    step {step:>a$}  line {line:>b$}  {statement:c$}  {what}\n"));
        }
        text + "\n" + &self.replay(steps)
    }

    fn step(&self, i: usize, step: &Step, what: String) -> [String; 4] {
        let (line, text) = self.line(step.at);
        [(i + 1).to_string(), line.to_string(), text.to_string(), what]
    }

    /// The command that replays a run, with its schedule.
    fn replay(&self, steps: &[Step]) -> String {
        let digits = self.digits(steps);
        let [device, program] = self.names;
        let run = |schedule: &str| {
            let [first, second] = if self.job == Job::ONE { [program, "none"] } else { ["none", program] };
            format!("abwakiris run {device} {first} {second} {schedule}")
        };
        if steps.len() <= ONE_PIECE {
            return format!("  To replay it:\n\n    {}\n", run(&digits));
        }
        let mut text = format!("  The schedule, {}; --json has it in one piece:\n\n", many(steps.len(), "step"));
        let tens: Vec<&str> = (0..digits.len()).step_by(20).map(|from| &digits[from..digits.len().min(from + 20)]).collect();
        for line in tens.chunks(5) {
            text.push_str(&format!("    {}\n", line.join(" ")));
        }
        text + &format!("\n  To replay it, with these digits in a file:\n\n    {}\n", run("FILE"))
    }

    /// What keeps the job from going on.
    pub(super) fn against(&self, against: &Against) -> String {
        let (at, why) = match *against {
            Against::Guard { at, needed } => (at, self.guard_against(at, needed)),
            Against::NoPath { at } => (at, "has no path either".to_string()),
            Against::NoReturn { at } => (at, "never returns".to_string()),
        };
        let (line, text) = self.line(at);
        format!("line {line}, {text}: {why}")
    }

    fn guard_against(&self, at: usize, needed: bool) -> String {
        match (self.program.statement(at).map(|(_, statement)| &statement.kind), needed) {
            (Some(Kind::While { guard, .. }), true) => format!("slot {guard} never holds 1 there, so the block is never gone into"),
            (Some(Kind::While { guard, .. }), false) => format!("slot {guard} always holds 1 there, so the loop never ends"),
            (Some(Kind::If { guard, .. }), needed) => format!("slot {guard} is always {} there", u8::from(!needed)),
            _ => "never goes on there".to_string(),
        }
    }

    fn elsewhere(&self) -> String {
        match &self.why.elsewhere {
            Some(Elsewhere::Found { at, steps }) => {
                let (line, text) = self.line(*at);
                let but = match *at == self.why.trail.merge().at {
                    true => format!("But by another call the job can come to this merge, line {line}, and it has no path there either."),
                    false => format!("But the job can halt at another merge: line {line}, {text}, has no path either."),
                };
                format!("\n  {but} It halts there at step {}.\n\n{}", steps.len(), self.stuck(steps))
            }
            Some(Elsewhere::Nowhere) => {
                let none = "No outcomes lead to any other merge without a path. The check does not look at the values of guards, so it refuses the program";
                format!("\n  {none}\n  all the same: keep a corridor free for this merge too, or leave it out.\n")
            }
            Some(Elsewhere::GivenUp) => "\n  Whether the job can come to another merge without a path was not found out.\n".to_string(),
            None => String::new(),
        }
    }

    /// The run beside it that does not halt; nothing where no outcomes were found that halt the job.
    pub(super) fn beside(&self) -> String {
        let stuck = if let Lead::Found { steps, .. } = &self.why.lead { steps } else { return String::new() };
        let (halts, matters) = (stuck.len(), stuck.iter().any(|step| step.chosen));
        match &self.why.beside {
            Some(Beside::Found { steps, parts_at }) => {
                let (outcome, at) = steps.get(*parts_at).map_or((0, 0), |step| (u8::from(step.outcome), step.at));
                let (line, text) = self.line(at);
                let (ends, step) = (many(steps.len(), "step"), parts_at + 1);
                let with = format!("With outcome {outcome} at step {step} (line {line}, {text}) the job ends after {ends}");
                format!("  {with}; with outcome {} it halts at step {halts}.\n\n{}", 1 - outcome, self.replay(steps))
            }
            Some(Beside::Never) if !matters => "  There is none: every run of the job comes to this merge.\n".to_string(),
            Some(Beside::Never) => format!("  No run of the job ends within {MOST_STEPS} steps: whatever the outcomes are, it halts or is still going.\n"),
            _ => "  None was found, but not all runs were looked at.\n".to_string(),
        }
    }
}
