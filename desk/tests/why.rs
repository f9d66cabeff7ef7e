//! `why` on generated programs that the check refuses with 21, and on some written for it: the trail names the library's merge, every schedule that is
//! shown does what is said of it, and what is said to be out of reach is not reached by any outcomes that can be tried.

#[path = "parts/repository.rs"]
mod repository;

use abwakiris::{Job, Number, Record, Records, Told, RECORD_BYTES};
use abwakiris_desk::device::Device;
use abwakiris_desk::program::{Body, Program};
use abwakiris_desk::why::beside::Beside;
use abwakiris_desk::why::elsewhere::Elsewhere;
use abwakiris_desk::why::lead::Lead;
use abwakiris_desk::why::search::Against;
use abwakiris_desk::why::steps::{schedule, Step};
use abwakiris_desk::why::way::Blocked;
use abwakiris_desk::why::Why;
use repository::{generator, library, reference};
use std::process::Command;
use std::time::{Duration, Instant};

/// A device and a program that the check refuses with 21.
struct Refused {
    device: Device,
    program: Program,
    job: Job,
    place: usize,
}

impl Refused {
    /// None where the check answers anything else.
    fn of(device: &[u8], program: &[u8], job: u64) -> Option<Refused> {
        let job = Job::try_from(job).ok()?;
        let refusal = abwakiris::check(device, program, job).err().filter(|refusal| refusal.number == Number::NoPath)?;
        Some(Refused { device: Device::read(device).ok()?, program: Program::read(program).ok()?, job, place: refusal.place as usize })
    }

    /// A listing on a grid of so many columns and rows, all of it job 1's.
    fn on_grid(columns: usize, rows: usize, listing: &str) -> Refused {
        let program = abwakiris::read_listing(listing).expect("a listing");
        Refused::of(&grid(&vec![1; columns * rows], columns), &program, 1).expect("refused with 21")
    }

    fn why(&self) -> Why<'_> {
        Why::of(&self.device, &self.program, self.job, self.place).expect("the walk comes to the library's merge")
    }

    fn line(&self, at: usize) -> usize {
        self.program.listing.number(at)
    }

    /// The library's records of a schedule of this job alone.
    fn records(&self, schedule: &[u8]) -> Vec<Record> {
        let nothing = Program::empty();
        let [first, second] = if self.job == Job::ONE { [&self.program, &nothing] } else { [&nothing, &self.program] };
        let (mut records, mut map) = (vec![0; RECORD_BYTES * schedule.len()], vec![0; self.device.locations()]);
        abwakiris::run(&self.device.bytes, &first.bytes, &second.bytes, schedule, &mut records, &mut map).expect("a run");
        Records::new(&records).collect()
    }

    /// All but the last of these steps move, and the last is stuck with 21 at this place.
    fn assert_stuck(&self, steps: &[Step], at: usize) {
        let records = self.records(&schedule(self.job, steps));
        let (last, before) = records.split_last().expect("a step");
        assert!(before.iter().all(|record| record.told == Told::Moved));
        assert_eq!((last.told, last.offset), (Told::Stuck(Number::NoPath), Some(at as u16)));
    }

    /// All of these steps move, and then the job is finished.
    fn assert_finished(&self, steps: &[Step]) {
        let mut whole = schedule(self.job, steps);
        whole.push(self.job, false);
        let records = self.records(&whole);
        assert!(records[..steps.len()].iter().all(|record| record.told == Told::Moved));
        assert_eq!(records[steps.len()].told, Told::Finished);
    }

    /// What is shown is so.
    fn assert_shown(&self, why: &Why<'_>) {
        assert_eq!(why.trail.merge().at, self.place);
        let occupancy = why.way.occupied.occupancy(self.device.locations());
        assert_eq!(self.device.route(self.job, &occupancy, why.way.ends[0], why.way.ends[1]), None);
        assert_eq!(why.held.iter().map(|held| held.location).collect::<Vec<_>>(), why.way.occupied.list());
        assert!(why.held.iter().all(|held| !held.holders.is_empty() && !held.made.is_empty()));
        if let Lead::Found { steps, .. } = &why.lead {
            self.assert_stuck(steps, self.place);
        }
        if let Some(Elsewhere::Found { at, steps }) = &why.elsewhere {
            self.assert_stuck(steps, *at);
        }
        if let (Some(Beside::Found { steps, parts_at }), Lead::Found { steps: stuck, .. }) = (&why.beside, &why.lead) {
            self.assert_finished(steps);
            let outcomes = |steps: &[Step]| steps.iter().map(|step| step.outcome).collect::<Vec<bool>>();
            assert_eq!(outcomes(&steps[..*parts_at]), outcomes(&stuck[..*parts_at]));
            assert_ne!(steps[*parts_at].outcome, stuck[*parts_at].outcome);
        }
    }
}

/// A device of rows, with these owners, in which neighbours are joined.
fn grid(owners: &[u8], columns: usize) -> Vec<u8> {
    let n = owners.len();
    let mut edges = vec![];
    for l in 0..n {
        edges.extend(((l + 1) % columns != 0 && l + 1 < n).then_some([l as u8, l as u8 + 1]));
        edges.extend((l + columns < n).then_some([l as u8, (l + columns) as u8]));
    }
    let mut bytes = b"QLG\x00\x01".to_vec();
    bytes.extend((n as u16).to_be_bytes());
    bytes.extend((edges.len() as u16).to_be_bytes());
    bytes.extend(owners);
    bytes.extend(edges.concat());
    bytes
}

/// How a run that was tried out ended: with these outcomes, one for each step, after so many steps.
struct Tried {
    outcomes: Vec<bool>,
    /// The place of the merge that it is stuck at; none where it is finished.
    stuck: Option<usize>,
}

/// Every run of a job that ends within some steps. None where there are too many to try.
fn every_run(refused: &Refused) -> Option<Vec<Tried>> {
    const STEPS: usize = 120;
    const MOST_RUNS: usize = 400;
    let mut tried = vec![];
    let mut waiting = vec![vec![]];
    let mut runs = 0;
    while let Some(mut outcomes) = waiting.pop() {
        runs += 1;
        if runs > MOST_RUNS {
            return None;
        }
        let given = outcomes.len();
        outcomes.resize(STEPS, false);
        let schedule: abwakiris::Schedule = outcomes.iter().map(|&outcome| (refused.job, outcome)).collect();
        let records = refused.records(&schedule);
        let moved = records.iter().take_while(|record| record.told == Told::Moved).count();
        for (i, record) in records[..moved].iter().enumerate().skip(given) {
            // a measurement could have had the other outcome
            if record.offset.map_or(false, |at| matches!(refused.program.bytes[usize::from(at)], 5 | 6)) {
                waiting.push([&outcomes[..i], &[true]].concat());
            }
        }
        if let Some(end) = records.get(moved) {
            let stuck = if let Told::Stuck(_) = end.told { end.offset.map(usize::from) } else { None };
            outcomes.truncate(moved);
            tried.push(Tried { outcomes, stuck });
        }
    }
    Some(tried)
}

/// Holds what is said against every run that can be tried. Whether there were few enough.
fn assert_no_run_says_otherwise(refused: &Refused, why: &Why<'_>) -> bool {
    let runs = if let Some(runs) = every_run(refused) { runs } else { return false };
    let in_main = why.trail.legs.len() == 1;
    let fewest = runs.iter().filter(|run| run.stuck == Some(refused.place)).map(|run| run.outcomes.len() + 1).min();
    match &why.lead {
        Lead::Found { steps, shortest: true } if in_main => assert!(fewest.map_or(true, |fewest| fewest == steps.len())),
        Lead::Found { .. } | Lead::GivenUp | Lead::TooLong { .. } => {}
        Lead::Never { .. } => assert!(!in_main || fewest.is_none(), "outcomes lead there"),
    }
    if let Lead::Found { steps, .. } = &why.lead {
        let every = runs.iter().all(|run| run.stuck == Some(refused.place));
        assert!(every || steps.iter().any(|step| step.chosen), "no outcome matters, but another run ends elsewhere");
    }
    if let Some(Elsewhere::Nowhere) = why.elsewhere {
        assert!(runs.iter().all(|run| run.stuck.is_none()), "outcomes halt the job");
    }
    let finished = || runs.iter().filter(|run| run.stuck.is_none());
    match (&why.beside, &why.lead) {
        (Some(Beside::Never), _) => assert_eq!(finished().count(), 0, "a run ends"),
        (Some(Beside::Found { parts_at, .. }), Lead::Found { steps, .. }) => {
            let alike = |run: &Tried| run.outcomes.iter().zip(steps).take_while(|(outcome, step)| **outcome == step.outcome).count();
            assert!(finished().all(|run| alike(run) <= *parts_at), "a run that ends begins alike for longer");
        }
        _ => {}
    }
    true
}

#[derive(Default)]
struct Tally {
    refused: usize,
    found: usize,
    not_shortest: usize,
    never: usize,
    too_long: usize,
    given_up: usize,
    beside: usize,
    no_beside: usize,
    elsewhere: usize,
    tried: usize,
}

#[test]
fn generated_programs() {
    let cases = if cfg!(debug_assertions) { 5_000 } else { 45_000 };
    let mut tally = Tally::default();
    for index in 0..cases {
        let refused = match generator::case(&mut generator::Random::new(21, index)) {
            generator::Case::Check { device, program, job, .. } => Refused::of(&device, &program, job),
            _ => None,
        };
        let refused = if let Some(refused) = refused { refused } else { continue };
        let why = refused.why();
        refused.assert_shown(&why);
        tally.tried += usize::from(assert_no_run_says_otherwise(&refused, &why));
        tally.refused += 1;
        match &why.lead {
            Lead::Found { shortest, .. } => {
                tally.found += 1;
                tally.not_shortest += usize::from(!shortest);
            }
            Lead::Never { .. } => tally.never += 1,
            Lead::TooLong { .. } => tally.too_long += 1,
            Lead::GivenUp => tally.given_up += 1,
        }
        match &why.beside {
            Some(Beside::Found { .. }) => tally.beside += 1,
            Some(Beside::Never) => tally.no_beside += 1,
            Some(Beside::GivenUp) => tally.given_up += 1,
            None => {}
        }
        match &why.elsewhere {
            Some(Elsewhere::Found { .. }) => tally.elsewhere += 1,
            Some(Elsewhere::GivenUp) => tally.given_up += 1,
            _ => {}
        }
    }
    println!(
        "{} refused with 21: {} found ({} perhaps not the shortest), {} out of reach ({} halt elsewhere), {} too long, {} given up; \
         beside what was found {} that end, {} times none; {} held against every run",
        tally.refused,
        tally.found,
        tally.not_shortest,
        tally.never,
        tally.elsewhere,
        tally.too_long,
        tally.given_up,
        tally.beside,
        tally.no_beside,
        tally.tried
    );
    assert!(tally.found > 15 && tally.never > 5 && tally.beside > 0 && tally.tried > 15);
    assert_eq!(tally.given_up, 0);
}

/// Writes random bodies that are typed, with guards that hang on outcomes. Slots 0 and 1 are two ends, slot 2 is what may stand between them.
struct Maker {
    random: generator::Random,
    text: String,
    /// The location between the ends, and the call of function 0 there.
    middle: u8,
    call: Option<&'static str>,
    taken: bool,
    /// The first slot that is not bound, and those with a bool and with a reference.
    next: u8,
    bools: Vec<u8>,
    references: Vec<u8>,
}

impl Maker {
    fn below(&mut self, limit: usize) -> usize {
        usize::from(self.random.bytes(1)[0]) % limit
    }

    fn pick(&mut self, slots: &[u8]) -> Option<u8> {
        if slots.is_empty() {
            None
        } else {
            Some(slots[self.below(slots.len())])
        }
    }

    fn line(&mut self, depth: usize, words: String) {
        self.text.push_str(&format!("{:1$}{words}\n", "", 2 * depth));
    }

    fn turn(&mut self, depth: usize) {
        let middle = self.middle;
        self.line(depth, if self.taken { "free 2".to_string() } else { format!("init 2 {middle}") });
        self.taken = !self.taken;
    }

    /// A block that ends with the middle as it was.
    fn block(&mut self, depth: usize, statements: usize) {
        let before = (self.taken, self.next, self.bools.clone(), self.references.clone());
        for _ in 0..statements {
            self.statement(depth);
        }
        if self.taken != before.0 {
            self.turn(depth);
        }
        (_, self.next, self.bools, self.references) = before;
    }

    fn bind(&mut self, is_bool: bool, depth: usize, words: impl FnOnce(u8) -> String) {
        if self.next < 32 {
            let slot = self.next;
            self.next += 1;
            if is_bool { &mut self.bools } else { &mut self.references }.push(slot);
            self.line(depth, words(slot));
        }
    }

    fn statement(&mut self, depth: usize) {
        let (bools, references) = (self.bools.clone(), self.references.clone());
        let (y, r) = (self.pick(&bools), self.pick(&references));
        let value = self.below(2);
        match (self.below(16), y, r) {
            (0 | 1, ..) => self.turn(depth),
            (2, ..) => self.bind(true, depth, |slot| format!("merge {slot} X 0 X 1")),
            (3..=5, ..) => self.bind(true, depth, |slot| format!("measure {slot} Z 0")),
            (6, ..) => self.bind(true, depth, |slot| format!("bool {slot} {value}")),
            (7, Some(y), _) => self.bind(false, depth, |slot| format!("ref {slot} {y}")),
            (8, _, Some(r)) => self.bind(true, depth, |slot| format!("get {slot} {r}")),
            (9, Some(y), Some(r)) => self.line(depth, format!("set {r} {y}")),
            (10 | 11, Some(y), _) if depth < 4 => {
                self.line(depth, format!("if {y}"));
                for otherwise in ["else", ""] {
                    let statements = self.below(4);
                    self.block(depth + 1, statements);
                    if !otherwise.is_empty() {
                        self.line(depth, otherwise.to_string());
                    }
                }
            }
            (12 | 13, _, Some(r)) if depth < 3 => {
                self.line(depth, format!("while {r}"));
                let statements = self.below(4);
                // most loops can end
                if value == 0 && self.next < 32 {
                    let slot = self.next;
                    self.next += 1;
                    self.line(depth + 1, format!("measure {slot} X 1"));
                    self.line(depth + 1, format!("set {r} {slot}"));
                    self.block(depth + 1, statements);
                    self.next -= 1;
                } else {
                    self.block(depth + 1, statements);
                }
            }
            (14, ..) if !self.taken => self.call.into_iter().for_each(|call| self.line(depth, call.to_string())),
            _ => {}
        }
    }

    /// A program with a function, on a row of three.
    fn program(random: generator::Random) -> String {
        let text = "program 1\nfunction 0 locations 3 arguments 2\n".to_string();
        let mut maker = Maker { random, text, middle: 2, call: None, taken: false, next: 3, bools: vec![], references: vec![] };
        let statements = maker.below(8);
        maker.block(1, statements);
        maker.text.push_str("main\n  init 0 0\n  init 1 2\n");
        (maker.middle, maker.call) = (1, Some("call 0 at 0 2 1 with 0 1"));
        let statements = 4 + maker.below(14);
        maker.block(1, statements);
        maker.text + "  free 0\n  free 1\n"
    }
}

/// Small programs, so that most can be held against every run.
#[test]
fn made_programs() {
    let cases = if cfg!(debug_assertions) { 500 } else { 5_000 };
    let (mut found, mut never, mut beside, mut tried) = (0, 0, 0, 0);
    let row = grid(&[1; 3], 3);
    for index in 0..cases {
        let listing = Maker::program(generator::Random::new(3, index));
        let program = abwakiris::read_listing(&listing).expect("a listing");
        if let Some(refused) = Refused::of(&row, &program, 1) {
            let why = refused.why();
            refused.assert_shown(&why);
            tried += usize::from(assert_no_run_says_otherwise(&refused, &why));
            match &why.lead {
                Lead::Found { shortest: true, .. } => found += 1,
                Lead::Never { .. } => never += 1,
                other => panic!("{other:?} of case {index}\n{listing}"),
            }
            match &why.beside {
                Some(Beside::Found { .. }) => beside += 1,
                Some(Beside::GivenUp) => panic!("case {index}\n{listing}"),
                _ => {}
            }
        }
    }
    println!("{found} found, {never} out of reach, {beside} with a run beside that ends; {tried} held against every run");
    assert!(found > 50 && never > 10 && beside > 20 && tried > 60, "{found} {never} {beside} {tried}");
}

/// The steps whose outcome matters, counted from 1.
fn choices(steps: &[Step]) -> Vec<(usize, bool)> {
    steps.iter().enumerate().filter(|(_, step)| step.chosen).map(|(i, step)| (i + 1, step.outcome)).collect()
}

fn found<'w>(why: &'w Why<'_>) -> &'w [Step] {
    match &why.lead {
        Lead::Found { steps, shortest: true } => steps,
        other => panic!("{other:?}"),
    }
}

fn sample(name: &str) -> String {
    format!("{}/../samples/{name}", env!("CARGO_MANIFEST_DIR"))
}

#[test]
fn the_story() {
    let read = |name: &str| std::fs::read(sample(name)).expect(name);
    let refused = Refused::of(&read("story-device"), &read("story-program"), 1).expect("refused with 21");
    let why = refused.why();
    refused.assert_shown(&why);
    assert!(assert_no_run_says_otherwise(&refused, &why));
    assert_eq!(choices(found(&why)), [(7, true)]);
    assert!(matches!(&why.way.blocked, Blocked::One(singles) if singles[..] == [(9, vec![7, 8, 9, 10, 11])]));
    assert!(matches!(&why.beside, Some(Beside::Found { steps, parts_at: 6 }) if steps.len() == 15));
}

/// Two ends with a location between them, on a row of three.
const ROW: &str = "  init 0 0\n  init 1 2\n";

#[test]
fn behind_a_bool() {
    let refused = Refused::on_grid(
        3,
        1,
        &format!("program 1\nmain\n{ROW}  bool 2 0\n  if 2\n    init 3 1\n    merge 4 X 0 X 1\n    free 3\n  else\n  free 0\n  free 1\n"),
    );
    let why = refused.why();
    refused.assert_shown(&why);
    assert!(assert_no_run_says_otherwise(&refused, &why));
    match &why.lead {
        Lead::Never { body: Body::Main, against, .. } => match against[..] {
            [Against::Guard { at, needed: true }] => assert_eq!(refused.line(at), 6),
            _ => panic!("{against:?}"),
        },
        other => panic!("{other:?}"),
    }
    assert!(matches!(why.elsewhere, Some(Elsewhere::Nowhere)));
}

#[test]
fn behind_a_loop_without_end() {
    let refused = Refused::on_grid(
        3,
        1,
        &format!("program 1\nmain\n{ROW}  init 2 1\n  bool 3 1\n  ref 4 3\n  while 4\n    gate H 0\n  merge 5 X 0 X 1\n  free 2\n  free 1\n  free 0\n"),
    );
    let why = refused.why();
    refused.assert_shown(&why);
    match &why.lead {
        Lead::Never { against, .. } => match against[..] {
            [Against::Guard { at, needed: false }] => assert_eq!(refused.line(at), 8),
            _ => panic!("{against:?}"),
        },
        other => panic!("{other:?}"),
    }
}

/// The outcome by which the loop is come to is the one by which it is not gone into. That the merge has no path is no reason that the job never comes to it.
#[test]
fn no_reason_of_its_own() {
    let bad = "    init 2 1\n    while 4\n      merge 5 X 0 X 1\n    free 2\n";
    let refused = Refused::on_grid(3, 1, &format!("program 1\nmain\n{ROW}  measure 3 Z 0\n  ref 4 3\n  if 3\n  else\n{bad}  free 1\n  free 0\n"));
    let why = refused.why();
    refused.assert_shown(&why);
    assert!(assert_no_run_says_otherwise(&refused, &why));
    assert!(matches!(&why.lead, Lead::Never { against, .. } if against.is_empty()), "{:?}", why.lead);
}

/// The merge that is refused first is out of reach, another one is not.
#[test]
fn halts_elsewhere() {
    let blocked = "    init 3 1\n    merge 4 X 0 X 1\n    free 3\n";
    let refused = Refused::on_grid(
        3,
        1,
        &format!("program 1\nmain\n{ROW}  bool 2 0\n  if 2\n{blocked}  else\n  measure 5 X 0\n  if 5\n{blocked}  else\n  free 0\n  free 1\n"),
    );
    let why = refused.why();
    refused.assert_shown(&why);
    assert!(assert_no_run_says_otherwise(&refused, &why));
    match &why.elsewhere {
        Some(Elsewhere::Found { at, steps }) => {
            assert_eq!(refused.line(*at), 14);
            assert_eq!(choices(steps), [(5, true)]);
        }
        other => panic!("{other:?}"),
    }
}

#[test]
fn at_the_second_call_only() {
    let listing = "program 1\n\
        function 0 locations 2 arguments 2\n  merge 2 X 0 X 1\n\
        main\n  init 0 0\n  init 1 1\n  init 2 2\n  call 0 at 0 1 with 0 1\n  call 0 at 0 2 with 0 2\n  free 0\n  free 1\n  free 2\n";
    let refused = Refused::on_grid(3, 1, listing);
    let why = refused.why();
    refused.assert_shown(&why);
    assert_eq!(why.trail.legs.iter().map(|leg| refused.line(leg.site.at)).collect::<Vec<_>>(), [9, 3]);
    assert_eq!(why.trail.legs[1].visit.locations, [0, 2]);
    assert_eq!(why.held[2].holders, [(Body::Main, 2), (Body::Function(0), 1)]);
    // the first call with its merge and its return, and then the second
    assert_eq!(found(&why).len(), 3 + 3 + 2);
    assert!(choices(found(&why)).is_empty());
    assert!(matches!(why.beside, Some(Beside::Never)));
}

/// The lines that may have made the qubits at the merge, for each location.
fn made(refused: &Refused) -> Vec<Vec<usize>> {
    let why = refused.why();
    refused.assert_shown(&why);
    why.held.iter().map(|held| held.made.iter().map(|&at| refused.line(at)).collect()).collect()
}

#[test]
fn made_by_an_earlier_round() {
    let body = "    measure 5 Z 0\n    if 5\n      merge 6 X 0 X 1\n    else\n    free 2\n    init 2 1\n";
    let refused = Refused::on_grid(3, 1, &format!("program 1\nmain\n{ROW}  init 2 1\n  bool 3 1\n  ref 4 3\n  while 4\n{body}  free 0\n  free 1\n  free 2\n"));
    assert_eq!(made(&refused), [vec![3], vec![5, 14], vec![4]]);
}

#[test]
fn given_or_made_in_the_callee() {
    let function = "function 0 locations 2 arguments 2\n  measure 2 X 0\n  if 2\n    free 0\n    init 0 0\n  else\n  merge 3 X 0 X 1\n";
    let main = format!("main\n{ROW}  init 2 1\n  call 0 at 0 2 with 0 1\n  free 0\n  free 1\n  free 2\n");
    let refused = Refused::on_grid(3, 1, &format!("program 1\n{function}{main}"));
    assert_eq!(made(&refused), [vec![6, 10], vec![12], vec![11]]);
}

/// A round of the loop keeps its outcome; the merge comes where this outcome and the one before are 1.
#[test]
fn twice_in_a_loop() {
    let body = "    measure 5 Z 0\n    get 10 9\n    if 10\n      if 5\n        init 6 1\n        merge 7 X 0 X 1\n        free 6\n      else\n    else\n    \
                    set 9 5\n    set 4 5\n";
    let refused = Refused::on_grid(3, 1, &format!("program 1\nmain\n{ROW}  bool 8 0\n  ref 9 8\n  bool 3 1\n  ref 4 3\n  while 4\n{body}  free 0\n  free 1\n"));
    let why = refused.why();
    refused.assert_shown(&why);
    assert_eq!(choices(found(&why)), [(8, true), (14, true)]);
    match &why.beside {
        Some(Beside::Found { steps, parts_at }) => {
            assert_eq!(*parts_at, 13);
            assert_eq!(choices(steps), [(8, true), (14, false)]);
        }
        other => panic!("{other:?}"),
    }
}

#[test]
fn through_all_functions() {
    let mut listing = "program 1\nfunction 0 locations 2 arguments 2\n  measure 2 X 0\n  if 2\n    merge 3 X 0 X 1\n  else\n".to_string();
    for function in 1..15 {
        // each turns its ends round
        listing.push_str(&format!("function {function} locations 2 arguments 2\n  call {} at 1 0 with 1 0\n", function - 1));
    }
    listing.push_str("main\n  init 0 0\n  init 1 2\n  init 2 1\n  call 14 at 0 2 with 0 1\n  free 0\n  free 1\n  free 2\n");
    let refused = Refused::on_grid(3, 1, &listing);
    let why = refused.why();
    refused.assert_shown(&why);
    assert_eq!(why.trail.legs.len(), 16);
    assert_eq!(why.held[0].holders.len(), 16);
    assert_eq!(found(&why).len(), 3 + 15 + 3);
    assert_eq!(choices(found(&why)), [(19, true)]);
    assert!(matches!(&why.beside, Some(Beside::Found { parts_at: 18, .. })));
}

#[test]
fn for_job_two() {
    let program = abwakiris::read_listing("program 1\nmain\n  init 0 3\n  init 1 5\n  merge 2 X 0 X 1\n  free 0\n  free 1\n").expect("a listing");
    let refused = Refused::of(&grid(&[1, 1, 1, 2, 0, 2], 3), &program, 2).expect("refused with 21");
    let why = refused.why();
    refused.assert_shown(&why);
    assert!(matches!(why.way.blocked, Blocked::Region));
    assert_eq!(schedule(refused.job, found(&why)).as_bytes(), [0x20, 0x20, 0x20]);
}

/// Answers in time, also in a build that is not optimized; on a busy computer at the third try.
fn in_time<T>(what: impl Fn() -> T) -> T {
    let most = Duration::from_secs(if cfg!(debug_assertions) { 30 } else { 2 });
    let mut taken = vec![];
    while taken.len() < 3 {
        let start = Instant::now();
        let done = what();
        if start.elapsed() < most {
            return done;
        }
        taken.push(start.elapsed());
    }
    panic!("it took {taken:?}");
}

/// A chain of functions, each of which calls the one before so many times.
fn chain(first: &str, header: &str, call: &str, functions: usize, times: usize) -> String {
    let mut listing = format!("program 1\nfunction 0 {header}\n{first}");
    for function in 1..functions {
        listing.push_str(&format!("function {function} {header}\n"));
        listing.push_str(&format!("  call {}{call}\n", function - 1).repeat(times));
    }
    listing
}

const BAD_END: &str = "  init 2 1\n  merge 3 X 0 X 1\n  free 2\n  free 1\n  free 0\n";

#[test]
fn after_more_calls_than_there_are_numbers() {
    let functions = chain("", "locations 0 arguments 0", "", 15, 65);
    let refused = Refused::on_grid(3, 1, &format!("{functions}main\n{ROW}  call 14\n{BAD_END}"));
    let why = in_time(|| refused.why());
    refused.assert_shown(&why);
    assert!(matches!(why.lead, Lead::TooLong { fewest: u64::MAX }), "{:?}", why.lead);
}

#[test]
fn after_the_most_merges() {
    let functions = chain("  merge 2 X 0 X 1\n", "locations 2 arguments 2", " at 1 0 with 1 0", 15, 2);
    let refused = Refused::on_grid(3, 1, &format!("{functions}main\n{ROW}  call 14 at 0 2 with 0 1\n{BAD_END}"));
    let why = in_time(|| refused.why());
    refused.assert_shown(&why);
    // 2^15 - 1 calls with their returns, 2^14 merges, three inits and the merge itself
    assert!(matches!(why.lead, Lead::TooLong { fewest: 81_922 }), "{:?}", why.lead);
}

/// A function with a large loop is come to at thousands of lists of locations, and each time its merge has no path. What guards know is the same each time.
#[test]
fn at_very_many_locations() {
    let functions = if cfg!(debug_assertions) { 12 } else { 15 };
    // each round passes the references on by one
    let made: String = (3..15).map(|slot| format!("  ref {slot} 2\n")).collect();
    let passed: String = (3..14).map(|slot| format!("    get {} {}\n    set {slot} {}\n", slot + 12, slot + 1, slot + 12)).collect();
    let body = format!("{passed}    measure 26 Z 0\n    set 14 26\n{}    measure 29 Z 0\n    set 30 29\n", "    gate H 0\n".repeat(600));
    let first = format!("  bool 2 0\n{made}  measure 31 Z 0\n  ref 30 31\n  while 30\n{body}  measure 29 Z 0\n  if 29\n    merge 27 X 0 X 1\n  else\n");
    let mut listing = format!("program 1\nfunction 0 locations 16 arguments 2\n{first}");
    let mut others: Vec<usize> = (2..16).collect();
    for function in 1..functions {
        listing.push_str(&format!("function {function} locations 16 arguments 2\n"));
        for _ in 0..2 {
            others.rotate_left(function);
            others.swap(0, 1);
            let others: String = others.iter().map(|other| format!(" {other}")).collect();
            listing.push_str(&format!("  call {} at 0 1{others} with 0 1\n", function - 1));
        }
    }
    let locations: String = (0..16).map(|location| format!(" {}", 2 * location)).collect();
    let main = format!("main\n{ROW}  call {} at{locations} with 0 1\n  free 0\n  free 1\n", functions - 1);
    let program = abwakiris::read_listing(listing + &main).expect("a listing");
    let apart = [b"QLG\x00\x01\x00\x20\x00\x00".to_vec(), vec![1; 32]].concat();
    let refused = Refused::of(&apart, &program, 1).expect("refused with 21");
    let why = in_time(|| refused.why());
    refused.assert_shown(&why);
    assert!(matches!(&why.lead, Lead::Found { shortest: true, .. }), "{:?}", why.lead);
    // there are more steps to the end than a schedule can have
    assert!(matches!(why.beside, Some(Beside::Never | Beside::GivenUp)), "{:?}", why.beside);
}

/// Each of thousands of calls goes through twelve functions that do nothing but call the next.
#[test]
fn through_very_many_calls() {
    let times = if cfg!(debug_assertions) { 8 } else { 28 };
    let (mut others, mut turn): (Vec<usize>, usize) = ((2..16).collect(), 0);
    let mut call = |of: usize, actual: fn(usize) -> usize| {
        turn += 1;
        others.rotate_left(turn % 13);
        others.swap(0, turn % 11 + 1);
        let others: String = others.iter().map(|&other| format!(" {}", actual(other))).collect();
        format!("  call {of} at {} {}{others} with 0 1\n", actual(0), actual(1))
    };
    let header = "locations 16 arguments 2";
    let mut listing = format!("program 1\nfunction 0 {header}\n  measure 2 Z 0\n  if 2\n    merge 3 X 0 X 1\n  else\n");
    for function in 1..15 {
        let times = if function < 13 { 1 } else { times };
        let calls: String = (0..times).map(|_| call(function - 1, |parameter| parameter)).collect();
        listing.push_str(&format!("function {function} {header}\n{calls}"));
    }
    let calls: String = (0..times).map(|_| call(14, |parameter| 2 * parameter)).collect();
    let program = abwakiris::read_listing(format!("{listing}main\n{ROW}{calls}  free 0\n  free 1\n")).expect("a listing");
    let apart = [b"QLG\x00\x01\x00\x20\x00\x00".to_vec(), vec![1; 32]].concat();
    let refused = Refused::of(&apart, &program, 1).expect("refused with 21");
    let why = in_time(|| refused.why());
    refused.assert_shown(&why);
    assert!(matches!(&why.lead, Lead::Found { steps, shortest: true } if steps.len() == 20), "{:?}", why.lead);
    assert!(matches!(why.beside, Some(Beside::Never | Beside::GivenUp)), "{:?}", why.beside);
}

/// The slots of outcomes, beside two ends, what is between them and two bools with a reference.
const OUTCOMES: std::ops::Range<usize> = 3..27;

fn measured() -> String {
    OUTCOMES.map(|slot| format!("  measure {slot} Z 0\n")).collect()
}

const BAD_LOOP: &str = "  while 30\n    init 2 1\n    merge 27 X 0 X 1\n    free 2\n  free 1\n  free 0\n";

/// All of 24 outcomes must be 1, and nothing is tested before all are there.
#[test]
fn all_of_many_outcomes() {
    let tests: String = OUTCOMES.map(|slot| format!("  if {slot}\n  else\n    set 30 29\n")).collect();
    let refused = Refused::on_grid(3, 1, &format!("program 1\nmain\n{ROW}  bool 29 0\n  bool 28 1\n  ref 30 28\n{}{tests}{BAD_LOOP}", measured()));
    let why = in_time(|| refused.why());
    refused.assert_shown(&why);
    assert_eq!(choices(found(&why)), OUTCOMES.map(|slot| (slot + 3, true)).collect::<Vec<_>>());
}

/// The reference turns with each outcome that is 1, and again with each: it is never true at the end, but to see that takes all outcomes together.
#[test]
fn more_states_than_can_be_looked_at() {
    let turn: String = OUTCOMES.map(|slot| format!("  if {slot}\n    get 31 30\n    if 31\n      set 30 29\n    else\n      set 30 28\n  else\n")).collect();
    let refused = Refused::on_grid(3, 1, &format!("program 1\nmain\n{ROW}  bool 29 0\n  bool 28 1\n  ref 30 29\n{}{turn}{turn}{BAD_LOOP}", measured()));
    let why = in_time(|| refused.why());
    refused.assert_shown(&why);
    assert!(matches!(why.lead, Lead::GivenUp) && why.states > 10_000, "{:?} {}", why.lead, why.states);
}

/// Many ifs whose guards do not matter, but whose blocks differ in length.
#[test]
fn guards_that_do_not_matter() {
    let long: String = OUTCOMES.map(|slot| format!("  if {slot}\n  else\n    gate H 0\n    gate H 0\n")).collect();
    let and: String = OUTCOMES.map(|slot| format!("  if {slot}\n    gate H 0\n    gate H 0\n    gate H 0\n  else\n")).collect();
    let refused = Refused::on_grid(3, 1, &format!("program 1\nmain\n{ROW}  bool 29 0\n  bool 28 1\n  ref 30 28\n{}{long}{and}{BAD_LOOP}", measured()));
    let why = in_time(|| refused.why());
    refused.assert_shown(&why);
    assert!(matches!(why.lead, Lead::Found { .. }), "{:?}", why.lead);
}

/// What a person sees: the status, and a schedule that the library takes.
#[test]
fn the_command() {
    let why = |words: &[&str]| {
        let output = Command::new(env!("CARGO_BIN_EXE_abwakiris")).arg("why").args(words).output().expect("the tool runs");
        assert!(output.stderr.is_empty());
        (output.status.code(), String::from_utf8(output.stdout).expect("text"))
    };
    let [device, program, mended] = ["story-device", "story-program", "story-mended"].map(sample);
    let (status, text) = why(&[&device, &program]);
    assert_eq!(status, Some(1));
    let titles = ["How the check comes there", "The device there", "In the way", "The outcomes that lead there", "A run that does not halt"];
    let places: Vec<usize> = titles.iter().map(|title| text.find(&format!("\n{title}\n\n")).expect(title)).collect();
    assert!(places.windows(2).all(|pair| pair[0] < pair[1]));
    assert!(text.contains("With outcome 0 at step 7 (line 9, merge 6 Z 0 Z 5) the job ends after 15 steps; with outcome 1 it halts at step 10."));
    assert!(text.contains(&format!("abwakiris run {device} {program} none 10101010101011101010\n")));
    let (status, line) = why(&[&device, &program, "--json"]);
    assert_eq!(status, Some(1));
    assert!(line.contains("\"schedule\":\"10101010101011101010\",\"steps\":10,\"choices\":[{\"step\":7,"));
    let (status, text) = why(&[&device, &mended]);
    assert_eq!(status, Some(0));
    assert!(text.ends_with("nothing to explain\n"));
}
