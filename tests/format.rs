//! The page `docs/FORMAT.md` against the library: its dumps and worked answers, the sizes and ranges of its statement table, its numbers, orders and limits.
//! What is expected is what the page says, so a slip of the page shows as well as one of the library. Run it from the top folder.

#![allow(unexpected_cfgs)]

mod cases;
mod files;
mod library;
#[path = "format/page.rs"]
mod page;
mod reference;

use cases::{filled, written, Tried};
use files::{boolean, call, calling, chain, free, function, gate, get, init, magic, measure, merge, nested, only, program};
use files::{refer, repeat, set, when, with, word, Statement};
use library::{no, Call, DEVICE, NONE, PROGRAM};
use page::{bracketed, number, numbers, Page};
use std::collections::{BTreeMap, BTreeSet};
use std::fs;
use std::io::Write;
use std::process::{Command, Stdio};

const PRINT_CHECK: &str = "crates/print_check/out/print_check";

/// Without the library there is no printing program either.
const HAS_PROGRAM: bool = cfg!(not(selftest));

/// The packed answer that `OK value`, of a check `OK count live`, or `NO number place` stands for.
fn answer(cell: &str, file: u64) -> u64 {
    match cell.split_whitespace().collect::<Vec<_>>()[..] {
        ["OK", value] => number(value),
        ["OK", count, live] => number(count) + 65_536 * number(live),
        ["NO", no_number, place] => no(number(no_number), number(place), file),
        _ => panic!("{cell} is no answer"),
    }
}

// Dumps and worked answers

fn samples(page: &Page) {
    for dump in ["device-g", "program-a", "program-live", "bundle"] {
        assert_eq!(page.dump(dump), fs::read(format!("samples/{dump}")).expect("a sample"), "{dump} is a sample");
    }
    for name in page.dumps.keys() {
        let (fence, line, cell) = (format!("```hex {name}"), format!("`{name}`: "), format!("| `{name}` |"));
        let at = page.lines.iter().position(|line| *line == fence).expect("the dump");
        assert!(page.lines[at - 2].starts_with(&line), "the line before {name} begins with its name");
        assert!(page.lines.iter().any(|line| line.contains(&cell)), "{name} is in a table of answers");
    }
}

fn bundle(device: &[u8], program: &[u8]) -> Vec<u8> {
    [&word(device.len()), device, &word(program.len()), program].concat()
}

fn print_check(input: &[u8]) -> Vec<u8> {
    let mut child = Command::new(PRINT_CHECK).stdin(Stdio::piped()).stdout(Stdio::piped()).spawn().expect("a printing program that starts");
    child.stdin.take().expect("its input").write_all(input).expect("an input that is read");
    child.wait_with_output().expect("a printing program that ends").stdout
}

/// The printing program and the independent implementation must both print this line.
fn prints(what: &str, input: &[u8], line: &str) {
    let expected = format!("{line}\n");
    assert_eq!(String::from_utf8_lossy(&reference::print_check(input)), expected, "{what}, the independent implementation");
    if HAS_PROGRAM {
        assert_eq!(String::from_utf8_lossy(&print_check(input)), expected, "{what}, the printing program");
    }
}

fn bundles(page: &Page) {
    for (name, line) in page.pairs("| input | line |") {
        prints(&name, page.dump(&name), &line);
    }
}

fn checks(page: &Page, t: &mut Tried) {
    for row in page.table("| device | program | job |") {
        let (device, program, job) = (page.dump(&row[0]), page.dump(&row[1]), number(&row[2]));
        let what = format!("check of {} on {} for job {job}", row[1], row[0]);
        let file = match &row[4][..] {
            "device" => DEVICE,
            "program" => PROGRAM + job,
            _ => NONE,
        };
        t.untouched(&what, &Call::check(device, program, job), answer(&row[3], file));
        if job == 1 {
            prints(&what, &bundle(device, program), &row[3]);
        }
    }
}

/// The two answers that the page has as a number are what the library answers.
fn packed(page: &Page, t: &mut Tried) {
    let (refusal, counted) = (no(17, 16, PROGRAM + 1), 4 + 65_536);
    let line = format!("So 17 at 16 in the program of job 1 is 0x{refusal:X}. A command count of 4 with 1 left live is 0x{counted:X}.");
    assert!(page.lines.contains(&line), "{line}");
    t.untouched("17 at 16", &Call::check(page.dump("device-g"), page.dump("program-outlives"), 1), refusal);
    t.untouched("4 and 1", &Call::check(page.dump("device-g"), page.dump("program-live"), 1), counted);
}

/// What the page says of reads: the value is n for a device, 0 for a program.
fn reads(page: &Page, t: &mut Tried) {
    for name in ["device-g", "device-two", "device-split"] {
        let device = page.dump(name);
        t.untouched(&format!("the value of {name}"), &Call::read_device(device), u64::from(device[5]) * 256 + u64::from(device[6]));
    }
    for name in ["program-empty", "program-a", "program-live", "program-b", "program-c"] {
        t.untouched(&format!("the value of {name}"), &Call::read_program(page.dump(name)), 0);
    }
}

fn routes(page: &Page, t: &mut Tried) {
    let device = page.dump("device-g");
    for row in page.table("| occupied |") {
        let mut occupancy = vec![0; 6];
        row[0].split(", ").filter(|&l| l != "none").for_each(|l| occupancy[number(l) as usize] = 1);
        let route: Vec<u8> = row[4].split_whitespace().map(|l| number(l) as u8).collect();
        let buffer = filled(8);
        let call = Call::route(device, 1, &occupancy, number(&row[1]), number(&row[2]), &buffer);
        t.expect(&format!("route {row:?}"), &call, answer(&row[3], NONE), vec![written(&buffer, &route)]);
    }
    for row in page.table("| device | occupancy |") {
        let call = Call::route(page.dump(&row[0]), 1, page.dump(&row[1]), number(&row[2]), number(&row[3]), page.dump(&row[4]));
        t.expect("route in bytes", &call, answer(&row[6], NONE), vec![page.dump(&row[5]).to_vec()]);
    }
}

fn runs(page: &Page, t: &mut Tried) {
    for row in page.table("| device | program of job 1 |") {
        let (records, map) = (page.dump(&row[4]), page.dump(&row[5]));
        let (one, two) = row[6].split_once(" and ").expect("two numbers");
        // in buffers that are filled, and in longer ones
        for more in [0, 5] {
            let (before, map_before) = (filled(records.len() + more), filled(map.len() + more));
            let call = Call::run(page.dump(&row[0]), page.dump(&row[1]), page.dump(&row[2]), page.dump(&row[3]), &before, &map_before);
            let after = vec![written(&before, records), written(&map_before, map)];
            t.expect(&format!("run of {}", row[1]), &call, number(one) + 65_536 * number(two), after);
        }
    }
}

// The statement table

struct Operand {
    kind: String,
    most: Option<u8>,
}

struct Row {
    byte: u8,
    size: usize,
    operands: Vec<Operand>,
    blocks: usize,
}

/// An operand as the page has it: name, kind and, where it is fixed, the range.
fn operand(text: &str) -> Operand {
    let words: Vec<&str> = text.split_whitespace().collect();
    let most = words.last().unwrap().strip_prefix("0..").map(|most| number(most) as u8);
    Operand { kind: words[1].to_string(), most }
}

fn statement_rows(page: &Page) -> Vec<Row> {
    let row = |cells: Vec<String>| {
        let mut parts = cells[2].split(';');
        let operands: Vec<Operand> = parts.next().unwrap().split(", ").map(operand).collect();
        let blocks = parts.next().map_or(0, |rest| if rest.contains("two blocks") { 2 } else { usize::from(rest.contains("block")) });
        let size = number(cells[3].split(' ').next().unwrap()) as usize;
        assert_eq!(size, 1 + operands.len(), "statement {}: its byte and its operands", cells[0]);
        Row { byte: number(&cells[0]) as u8, size, operands, blocks }
    };
    page.table("| byte | name and meaning |").into_iter().map(row).collect()
}

impl Row {
    /// The statement with these first bytes, and its blocks empty.
    fn with_blocks(&self, fixed: &[u8]) -> Vec<u8> {
        [fixed, &vec![0; 2 * self.blocks]].concat()
    }

    fn zeros(&self) -> Vec<u8> {
        [vec![self.byte], vec![0; self.operands.len()]].concat()
    }

    /// The statement with operand i changed.
    fn changed(&self, i: usize, value: u8) -> Vec<u8> {
        self.with_blocks(&with(&self.zeros(), &[(1 + i, value)]))
    }
}

impl Tried {
    fn reads(&mut self, what: &str, file: &[u8]) {
        self.untouched(what, &Call::read_program(file), 0);
    }

    fn refused(&mut self, what: &str, file: &[u8], number: u64, place: usize) {
        self.untouched(what, &Call::read_program(file), no(number, place as u64, PROGRAM));
    }
}

/// A statement in main is at 8, one in a function of k parameters at 10.
fn in_main(statement: &[u8]) -> Vec<u8> {
    program(&[], statement)
}

fn in_function(k: u8, statement: &[u8]) -> Vec<u8> {
    program(&[(k, 0, statement.to_vec())], &[])
}

fn sizes(rows: &[Row], t: &mut Tried) {
    for row in rows.iter().filter(|row| row.byte != 12) {
        let what = format!("statement {}", row.byte);
        t.reads(&what, &in_main(&row.with_blocks(&row.zeros())));
        t.refused(&(what + " one byte short"), &in_main(&row.zeros()[..row.size - 1]), 8, 8);
    }
    let known: BTreeSet<u8> = rows.iter().map(|row| row.byte).collect();
    for byte in (0..=255).filter(|byte| !known.contains(byte)) {
        t.refused(&format!("statement {byte}"), &in_main(&[byte, 0, 0, 0, 0, 0]), 9, 8);
    }
}

/// The last value of each operand's range reads, the first beyond it is 10 at the operand.
fn ranges(rows: &[Row], t: &mut Tried) {
    for row in rows {
        for (i, operand) in row.operands.iter().enumerate() {
            let what = format!("statement {}, operand {}", row.byte, i + 1);
            if let Some(most) = operand.most {
                t.reads(&what, &in_main(&row.changed(i, most)));
                t.refused(&what, &in_main(&row.changed(i, most + 1)), 10, 9 + i);
                t.refused(&what, &in_main(&row.changed(i, 255)), 10, 9 + i);
            } else if operand.kind == "location" {
                t.reads(&what, &in_main(&row.changed(i, 255)));
                t.reads(&what, &in_function(5, &row.changed(i, 4)));
                t.refused(&what, &in_function(5, &row.changed(i, 5)), 10, 11 + i);
            } else {
                assert_eq!(row.byte, 12, "only a call has operands without a range of their own");
            }
        }
    }
}

/// The calls of a file with a function of two parameters and one argument and a function without any; main's statement is at 16.
fn calls(t: &mut Tried) {
    let two = [function(2, 1, &[]), function(0, 0, &[])];
    let file = |call: &[u8]| program(&two, call);
    t.reads("a call", &file(&[12, 0, 2, 1, 255, 255, 31]));
    t.reads("a call of the last function", &file(&[12, 1, 0, 0]));
    t.refused("a call of a function that is not there", &file(&[12, 2, 0, 0]), 10, 17);
    for (k, m, place) in [(1, 1, 18), (3, 1, 18), (2, 0, 19), (2, 2, 19)] {
        t.refused("a call with another k or m", &file(&[12, 0, k, m, 0, 0, 0, 0]), 10, place);
    }
    t.refused("a call's fixed part one byte short", &file(&[12, 0, 2]), 8, 16);
    t.refused("a call's list one byte short", &file(&[12, 0, 2, 1, 0, 0]), 8, 16);
    t.refused("a call's slot", &file(&[12, 0, 2, 1, 0, 0, 32]), 10, 22);
    let later = |f: u8| program(&[function(0, 0, &[]), (0, 0, vec![12, f, 0, 0])], &[]);
    t.reads("a function that calls an earlier one", &later(0));
    t.refused("a function that calls itself", &later(1), 10, 15);
}

/// The ranges that the operands' own table has are those of the statements.
fn operand_kinds(page: &Page, rows: &[Row]) {
    let kinds: BTreeMap<String, u64> =
        page.table("| operand |").into_iter().map(|row| (row[0].clone(), numbers(&row[1]).last().copied().unwrap_or(0))).collect();
    for operand in rows.iter().flat_map(|row| &row.operands) {
        if let Some(most) = operand.most {
            assert_eq!(kinds.get(&operand.kind), Some(&u64::from(most)), "the range of a {}", operand.kind);
        }
    }
}

fn statements(page: &Page, t: &mut Tried) {
    let rows = statement_rows(page);
    assert!(rows.iter().map(|row| row.byte).eq(1..=13), "thirteen statements in order");
    operand_kinds(page, &rows);
    sizes(&rows, t);
    ranges(&rows, t);
    calls(t);
}

/// The page's functions that double: all fifteen and an empty loop, and the last one twice.
fn doubling(device: &[u8], t: &mut Tried) {
    let functions = chain(1, 0, &[init(0, 0), free(0)], 15, 2);
    let each: Vec<Statement> = (0..15).map(|f| call(f, &[0], &[])).collect();
    let all = calling(&functions, &[each, vec![boolean(0, 1), refer(1, 0), repeat(1, &[])]].concat());
    t.untouched("the greatest count", &Call::check(device, &all, 1), 65_535);
    let twice = calling(&functions, &vec![call(14, &[0], &[]); 2]);
    t.untouched("a count too large", &Call::check(device, &twice, 1), no(20, 0, PROGRAM + 1));
}

/// What counts nothing, and what changes no answer.
fn counts(page: &Page, t: &mut Tried) {
    let device = page.dump("device-g");
    doubling(device, t);
    let quiet = only(&[init(0, 0), gate(0), measure(1, 0), boolean(2, 1), refer(3, 2), get(4, 3), set(3, 1), free(0)]);
    t.untouched("statements that count 0", &Call::check(device, &quiet, 1), 2);
    let other = with(page.dump("program-a"), &[(8, 2), (11, 2), (16, 1), (18, 1)]);
    t.untouched("magic inits and other bases", &Call::check(device, &other, 1), 5);
    for gates in 0..4 {
        let gated = only(&[init(0, 0), vec![4, gates, 0], free(0)]);
        t.untouched("each gate", &Call::check(device, &gated, 1), 2);
    }
}

// Typing: for each need of a statement a program that meets those before it and neither it nor those after it; the numbers are the page's

/// What comes before a statement, and the statement.
type Failing = (Vec<Statement>, Statement);

fn failing(byte: u64) -> Vec<Failing> {
    let (bool_0, qubit_1) = (boolean(0, 1), init(1, 0));
    match byte {
        1 => vec![(vec![bool_0], init(0, 6)), (vec![], init(0, 6)), (vec![qubit_1], init(0, 0))],
        2 => vec![(vec![bool_0], magic(0, 6)), (vec![], magic(0, 6)), (vec![qubit_1], magic(0, 0))],
        3 => vec![(vec![bool_0], free(0))],
        4 => vec![(vec![bool_0], gate(0))],
        5 => vec![(vec![bool_0.clone()], measure(0, 0)), (vec![bool_0], measure(2, 0))],
        6 => vec![
            (vec![bool_0.clone()], merge(0, 0, 0)),
            (vec![bool_0.clone()], merge(2, 0, 0)),
            (vec![bool_0, qubit_1.clone()], merge(2, 1, 0)),
            (vec![qubit_1], merge(2, 1, 1)),
        ],
        7 => vec![(vec![qubit_1.clone()], refer(1, 1)), (vec![qubit_1], refer(2, 1))],
        8 => vec![(vec![qubit_1.clone()], get(1, 1)), (vec![qubit_1], get(2, 1))],
        9 => vec![(vec![bool_0.clone()], set(0, 1)), (vec![bool_0, refer(2, 0)], set(2, 1))],
        10 => vec![(vec![qubit_1.clone()], when(0, &[free(1)], &[])), (vec![bool_0, qubit_1], when(0, &[free(1)], &[]))],
        11 => vec![(vec![qubit_1.clone()], repeat(2, &[free(1)])), (vec![bool_0, refer(2, 0), qubit_1], repeat(2, &[free(1)]))],
        12 => vec![
            (vec![], call(0, &[6, 6], &[5])),
            (vec![], call(0, &[0, 0], &[5])),
            (vec![init(1, 1)], call(0, &[0, 1], &[5])),
            (vec![init(5, 2), init(1, 1)], call(0, &[0, 1], &[5])),
            (vec![init(5, 0), init(1, 1)], call(0, &[0, 1], &[5])),
        ],
        _ => vec![(vec![bool_0], boolean(0, 1))],
    }
}

/// The numbers of a statement's needs in the order of the page.
fn needs(page: &Page, byte: u64) -> Vec<u64> {
    if byte == 12 {
        let call = page.pairs("| part |").into_iter().find(|(part, _)| part == "typing, a call");
        return numbers(&call.expect("what a call needs").1);
    }
    let row = page.pairs("| byte | needs").into_iter().find(|(bytes, _)| numbers(bytes).contains(&byte));
    bracketed(&row.expect("what a statement needs").1)
}

fn typing(page: &Page, t: &mut Tried) {
    let one = [function(2, 1, &[])];
    for byte in 1..=13 {
        let (needs, failing) = (needs(page, byte), failing(byte));
        assert_eq!(needs.len(), failing.len(), "the needs of statement {byte}");
        for (number, (before, statement)) in needs.into_iter().zip(failing) {
            let file = calling(&one, &[before, vec![statement.clone()]].concat());
            let place = (file.len() - statement.len()) as u64;
            let what = format!("statement {byte} without what {number} is for");
            t.untouched(&what, &Call::check(page.dump("device-g"), &file, 1), no(number, place, PROGRAM + 1));
        }
    }
}

/// A block of the greatest depth reads, one deeper is 4 at its length word.
fn depths(page: &Page, t: &mut Tried) {
    let deepest = page.pairs("| what | limits |").into_iter().find(|(what, _)| what == "depth of a block").map(|(_, limits)| numbers(&limits)[1]);
    let whiles = deepest.expect("the limit of depths") as usize - 1;
    t.reads("the deepest block", &in_main(&nested(whiles)));
    t.refused("a block too deep", &in_main(&nested(whiles + 1)), 4, 8 + 4 * whiles + 2);
}

// Numbers, orders and limits

const CALLS: [&str; 7] = ["read_device", "read_program", "check", "route", "run", "write_listing", "read_listing"];

type Numbers = BTreeSet<u64>;

/// The numbers that each call can answer, and last those that a step can be stuck with, by the marks of the table.
fn marked(page: &Page) -> Vec<Numbers> {
    let rows = page.table("| no. |");
    assert!(rows.iter().map(|row| number(&row[0])).eq(1..=27), "the numbers 1 to 27 in order");
    assert!(rows.iter().all(|row| row[1..4].iter().all(|cell| !cell.is_empty())), "each has its case, place and file");
    let column = |i: usize| rows.iter().filter(|row| row[4 + i] == "x").map(|row| number(&row[0])).collect();
    (0..=CALLS.len()).map(column).collect()
}

/// The numbers of the tests of a part of an order: of its own row and of the rows for its parts.
fn part(parts: &[(String, String)], name: &str) -> Numbers {
    let own = parts.iter().filter(|(part, _)| part.split(',').next() == Some(name));
    own.flat_map(|(_, tests)| numbers(tests)).collect()
}

fn orders(page: &Page) {
    let parts = page.pairs("| part |");
    let mut expected: Vec<Numbers> = Vec::new();
    for (name, (call, tests)) in CALLS.iter().zip(page.pairs("| call | tests")) {
        assert_eq!(call, *name, "the calls in order");
        let mut all: Numbers = numbers(&tests).into_iter().collect();
        for name in ["device", "program", "typing"] {
            if tests.contains(name) {
                all.extend(part(&parts, name));
            }
        }
        expected.push(all);
    }
    expected.push(part(&parts, "step"));
    assert_eq!(marked(page), expected, "the marks of the numbers and the orders of the tests");
}

fn header() -> String {
    fs::read_to_string("include/abwakiris.h").expect("the header")
}

/// The numbers that the header has a name for, each the first number of the line with its name.
fn named() -> Numbers {
    let has_name = |line: &&str| line.split("ABWAKIRIS_NO_").nth(1).is_some_and(|name| name.starts_with(|c: char| c.is_ascii_uppercase()));
    let first = |line: &str| line.split(|c: char| !c.is_ascii_digit()).find(|digits| !digits.is_empty()).map(number);
    header().lines().filter(has_name).filter_map(first).collect()
}

/// The value of a constant `NAME = value`, in the header, or, as `Type::NAME`, in the rules.
fn constant(name: &str) -> Option<u64> {
    let rules = ["device", "program"].map(|file| fs::read_to_string(format!("crates/rules/src/{file}.rt")).expect("the rules")).concat();
    let (text, name) = match name.split_once("::") {
        Some((owner, name)) => (rules.split_once(&format!("impl {owner} {{"))?.1.to_string(), format!("pub const {name}: ")),
        None => (header(), format!("{name} ")),
    };
    let line = text.lines().find_map(|line| line.trim().strip_prefix(&name))?;
    Some(number(line.split_once("= ")?.1.trim_end_matches([';', ','])))
}

fn limits(page: &Page) {
    assert!(named().into_iter().eq(1..=27), "the header names the page's numbers");
    let rows = page.table("| what | limits |");
    let with_constant: Vec<_> = rows.iter().filter(|row| !row[3].is_empty()).collect();
    assert!(with_constant.len() >= 10, "the limits have constants");
    for row in with_constant {
        assert_eq!(numbers(&row[1]).into_iter().max(), constant(&row[3]), "the limit of {}, {}", row[0], row[3]);
    }
}

fn main() {
    let page = Page::read();
    let mut t = Tried::new("format");
    samples(&page);
    bundles(&page);
    checks(&page, &mut t);
    packed(&page, &mut t);
    reads(&page, &mut t);
    routes(&page, &mut t);
    runs(&page, &mut t);
    statements(&page, &mut t);
    typing(&page, &mut t);
    counts(&page, &mut t);
    depths(&page, &mut t);
    orders(&page);
    limits(&page);
    t.end()
}
