//! Device and program files out of their parts, as document 01 lays them out. Nothing here judges: files with faults can be built as well.

#![allow(dead_code)]

/// A big-endian u16.
pub fn word(n: usize) -> [u8; 2] {
    [(n / 256) as u8, (n % 256) as u8]
}

/// Bytes in hex, `-` for none.
pub fn hex(bytes: &[u8]) -> String {
    if bytes.is_empty() {
        return "-".to_string();
    }
    bytes.iter().map(|byte| format!("{byte:02x}")).collect()
}

/// The bytes that hex digits stand for, two a byte; none for `-`.
pub fn unhex(text: &str) -> Vec<u8> {
    if text == "-" {
        return Vec::new();
    }
    assert!(text.len() % 2 == 0, "odd number of hex digits");
    (0..text.len() / 2).map(|i| u8::from_str_radix(&text[2 * i..2 * i + 2], 16).expect("hex")).collect()
}

/// The bytes with some of them changed.
pub fn with(bytes: &[u8], changes: &[(usize, u8)]) -> Vec<u8> {
    let mut bytes = bytes.to_vec();
    for &(at, byte) in changes {
        bytes[at] = byte;
    }
    bytes
}

// Devices

pub type Edge = (usize, usize);

/// A device file with these owner bytes and edges.
pub fn owned(owners: &[u8], edges: &[Edge]) -> Vec<u8> {
    let mut file = b"QLG\0\x01".to_vec();
    file.extend(word(owners.len()));
    file.extend(word(edges.len()));
    file.extend(owners);
    for &(a, b) in edges {
        file.extend([a as u8, b as u8]);
    }
    file
}

/// A device file with this many locations, all owned by job 1.
pub fn device(n: usize, edges: &[Edge]) -> Vec<u8> {
    owned(&vec![1; n], edges)
}

/// The document's grid: 0 1 2 / 3 4 5.
pub const GRID: [Edge; 7] = [(0, 1), (0, 3), (1, 2), (1, 4), (2, 5), (3, 4), (4, 5)];

/// The document's device G.
pub fn grid() -> Vec<u8> {
    device(6, &GRID)
}

/// The same device with the jobs changed for each other. The file reads.
pub fn swapped(device: &[u8]) -> Vec<u8> {
    let n = usize::from(device[5]) * 256 + usize::from(device[6]);
    let mut device = device.to_vec();
    for owner in &mut device[9..9 + n] {
        *owner = if *owner == 0 { 0 } else { 3 - *owner };
    }
    device
}

/// Locations in a row, all owned by job 1.
pub fn line(n: usize) -> Vec<u8> {
    let edges: Vec<Edge> = (1..n).map(|b| (b - 1, b)).collect();
    device(n, &edges)
}

/// The first edges in order between 256 locations.
pub fn edges(count: usize) -> Vec<Edge> {
    let all = (0..256).flat_map(|a| (a + 1..256).map(move |b| (a, b)));
    all.take(count).collect()
}

// Statements: document 01's operands in its order, bases X and gate H where nothing depends on them

pub type Statement = Vec<u8>;

pub fn init(x: u8, l: u8) -> Statement {
    vec![1, x, l]
}

pub fn magic(x: u8, l: u8) -> Statement {
    vec![2, x, l]
}

pub fn free(x: u8) -> Statement {
    vec![3, x]
}

pub fn gate(x: u8) -> Statement {
    vec![4, 2, x]
}

pub fn measure(y: u8, x: u8) -> Statement {
    vec![5, y, 0, x]
}

pub fn merge(y: u8, first: u8, second: u8) -> Statement {
    vec![6, y, 0, first, 0, second]
}

/// A new reference r holding y.
pub fn refer(r: u8, y: u8) -> Statement {
    vec![7, r, y]
}

/// y gets the value of r.
pub fn get(y: u8, r: u8) -> Statement {
    vec![8, y, r]
}

/// Assign y to r.
pub fn set(r: u8, y: u8) -> Statement {
    vec![9, r, y]
}

pub fn when(y: u8, then: &[Statement], otherwise: &[Statement]) -> Statement {
    [vec![10, y], block(&then.concat()), block(&otherwise.concat())].concat()
}

pub fn repeat(r: u8, body: &[Statement]) -> Statement {
    [vec![11, r], block(&body.concat())].concat()
}

pub fn call(f: u8, locations: &[u8], slots: &[u8]) -> Statement {
    [&[12, f, locations.len() as u8, slots.len() as u8], locations, slots].concat()
}

pub fn boolean(y: u8, v: u8) -> Statement {
    vec![13, y, v]
}

// Programs

/// A block: its length word and its bytes.
pub fn block(statements: &[u8]) -> Vec<u8> {
    [&word(statements.len())[..], statements].concat()
}

/// A function: k, m and its body. The first function's header is at 6, its length word at 8, its first statement at 10.
pub type Function = (u8, u8, Vec<u8>);

pub fn function(k: u8, m: u8, body: &[Statement]) -> Function {
    (k, m, body.concat())
}

/// A program file out of functions and the bytes of main.
pub fn program(functions: &[Function], main: &[u8]) -> Vec<u8> {
    let mut file = b"QLS\0\x01".to_vec();
    file.push(functions.len() as u8);
    for (k, m, body) in functions {
        file.extend([*k, *m]);
        file.extend(block(body));
    }
    file.extend(block(main));
    file
}

/// A program file out of functions and main's statements.
pub fn calling(functions: &[Function], main: &[Statement]) -> Vec<u8> {
    program(functions, &main.concat())
}

/// A program file without functions: main's length word is at 6, its first statement at 8.
pub fn only(main: &[Statement]) -> Vec<u8> {
    calling(&[], main)
}

/// The document's program A.
pub fn program_a() -> Vec<u8> {
    only(&[init(0, 0), init(1, 2), merge(2, 0, 1), free(0), free(1)])
}

/// So many whiles, one in the other: main's block has depth 1, the innermost block depth `whiles` + 1.
pub fn nested(whiles: usize) -> Vec<u8> {
    (0..whiles).fold(Vec::new(), |inner, _| repeat(0, &[inner]))
}

/// Functions of which each calls the one before `times` times at its own parameters, with its own arguments; the first one is `body`.
pub fn chain(k: u8, m: u8, body: &[Statement], functions: usize, times: usize) -> Vec<Function> {
    let parameters: Vec<u8> = (0..k).collect();
    let calling = |i: usize| function(k, m, &vec![call(i as u8 - 1, &parameters, &parameters[..m as usize]); times]);
    std::iter::once(function(k, m, body)).chain((1..functions).map(calling)).collect()
}
