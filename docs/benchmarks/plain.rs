// What the plain check and the plain run share: device and program file read into adjacency lists and a tree of statements, and the breadth-first
// search. Well-formed files are taken for granted.
#![allow(dead_code)]

pub fn word(file: &[u8], at: usize) -> usize {
    file[at] as usize * 256 + file[at + 1] as usize
}

// The locations of a job and the edges between them.
pub struct Region {
    pub owned: Vec<bool>,
    pub near: Vec<Vec<usize>>,
}

impl Region {
    pub fn read(device: &[u8], job: u8) -> Region {
        let n = word(device, 5);
        let owned: Vec<bool> = device[9..9 + n].iter().map(|&owner| owner == job).collect();
        let mut near = vec![vec![]; n];
        for edge in device[9 + n..].chunks(2) {
            let (a, b) = (edge[0] as usize, edge[1] as usize);
            if owned[a] && owned[b] {
                near[a].push(b);
                near[b].push(a);
            }
        }
        Region { owned, near }
    }
}

pub type Block = Vec<Statement>;

pub struct Statement {
    pub place: usize,
    pub form: Form,
}

// `slot` is the slot that a statement binds, or frees.
pub enum Form {
    Init { slot: usize, at: usize },
    Free { slot: usize },
    Gate { qubit: usize },
    Measure { slot: usize, qubit: usize },
    Merge { slot: usize, first: usize, second: usize },
    Refer { slot: usize, value: usize },
    Get { slot: usize, reference: usize },
    Set { reference: usize, value: usize },
    If { value: usize, chosen: Block, other: Block },
    While { reference: usize, body: Block },
    Call { function: usize, at: Vec<usize>, arguments: Vec<usize> },
    Bool { slot: usize, value: bool },
}

// Which statements a program is read with: those that have commands, or all.
#[derive(Clone, Copy, PartialEq)]
pub enum Kept {
    Commands,
    All,
}

pub struct Program {
    pub functions: Vec<Block>,
    pub main: Block,
}

impl Program {
    pub fn read(file: &[u8], kept: Kept) -> Program {
        let mut reader = Reader { file, at: 6, kept };
        let mut functions = vec![];
        for _ in 0..file[5] {
            reader.at += 2;
            functions.push(reader.block());
        }
        let main = reader.block();
        Program { functions, main }
    }
}

struct Reader<'a> {
    file: &'a [u8],
    at: usize,
    kept: Kept,
}

impl Reader<'_> {
    fn byte(&mut self) -> usize {
        self.at += 1;
        self.file[self.at - 1] as usize
    }

    fn block(&mut self) -> Block {
        let end = self.at + 2 + word(self.file, self.at);
        self.at += 2;
        let mut statements = vec![];
        while self.at < end {
            if self.kept == Kept::All || self.has_command() {
                let place = self.at;
                statements.push(Statement { place, form: self.form() });
            }
        }
        statements
    }

    // Whether the statement to come has a command; one that has none is passed.
    fn has_command(&mut self) -> bool {
        match self.file[self.at] {
            1..=3 | 6 | 10..=12 => return true,
            5 => self.at += 4,
            _ => self.at += 3,
        }
        false
    }

    // Gates and bases are passed: no step depends on them.
    fn form(&mut self) -> Form {
        match self.byte() {
            1 | 2 => Form::Init { slot: self.byte(), at: self.byte() },
            3 => Form::Free { slot: self.byte() },
            4 => {
                self.at += 1;
                Form::Gate { qubit: self.byte() }
            }
            5 => {
                let slot = self.byte();
                self.at += 1;
                Form::Measure { slot, qubit: self.byte() }
            }
            6 => {
                let slot = self.byte();
                self.at += 1;
                let first = self.byte();
                self.at += 1;
                Form::Merge { slot, first, second: self.byte() }
            }
            7 => Form::Refer { slot: self.byte(), value: self.byte() },
            8 => Form::Get { slot: self.byte(), reference: self.byte() },
            9 => Form::Set { reference: self.byte(), value: self.byte() },
            10 => Form::If { value: self.byte(), chosen: self.block(), other: self.block() },
            11 => Form::While { reference: self.byte(), body: self.block() },
            12 => {
                let (function, k, m) = (self.byte(), self.byte(), self.byte());
                let at = (0..k).map(|_| self.byte()).collect();
                Form::Call { function, at, arguments: (0..m).map(|_| self.byte()).collect() }
            }
            _ => Form::Bool { slot: self.byte(), value: self.byte() == 1 },
        }
    }
}

// The tables of the search, which are kept between searches.
pub struct Search {
    level: Vec<u8>,
    queue: Vec<usize>,
}

// 255 edges lead from one end to the other at most, so that no location between has this level.
const UNSEEN: u8 = 255;

impl Search {
    pub fn new(n: usize) -> Search {
        Search { level: vec![UNSEEN; n], queue: Vec::with_capacity(n) }
    }

    // The edges of the shortest path over free locations from a to b: a breadth-first search from a, which ends as soon as b is met.
    pub fn distance(&mut self, near: &[Vec<usize>], free: impl Fn(usize) -> bool, a: usize, b: usize) -> Option<u8> {
        self.level.fill(UNSEEN);
        self.level[a] = 0;
        self.queue.clear();
        self.queue.push(a);
        let mut head = 0;
        while head < self.queue.len() {
            let x = self.queue[head];
            let next = self.level[x] + 1;
            head += 1;
            for &y in &near[x] {
                if y == b {
                    return Some(next);
                }
                if free(y) && self.level[y] == UNSEEN {
                    self.level[y] = next;
                    self.queue.push(y);
                }
            }
        }
        None
    }
}
