//! A program that the library has read, as a tree of statements with their places in the file.

use crate::listing::Listing;
use abwakiris::Refusal;

/// A program that reads.
#[derive(Clone, Debug)]
pub struct Program {
    /// The file.
    pub bytes: Vec<u8>,
    pub functions: Vec<Function>,
    pub main: Block,
    /// Its listing, by the library.
    pub listing: Listing,
}

/// A function.
#[derive(Clone, Debug)]
pub struct Function {
    /// The offset of its header.
    pub at: usize,
    /// How many location parameters it has, k.
    pub parameters: usize,
    /// How many arguments, m.
    pub arguments: usize,
    pub body: Block,
}

/// A block of statements: the body of main or of a function, or a block of an if or a while.
#[derive(Clone, Debug)]
pub struct Block {
    /// The offset of its length word.
    pub at: usize,
    pub statements: Vec<Statement>,
}

/// A statement.
#[derive(Clone, Debug)]
pub struct Statement {
    /// The offset of its first byte.
    pub at: usize,
    pub kind: Kind,
}

/// The kinds of statements. Slots, locations and parameters are the file's bytes.
#[derive(Clone, Debug)]
pub enum Kind {
    /// An `init` or a `magic`.
    Init {
        slot: u8,
        location: u8,
    },
    Free {
        slot: u8,
    },
    Gate {
        slot: u8,
    },
    Measure {
        into: u8,
        slot: u8,
    },
    Merge {
        into: u8,
        first: u8,
        second: u8,
    },
    Ref {
        into: u8,
        from: u8,
    },
    Get {
        into: u8,
        from: u8,
    },
    Set {
        reference: u8,
        from: u8,
    },
    If {
        guard: u8,
        then: Block,
        otherwise: Block,
    },
    While {
        guard: u8,
        body: Block,
    },
    Call {
        function: usize,
        locations: Vec<u8>,
        slots: Vec<u8>,
    },
    Bool {
        into: u8,
        value: bool,
    },
}

/// A body: main's or a function's.
#[derive(Clone, Copy, Debug, PartialEq, Eq, Hash)]
pub enum Body {
    Main,
    Function(usize),
}

impl std::fmt::Display for Body {
    fn fmt(&self, f: &mut std::fmt::Formatter<'_>) -> std::fmt::Result {
        match self {
            Body::Main => f.write_str("main"),
            Body::Function(number) => write!(f, "function {number}"),
        }
    }
}

impl Program {
    /// Asks the library whether the bytes are a program, and takes them apart.
    ///
    /// # Errors
    ///
    /// The library's refusal.
    pub fn read(bytes: &[u8]) -> Result<Program, Refusal> {
        let text = abwakiris::write_listing(bytes)?;
        let mut reader = Reader { bytes, at: 6 };
        let functions: Vec<Function> = (0..bytes[5]).map(|_| reader.function()).collect();
        let main = reader.block();
        let listing = Listing::of(&text, &functions, &main);
        Ok(Program { bytes: bytes.to_vec(), functions, main, listing })
    }

    /// The program that does nothing.
    pub fn empty() -> Program {
        let main = Block { at: 6, statements: vec![] };
        let listing = Listing::of("program 1\nmain\n", &[], &main);
        Program { bytes: b"QLS\0\x01\0\0\0".to_vec(), functions: vec![], main, listing }
    }

    /// The block of a body.
    pub fn body(&self, body: Body) -> &Block {
        match body {
            Body::Main => &self.main,
            Body::Function(number) => &self.functions[number].body,
        }
    }

    /// All bodies in file order, main last.
    pub fn bodies(&self) -> impl Iterator<Item = Body> {
        (0..self.functions.len()).map(Body::Function).chain([Body::Main])
    }

    /// The body that an offset is in.
    pub fn body_at(&self, at: usize) -> Body {
        if at >= self.main.at {
            return Body::Main;
        }
        let before = self.functions.iter().take_while(|function| function.at <= at).count();
        Body::Function(before.saturating_sub(1))
    }

    /// The statement at this offset, and the body that it stands in.
    pub fn statement(&self, at: usize) -> Option<(Body, &Statement)> {
        let body = self.body_at(at);
        self.body(body).statement(at).map(|statement| (body, statement))
    }
}

impl Block {
    /// The statement at this offset, in this block or in one below it.
    pub fn statement(&self, at: usize) -> Option<&Statement> {
        let before = self.statements.iter().take_while(|statement| statement.at <= at).count();
        let statement = &self.statements[before.checked_sub(1)?];
        if statement.at == at {
            return Some(statement);
        }
        statement.blocks().into_iter().find_map(|block| block.statement(at))
    }
}

impl Statement {
    /// The blocks in it, in file order.
    pub fn blocks(&self) -> Vec<&Block> {
        match &self.kind {
            Kind::If { then, otherwise, .. } => vec![then, otherwise],
            Kind::While { body, .. } => vec![body],
            _ => vec![],
        }
    }
}

/// Goes over the bytes of a program that the library has read. Blocks nest eight deep at most.
struct Reader<'a> {
    bytes: &'a [u8],
    at: usize,
}

impl Reader<'_> {
    fn byte(&mut self) -> u8 {
        self.at += 1;
        self.bytes[self.at - 1]
    }

    fn list(&mut self, length: u8) -> Vec<u8> {
        (0..length).map(|_| self.byte()).collect()
    }

    fn function(&mut self) -> Function {
        let at = self.at;
        let (parameters, arguments) = (usize::from(self.byte()), usize::from(self.byte()));
        Function { at, parameters, arguments, body: self.block() }
    }

    fn block(&mut self) -> Block {
        let at = self.at;
        let length = usize::from(self.byte()) * 256 + usize::from(self.byte());
        let end = self.at + length;
        let mut statements = vec![];
        while self.at < end {
            statements.push(Statement { at: self.at, kind: self.kind() });
        }
        Block { at, statements }
    }

    fn kind(&mut self) -> Kind {
        match self.byte() {
            1 | 2 => Kind::Init { slot: self.byte(), location: self.byte() },
            3 => Kind::Free { slot: self.byte() },
            4 => {
                self.byte();
                Kind::Gate { slot: self.byte() }
            }
            5 => {
                let into = self.byte();
                self.byte();
                Kind::Measure { into, slot: self.byte() }
            }
            6 => {
                let into = self.byte();
                self.byte();
                let first = self.byte();
                self.byte();
                Kind::Merge { into, first, second: self.byte() }
            }
            7 => Kind::Ref { into: self.byte(), from: self.byte() },
            8 => Kind::Get { into: self.byte(), from: self.byte() },
            9 => Kind::Set { reference: self.byte(), from: self.byte() },
            10 => Kind::If { guard: self.byte(), then: self.block(), otherwise: self.block() },
            11 => Kind::While { guard: self.byte(), body: self.block() },
            12 => {
                let (function, k, m) = (usize::from(self.byte()), self.byte(), self.byte());
                Kind::Call { function, locations: self.list(k), slots: self.list(m) }
            }
            _ => Kind::Bool { into: self.byte(), value: self.byte() == 1 },
        }
    }
}
