//! Programs as trees, statements with their nested blocks, and their encoding as files.

/// A statement's own bytes and the blocks that follow them.
#[derive(Clone)]
pub(super) struct Statement {
    pub(super) bytes: Vec<u8>,
    pub(super) blocks: Vec<Block>,
}

pub(super) type Block = Vec<Statement>;

#[derive(Clone)]
pub(super) struct Function {
    pub(super) parameters: usize,
    pub(super) arguments: usize,
    pub(super) block: Block,
}

#[derive(Clone)]
pub(super) struct Program {
    pub(super) functions: Vec<Function>,
    pub(super) main: Block,
}

/// Where the parts of an encoded program stand, in file order. A body is known by its number:
/// the function's, or the number of functions for main.
#[derive(Default)]
pub(super) struct Marks {
    pub(super) headers: Vec<usize>,
    pub(super) lengths: Vec<LengthMark>,
    pub(super) statements: Vec<StatementMark>,
}

#[derive(Clone, Copy)]
pub(super) struct LengthMark {
    pub(super) at: usize,
    pub(super) depth: usize,
}

/// `length` counts the statement's own bytes, without its blocks.
#[derive(Clone, Copy)]
pub(super) struct StatementMark {
    pub(super) at: usize,
    pub(super) length: usize,
    pub(super) body: usize,
}

pub(super) fn simple(bytes: &[u8]) -> Statement {
    Statement { bytes: bytes.to_vec(), blocks: Vec::new() }
}

fn encode_block(block: &Block, depth: usize, body: usize, bytes: &mut Vec<u8>, marks: &mut Marks) {
    let at = bytes.len();
    marks.lengths.push(LengthMark { at, depth });
    bytes.extend([0, 0]);
    for statement in block {
        let length = statement.bytes.len();
        marks.statements.push(StatementMark { at: bytes.len(), length, body });
        bytes.extend(&statement.bytes);
        for inner in &statement.blocks {
            encode_block(inner, depth + 1, body, bytes, marks);
        }
    }
    let length = (bytes.len() - at - 2) as u16;
    bytes[at..at + 2].copy_from_slice(&length.to_be_bytes());
}

impl Program {
    pub(super) fn encode(&self) -> (Vec<u8>, Marks) {
        let mut bytes = b"QLS\x00\x01".to_vec();
        let mut marks = Marks::default();
        bytes.push(self.functions.len() as u8);
        for (body, function) in self.functions.iter().enumerate() {
            marks.headers.push(bytes.len());
            bytes.extend([function.parameters as u8, function.arguments as u8]);
            encode_block(&function.block, 1, body, &mut bytes, &mut marks);
        }
        encode_block(&self.main, 1, self.functions.len(), &mut bytes, &mut marks);
        (bytes, marks)
    }

    /// The bodies in file order: the functions' blocks, then main's.
    pub(super) fn bodies(&mut self) -> Vec<&mut Block> {
        let mut bodies: Vec<&mut Block> =
            self.functions.iter_mut().map(|function| &mut function.block).collect();
        bodies.push(&mut self.main);
        bodies
    }
}

/// Every block of a body with its depth, the body's own block first.
pub(super) fn blocks_of(block: &mut Block, depth: usize, visit: &mut dyn FnMut(&mut Block, usize)) {
    visit(block, depth);
    for statement in block.iter_mut() {
        for inner in &mut statement.blocks {
            blocks_of(inner, depth + 1, visit);
        }
    }
}

/// Every statement of a body in file order.
pub(super) fn statements_of(block: &mut Block, visit: &mut dyn FnMut(&mut Statement)) {
    for statement in block.iter_mut() {
        visit(statement);
        for inner in &mut statement.blocks {
            statements_of(inner, visit);
        }
    }
}
