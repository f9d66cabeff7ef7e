//! A program as graphs of steps, one for each body: what a step does to bools and references, and which steps come next.
//!
//! Bools and references never pass from one body to another, so a graph is all that the guards of its body know.

use crate::program::{Block, Body, Kind, Program, Statement};

/// The graphs of a program.
#[derive(Clone, Debug)]
pub struct Flow {
    functions: Vec<Graph>,
    main: Graph,
}

/// The steps of a body in file order and, last, its end: the return of a function, the finish of main.
#[derive(Clone, Debug)]
pub struct Graph {
    pub steps: Vec<Step>,
    /// The steps that each step may come after.
    pub before: Vec<Vec<Before>>,
    /// The ifs, the outer before the inner.
    pub forks: Vec<Fork>,
    /// How many loops are put so far.
    loops: usize,
}

/// A step, by its number in its graph.
pub type Number = usize;

/// A step of a body: a statement, or the end.
#[derive(Clone, Debug)]
pub struct Step {
    /// The offset of its statement; none for the end.
    pub at: Option<usize>,
    pub does: Does,
    /// What comes next; of an if or a while, where the guard is false.
    pub next: Number,
}

/// What a step does to bools and references.
#[derive(Clone, Copy, Debug, PartialEq, Eq)]
pub enum Does {
    Nothing,
    /// A slot gets the outcome.
    Measures {
        into: u8,
    },
    /// A slot gets what another holds.
    Copies {
        into: u8,
        from: u8,
    },
    /// A slot gets a value.
    Makes {
        into: u8,
        value: bool,
    },
    /// Goes to `taken` where the guard is true.
    Guards {
        guard: u8,
        taken: Number,
    },
    Calls {
        function: usize,
    },
    Ends,
}

/// A step that another may come after.
#[derive(Clone, Copy, Debug)]
pub struct Before {
    pub step: Number,
    /// Whether it is by a guard that is true.
    pub taken: bool,
}

/// An if as a whole.
#[derive(Clone, Debug)]
pub struct Fork {
    pub step: Number,
    /// The first step after its blocks, by number.
    pub end: Number,
    /// The step where both blocks meet again.
    pub join: Number,
    /// Whether a loop is in its blocks.
    pub loops: bool,
    /// The slots that its blocks write, a bit each.
    pub writes: u32,
}

impl Flow {
    /// The graphs of this program.
    pub fn of(program: &Program) -> Flow {
        Flow { functions: program.functions.iter().map(|function| Graph::of(&function.body)).collect(), main: Graph::of(&program.main) }
    }

    /// The graph of a body.
    pub fn graph(&self, body: Body) -> &Graph {
        match body {
            Body::Main => &self.main,
            Body::Function(number) => &self.functions[number],
        }
    }
}

impl Graph {
    fn of(body: &Block) -> Graph {
        let end = size(body);
        let mut graph = Graph { steps: Vec::with_capacity(end + 1), before: vec![vec![]; end + 1], forks: vec![], loops: 0 };
        graph.put(body, end);
        graph.steps.push(Step { at: None, does: Does::Ends, next: end });
        for (number, step) in graph.steps.iter().enumerate().take(end) {
            graph.before[step.next].push(Before { step: number, taken: false });
            if let Does::Guards { taken, .. } = step.does {
                graph.before[taken].push(Before { step: number, taken: true });
            }
        }
        graph
    }

    /// The number of its end.
    pub fn end(&self) -> Number {
        self.steps.len() - 1
    }

    /// The step of the statement at an offset.
    pub fn at(&self, offset: usize) -> Option<Number> {
        self.steps[..self.end()].binary_search_by_key(&Some(offset), |step| step.at).ok()
    }

    /// Puts the steps of a block, after which `after` comes.
    fn put(&mut self, block: &Block, after: Number) {
        for (i, statement) in block.statements.iter().enumerate() {
            let number = self.steps.len();
            let past = number + 1 + statement.blocks().into_iter().map(size).sum::<usize>();
            let next = if i + 1 < block.statements.len() { past } else { after };
            self.put_statement(statement, number, past, next);
        }
    }

    fn put_statement(&mut self, statement: &Statement, number: Number, past: Number, next: Number) {
        let first = |block: &Block, at: Number, otherwise: Number| if block.statements.is_empty() { otherwise } else { at };
        let step = |does: Does, next: Number| Step { at: Some(statement.at), does, next };
        match &statement.kind {
            Kind::If { guard, then, otherwise } => {
                let taken = first(then, number + 1, next);
                let not_taken = first(otherwise, number + 1 + size(then), next);
                let does = if taken == not_taken { Does::Nothing } else { Does::Guards { guard: *guard, taken } };
                self.steps.push(step(does, not_taken));
                let (fork, loops) = (self.forks.len(), self.loops);
                self.forks.push(Fork { step: number, end: past, join: next, loops: false, writes: 0 });
                self.put(then, next);
                self.put(otherwise, next);
                self.forks[fork].loops = self.loops > loops;
                self.forks[fork].writes = self.steps[number..].iter().filter_map(Step::writes).fold(0, |slots, slot| slots | 1 << slot);
            }
            Kind::While { guard, body } => {
                let taken = first(body, number + 1, number);
                self.steps.push(step(Does::Guards { guard: *guard, taken }, next));
                self.loops += 1;
                self.put(body, number);
            }
            kind => self.steps.push(step(simple(kind), next)),
        }
    }
}

impl Fork {
    /// Whether a step is its own or in its blocks.
    pub fn has(&self, step: Number) -> bool {
        self.step <= step && step < self.end
    }
}

impl Step {
    /// The slot that it writes a bool or a reference to.
    fn writes(&self) -> Option<u8> {
        match self.does {
            Does::Measures { into } | Does::Copies { into, .. } | Does::Makes { into, .. } => Some(into),
            _ => None,
        }
    }
}

/// What a statement without blocks does.
fn simple(kind: &Kind) -> Does {
    match *kind {
        Kind::Measure { into, .. } | Kind::Merge { into, .. } => Does::Measures { into },
        Kind::Ref { into, from } | Kind::Get { into, from } | Kind::Set { reference: into, from } => Does::Copies { into, from },
        Kind::Bool { into, value } => Does::Makes { into, value },
        Kind::Call { function, .. } => Does::Calls { function },
        _ => Does::Nothing,
    }
}

/// How many statements are in a block and in those below it.
fn size(block: &Block) -> usize {
    block.statements.iter().map(|statement| 1 + statement.blocks().into_iter().map(size).sum::<usize>()).sum()
}
