//! Document 01 written out plainly, to be compared with other implementations.
//!
//! Everything here follows the document's wording and its order of tests. Nothing is made fast
//! beyond what the document's own limits need: a function is judged once, its command count is
//! remembered and saturates, and calls without any command are not walked into. By document 02
//! main's own block may end with live qubits, which the check counts. Its listings are in
//! `reference/listing.rs`.

#![allow(dead_code)]

use std::collections::VecDeque;

#[path = "reference/listing.rs"]
pub mod listing;

/// Where a place lies; a program of job j is `FILE_PROGRAM + j`, read for no job `FILE_PROGRAM`.
pub const FILE_NONE: u8 = 0;
pub const FILE_DEVICE: u8 = 1;
pub const FILE_SCHEDULE: u8 = 2;
pub const FILE_PROGRAM: u8 = 16;

pub const SLOTS: usize = 32;
pub const MOST_LOCATIONS: usize = 256;
pub const MOST_EDGES: usize = 1024;
pub const MOST_FUNCTIONS: usize = 15;
pub const MOST_PARAMETERS: usize = 16;
pub const MOST_ARGUMENTS: usize = 8;
pub const DEEPEST_BLOCK: usize = 8;
pub const LONGEST_PROGRAM: usize = 4096;
pub const LONGEST_SCHEDULE: usize = 4096;
pub const LONGEST_BUNDLE: usize = 8192;
pub const MOST_COMMANDS: u64 = 65_535;

#[derive(Clone, Copy, PartialEq, Eq, Debug)]
pub struct Refusal {
    pub number: u8,
    pub place: usize,
    pub file: u8,
}

pub type Answer<T> = Result<T, Refusal>;

fn refuse<T>(number: u8, place: usize, file: u8) -> Answer<T> {
    Err(Refusal { number, place, file })
}

/// An answer as the exports pack it.
pub fn pack(answer: Answer<u64>) -> u64 {
    match answer {
        Ok(value) => value,
        Err(Refusal { number, place, file }) => {
            place as u64 | u64::from(number) << 32 | u64::from(file) << 40
        }
    }
}

fn word(bytes: &[u8], at: usize) -> usize {
    usize::from(bytes[at]) * 256 + usize::from(bytes[at + 1])
}

// ---------------------------------------------------------------------------------------------
// Device files
// ---------------------------------------------------------------------------------------------

pub struct Device {
    /// For each location 0 (nobody), 1 or 2.
    pub owner: Vec<u8>,
    /// For each location the other ends of its edges: edges have no direction.
    pub neighbours: Vec<Vec<usize>>,
}

pub fn read_device(bytes: &[u8]) -> Answer<Device> {
    let no = |number, place| refuse(number, place, FILE_DEVICE);
    if bytes.len() < 9 {
        return no(1, 0);
    }
    if &bytes[0..3] != b"QLG" {
        return no(2, 0);
    }
    if word(bytes, 3) != 1 {
        return no(3, 3);
    }
    let n = word(bytes, 5);
    if n < 1 || n > MOST_LOCATIONS {
        return no(4, 5);
    }
    let e = word(bytes, 7);
    if e > MOST_EDGES {
        return no(4, 7);
    }
    if bytes.len() != 9 + n + 2 * e {
        return no(5, 0);
    }
    let owner = bytes[9..9 + n].to_vec();
    for l in 0..n {
        if owner[l] > 2 {
            return no(6, 9 + l);
        }
    }
    let mut neighbours = vec![Vec::new(); n];
    let mut before = None;
    for i in 0..e {
        let at = 9 + n + 2 * i;
        let (a, b) = (usize::from(bytes[at]), usize::from(bytes[at + 1]));
        let increasing = before.map_or(true, |edge| edge < (a, b));
        if !(a < b && b < n && increasing) {
            return no(7, at);
        }
        before = Some((a, b));
        neighbours[a].push(b);
        neighbours[b].push(a);
    }
    Ok(Device { owner, neighbours })
}

impl Device {
    fn in_region(&self, location: usize, job: u8) -> bool {
        location < self.owner.len() && self.owner[location] == job
    }

    /// The shortest path inside the job's region from `first` to `second`, both of them in the
    /// region and different, with only free locations between; of several the smallest when
    /// compared location by location from `first`.
    fn shortest(
        &self,
        job: u8,
        free: impl Fn(usize) -> bool,
        first: usize,
        second: usize,
    ) -> Option<Vec<usize>> {
        // Distances are measured from the second end, so that the walk from the first end can
        // take, at each location, the smallest neighbour that is one step nearer.
        const UNREACHED: usize = usize::MAX;
        let mut distance = [UNREACHED; MOST_LOCATIONS];
        let mut waiting = VecDeque::new();
        distance[second] = 0;
        waiting.push_back(second);
        while let Some(here) = waiting.pop_front() {
            if here == first {
                break;
            }
            for &next in &self.neighbours[here] {
                let passable = next == first || free(next);
                if distance[next] == UNREACHED && self.in_region(next, job) && passable {
                    distance[next] = distance[here] + 1;
                    waiting.push_back(next);
                }
            }
        }
        if distance[first] == UNREACHED {
            return None;
        }
        let mut path = vec![first];
        let mut here = first;
        while here != second {
            here = self.neighbours[here]
                .iter()
                .copied()
                .filter(|&next| distance[next] == distance[here] - 1)
                .min()
                .unwrap();
            path.push(here);
        }
        Some(path)
    }
}

// ---------------------------------------------------------------------------------------------
// Program files
// ---------------------------------------------------------------------------------------------

pub struct Program {
    pub functions: Vec<Function>,
    pub main: Block,
}

pub struct Function {
    pub parameters: usize,
    pub arguments: usize,
    pub block: Block,
}

/// `at` is the offset of the block's length word.
pub struct Block {
    pub at: usize,
    pub statements: Vec<Statement>,
}

/// `at` is the offset of the statement's first byte.
pub struct Statement {
    pub at: usize,
    pub form: Form,
}

/// Operands that no rule of typing, commands or steps looks at (gates, bases, whether an init is
/// magic) are read and then dropped.
pub enum Form {
    Init { x: usize, location: usize },
    Free { x: usize },
    Gate { x: usize },
    Measure { y: usize, x: usize },
    Merge { y: usize, first: usize, second: usize },
    NewReference { r: usize, y: usize },
    Load { y: usize, r: usize },
    Assign { r: usize, y: usize },
    If { y: usize, then: Block, otherwise: Block },
    While { r: usize, body: Block },
    Call { function: usize, locations: Vec<usize>, slots: Vec<usize> },
    Bool { y: usize, value: bool },
}

pub fn read_program(bytes: &[u8]) -> Answer<Program> {
    read_program_in(bytes, FILE_PROGRAM)
}

fn read_program_in(bytes: &[u8], file: u8) -> Answer<Program> {
    let no = |number, place| refuse(number, place, file);
    if bytes.len() < 8 {
        return no(1, 0);
    }
    if bytes.len() > LONGEST_PROGRAM {
        return no(4, 0);
    }
    if &bytes[0..3] != b"QLS" {
        return no(2, 0);
    }
    if word(bytes, 3) != 1 {
        return no(3, 3);
    }
    let count = usize::from(bytes[5]);
    if count > MOST_FUNCTIONS {
        return no(4, 5);
    }
    let mut reader = Reader { bytes, file, functions: Vec::new() };
    let mut at = 6;
    for _ in 0..count {
        if at + 2 > bytes.len() {
            return no(8, at);
        }
        let parameters = usize::from(bytes[at]);
        if parameters > MOST_PARAMETERS {
            return no(4, at);
        }
        let arguments = usize::from(bytes[at + 1]);
        if arguments > MOST_ARGUMENTS || arguments > parameters {
            return no(4, at + 1);
        }
        let (block, after) = reader.block(at + 2, bytes.len(), 1, parameters)?;
        reader.functions.push(Function { parameters, arguments, block });
        at = after;
    }
    let (main, after) = reader.block(at, bytes.len(), 1, MOST_LOCATIONS)?;
    if after != bytes.len() {
        return no(8, after);
    }
    Ok(Program { functions: reader.functions, main })
}

struct Reader<'a> {
    bytes: &'a [u8],
    file: u8,
    /// The functions read so far: exactly those that the body being read may call.
    functions: Vec<Function>,
}

impl Reader<'_> {
    fn no<T>(&self, number: u8, place: usize) -> Answer<T> {
        refuse(number, place, self.file)
    }

    /// The byte at `at`, which must be below `limit`.
    fn operand(&self, at: usize, limit: usize) -> Answer<usize> {
        let value = usize::from(self.bytes[at]);
        if value < limit { Ok(value) } else { self.no(10, at) }
    }

    fn slot(&self, at: usize) -> Answer<usize> {
        self.operand(at, SLOTS)
    }

    /// Reads the block whose length word stands at `at`. It must end by `end`, the end of what
    /// encloses it. Location bytes are below `locations`. Gives the offset after it as well.
    fn block(
        &self,
        at: usize,
        end: usize,
        depth: usize,
        locations: usize,
    ) -> Answer<(Block, usize)> {
        if at + 2 > end {
            return self.no(8, at);
        }
        if depth > DEEPEST_BLOCK {
            return self.no(4, at);
        }
        let block_end = at + 2 + word(self.bytes, at);
        if block_end > end {
            return self.no(8, at);
        }
        let mut statements = Vec::new();
        let mut next = at + 2;
        while next < block_end {
            let (statement, after) = self.statement(next, block_end, depth, locations)?;
            statements.push(statement);
            next = after;
        }
        Ok((Block { at, statements }, block_end))
    }

    fn statement(
        &self,
        at: usize,
        end: usize,
        depth: usize,
        locations: usize,
    ) -> Answer<(Statement, usize)> {
        let kind = self.bytes[at];
        let fixed = match kind {
            3 | 10 | 11 => 2,
            1 | 2 | 4 | 7 | 8 | 9 | 13 => 3,
            5 | 12 => 4,
            6 => 6,
            _ => return self.no(9, at),
        };
        let mut after = at + fixed;
        if after > end {
            return self.no(8, at);
        }
        let form = match kind {
            1 | 2 => {
                let x = self.slot(at + 1)?;
                Form::Init { x, location: self.operand(at + 2, locations)? }
            }
            3 => Form::Free { x: self.slot(at + 1)? },
            4 => {
                self.operand(at + 1, 4)?;
                Form::Gate { x: self.slot(at + 2)? }
            }
            5 => {
                let y = self.slot(at + 1)?;
                self.operand(at + 2, 2)?;
                Form::Measure { y, x: self.slot(at + 3)? }
            }
            6 => {
                let y = self.slot(at + 1)?;
                self.operand(at + 2, 2)?;
                let first = self.slot(at + 3)?;
                self.operand(at + 4, 2)?;
                Form::Merge { y, first, second: self.slot(at + 5)? }
            }
            7 => {
                let r = self.slot(at + 1)?;
                Form::NewReference { r, y: self.slot(at + 2)? }
            }
            8 => {
                let y = self.slot(at + 1)?;
                Form::Load { y, r: self.slot(at + 2)? }
            }
            9 => {
                let r = self.slot(at + 1)?;
                Form::Assign { r, y: self.slot(at + 2)? }
            }
            10 => {
                let y = self.slot(at + 1)?;
                let (then, middle) = self.block(after, end, depth + 1, locations)?;
                let (otherwise, last) = self.block(middle, end, depth + 1, locations)?;
                after = last;
                Form::If { y, then, otherwise }
            }
            11 => {
                let r = self.slot(at + 1)?;
                let (body, last) = self.block(after, end, depth + 1, locations)?;
                after = last;
                Form::While { r, body }
            }
            12 => {
                let function = self.operand(at + 1, self.functions.len())?;
                let callee = &self.functions[function];
                let (k, m) = (usize::from(self.bytes[at + 2]), usize::from(self.bytes[at + 3]));
                if k != callee.parameters {
                    return self.no(10, at + 2);
                }
                if m != callee.arguments {
                    return self.no(10, at + 3);
                }
                let list = after;
                after = list + k + m;
                if after > end {
                    return self.no(8, at);
                }
                let mut call_locations = Vec::new();
                for i in 0..k {
                    call_locations.push(self.operand(list + i, locations)?);
                }
                let mut slots = Vec::new();
                for i in 0..m {
                    slots.push(self.slot(list + k + i)?);
                }
                Form::Call { function, locations: call_locations, slots }
            }
            _ => {
                let y = self.slot(at + 1)?;
                Form::Bool { y, value: self.operand(at + 2, 2)? == 1 }
            }
        };
        Ok((Statement { at, form }, after))
    }
}

/// Whether some entry of a call's list comes twice.
fn repeats(list: &[usize]) -> bool {
    (0..list.len()).any(|i| list[..i].contains(&list[i]))
}

// ---------------------------------------------------------------------------------------------
// Typing
// ---------------------------------------------------------------------------------------------

#[derive(Clone, Copy, PartialEq, Eq)]
enum Kind {
    Unbound,
    Qubit(usize),
    Bool,
    Reference,
}

/// Locations are parameter numbers while a function is judged, device locations in main.
#[derive(Clone, PartialEq, Eq)]
struct Environment {
    slots: [Kind; SLOTS],
    free: [bool; MOST_LOCATIONS],
}

struct Typing<'a> {
    program: &'a Program,
    file: u8,
    /// For each function judged so far and each of its arguments: whether it ends with it.
    keeps: Vec<Vec<bool>>,
}

/// Judges every function, then main. Gives the number of slots that hold a qubit at main's end,
/// where no qubit is asked to be gone.
fn judge(device: &Device, program: &Program, job: u8, file: u8) -> Answer<u64> {
    let mut typing = Typing { program, file, keeps: Vec::new() };
    for function in &program.functions {
        let mut environment =
            Environment { slots: [Kind::Unbound; SLOTS], free: [false; MOST_LOCATIONS] };
        let mut inside = [false; MOST_LOCATIONS];
        for parameter in 0..function.parameters {
            inside[parameter] = true;
            if parameter < function.arguments {
                environment.slots[parameter] = Kind::Qubit(parameter);
            } else {
                environment.free[parameter] = true;
            }
        }
        typing.block(&function.block, &mut environment, &inside)?;
        let keeps = (0..function.arguments)
            .map(|i| environment.slots[i] == Kind::Qubit(i))
            .collect();
        typing.keeps.push(keeps);
    }
    let mut region = [false; MOST_LOCATIONS];
    for location in 0..MOST_LOCATIONS {
        region[location] = device.in_region(location, job);
    }
    let mut environment = Environment { slots: [Kind::Unbound; SLOTS], free: region };
    typing.statements(&program.main, &mut environment, &region)?;
    let live = |kind: &&Kind| matches!(kind, Kind::Qubit(_));
    Ok(environment.slots.iter().filter(live).count() as u64)
}

impl Typing<'_> {
    fn statements(
        &self,
        block: &Block,
        environment: &mut Environment,
        inside: &[bool; MOST_LOCATIONS],
    ) -> Answer<()> {
        for statement in &block.statements {
            self.statement(statement, environment, inside)?;
        }
        Ok(())
    }

    /// Judges the statements of a block other than main's own and closes it.
    fn block(
        &self,
        block: &Block,
        environment: &mut Environment,
        inside: &[bool; MOST_LOCATIONS],
    ) -> Answer<()> {
        let entry = environment.slots;
        self.statements(block, environment, inside)?;
        for slot in 0..SLOTS {
            match environment.slots[slot] {
                Kind::Unbound => {}
                Kind::Qubit(_) => {
                    if environment.slots[slot] != entry[slot] {
                        return refuse(17, block.at, self.file);
                    }
                }
                Kind::Bool | Kind::Reference => {
                    if matches!(entry[slot], Kind::Unbound | Kind::Qubit(_)) {
                        environment.slots[slot] = Kind::Unbound;
                    }
                }
            }
        }
        Ok(())
    }

    fn statement(
        &self,
        statement: &Statement,
        environment: &mut Environment,
        inside: &[bool; MOST_LOCATIONS],
    ) -> Answer<()> {
        let test = |holds: bool, number: u8| {
            if holds { Ok(()) } else { refuse(number, statement.at, self.file) }
        };
        // The slots before the statement: every condition is about these.
        let slots = environment.slots;
        let unbound = |slot: usize| test(slots[slot] == Kind::Unbound, 12);
        let is_bool = |slot: usize| test(slots[slot] == Kind::Bool, 11);
        let is_reference = |slot: usize| test(slots[slot] == Kind::Reference, 11);
        let qubit = |slot: usize| match slots[slot] {
            Kind::Qubit(location) => Ok(location),
            _ => refuse(11, statement.at, self.file),
        };
        match &statement.form {
            Form::Init { x, location } => {
                unbound(*x)?;
                test(inside[*location], 13)?;
                test(environment.free[*location], 14)?;
                environment.free[*location] = false;
                environment.slots[*x] = Kind::Qubit(*location);
            }
            Form::Free { x } => {
                let location = qubit(*x)?;
                environment.free[location] = true;
                environment.slots[*x] = Kind::Unbound;
            }
            Form::Gate { x } => {
                qubit(*x)?;
            }
            Form::Measure { y, x } => {
                unbound(*y)?;
                qubit(*x)?;
                environment.slots[*y] = Kind::Bool;
            }
            Form::Merge { y, first, second } => {
                unbound(*y)?;
                qubit(*first)?;
                qubit(*second)?;
                test(first != second, 15)?;
                environment.slots[*y] = Kind::Bool;
            }
            Form::NewReference { r, y } => {
                unbound(*r)?;
                is_bool(*y)?;
                environment.slots[*r] = Kind::Reference;
            }
            Form::Load { y, r } => {
                unbound(*y)?;
                is_reference(*r)?;
                environment.slots[*y] = Kind::Bool;
            }
            Form::Assign { r, y } => {
                is_reference(*r)?;
                is_bool(*y)?;
            }
            Form::If { y, then, otherwise } => {
                is_bool(*y)?;
                let mut other = environment.clone();
                self.block(then, environment, inside)?;
                self.block(otherwise, &mut other, inside)?;
                test(*environment == other, 18)?;
            }
            Form::While { r, body } => {
                is_reference(*r)?;
                self.block(body, environment, inside)?;
                // Closing the body has left no qubit that was not there on entry.
                let lost = (0..SLOTS).any(|slot| {
                    matches!(slots[slot], Kind::Qubit(_)) && environment.slots[slot] != slots[slot]
                });
                test(!lost, 19)?;
            }
            Form::Call { function, locations, slots: given } => {
                let arguments = self.program.functions[*function].arguments;
                for &location in locations {
                    test(inside[location], 13)?;
                }
                test(!repeats(locations) && !repeats(given), 15)?;
                for i in 0..arguments {
                    let location = qubit(given[i])?;
                    test(location == locations[i], 16)?;
                }
                for &location in &locations[arguments..] {
                    test(environment.free[location], 14)?;
                }
                for i in 0..arguments {
                    if !self.keeps[*function][i] {
                        environment.slots[given[i]] = Kind::Unbound;
                        environment.free[locations[i]] = true;
                    }
                }
            }
            Form::Bool { y, .. } => {
                unbound(*y)?;
                environment.slots[*y] = Kind::Bool;
            }
        }
        Ok(())
    }
}

// ---------------------------------------------------------------------------------------------
// Commands
// ---------------------------------------------------------------------------------------------

/// The size of a block's command, given those of the functions it may call.
fn count_block(block: &Block, functions: &[u64]) -> u64 {
    let mut sum: u64 = 0;
    for statement in &block.statements {
        let size = match &statement.form {
            Form::Init { .. } | Form::Free { .. } | Form::Merge { .. } => 1,
            Form::If { then, otherwise, .. } => 1u64
                .saturating_add(count_block(then, functions))
                .saturating_add(count_block(otherwise, functions)),
            Form::While { body, .. } => 1u64.saturating_add(count_block(body, functions)),
            Form::Call { function, .. } => functions[*function],
            _ => 0,
        };
        sum = sum.saturating_add(size);
    }
    sum
}

/// The walk over main's command in order, for a typed program.
struct Walk<'a> {
    device: &'a Device,
    program: &'a Program,
    job: u8,
    file: u8,
    counts: &'a [u64],
    occupied: [bool; MOST_LOCATIONS],
}

/// Where the qubits in a body's slots sit on the device.
type Sites = [Option<usize>; SLOTS];

impl Walk<'_> {
    /// `actual` are the device locations of the function's parameters, nothing in main.
    fn block(&mut self, block: &Block, sites: &mut Sites, actual: Option<&[usize]>) -> Answer<()> {
        let on_device = |location: usize| actual.map_or(location, |list| list[location]);
        for statement in &block.statements {
            match &statement.form {
                Form::Init { x, location } => {
                    let location = on_device(*location);
                    self.occupied[location] = true;
                    sites[*x] = Some(location);
                }
                Form::Free { x } => {
                    let location = sites[*x].take().unwrap();
                    self.occupied[location] = false;
                }
                Form::Merge { first, second, .. } => {
                    let (first, second) = (sites[*first].unwrap(), sites[*second].unwrap());
                    let free = |location: usize| !self.occupied[location];
                    if self.device.shortest(self.job, free, first, second).is_none() {
                        return refuse(21, statement.at, self.file);
                    }
                }
                Form::If { then, otherwise, .. } => {
                    let occupied = self.occupied;
                    let mut other = *sites;
                    self.block(then, sites, actual)?;
                    self.occupied = occupied;
                    self.block(otherwise, &mut other, actual)?;
                    debug_assert!(*sites == other);
                }
                Form::While { body, .. } => self.block(body, sites, actual)?,
                // A callee without commands neither takes, gives back nor merges anything.
                Form::Call { function, .. } if self.counts[*function] == 0 => {}
                Form::Call { function, locations, slots } => {
                    let callee = &self.program.functions[*function];
                    let list: Vec<usize> = locations.iter().map(|&l| on_device(l)).collect();
                    let mut inner: Sites = [None; SLOTS];
                    for i in 0..slots.len() {
                        inner[i] = Some(list[i]);
                    }
                    self.block(&callee.block, &mut inner, Some(&list))?;
                    for i in 0..slots.len() {
                        sites[slots[i]] = inner[i];
                    }
                }
                _ => {}
            }
        }
        Ok(())
    }
}

/// What a check answers: the command count of main, and how many qubits it leaves live.
#[derive(Clone, Copy, PartialEq, Eq, Debug)]
pub struct Counted {
    pub count: u64,
    pub live: u64,
}

impl Counted {
    /// As the export packs both.
    pub fn value(self) -> u64 {
        self.count + 65_536 * self.live
    }
}

pub fn check(device: &[u8], program: &[u8], job: u64) -> Answer<Counted> {
    if job != 1 && job != 2 {
        return refuse(25, 0, FILE_NONE);
    }
    let job = job as u8;
    let file = FILE_PROGRAM + job;
    let device = read_device(device)?;
    let program = read_program_in(program, file)?;
    let live = judge(&device, &program, job, file)?;
    let mut counts = Vec::new();
    for function in &program.functions {
        counts.push(count_block(&function.block, &counts));
    }
    let count = count_block(&program.main, &counts);
    if count > MOST_COMMANDS {
        return refuse(20, 0, file);
    }
    let mut walk = Walk {
        device: &device,
        program: &program,
        job,
        file,
        counts: &counts,
        occupied: [false; MOST_LOCATIONS],
    };
    walk.block(&program.main, &mut [None; SLOTS], None)?;
    Ok(Counted { count, live })
}

// ---------------------------------------------------------------------------------------------
// Route
// ---------------------------------------------------------------------------------------------

/// Answers the route's number of locations and writes them from the buffer's start.
pub fn route(
    device: &[u8],
    job: u64,
    occupancy: &[u8],
    first: u64,
    second: u64,
    buffer: &mut [u8],
) -> Answer<usize> {
    if job != 1 && job != 2 {
        return refuse(25, 0, FILE_NONE);
    }
    let job = job as u8;
    let device = read_device(device)?;
    if occupancy.len() != device.owner.len() {
        return refuse(26, 0, FILE_NONE);
    }
    let inside = |end: u64| end < MOST_LOCATIONS as u64 && device.in_region(end as usize, job);
    if !inside(first) {
        return refuse(13, 0, FILE_NONE);
    }
    if !inside(second) {
        return refuse(13, 1, FILE_NONE);
    }
    if first == second {
        return refuse(15, 0, FILE_NONE);
    }
    let free = |location: usize| occupancy[location] == 0;
    let path = match device.shortest(job, free, first as usize, second as usize) {
        Some(path) => path,
        None => return refuse(21, 0, FILE_NONE),
    };
    if path.len() > buffer.len() {
        return refuse(24, 0, FILE_NONE);
    }
    for (i, &location) in path.iter().enumerate() {
        buffer[i] = location as u8;
    }
    Ok(path.len())
}

// ---------------------------------------------------------------------------------------------
// Run
// ---------------------------------------------------------------------------------------------

#[derive(Clone, Copy, PartialEq, Eq)]
enum Value {
    Unbound,
    Qubit(usize),
    Bool(bool),
    /// A reference holds a copy of a bool; no two slots share one.
    Reference(bool),
}

struct Frame {
    slots: [Value; SLOTS],
    /// The device locations of a function's parameters, nothing in main.
    actual: Option<Vec<usize>>,
}

impl Frame {
    fn on_device(&self, location: usize) -> usize {
        match &self.actual {
            None => location,
            Some(list) => list[location],
        }
    }

    // Each of these gives the reason why the slot is not fit.

    fn bindable(&self, slot: usize) -> Result<(), u8> {
        if matches!(self.slots[slot], Value::Qubit(_)) { Err(12) } else { Ok(()) }
    }

    fn qubit(&self, slot: usize) -> Result<usize, u8> {
        if let Value::Qubit(location) = self.slots[slot] { Ok(location) } else { Err(11) }
    }

    fn bool(&self, slot: usize) -> Result<bool, u8> {
        if let Value::Bool(value) = self.slots[slot] { Ok(value) } else { Err(11) }
    }

    fn reference(&self, slot: usize) -> Result<bool, u8> {
        if let Value::Reference(value) = self.slots[slot] { Ok(value) } else { Err(11) }
    }
}

#[derive(Clone, Copy)]
enum Item<'a> {
    Statement(&'a Statement),
    /// Holds the slots that its call gave as arguments.
    Return { call: usize, slots: &'a [usize] },
}

struct Job<'a> {
    number: u8,
    device: &'a Device,
    program: &'a Program,
    /// The last one is the frame in use.
    frames: Vec<Frame>,
    /// The items to come, the next one last.
    items: Vec<Item<'a>>,
    stuck: Option<[u8; 4]>,
    moved: u32,
}

impl<'a> Job<'a> {
    fn new(number: u8, device: &'a Device, program: &'a Program) -> Job<'a> {
        let frame = Frame { slots: [Value::Unbound; SLOTS], actual: None };
        let mut job = Job {
            number,
            device,
            program,
            frames: vec![frame],
            items: Vec::new(),
            stuck: None,
            moved: 0,
        };
        job.put_before(&program.main);
        job
    }

    fn put_before(&mut self, block: &'a Block) {
        self.items.extend(block.statements.iter().rev().map(Item::Statement));
    }

    /// One step, giving its record. `map` holds the occupying job of each location, or 0.
    fn step(&mut self, map: &mut [u8], outcome: bool) -> [u8; 4] {
        if let Some(record) = self.stuck {
            return record;
        }
        let Some(&item) = self.items.last() else {
            return [1, 0, 0xFF, 0xFF];
        };
        let (at, result) = match item {
            Item::Statement(statement) => (statement.at, self.perform(statement, map, outcome)),
            Item::Return { call, slots } => {
                self.items.pop();
                self.finish_call(slots);
                (call, Ok(0))
            }
        };
        let offset = [(at / 256) as u8, (at % 256) as u8];
        match result {
            Ok(edges) => {
                self.moved += 1;
                [0, edges, offset[0], offset[1]]
            }
            Err(reason) => {
                let record = [reason, 0, offset[0], offset[1]];
                self.stuck = Some(record);
                record
            }
        }
    }

    /// Performs the statement that is the next item and takes it off the list. Gives the edges
    /// of a merge's route, else 0; or the reason for being stuck, and then nothing has changed.
    fn perform(
        &mut self,
        statement: &'a Statement,
        map: &mut [u8],
        outcome: bool,
    ) -> Result<u8, u8> {
        let (device, number) = (self.device, self.number);
        let in_region = |l: usize| if device.in_region(l, number) { Ok(()) } else { Err(13) };
        let frame = self.frames.last_mut().unwrap();
        let mut edges = 0;
        match &statement.form {
            Form::Init { x, location } => {
                let location = frame.on_device(*location);
                frame.bindable(*x)?;
                in_region(location)?;
                if map[location] != 0 {
                    return Err(14);
                }
                map[location] = number;
                frame.slots[*x] = Value::Qubit(location);
                self.items.pop();
            }
            Form::Free { x } => {
                let location = frame.qubit(*x)?;
                map[location] = 0;
                frame.slots[*x] = Value::Unbound;
                self.items.pop();
            }
            Form::Gate { x } => {
                frame.qubit(*x)?;
                self.items.pop();
            }
            Form::Measure { y, x } => {
                frame.bindable(*y)?;
                frame.qubit(*x)?;
                frame.slots[*y] = Value::Bool(outcome);
                self.items.pop();
            }
            Form::Merge { y, first, second } => {
                frame.bindable(*y)?;
                let from = frame.qubit(*first)?;
                let to = frame.qubit(*second)?;
                if first == second {
                    return Err(15);
                }
                let path = device.shortest(number, |l| map[l] == 0, from, to).ok_or(21)?;
                edges = (path.len() - 1) as u8;
                frame.slots[*y] = Value::Bool(outcome);
                self.items.pop();
            }
            Form::NewReference { r, y } => {
                frame.bindable(*r)?;
                let value = frame.bool(*y)?;
                frame.slots[*r] = Value::Reference(value);
                self.items.pop();
            }
            Form::Load { y, r } => {
                frame.bindable(*y)?;
                let value = frame.reference(*r)?;
                frame.slots[*y] = Value::Bool(value);
                self.items.pop();
            }
            Form::Assign { r, y } => {
                frame.reference(*r)?;
                let value = frame.bool(*y)?;
                frame.slots[*r] = Value::Reference(value);
                self.items.pop();
            }
            Form::If { y, then, otherwise } => {
                let chosen = if frame.bool(*y)? { then } else { otherwise };
                self.items.pop();
                self.put_before(chosen);
            }
            Form::While { r, body } => {
                if frame.reference(*r)? {
                    // The loop itself is still on the list, so it follows its body.
                    self.put_before(body);
                } else {
                    self.items.pop();
                }
            }
            Form::Call { function, locations, slots } => {
                let callee = &self.program.functions[*function];
                let list: Vec<usize> = locations.iter().map(|&l| frame.on_device(l)).collect();
                for &location in &list {
                    in_region(location)?;
                }
                if repeats(&list) || repeats(slots) {
                    return Err(15);
                }
                for i in 0..callee.arguments {
                    if frame.qubit(slots[i])? != list[i] {
                        return Err(16);
                    }
                }
                for &location in &list[callee.arguments..] {
                    if map[location] != 0 {
                        return Err(14);
                    }
                }
                let mut inner = [Value::Unbound; SLOTS];
                for i in 0..callee.arguments {
                    inner[i] = Value::Qubit(list[i]);
                }
                self.frames.push(Frame { slots: inner, actual: Some(list) });
                self.items.pop();
                self.items.push(Item::Return { call: statement.at, slots });
                self.put_before(&callee.block);
            }
            Form::Bool { y, value } => {
                frame.bindable(*y)?;
                frame.slots[*y] = Value::Bool(*value);
                self.items.pop();
            }
        }
        Ok(edges)
    }

    /// Drops the callee's frame; an argument that is not where it was given is lost.
    fn finish_call(&mut self, slots: &[usize]) {
        let callee = self.frames.pop().unwrap();
        let caller = self.frames.last_mut().unwrap();
        for i in 0..slots.len() {
            if callee.slots[i] != Value::Qubit(callee.on_device(i)) {
                caller.slots[slots[i]] = Value::Unbound;
            }
        }
    }
}

/// Answers how many steps each job moved.
pub fn run(
    device: &[u8],
    first_program: &[u8],
    second_program: &[u8],
    schedule: &[u8],
    records: &mut [u8],
    map: &mut [u8],
) -> Answer<(u32, u32)> {
    let device = read_device(device)?;
    let first_program = read_program_in(first_program, FILE_PROGRAM + 1)?;
    let second_program = read_program_in(second_program, FILE_PROGRAM + 2)?;
    if schedule.len() > LONGEST_SCHEDULE {
        return refuse(22, 0, FILE_SCHEDULE);
    }
    for (i, byte) in schedule.iter().enumerate() {
        if !matches!(byte, 0x10 | 0x11 | 0x20 | 0x21) {
            return refuse(23, i, FILE_SCHEDULE);
        }
    }
    let n = device.owner.len();
    if records.len() < 4 * schedule.len() || map.len() < n {
        return refuse(24, 0, FILE_NONE);
    }
    let mut one = Job::new(1, &device, &first_program);
    let mut two = Job::new(2, &device, &second_program);
    let mut occupied = vec![0; n];
    for (i, byte) in schedule.iter().enumerate() {
        let job = if byte / 16 == 1 { &mut one } else { &mut two };
        let record = job.step(&mut occupied, byte % 16 == 1);
        records[4 * i..4 * i + 4].copy_from_slice(&record);
    }
    map[..n].copy_from_slice(&occupied);
    Ok((one.moved, two.moved))
}

// ---------------------------------------------------------------------------------------------
// The printing program
// ---------------------------------------------------------------------------------------------

/// A bundle's device and program, when it is made of exactly these.
fn unbundle(input: &[u8]) -> Option<(&[u8], &[u8])> {
    if input.len() > LONGEST_BUNDLE {
        return None;
    }
    let part = |at: usize| {
        let length = input.get(at..at + 2)?;
        let end = at + 2 + word(length, 0);
        Some((input.get(at + 2..end)?, end))
    };
    let (device, middle) = part(0)?;
    let (program, end) = part(middle)?;
    if end == input.len() { Some((device, program)) } else { None }
}

pub fn print_check(input: &[u8]) -> Vec<u8> {
    let line = match unbundle(input) {
        None => "BAD\n".to_string(),
        Some((device, program)) => match check(device, program, 1) {
            Ok(Counted { count, live }) => format!("OK {count} {live}\n"),
            Err(refusal) => format!("NO {} {}\n", refusal.number, refusal.place),
        },
    };
    line.into_bytes()
}
