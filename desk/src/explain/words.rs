//! The words of each refusal: when it is given, where its place is, what the rule asks, and what usually mends it. `docs/refusals.md` has the same by number.
//!
//! Where a number means different things it has a case for each. A word in braces, as `{slot}`, is filled in where the fault is known; the page and the command
//! `refusal` have its general form.

use abwakiris::Number;

/// What is said of one number.
#[derive(Debug)]
pub struct Row {
    pub number: u8,
    /// When it is given.
    pub when: &'static str,
    /// What its place is.
    pub place: &'static str,
    /// What this tool says of the fault beside the number and the place.
    pub adds: &'static str,
    pub cases: &'static [Case],
}

/// One meaning of a number.
#[derive(Debug)]
pub struct Case {
    pub of: Of,
    /// What the rule asks.
    pub asked: &'static str,
    /// What usually mends it.
    pub mend: &'static str,
}

/// What a case is about.
#[derive(Clone, Copy, Debug, PartialEq, Eq)]
pub enum Of {
    /// The number has this one case.
    Only,
    Device,
    Program,
    Length,
    Locations,
    Edges,
    Functions,
    Parameters,
    Arguments,
    Depth,
    Header,
    Block,
    Statement,
    List,
    After,
    Slot,
    Location,
    Gate,
    Basis,
    Value,
    Callee,
    CalleeParameters,
    CalleeArguments,
    Qubit,
    Bool,
    Reference,
    Init,
    Call,
    Merge,
    /// A merge whose ends no corridor of the region joins.
    Apart,
    Function,
    Route,
    Line,
    End,
}

impl Of {
    /// In words, as the heading of a case; none for the only one.
    pub const fn words(self) -> &'static str {
        match self {
            Of::Only => "",
            Of::Device => "in a device",
            Of::Program => "in a program",
            Of::Length => "for the program's length",
            Of::Locations => "for n of a device",
            Of::Edges => "for e of a device",
            Of::Functions => "for f of a program",
            Of::Parameters => "for k of a function",
            Of::Arguments => "for m of a function",
            Of::Depth => "for a block's depth",
            Of::Header => "for a function's header",
            Of::Block => "for a block",
            Of::Statement => "for a statement",
            Of::List => "for the list of a call",
            Of::After => "for bytes after main",
            Of::Slot => "for a slot",
            Of::Location => "for a location in a function",
            Of::Gate => "for a gate",
            Of::Basis => "for a basis",
            Of::Value => "for the value of a bool",
            Of::Callee => "for the function of a call",
            Of::CalleeParameters => "for the k of a call",
            Of::CalleeArguments => "for the m of a call",
            Of::Qubit => "where a qubit is needed",
            Of::Bool => "where a bool is needed",
            Of::Reference => "where a reference is needed",
            Of::Init => "for an init",
            Of::Call => "for a call",
            Of::Merge => "for a merge",
            Of::Apart => "for a merge whose ends no corridor of the region joins",
            Of::Function => "for the body of a function",
            Of::Route => "for a route",
            Of::Line => "for a line",
            Of::End => "at the text's end",
        }
    }
}

/// The words in braces and what they are in general.
const GENERAL: [(&str, &str); 4] = [("{slot}", "the slot"), ("{slots}", "its two slots"), ("{location}", "the location"), ("{job}", "the job")];

/// A text with its words in braces as they are in general.
pub fn general(text: &str) -> String {
    filled(text, &[])
}

/// A text with its words in braces filled in by these values, and in general where there is none.
pub fn filled(text: &str, values: &[(&str, String)]) -> String {
    let known = values.iter().fold(text.to_string(), |text, (word, value)| text.replace(word, value));
    GENERAL.iter().fold(known, |text, (word, value)| text.replace(word, value))
}

/// The row of a number; none for one that a newer library has.
pub fn row(number: Number) -> Option<&'static Row> {
    ROWS.iter().find(|row| row.number == number.number())
}

impl Row {
    /// The case of this; where nothing is known of the fault, the only case.
    pub fn case(&self, of: Option<Of>) -> Option<&'static Case> {
        let of = of.unwrap_or(Of::Only);
        self.cases.iter().find(|case| case.of == of)
    }
}

const fn case(of: Of, asked: &'static str, mend: &'static str) -> Case {
    Case { of, asked, mend }
}

/// All numbers, in order.
pub static ROWS: &[Row] = &[
    Row {
        number: 1,
        when: "a device has fewer than 9 bytes, or a program fewer than 8",
        place: "0",
        adds: "how many bytes there are, and which",
        cases: &[
            case(
                Of::Device,
                "a device file has at least the 9 bytes of its header",
                "give the whole device file; a copy may have been cut off, or the file may be another one",
            ),
            case(
                Of::Program,
                "a program file has at least 8 bytes: its header and the length of main",
                "give the whole program file; a copy may have been cut off, or the file may be another one",
            ),
        ],
    },
    Row {
        number: 2,
        when: "a file does not begin with its mark",
        place: "0",
        adds: "the bytes that are there, and which file they look like",
        cases: &[
            case(
                Of::Device,
                "a device file begins with the bytes 51 4C 47, the letters QLG",
                "give a device file here; where a command takes both, the device comes before the program",
            ),
            case(
                Of::Program,
                "a program file begins with the bytes 51 4C 53, the letters QLS",
                "give a program file here; of a listing abwakiris unlist makes it, and where a command takes both, the program comes after the device",
            ),
        ],
    },
    Row {
        number: 3,
        when: "a file has another version than 1",
        place: "3, the version",
        adds: "the version that is there",
        cases: &[case(
            Of::Only,
            "the version is 1, the bytes 00 01",
            "write the file with a tool that writes version 1, or load it with a library that reads its version",
        )],
    },
    Row {
        number: 4,
        when: "a number in a file, or the length of a program, is outside its limits",
        place: "the field: of a device n at 5 or e at 7; of a program f at 5, the k or the m of a function, the length word of a block that is too deep; \
                0 for a program's length",
        adds: "the name of the field and the number that is there",
        cases: &[
            case(Of::Locations, "a device has 1 to 256 locations", "describe a part of the machine with 1 to 256 locations as the device"),
            case(Of::Edges, "a device has at most 1,024 edges", "leave out the edges that do not join two locations of the same job, since no path uses them"),
            case(Of::Length, "a program file has at most 4,096 bytes", "move statements that repeat into functions, or load the work as several programs"),
            case(
                Of::Functions,
                "a program has at most 15 functions",
                "leave out functions that nobody calls, or put the statements of a small one where it is called",
            ),
            case(Of::Parameters, "a function has at most 16 location parameters", "split the function into parts that need at most 16 locations each"),
            case(
                Of::Arguments,
                "a function has at most 8 arguments, and no more of them than location parameters",
                "give each argument the parameter of the same number, and split a function that needs more than 8 qubits",
            ),
            case(Of::Depth, "blocks are at most 8 deep", "move the innermost blocks into a function and call it there"),
        ],
    },
    Row {
        number: 5,
        when: "a device's length is not what its n and its e say",
        place: "0",
        adds: "n, e, the length that they ask for and the length that there is",
        cases: &[case(
            Of::Only,
            "a device file has exactly 9 + n + 2e bytes",
            "set n to the number of owner bytes and e to the number of edges, or give the file as it was written: a copy may be cut off or have more",
        )],
    },
    Row {
        number: 6,
        when: "an owner byte is not 0, 1 or 2",
        place: "the byte",
        adds: "the location and the byte",
        cases: &[case(
            Of::Only,
            "the owner of {location} is 0 for nobody, or 1 or 2 for that job",
            "write 0, 1 or 2 there; where the byte looks like the end of an edge, n is larger than the number of owner bytes",
        )],
    },
    Row {
        number: 7,
        when: "an edge is out of range or out of order",
        place: "the first byte of the edge",
        adds: "the edge by its number, and what is wrong with it",
        cases: &[case(
            Of::Only,
            "an edge a - b has a < b < n and comes after the edge before it, sorted by a and then by b",
            "write each edge once with its smaller end first, and sort the edges",
        )],
    },
    Row {
        number: 8,
        when: "a function's header, a block, a statement or a call's list does not fit into what is around it, or bytes follow main",
        place: "where it begins: the function's first byte, the block's length word, the statement, the first byte after main",
        adds: "what it is, how many bytes it needs and how many there are, and the listing as far as the program reads",
        cases: &[
            case(
                Of::Header,
                "the k and the m of each function stand within the file",
                "set f to the number of functions that are there, or correct the length word of the function before; abwakiris unlist writes both right",
            ),
            case(
                Of::Block,
                "a block, its length word and its bytes, ends within what is around it",
                "correct this length word or that around it, or give the whole file where a copy was cut off; abwakiris unlist writes right lengths",
            ),
            case(
                Of::Statement,
                "a statement with its operands ends within its block",
                "add the operands that are missing, or correct the block's length word; abwakiris unlist writes right lengths",
            ),
            case(
                Of::List,
                "the locations and slots of a call end within its block",
                "give as many locations and slots as the function has parameters and arguments, or correct the block's length word",
            ),
            case(
                Of::After,
                "the file ends where main ends",
                "count all of main's bytes in its length word, or cut off what follows; abwakiris unlist writes right lengths",
            ),
        ],
    },
    Row {
        number: 9,
        when: "a statement begins with a byte that is no kind of statement",
        place: "the statement",
        adds: "the byte, and the listing as far as the program reads",
        cases: &[case(
            Of::Only,
            "a statement begins with a byte from 1 to 13",
            "look at the statement before it and at the length words around it: where one of them is wrong, this byte is not the start of a statement",
        )],
    },
    Row {
        number: 10,
        when: "an operand is out of its range, a callee does not stand earlier, or a call's k or m is not the callee's",
        place: "the operand",
        adds: "which operand of which statement it is, its value, and the listing as far as the program reads",
        cases: &[
            case(Of::Slot, "a slot is 0 to 31", "use one of the body's 32 slots; one that a free or the end of a block has left unbound can be bound again"),
            case(
                Of::Location,
                "a location in a function is one of its own parameters, 0 to k - 1",
                "use a parameter that there is, or give the function one parameter more and name a location for it in every call",
            ),
            case(Of::Gate, "a gate is 0 to 3, for X, Z, H, S", "use one of these four gates"),
            case(Of::Basis, "a basis is 0 for X or 1 for Z", "use one of these two bases"),
            case(Of::Value, "the value of a bool is 0 or 1", "write 0 for false or 1 for true"),
            case(
                Of::Callee,
                "a call names a function that stands earlier in the file",
                "put the callee before its caller in the file; no function can call itself or a later one",
            ),
            case(Of::CalleeParameters, "the k of a call is the k of its function", "give the call as many locations as the function has parameters"),
            case(Of::CalleeArguments, "the m of a call is the m of its function", "give the call as many slots as the function has arguments"),
        ],
    },
    Row {
        number: 11,
        when: "a slot does not hold what the statement needs: a qubit, a bool or a reference",
        place: "the statement",
        adds: "the slot, what it holds and since which line, or where it was freed or given up",
        cases: &[
            case(
                Of::Qubit,
                "{slot} holds a qubit",
                "make the qubit with init before this line, or name the slot that has it; after a free, or a call that ends without it, it is gone",
            ),
            case(
                Of::Bool,
                "{slot} holds a bool",
                "bind the slot with measure, merge, get or bool before this line, in this block or in one around it; a block's bools go at its end",
            ),
            case(
                Of::Reference,
                "{slot} holds a reference",
                "make the reference with ref before this line, in this block or in one around it; a while and a set need one where an if needs a bool",
            ),
        ],
    },
    Row {
        number: 12,
        when: "the slot that a statement binds is bound already",
        place: "the statement",
        adds: "what the slot holds and which line bound it",
        cases: &[case(
            Of::Only,
            "{slot} is unbound before this statement binds it",
            "bind another slot, or free the qubit in this one first; a bool or a reference keeps its slot up to the end of the block that bound it",
        )],
    },
    Row {
        number: 13,
        when: "a location is not in the job's region",
        place: "the statement; of a route the end, 0 or 1",
        adds: "the location and whose it is",
        cases: &[
            case(
                Of::Program,
                "{location} is in the region of {job}",
                "use a location of {job}, or give this one to {job} in the device file; where the program is the other job's, check it with --job",
            ),
            case(
                Of::Route,
                "both ends of a route are in the region of {job}",
                "give two ends that are locations of {job}; abwakiris show draws whose is which",
            ),
        ],
    },
    Row {
        number: 14,
        when: "a location is not free: a qubit is there",
        place: "the statement",
        adds: "the location, the slot that has it and since which line",
        cases: &[
            case(Of::Init, "{location} is free when a qubit is put there", "free the qubit that is there before this line, or use another location"),
            case(
                Of::Call,
                "{location}, which the call names for no argument, is free",
                "free the qubit that is there before the call, or name a free location for this parameter",
            ),
        ],
    },
    Row {
        number: 15,
        when: "a location or a slot comes twice in a call, a slot twice in a merge, or the ends of a route are equal",
        place: "the statement; of a route 0",
        adds: "what comes twice, and for what",
        cases: &[
            case(
                Of::Call,
                "a call names no location twice and no slot twice",
                "name a location of its own for each parameter and a slot of its own for each argument",
            ),
            case(Of::Merge, "a merge measures the qubits of two different slots", "name the slot of the other qubit"),
            case(Of::Route, "a route has two different ends", "give two different locations"),
        ],
    },
    Row {
        number: 16,
        when: "the qubit of an argument is not at the call's location of the same number",
        place: "the statement",
        adds: "where the argument is and where the call wants it",
        cases: &[case(
            Of::Only,
            "the qubit in {slot} is at {location}, as the call says",
            "name the location where the qubit is, or the slot of the qubit that is at this one; the slots stand in the order of the locations",
        )],
    },
    Row {
        number: 17,
        when: "at the end of a block, other than main's own, a qubit is left that was not there when the block began",
        place: "the block's length word",
        adds: "which qubit: its slot, its location and the line that made it",
        cases: &[
            case(
                Of::Function,
                "the body of a function ends with no qubit but its arguments, each at its own parameter",
                "free the qubit in the function, or make it in the caller and pass it as an argument",
            ),
            case(
                Of::Block,
                "a block of an if or a while ends with no qubit that it made",
                "free the qubit before the block ends, or make it before the block begins; only main itself may leave qubits live",
            ),
        ],
    },
    Row {
        number: 18,
        when: "the two blocks of an if end with different qubits",
        place: "the if",
        adds: "each slot that differs, and how",
        cases: &[case(
            Of::Only,
            "both blocks of an if end with the same qubits in the same slots",
            "free the qubit in both blocks, or in neither of them and after the if",
        )],
    },
    Row {
        number: 19,
        when: "the block of a while ends without a qubit that it began with",
        place: "the while",
        adds: "the slot that lost its qubit, and the line of the free or of the call where it went",
        cases: &[case(
            Of::Only,
            "the block of a while ends with every qubit that it began with",
            "free the qubit after the loop, or make it again in the same slot at the same location before the block ends",
        )],
    },
    Row {
        number: 20,
        when: "main's command count is more than 65,535",
        place: "0",
        adds: "the count of main and of each function, how often main itself calls it, and the heaviest statements of main",
        cases: &[case(
            Of::Only,
            "main counts at most 65,535 commands, with those of its calls for each call again",
            "repeat calls in a while, whose block counts once however often it runs, or load the work as several programs",
        )],
    },
    Row {
        number: 21,
        when: "between the two qubits of a merge, or the two ends of a route, there is no path over free locations of the region",
        place: "the merge; of a route 0",
        adds: "the calls that lead there, where the qubits are and what is reached; abwakiris why adds the device at that moment and the outcomes",
        cases: &[
            case(
                Of::Merge,
                "a path over free locations of the region of {job} between the qubits in {slots}",
                "keep a corridor free: free the qubit that is in the way before the merge, make it after the merge, or put it somewhere else",
            ),
            case(
                Of::Apart,
                "a path over free locations of the region of {job} between the qubits in {slots}",
                "put the two qubits where edges of the region join them, or give the locations between them to {job} in the device file",
            ),
            case(
                Of::Route,
                "a path over free locations of the region of {job} between the two ends",
                "free a location between the ends, or choose ends that a corridor joins",
            ),
        ],
    },
    Row {
        number: 22,
        when: "a schedule has more than 4,096 bytes",
        place: "0",
        adds: "how many bytes there are",
        cases: &[case(
            Of::Only,
            "a schedule has at most 4,096 steps, a byte each",
            "give a shorter schedule; every run starts afresh, so a second one does not go on where the first ended",
        )],
    },
    Row {
        number: 23,
        when: "a byte of a schedule is not 10, 11, 20 or 21 hex",
        place: "the byte",
        adds: "the byte, and the bytes around it",
        cases: &[case(
            Of::Only,
            "each byte of a schedule is 10, 11, 20 or 21 hex: the job, then the outcome",
            "write 10 or 11 for a step of job 1 and 20 or 21 for a step of job 2, in hex digits",
        )],
    },
    Row {
        number: 24,
        when: "a buffer is shorter than what is to be written",
        place: "0",
        adds: "nothing: the commands of this tool give buffers that are long enough",
        cases: &[case(
            Of::Only,
            "a buffer has room for all that the call writes",
            "give 256 bytes for a route, 4 a step for records, one a location for a map, 65,536 for a listing, 4,096 for a program",
        )],
    },
    Row {
        number: 25,
        when: "the number of a job is not 1 or 2",
        place: "0",
        adds: "the number that was given",
        cases: &[case(Of::Only, "a job is 1 or 2", "give --job 1 or --job 2")],
    },
    Row {
        number: 26,
        when: "the occupancy of a route has not one byte for each location",
        place: "0",
        adds: "how many locations the device has",
        cases: &[case(
            Of::Only,
            "the occupancy has one byte for each location of the device",
            "give as many bytes as the device has locations; abwakiris route makes them from --occupied",
        )],
    },
    Row {
        number: 27,
        when: "with this line the text begins no listing, or the rest of the listing is missing",
        place: "the start of the line; the text's end",
        adds: "the line with its number, and what is wrong with it where it is a common fault",
        cases: &[
            case(
                Of::Line,
                "each line is one that abwakiris list prints, and stands where it can stand",
                "write the line as docs/listing.md has it: two spaces a block, one between words, plain numbers, no comments, no empty lines",
            ),
            case(
                Of::End,
                "the text has all lines of a listing, and a newline after each",
                "add what is missing at the end: main, the else of an if, the rest of the last line or its newline",
            ),
        ],
    },
];
