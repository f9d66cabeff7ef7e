//! A small file for each number, and what must be said of it.

use crate::files::*;
use crate::{alone, checked, listed, ran, routed, Seen};
use abwakiris::{File, Job, Number, Refusal};

/// A check on device G for job 1.
fn on_g(program: &[u8]) -> Seen {
    checked(&grid(), program, 1)
}

/// A device, with program A.
fn device_is(device: &[u8]) -> Seen {
    checked(device, &program_a(), 1)
}

#[test]
fn devices_that_do_not_read() {
    let g = grid();
    device_is(&[]).is(1, 0, &["samples/device-g:0, the whole file", "asked: a device file has at least the 9 bytes", "found: the file is empty"]);
    device_is(&g[..8]).is(1, 0, &["0 | 51 4C 47 00 01 00 06 00\n", "found: the file has 8 bytes"]);
    device_is(&program_a()).is(2, 0, &["the mark\n", "  | ^^^^^^^^\n", "found: the file begins with 51 4C 53", "this looks like a program file"]);
    device_is(&with(&g, &[(4, 2)])).is(3, 3, &["the version\n", "  |          ^^^^^\n", "found: the version is 2"]);
    device_is(&with(&g, &[(5, 1)])).is(4, 5, &["n, the number of locations", "asked: a device has 1 to 256 locations", "found: the number is 262"]);
    device_is(&with(&g, &[(7, 5)])).is(4, 7, &["e, the number of edges", "asked: a device has at most 1,024 edges", "found: the number is 1,287"]);
    device_is(&g[..28]).is(5, 0, &["found: n = 6 and e = 7 ask for 29 bytes, and the file has 28"]);
    device_is(&with(&g, &[(12, 3)])).is(
        6,
        12,
        &["samples/device-g:12, the owner of location 3\n", "asked: the owner of location 3 is 0", "found: the byte is 3 (03 hex)"],
    );
}

#[test]
fn edges() {
    let edge = |edges: &[Edge]| device_is(&device(3, edges));
    edge(&[(1, 2), (0, 1)]).is(7, 14, &[":14, edge 1\n", "found: edge 1, counted from 0, is 0 - 1, and comes after 1 - 2"]);
    edge(&[(0, 1), (0, 1)]).is(7, 14, &["edge 1, counted from 0, is 0 - 1, and so is the edge before it"]);
    edge(&[(1, 0)]).is(7, 12, &["edge 0, counted from 0, is 1 - 0, and has its larger end first"]);
    edge(&[(1, 1)]).is(7, 12, &["is 1 - 1, and joins a location to itself"]);
    edge(&[(1, 3)]).is(7, 12, &["is 1 - 3, and the device has 3 locations"]);
}

#[test]
fn headers_of_programs() {
    let a = program_a();
    on_g(&a[..7]).is(1, 0, &["program-walled:0", "asked: a program file has at least 8 bytes", "found: the file has 7 bytes"]);
    on_g(&grid()).is(2, 0, &["asked: a program file begins with the bytes 51 4C 53", "this looks like a device file"]);
    on_g(b"program 1\nmain\n").is(2, 0, &["this looks like a listing, of which abwakiris unlist makes the program file"]);
    on_g(&[&[0, 29], &grid()[..]].concat()).is(2, 0, &["this looks like a bundle"]);
    on_g(&with(&a, &[(3, 1)])).is(3, 3, &["found: the version is 257"]);
    on_g(&[0; 4097]).is(4, 0, &["asked: a program file has at most 4,096 bytes", "found: the file has 4,097 bytes"]);
    let long = [&b"program 1\nmain\n"[..], &b"  free 0\n".repeat(1000)].concat();
    on_g(&long).is(4, 0, &["this looks like a listing, of which abwakiris unlist makes the program file"]);
    on_g(&with(&a, &[(5, 16)])).is(4, 5, &["f, the number of functions", "asked: a program has at most 15 functions", "found: the number is 16"]);
    on_g(&calling(&[function(17, 0, &[])], &[])).is(4, 6, &["k, the number of location parameters of function 0", "found: the number is 17"]);
    let many = calling(&[function(1, 0, &[]), function(1, 2, &[])], &[]);
    on_g(&many).is(4, 11, &["m, the number of arguments of function 1", "found: m is 2, and k is 1"]);
}

#[test]
fn blocks_that_are_too_deep() {
    let seen = on_g(&only(&[nested(8)]));
    seen.is(4, 38, &["the length word of the block of the while at 36", "asked: blocks are at most 8 deep", "found: this block is 9 deep"]);
    seen.is(4, 38, &["::: its listing as far as it reads", "9 |               while 0\n   |\n   = asked"]);
    let seen = on_g(&only(&[repeat(0, &[(0..7).fold(vec![], |inner, _| when(1, &[gate(0), inner], &[]))])]));
    seen.is(4, 56, &["the first block of the if at 54", "|                 gate H 0\n   |\n   = asked"]);
}

#[test]
fn what_does_not_fit() {
    let a = program_a();
    on_g(&with(&a, &[(5, 2), (6, 0), (7, 0)])).is(8, 8, &["the length word of function 0", "found: the length is 256, and the file has 14 bytes left"]);
    let short = [&b"QLS\0\x01\x02"[..], &[0, 0, 0, 0, 7]].concat();
    on_g(&short).is(8, 10, &["the header of function 1", "by f there are 2 functions, and the file has 1 byte left for function 1"]);
    on_g(&with(&a, &[(7, 15)])).is(
        8,
        22,
        &["free, a statement in main", "free has 2 bytes, and its block has 1 left", "::: its listing as far as it reads", "6 |   free 0\n   |\n   = asked"],
    );
    let list = calling(&[function(3, 1, &[])], &[vec![12, 0, 3, 1, 0, 1]]);
    on_g(&list).is(
        8,
        12,
        &["asked: the locations and slots of a call end within", "found: the call has 3 locations and 1 slot, and its block has 2 bytes left"],
    );
    on_g(&[&a[..], &[9]].concat()).is(8, 24, &["the first byte after main", "found: main ends at 24, and the file has 25 bytes"]);
    let inner = only(&[boolean(0, 1), vec![10, 0, 0, 0, 0, 9, 3, 0]]);
    on_g(&inner).is(
        8,
        15,
        &["the length word of the second block of the if at 11", "found: the length is 9, and the block around it has 2 bytes left", "5 |   else\n"],
    );
}

#[test]
fn unknown_statements() {
    let seen = on_g(&only(&[boolean(0, 1), when(0, &[gate(1), vec![99]], &[])]));
    seen.is(9, 18, &["the first byte of a statement in main", "   |       ^^\n", "found: the byte is 99 (63 hex)", "5 |     gate H 1\n   |\n   = asked"]);
}

#[test]
fn operands() {
    on_g(&only(&[free(32)])).is(10, 9, &["operand 1 of free, a slot", "asked: a slot is 0 to 31", "found: the byte is 32 (20 hex)"]);
    on_g(&only(&[vec![4, 4, 0]])).is(10, 9, &["operand 1 of gate, the gate", "asked: a gate is 0 to 3"]);
    on_g(&only(&[vec![5, 0, 2, 0]])).is(10, 10, &["operand 2 of measure, a basis"]);
    on_g(&only(&[boolean(0, 2)])).is(10, 10, &["operand 2 of bool, the value"]);
    on_g(&only(&[call(0, &[], &[])])).is(10, 9, &["operand 1 of call, the function", "found: the byte is 0 (00 hex), and a call in main may name no function"]);
    let itself = calling(&[function(0, 0, &[]), function(0, 0, &[call(1, &[], &[])])], &[]);
    on_g(&itself).is(10, 15, &["and a call in function 1 may name only function 0"]);
    let two = |main: Statement| on_g(&calling(&[function(2, 1, &[])], &[main]));
    two(call(0, &[1], &[])).is(10, 14, &["operand 2 of call, k, the number of locations", "found: the byte is 1 (01 hex), and function 0 has 2 parameters"]);
    two(call(0, &[1, 2], &[])).is(10, 15, &["operand 3 of call, m, the number of slots", "and function 0 has 1 argument"]);
    two(call(0, &[1, 2], &[40])).is(10, 18, &["the slot for argument 0 of the call at 12"]);
    let parameter = calling(&[function(2, 0, &[init(0, 2)])], &[]);
    on_g(&parameter).is(10, 12, &["operand 2 of init, a location", "and function 0 has only parameters 0 to 1"]);
}

#[test]
fn slots_of_the_wrong_kind() {
    let seen = on_g(&only(&[init(0, 0), free(0), gate(0)]));
    seen.is(11, 13, &["program-walled:13, line 5 of its listing", "5 |   gate H 0\n  |   ^^^^^^^^\n", "asked: slot 0 holds a qubit"]).on_line(5, "gate H 0");
    seen.is(11, 13, &["found: slot 0 is unbound: its qubit was freed at line 4"]);
    on_g(&only(&[gate(3)])).is(11, 8, &["slot 3 is unbound: nothing in main binds it on the way to this line"]);
    on_g(&only(&[boolean(3, 1), gate(3)])).is(11, 11, &["slot 3 holds a bool, bound at line 3"]);
    let ended = only(&[init(0, 0), boolean(1, 1), when(1, &[], &[measure(3, 0)]), when(3, &[], &[])]);
    on_g(&ended).is(11, 24, &["asked: slot 3 holds a bool", "slot 3 is unbound: what line 7 bound went at the end of the block of line 6"]);
    on_g(&only(&[boolean(1, 1), repeat(1, &[])])).is(11, 11, &["asked: slot 1 holds a reference", "slot 1 holds a bool, bound at line 3"]);
    let called = calling(&[function(1, 1, &[free(0)])], &[init(2, 4), call(0, &[4], &[2]), free(2)]);
    on_g(&called).is(11, 23, &["slot 2 is unbound: its qubit went in the call of line 6"]);
    on_g(&calling(&[function(1, 1, &[refer(1, 0)])], &[])).is(11, 10, &["slot 0 holds a qubit at parameter 0, argument 0 of function 0"]);
}

#[test]
fn slots_that_are_bound() {
    on_g(&only(&[init(0, 4), init(0, 5)])).is(12, 11, &["asked: slot 0 is unbound", "found: slot 0 holds a qubit at location 4, made at line 3"]);
    let reference = only(&[boolean(0, 1), refer(1, 0), boolean(1, 0)]);
    on_g(&reference).is(12, 14, &["found: slot 1 holds a reference, bound at line 4"]).on_line(5, "bool 1 0");
}

#[test]
fn locations_outside_the_region() {
    let device = owned(&[1, 0, 2], &[]);
    let init_at = |location| checked(&device, &only(&[init(0, location)]), 1);
    init_at(1).is(13, 8, &["asked: location 1 is in the region of job 1", "found: location 1 is nobody's"]);
    init_at(2).is(13, 8, &["found: location 2 is job 2's", "mend: use a location of job 1"]);
    init_at(3).is(13, 8, &["found: location 3 does not exist: the device has locations 0 to 2"]);
    let called = calling(&[function(2, 0, &[])], &[call(0, &[2, 1], &[])]);
    checked(&device, &called, 2).is(13, 12, &["asked: location 1 is in the region of job 2", "found: location 1, given for parameter 1, is nobody's"]);
}

#[test]
fn locations_that_are_not_free() {
    on_g(&only(&[init(2, 4), init(0, 4)])).is(14, 11, &["asked: location 4 is free", "found: location 4 has the qubit in slot 2, since line 3"]);
    let argument = calling(&[function(1, 1, &[init(1, 0)])], &[]);
    on_g(&argument).is(14, 10, &["asked: parameter 0 is free", "found: parameter 0 has the qubit in slot 0, as argument 0 of function 0"]);
    let called = calling(&[function(2, 1, &[])], &[init(0, 4), init(1, 5), call(0, &[4, 5], &[0])]);
    on_g(&called).is(14, 18, &["found: location 5, given for parameter 1, has the qubit in slot 1, since line 5"]);
}

#[test]
fn what_comes_twice() {
    on_g(&only(&[init(0, 4), merge(1, 0, 0)])).is(15, 11, &["asked: a merge measures", "found: slot 0 is named for both qubits"]);
    let called = calling(&[function(3, 2, &[])], &[init(0, 4), call(0, &[4, 5, 4], &[0, 0])]);
    on_g(&called).is(
        15,
        15,
        &["found: location 4 is named twice, for parameters 0 and 2 of the function that is called", "found: slot 0 is named twice, for arguments 0 and 1"],
    );
}

#[test]
fn arguments_that_are_elsewhere() {
    let called = |main: &[Statement]| on_g(&calling(&[function(2, 2, &[])], main));
    let swapped = called(&[init(0, 4), init(1, 5), call(0, &[5, 4], &[0, 1])]);
    swapped.is(
        16,
        18,
        &["asked: the qubit in slot 0 is at location 5", "slot 0 holds a qubit at location 4, made at line 4, and the call wants argument 0 at location 5"],
    );
    swapped.is(16, 18, &["found: the qubit at location 5 is in slot 1"]);
    called(&[init(0, 4), init(1, 5), call(0, &[4, 3], &[0, 1])]).is(16, 18, &["wants argument 1 at location 3", "found: no qubit is at location 3"]);
}

#[test]
fn qubits_that_outlive_their_block() {
    let then = on_g(&only(&[boolean(0, 1), init(2, 3), when(0, &[init(3, 4), init(1, 5), free(3)], &[])]));
    then.is(
        17,
        16,
        &[
            "asked: a block of an if or a while ends",
            "found: at the block's end slot 1 holds a qubit at location 5, made at line 7",
            "5 |   if 0\n  |   ^^^^\n",
        ],
    );
    then.on_line(5, "if 0");
    on_g(&calling(&[function(2, 1, &[init(3, 1)])], &[])).is(
        17,
        8,
        &["asked: the body of a function ends", "slot 3 holds a qubit at parameter 1, made at line 3"],
    );
    let otherwise = on_g(&only(&[boolean(0, 1), when(0, &[], &[init(1, 5)])]));
    otherwise.is(17, 15, &["asked: a block of an if or a while ends", "only main itself may leave qubits live", "5 |   else\n  |   ^^^^\n"]).on_line(5, "else");
    let moved = on_g(&only(&[init(1, 4), boolean(0, 1), refer(2, 0), repeat(2, &[free(1), init(1, 5)])]));
    moved.is(17, 19, &["slot 1 holds a qubit at location 5, made at line 8; when the block began its qubit was at location 4"]).on_line(6, "while 2");
}

#[test]
fn branches_that_differ() {
    let seen = on_g(&only(&[init(3, 5), init(4, 4), boolean(0, 1), when(0, &[free(4)], &[free(3)])]));
    seen.is(18, 17, &["asked: both blocks of an if end with the same qubits"]).on_line(6, "if 0");
    seen.is(18, 17, &["slot 3: a qubit at location 5 after the first block, unbound after the second (freed at line 9)"]);
    seen.is(18, 17, &["slot 4: unbound after the first block (freed at line 7), a qubit at location 4 after the second"]);
    // the slot is bound to a bool after it was freed
    let bound = on_g(&only(&[init(3, 5), boolean(0, 1), when(0, &[free(3), boolean(3, 1)], &[])]));
    bound.is(18, 14, &["slot 3: unbound after the first block (freed at line 6), a qubit at location 5 after the second"]);
}

#[test]
fn loops_that_lose_a_qubit() {
    let freed = on_g(&only(&[init(0, 4), boolean(1, 1), refer(2, 1), repeat(2, &[gate(0), free(0)])]));
    freed.is(19, 17, &["found: slot 0 begins with a qubit at location 4, made at line 3, and ends unbound: freed at line 8"]).on_line(6, "while 2");
    let functions = [function(1, 1, &[free(0)]), function(1, 1, &[call(0, &[0], &[0])])];
    let called = calling(&functions, &[init(0, 4), boolean(1, 1), refer(2, 1), repeat(2, &[call(1, &[4], &[0])])]);
    on_g(&called).is(19, 33, &["it went in the call of line 11: function 1 ends without its argument 0, gone in its call of line 5"]);
}

/// Lines that have to do with the fault are shown with it, wherever they stand.
#[test]
fn lines_that_have_to_do_with_it() {
    let program = only(&[vec![init(0, 0), init(1, 1)], vec![gate(0); 6], vec![init(3, 1), gate(0), gate(0), gate(0)]].concat());
    let excerpt = "   |\n 4 |   init 1 1\n...\n 9 |   gate H 0\n10 |   gate H 0\n11 |   init 3 1\n   |   ^^^^^^^^\n12 |   gate H 0\n13 |   gate H 0\n   |\n";
    on_g(&program).is(14, 32, &[excerpt, "location 1 has the qubit in slot 1, since line 4"]);
}

#[test]
fn counts() {
    let functions = chain(1, 0, &[init(0, 0), free(0)], 15, 2);
    let main = [init(0, 0), call(14, &[1], &[]), call(14, &[1], &[]), call(3, &[1], &[]), free(0)];
    let seen = on_g(&calling(&functions, &main));
    seen.is(20, 0, &["program-walled:0, the whole program", "found: main counts 65,554 commands", "found: function 0 counts 2\n"]);
    seen.is(20, 0, &["function 3 counts 16; main calls it once", "function 14 counts 32,768; main calls it 2 times, 65,536 in all"]);
    seen.is(20, 0, &["found: line 49, `call 14 at 1`, counts 32,768", "found: line 51, `call 3 at 1`, counts 16"]);
}

/// Counts far beyond 64 bits are exact and found at once.
#[test]
fn large_counts() {
    let functions = chain(1, 0, &[init(0, 0), free(0)], 15, 52);
    let seen = on_g(&calling(&functions, &[call(14, &[0], &[])]));
    let count = 2 * 52u128.pow(14);
    assert!(count > 1 << 80);
    let digits: String = seen.0.found[0].chars().filter(char::is_ascii_digit).collect();
    assert_eq!(digits, count.to_string());
    seen.is(20, 0, &[]);
}

#[test]
fn merges_without_a_path() {
    let walled = only(&[init(0, 0), init(1, 2), init(2, 1), init(3, 4), merge(4, 0, 1), free(0), free(1), free(2), free(3)]);
    let seen = on_g(&walled);
    seen.is(
        21,
        20,
        &["program-walled:20, line 7 of its listing", "asked: a path over free locations of the region of job 1 between the qubits in slots 0 and 1"],
    );
    seen.is(21, 20, &["found: slot 0 is at location 0, slot 1 at location 2", "found: of the free locations only 3 is reached from 0"]);
    seen.is(21, 20, &["outcomes that lead there: abwakiris why samples/device-g program-walled\n"]).on_line(7, "merge 4 X 0 X 1");
    let second = checked(&swapped(&grid()), &walled, 2);
    second.is(21, 20, &["of the region of job 2", "see: the device at that moment", "abwakiris why samples/device-g program-walled --job 2\n"]);
    let apart = checked(&device(3, &[]), &program_a(), 1);
    apart.is(21, 14, &["found: no free location is reached from 0", "found: even with every location of job 1 free no corridor joins 0 and 2"]);
    apart.is(21, 14, &["mend: put the two qubits where edges of the region join them, or give the locations between them to job 1 in the device file"]);
    let functions = [function(2, 2, &[merge(2, 1, 0)])];
    let called = calling(&functions, &[init(0, 0), init(1, 2), init(2, 1), init(3, 4), call(0, &[0, 2], &[0, 1]), free(0), free(1), free(2), free(3)]);
    on_g(&called).is(
        21,
        10,
        &[
            "found: the check comes there by the call of line 9, call 0 at 0 2 with 0 1\n",
            "found: slot 1 is at location 2, slot 0 at location 0\n",
            "\n9 |   call 0 at 0 2 with 0 1\n",
        ],
    );
}

#[test]
fn routes() {
    let two = owned(&[1, 1, 2], &[(0, 1), (1, 2)]);
    routed(&two, 1, &[], [2, 0]).is(
        13,
        0,
        &["--> the first end of the route, 2\n", "asked: both ends of a route are in the region of job 1", "location 2 is job 2's"],
    );
    routed(&two, 1, &[], [0, u64::MAX]).is(
        13,
        1,
        &["the second end of the route", "location 18446744073709551615 does not exist: the device has locations 0 to 2"],
    );
    routed(&two, 1, &[], [1, 1]).is(15, 0, &["asked: a route has two different ends", "found: both ends are 1"]);
    let walled = routed(&grid(), 1, &[1, 4], [0, 2]);
    walled.is(
        21,
        0,
        &["the route from 0 to 2", "found: occupied locations are in the way: with every location free there is a route of 3 locations, 0, 1 and 2"],
    );
    routed(&device(2, &[]), 1, &[], [0, 1]).is(21, 0, &["found: no corridor joins 0 and 1 even with every location free"]);
}

#[test]
fn schedules() {
    let a = program_a();
    ran([&a, &a], &[0x10; 4097]).is(22, 0, &["schedule:0, the whole schedule", "found: it has 4,097 bytes"]);
    ran([&a, &a], &[0x10, 0x20, 0x12]).is(23, 2, &["schedule:2, byte 2", "0 | 10 20 12\n  |       ^^\n", "found: byte 2, counted from 0, is 18 (12 hex)"]);
    ran([&a, &a], b"10 11, 2x").is(23, 0, &["the file is text; a schedule as text has hex digits, spaces and commas only, and no `x`"]);
    ran([&a, &a[..9]], &[]).is(8, 6, &["two:6, the length word of main"]);
}

#[test]
fn in_no_file() {
    checked(&grid(), &program_a(), 3).is(25, 0, &["asked: a job is 1 or 2", "found: the number is 3", "mend: give --job 1 or --job 2"]);
    let no = |number| alone(Refusal { number, place: 0, file: File::NoFile });
    no(Number::BufferTooShort).is(24, 0, &["asked: a buffer has room"]);
    no(Number::OccupancyLength).is(26, 0, &["asked: the occupancy has one byte for each location"]);
}

/// A number, a file or a place that nothing is known of is still told.
#[test]
fn from_a_newer_library() {
    let seen = alone(Refusal { number: Number::Unknown(99), place: 7, file: File::Unknown(9) });
    assert!(seen.0.text().starts_with("refused 99: "));
    assert!(seen.0.text().contains(":7\n"));
    assert!(seen.0.json().to_string().contains("\"file\":\"unknown\""));
    for &number in Number::ALL {
        for file in [File::NoFile, File::Device, File::Schedule, File::Listing, File::Program(None), File::Program(Some(Job::TWO))] {
            let seen = alone(Refusal { number, place: u32::MAX, file });
            assert!(seen.0.text().starts_with("refused "));
        }
    }
}

#[test]
fn texts() {
    listed(b"").is(27, 0, &["the end of the text, line 1", "found: the text is empty"]);
    let slot = listed(b"program 1\nmain\n  free 32\n  free 1\n");
    slot.is(27, 15, &["text:15, line 3", "3 |   free 32\n  |   ^^^^^^^\n4 |   free 1\n", "found: a slot: `32` is not 0 to 31"]).on_line(3, "free 32");
    let text = |line: &str| listed(format!("program 1\nfunction 0 locations 2 arguments 1\nmain\n  if 0\n{line}").as_bytes());
    text("").is(27, 57, &["the `if` of line 4 needs its `else` here, with 2 spaces before it"]);
    text("    free 0").is(27, 67, &["the last line is not finished"]);
    text("    free 0\r\n").is(27, 57, &["the line ends in a carriage return"]);
    text("\n").is(27, 57, &["the line is empty"]);
    text("\tfree 0\n").is(27, 57, &["5 | \\tfree 0\n", "column 1 has a tab"]);
    text("    free  0\n").is(27, 57, &["more than one space"]);
    text("    free 0 \n").is(27, 57, &["a space at the end"]);
    text("   free 0\n").is(27, 57, &["the line has 3 spaces before it, and there are two for each block"]);
    text("      free 0\n").is(27, 57, &["the line has 6 spaces before it, and here 4 are the most"]);
    text("  free 0\n").is(27, 57, &["the `if` of line 4 needs its `else` here"]);
    text("    else\n").is(27, 57, &["no `if` with 4 spaces before it waits for an `else`"]);
    text("    Free 0\n").is(27, 57, &["`Free` is written `free`"]);
    text("    fre 0\n").is(27, 57, &["`fre` begins no statement; they begin with init, "]);
    text("    call 0 with 1 at 0 1\n").is(27, 57, &["function 0 has 2 locations and 1 argument: `call 0 at L L with X`"]);
    text("    merge 1 X 2 Y 3\n").is(27, 57, &["`Y` is no basis"]);
    text("    free 0 # comment\n").is(27, 57, &["`free` has 1 word after it, not 3"]);
    listed(b"QLS\0\x01\0\0\0").is(27, 0, &["this looks like a program file, of which abwakiris list prints the listing"]);
    listed("program 1\nmain\n  free \u{e4}\n".as_bytes()).is(27, 15, &["3 |   free \\xc3\\xa4\n", "column 8 has the byte C3 hex"]);
    let full = format!("program 1\nmain\n{}", "  free 0\n".repeat(2045));
    listed(full.as_bytes()).is(27, 18_411, &["with this line the program has 4098 bytes"]);
}
