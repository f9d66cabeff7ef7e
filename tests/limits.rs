//! The readers at the limits: for each refusal 1 to 10 the last file that reads and the first that does not, with number, place and file.
//! The expected answers are written from the document.

mod cases;
mod files;
mod library;

use cases::Tried;
use files::{device, edges, nested, program, with};
use library::{no, Call, DEVICE, PROGRAM};

impl Tried {
    fn device(&mut self, what: &str, file: &[u8], number: u64, place: u64) {
        self.untouched(what, &Call::read_device(file), answer(number, place, DEVICE));
    }

    fn program(&mut self, what: &str, file: &[u8], number: u64, place: u64) {
        self.untouched(what, &Call::read_program(file), answer(number, place, PROGRAM));
    }
}

/// The packed answer; number 0 is a file that reads, with its value: a device's number of locations, 0 for a program.
fn answer(number: u64, place: u64, file: u64) -> u64 {
    if number == 0 { place } else { no(number, place, file) }
}

fn devices(t: &mut Tried) {
    let one = device(1, &[]);
    t.device("no bytes", &[], 1, 0);
    t.device("8 bytes", &one[..8], 1, 0);
    t.device("9 bytes", &one[..9], 5, 0);
    t.device("n 1", &one, 0, 1);
    t.device("mark", &with(&one, &[(2, b'S')]), 2, 0);
    t.device("mark before version", &with(&one, &[(0, 0), (4, 2)]), 2, 0);
    t.device("version", &with(&one, &[(4, 2)]), 3, 3);
    t.device("version 257", &with(&one, &[(3, 1)]), 3, 3);
    t.device("n 0", &device(0, &[]), 4, 5);
    t.device("n 256", &device(256, &[]), 0, 256);
    t.device("n 257", &device(257, &[]), 4, 5);
    t.device("n 0 before e", &with(&device(0, &[]), &[(7, 255)]), 4, 5);
    t.device("e 1,024", &device(256, &edges(1024)), 0, 256);
    t.device("e 1,025", &device(256, &edges(1025)), 4, 7);
    t.device("one byte more", &[&one[..], &[0]].concat(), 5, 0);
    t.device("one byte less", &device(2, &[(0, 1)])[..12], 5, 0);
    t.device("length before owner", &[&with(&one, &[(9, 3)])[..], &[0]].concat(), 5, 0);
    t.device("owner 2", &with(&one, &[(9, 2)]), 0, 1);
    t.device("owner 3", &with(&device(3, &[]), &[(11, 3)]), 6, 11);
    t.device("owner before edge", &with(&device(2, &[(1, 1)]), &[(10, 3)]), 6, 10);
    t.device("a = b", &device(3, &[(1, 1)]), 7, 12);
    t.device("a > b", &device(3, &[(0, 1), (2, 1)]), 7, 14);
    t.device("b = n", &device(3, &[(0, 3)]), 7, 12);
    t.device("b = n - 1", &device(3, &[(0, 2)]), 0, 3);
    t.device("equal edges", &device(3, &[(0, 1), (0, 1)]), 7, 14);
    t.device("falling second ends", &device(3, &[(0, 2), (0, 1)]), 7, 14);
    t.device("falling first ends", &device(3, &[(1, 2), (0, 1)]), 7, 14);
    t.device("rising edges", &device(3, &[(0, 1), (0, 2), (1, 2)]), 0, 3);
    t.device("locations 254, 255", &device(256, &[(254, 255)]), 0, 256);
}

fn programs(t: &mut Tried) {
    let empty = program(&[], &[]);
    t.program("no bytes", &[], 1, 0);
    t.program("7 bytes", &empty[..7], 1, 0);
    t.program("8 bytes", &empty, 0, 0);
    let longest = program(&[], &[vec![4, 0, 0].repeat(1362), vec![3, 0]].concat());
    assert_eq!(longest.len(), 4096);
    t.program("4,096 bytes", &longest, 0, 0);
    t.program("4,097 bytes", &[&longest[..], &[0]].concat(), 4, 0);
    t.program("length before mark", &vec![0; 4097], 4, 0);
    t.program("mark", &with(&empty, &[(0, 0)]), 2, 0);
    t.program("version", &with(&empty, &[(3, 1)]), 3, 3);
    t.program("f 15", &program(&vec![(0, 0, vec![]); 15], &[]), 0, 0);
    t.program("f 16", &program(&vec![(0, 0, vec![]); 16], &[]), 4, 5);
    t.program("a header that doesn't fit", &with(&empty, &[(5, 2)])[..], 8, 8);
    t.program("k 16, m 8", &program(&[(16, 8, vec![])], &[]), 0, 0);
    t.program("k 17", &program(&[(17, 9, vec![])], &[]), 4, 6);
    t.program("m 9", &program(&[(16, 9, vec![])], &[]), 4, 7);
    t.program("m > k", &program(&[(2, 3, vec![])], &[]), 4, 7);
    t.program("main's length word doesn't fit", &program(&[(0, 0, vec![])], &[])[..11], 8, 10);
    t.program("main's bytes don't fit", &program(&[], &[13, 0, 0])[..10], 8, 6);
    t.program("bytes after main", &[&empty[..], &[0]].concat(), 8, 8);
    t.program("depth 8", &program(&[], &nested(7)), 0, 0);
    t.program("depth 9", &program(&[], &nested(8)), 4, 8 + 4 * 7 + 2);
    t.program("a block that ends its block too late by one byte", &with(&program(&[], &[11, 0, 0, 0]), &[(11, 1)]), 8, 10);
    t.program("a second block whose length word doesn't fit", &program(&[], &[10, 0, 0, 0, 0]), 8, 12);
    t.program("no second block", &program(&[], &[10, 0, 0, 0]), 8, 12);
    t.program("two empty blocks", &program(&[], &[10, 0, 0, 0, 0, 0]), 0, 0);
    t.program("statement 0", &program(&[], &[0, 0]), 9, 8);
    t.program("statement 14", &program(&[], &[14]), 9, 8);
    t.program("statement 255 after a gate", &program(&[], &[4, 0, 0, 255]), 9, 11);
    for (statement, size) in [(1, 3), (2, 3), (3, 2), (4, 3), (5, 4), (6, 6), (7, 3), (8, 3), (9, 3), (10, 2), (11, 2), (12, 4), (13, 3)] {
        let short: Vec<u8> = [vec![statement], vec![0; size - 2]].concat();
        t.program(&format!("statement {statement} one byte short"), &program(&[], &short), 8, 8);
    }
    t.program("slot 31", &program(&[], &[3, 31]), 0, 0);
    t.program("slot 32", &program(&[], &[3, 32]), 10, 9);
    t.program("gate 3", &program(&[], &[4, 3, 0]), 0, 0);
    t.program("gate 4 before slot 32", &program(&[], &[4, 4, 32]), 10, 9);
    t.program("basis 2", &program(&[], &[6, 0, 1, 0, 2, 32]), 10, 12);
    t.program("bool 2", &program(&[], &[13, 0, 2]), 10, 10);
    t.program("location 255 in main", &program(&[], &[1, 0, 255]), 0, 0);
    t.program("parameter k - 1", &program(&[(2, 0, vec![1, 0, 1])], &[]), 0, 0);
    t.program("parameter k", &program(&[(2, 0, vec![1, 0, 2])], &[]), 10, 12);
    t.program("a function that calls itself", &program(&[(0, 0, vec![12, 0, 0, 0])], &[]), 10, 11);
    t.program("a function that calls a later one", &program(&[(0, 0, vec![12, 1, 0, 0]), (0, 0, vec![])], &[]), 10, 11);
    t.program("a call of an earlier one", &program(&[(0, 0, vec![]), (0, 0, vec![12, 0, 0, 0])], &[12, 1, 0, 0]), 0, 0);
    t.program("k not the callee's", &program(&[(1, 0, vec![])], &[12, 0, 0, 0]), 10, 14);
    t.program("m not the callee's", &program(&[(1, 1, vec![])], &[12, 0, 1, 0, 5]), 10, 15);
    t.program("a call's list one byte short", &program(&[(1, 1, vec![])], &[12, 0, 1, 1, 5]), 8, 12);
    t.program("a call's slot 32", &program(&[(1, 1, vec![])], &[12, 0, 1, 1, 5, 32]), 10, 17);
    t.program("a call's location against its own function's k", &program(&[(1, 0, vec![]), (1, 0, vec![12, 0, 1, 0, 1])], &[]), 10, 18);
}

fn main() {
    let mut t = Tried::new("limits");
    devices(&mut t);
    programs(&mut t);
    t.end()
}
