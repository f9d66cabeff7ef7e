//! How much stack a call takes: it runs on a stack of its own that was painted before, and what is painted over is counted. The check, and the two calls of
//! listings, must stay within `MOST`.

mod files;
mod library;
mod reference;

use files::*;
use library::{abwakiris_check, abwakiris_read_device, abwakiris_read_listing, abwakiris_read_program, abwakiris_route, abwakiris_run, abwakiris_write_listing};
use library::{no, LISTING};
use reference::listing::listing;
use std::ffi::c_void;

extern "C" {
    fn pthread_attr_init(attr: *mut c_void) -> i32;
    fn pthread_attr_setstack(attr: *mut c_void, stack: *mut c_void, size: usize) -> i32;
    fn pthread_create(thread: *mut usize, attr: *const c_void, start: extern "C" fn(*mut c_void) -> *mut c_void, arg: *mut c_void) -> i32;
    fn pthread_join(thread: usize, result: *mut *mut c_void) -> i32;
}

/// The most bytes of stack that the check, a writing or a reading of a listing may take.
const MOST: usize = 65_536;

const SIZE: usize = 1 << 20;
const PAINT: u8 = 0xA5;

/// A call, the stack that it runs on, and the bytes of it that the call painted over.
struct Run<'a> {
    call: &'a mut dyn FnMut(),
    stack: *const u8,
    used: usize,
}

extern "C" fn enter(run: *mut c_void) -> *mut c_void {
    let run = unsafe { &mut *(run as *mut Run) };
    let here = &run as *const _ as usize;
    (run.call)();
    let untouched = (0..SIZE).take_while(|&i| unsafe { *run.stack.add(i) } == PAINT).count();
    run.used = here - (run.stack as usize + untouched);
    std::ptr::null_mut()
}

/// The bytes of stack that a call takes.
fn painted(call: &mut dyn FnMut()) -> usize {
    let layout = std::alloc::Layout::from_size_align(SIZE, 4096).unwrap();
    unsafe {
        let stack = std::alloc::alloc(layout);
        std::ptr::write_bytes(stack, PAINT, SIZE);
        let mut attr = [0u64; 16];
        let attr = attr.as_mut_ptr() as *mut c_void;
        assert_eq!(pthread_attr_init(attr), 0);
        assert_eq!(pthread_attr_setstack(attr, stack as *mut c_void, SIZE), 0);
        let mut run = Run { call, stack, used: 0 };
        let mut thread = 0;
        assert_eq!(pthread_create(&mut thread, attr, enter, &mut run as *mut _ as *mut c_void), 0);
        assert_eq!(pthread_join(thread, std::ptr::null_mut()), 0);
        let used = run.used;
        std::alloc::dealloc(stack, layout);
        used
    }
}

/// The bytes of stack that a call takes, printed. The call must answer this.
fn report(what: &str, answer: u64, call: impl Fn() -> u64) -> usize {
    let mut found = 0;
    let used = painted(&mut || found = call());
    assert_eq!(found, answer, "{what}");
    println!("stack: {used:>6} bytes, {what}");
    used
}

/// A statement at depth 8 of a body, in seven ifs or whiles of the bool in slot 8 and the reference in slot 9.
#[derive(Clone, Copy)]
enum Nest {
    Then,
    Else,
    While,
}

impl Nest {
    fn around(self, statement: Statement) -> Statement {
        match self {
            Nest::Then => when(8, &[statement], &[]),
            Nest::Else => when(8, &[], &[statement]),
            Nest::While => repeat(9, &[statement]),
        }
    }

    fn body(self, deepest: Statement) -> Vec<Statement> {
        let value = u8::from(!matches!(self, Nest::Else));
        let nested = (0..7).fold(deepest, |inner, _| self.around(inner));
        vec![boolean(8, value), refer(9, 8), nested]
    }
}

/// 15 functions, each calling the one before at its deepest, and main the last one; at the bottom a merge. Ends are in slots 0 and 1, at 0 and 255.
/// With it the count: main's four, the merge, and 7 for the blocks of each body.
fn deepest(nest: Nest) -> (Vec<u8>, u64) {
    let merging = function(2, 2, &nest.body(merge(2, 0, 1)));
    let onward = |i: u8| function(2, 2, &nest.body(call(i - 1, &[0, 1], &[0, 1])));
    let functions: Vec<Function> = std::iter::once(merging).chain((1..15).map(onward)).collect();
    let main = [vec![init(0, 0), init(1, 255)], nest.body(call(14, &[0, 255], &[0, 1])), vec![free(0), free(1)]].concat();
    (calling(&functions, &main), 4 + 1 + 7 * 16)
}

fn readers() {
    let device = device(256, &edges(1024));
    report("read_device, 256 locations, 1,024 edges", 256, || unsafe { abwakiris_read_device(device.as_ptr(), device.len()) });
    let (program, _) = deepest(Nest::Else);
    report("read_program, depth 8", 0, || unsafe { abwakiris_read_program(program.as_ptr(), program.len()) });
}

const NESTS: [(&str, Nest); 3] = [("then", Nest::Then), ("else", Nest::Else), ("while", Nest::While)];

/// The most that a check takes.
fn checks() -> usize {
    let device = line(256);
    let used = NESTS.map(|(name, nest)| {
        let (program, count) = deepest(nest);
        let what = format!("check, a merge under 16 bodies of depth 8 ({name})");
        report(&what, count, || unsafe { abwakiris_check(device.as_ptr(), device.len(), program.as_ptr(), program.len(), 1) })
    });
    used.into_iter().max().unwrap()
}

fn routes() {
    let device = line(256);
    let occupancy = [0; 256];
    report("route, 256 locations", 256, || {
        let mut buffer = [0; 256];
        let (free, room) = (occupancy.as_ptr(), buffer.as_mut_ptr());
        unsafe { abwakiris_route(device.as_ptr(), device.len(), 1, free, 256, 0, 255, room, 256) }
    });
}

/// A run in which job 1 calls 15 deep, merges there and returns, and job 2 has finished.
fn runs() {
    let device = line(256);
    let empty = only(&[]);
    let (program, _) = deepest(Nest::Then);
    // each body: bool, reference, 7 ifs and a call or the merge; a return for each call; main's inits and frees
    let steps = 16 * 10 + 15 + 4;
    let schedule = [vec![0x10; steps], vec![0x20; 100]].concat();
    let (mut records, mut map) = (vec![0; 4 * schedule.len()], vec![0; 256]);
    let (records_at, map_at) = (records.as_mut_ptr(), map.as_mut_ptr());
    report("run, a merge under 16 bodies of depth 8", steps as u64, || unsafe {
        abwakiris_run(
            device.as_ptr(), device.len(), program.as_ptr(), program.len(), empty.as_ptr(), empty.len(),
            schedule.as_ptr(), schedule.len(), records_at, 4 * schedule.len(), map_at, 256,
        )
    });
    assert!(records.chunks(4).filter(|record| record[..2] == [0, 255]).count() == 1, "the merge moved");
}

/// The most that a writing takes.
fn writings() -> usize {
    let used = NESTS.map(|(name, nest)| {
        let (program, _) = deepest(nest);
        let text = listing(&program).expect("a program that reads");
        let mut buffer = vec![0; text.len()];
        let buffer_at = buffer.as_mut_ptr();
        let what = format!("write_listing, 15 functions and main of depth 8 ({name})");
        let used = report(&what, text.len() as u64, || unsafe { abwakiris_write_listing(program.as_ptr(), program.len(), buffer_at, text.len()) });
        assert!(buffer == text, "{what}");
        used
    });
    used.into_iter().max().unwrap()
}

/// A reading that must answer this.
fn reading(what: &str, text: &[u8], answer: u64) -> usize {
    let mut buffer = vec![0; 4_096];
    let buffer_at = buffer.as_mut_ptr();
    report(&format!("read_listing, {what}"), answer, || unsafe { abwakiris_read_listing(text.as_ptr(), text.len(), buffer_at, 4_096) })
}

/// The most that a reading takes: of whole listings, and of texts that end, or are at fault, in the deepest call.
fn readings() -> usize {
    let used = NESTS.map(|(name, nest)| {
        let (program, _) = deepest(nest);
        let text = listing(&program).expect("a program that reads");
        let called = text.windows(6).rposition(|bytes| bytes == b"call 1").expect("main calls the last function");
        let fault = text[..called].iter().rposition(|&byte| byte == b'\n').expect("a line before it") + 1;
        let wrong = [&text[..called], b"call 15\n"].concat();
        [
            reading(&format!("15 functions and main of depth 8 ({name})"), &text, program.len() as u64),
            reading(&format!("the same up to `call 1` at depth 8 of main ({name})"), &text[..called + 6], no(27, called as u64 + 6, LISTING)),
            reading(&format!("the same up to `call 15` there ({name})"), &wrong, no(27, fault as u64, LISTING)),
        ]
    });
    used.into_iter().flatten().max().unwrap()
}

fn main() {
    readers();
    let check = checks();
    routes();
    runs();
    let (writing, reading) = (writings(), readings());
    let mut over = 0;
    for (what, most) in [("check", check), ("writing of a listing", writing), ("reading of a listing", reading)] {
        if most > MOST {
            println!("stack: the {what} takes more than {MOST} bytes");
            over += 1;
        }
    }
    std::process::exit(if over == 0 { 0 } else { 1 })
}
