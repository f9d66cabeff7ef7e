//! Bad usage, bad files and any bytes: every command has a clear message and status 2, or the library's refusal and status 1. Nothing panics.

#[path = "parts/scratch.rs"]
mod scratch;

use scratch::Scratch;
use std::ffi::{OsStr, OsString};
use std::fs::{self, File};
use std::io::Read;
use std::os::unix::ffi::{OsStrExt, OsStringExt};
use std::os::unix::fs::PermissionsExt;
use std::path::Path;
use std::process::{Command, Stdio};

const TOOL: &str = env!("CARGO_BIN_EXE_abwakiris");
const DEVICE: &str = concat!(env!("CARGO_MANIFEST_DIR"), "/../samples/device-g");
const PROGRAM: &str = concat!(env!("CARGO_MANIFEST_DIR"), "/../samples/program-a");
const LISTING: &str = concat!(env!("CARGO_MANIFEST_DIR"), "/../samples/listing-a");

/// A folder for a test, which goes with it.
struct Room(Scratch);

impl Room {
    fn new(name: &str) -> Room {
        Room(Scratch::new(&format!("bad-input-{name}")))
    }

    fn file(&self, name: impl AsRef<OsStr>, bytes: &[u8]) -> OsString {
        let path = self.0.path().join(name.as_ref());
        fs::write(&path, bytes).unwrap();
        path.into_os_string()
    }

    fn path(&self, name: &str) -> OsString {
        self.0.path().join(name).into_os_string()
    }
}

/// What a run of the tool came to.
#[derive(Debug)]
struct Ran {
    status: Option<i32>,
    out: Vec<u8>,
    error: String,
}

impl Ran {
    fn of(command: &mut Command) -> Ran {
        let output = command.output().unwrap();
        let ran = Ran { status: output.status.code(), out: output.stdout, error: String::from_utf8_lossy(&output.stderr).into_owned() };
        assert!(!ran.error.contains("panicked"), "{command:?}: {ran:?}");
        ran
    }

    /// Could not try: nothing on standard output, and one line on standard error that has these words.
    fn is_trouble(&self, words: &str) {
        assert_eq!((self.status, self.out.len()), (Some(2), 0), "{self:?}");
        assert!(self.error.starts_with("abwakiris: ") && self.error.matches('\n').count() == 1 && self.error.contains(words), "{words}: {self:?}");
    }

    /// Refused by the library: its number is named on standard output.
    fn is_refused(&self, number: u8) {
        assert_eq!((self.status, self.error.as_str()), (Some(1), ""), "{self:?}");
        let out = String::from_utf8_lossy(&self.out);
        assert!(out.starts_with(&format!("refused {number}:")), "{number}: {out}");
    }

    fn is_accepted(&self) {
        assert_eq!((self.status, self.error.as_str()), (Some(0), ""), "{self:?}");
    }
}

fn tool<W: AsRef<OsStr>>(words: impl IntoIterator<Item = W>) -> Ran {
    Ran::of(Command::new(TOOL).args(words).stdin(Stdio::null()))
}

/// The words of a line, with these files in the place of their names.
fn words(line: &str, files: &[(&str, &OsStr)]) -> Vec<OsString> {
    let word = |word: &str| files.iter().find(|(name, _)| *name == word).map_or_else(|| OsString::from(word), |(_, file)| file.to_os_string());
    line.split(' ').map(word).collect()
}

/// The line with the sample files as D, P and T and with this file as BAD.
fn with_bad(line: &str, bad: &OsStr) -> Ran {
    tool(words(line, &[("D", OsStr::new(DEVICE)), ("P", OsStr::new(PROGRAM)), ("T", OsStr::new(LISTING)), ("BAD", bad)]))
}

fn with_samples(line: &str) -> Ran {
    with_bad(line, OsStr::new("no file"))
}

/// Every place of a file in every command.
const PLACES: [&str; 17] = [
    "check BAD P",
    "check D BAD",
    "check D BAD --job 2 --json",
    "why BAD P",
    "why D BAD",
    "route BAD 0 1",
    "run BAD P P 10",
    "run D BAD P 10",
    "run D P BAD 10",
    "list BAD",
    "unlist BAD",
    "unlist BAD --json",
    "show BAD",
    "show D BAD P --run 10",
    "show D P BAD --run 10",
    "bundle BAD P -o -",
    "bundle D BAD -o -",
];

/// Every place of a schedule.
const SCHEDULES: [&str; 2] = ["run D P P BAD", "show D P P --run BAD"];

#[test]
fn bad_usage() {
    for (line, message) in [
        ("chek D P", "there is no command `chek`, perhaps check is meant"),
        ("\u{1B}[1m", "there is no command `\\u{1b}[1m`"),
        ("--json check D P", "options stand after the command"),
        ("help me", "there is no command `me`"),
        ("check", "DEVICE is missing: abwakiris check DEVICE PROGRAM"),
        ("check D", "PROGRAM is missing"),
        ("check D P P", "is a word too many"),
        ("check D P --job", "--job takes a value"),
        ("check D P --job x", "--job takes a number, not `x`"),
        ("check D P --job -1", "--job takes a value, and `-1` stands there"),
        ("check D P --job=-1", "--job takes a number, not `-1`"),
        ("check D P --job 1.0", "--job takes a number, not `1.0`"),
        ("check D P --job 18446744073709551616", "--job takes a number up to 18446744073709551615"),
        ("check D P --job 1 --job=2", "--job is given twice"),
        ("check D P --jop 1", "unknown option `--jop`, perhaps --job is meant"),
        ("check D P --width 3", "check takes no --width"),
        ("check D P --json=yes", "--json takes no value"),
        ("check - -", "standard input, -, is given twice"),
        ("why D", "PROGRAM is missing"),
        ("why D P --job x", "--job takes a number, not `x`"),
        ("why D P --width 0", "--width takes a number from 1 on, not 0"),
        ("why D P -o x", "-o takes a name that ends in .svg, not `x`"),
        ("check D P -o x", "check takes no -o"),
        ("route D 0", "TO is missing"),
        ("route D 0 1 2", "`2` is a word too many"),
        ("route D x 1", "FROM takes a number, not `x`"),
        ("route D 0 -1", "unknown option `-1`"),
        ("route D 0 1 --occupied", "--occupied takes a value"),
        ("route D 0 1 --occupied 1,x", "--occupied"),
        ("route D 0 1 --occupied 6", "location 6"),
        ("route D 0 1 --occupied 1,,2", "--occupied"),
        ("route D 0 1 --width wide", "--width takes a number, not `wide`"),
        ("route D 0 1 --width 0", "--width takes a number from 1 on, not 0"),
        ("run D P P", "SCHEDULE is missing"),
        ("run D P P 10 10", "`10` is a word too many"),
        ("run D P P 101", "`1` stands alone"),
        ("run D P P 0x", "0x has no digits after it"),
        ("run D P P 1g", "the schedule `1g`: no such file, and no hex digits"),
        ("run D - P -", "standard input, -, is given twice"),
        ("run D P P 10 --job 1", "run takes no --job"),
        ("list", "PROGRAM is missing"),
        ("list P -o", "-o takes a value"),
        ("list P -o --json", "-o takes a value, and `--json` stands there"),
        ("unlist", "TEXT is missing"),
        ("unlist T T", "is a word too many"),
        ("show", "DEVICE is missing"),
        ("show D --width 0", "--width takes a number from 1 on, not 0"),
        ("show D --occupied 6", "location 6"),
        ("show D P P --run 101", "`1` stands alone"),
        ("show D --output x", "unknown option `--output`, perhaps -o is meant"),
        ("bundle D", "PROGRAM is missing"),
        ("bundle D P --width 3", "bundle takes no --width"),
        ("refusal x", "takes a number, not `x`"),
        ("refusal 0", "0 is the number of no refusal"),
        ("refusal 28", "28 is the number of no refusal"),
        ("refusal 284", "284 is the number of no refusal"),
    ] {
        with_samples(line).is_trouble(message);
    }
    tool::<&str>([]).is_trouble("a command is needed");
    tool(["check", "", PROGRAM]).is_trouble("the name of a file is empty");
    tool([OsString::from("check"), DEVICE.into(), PROGRAM.into(), OsString::from_vec(b"--job=\xFF".to_vec())]).is_trouble("--job takes a number");
    tool([OsString::from("check"), DEVICE.into(), PROGRAM.into(), OsString::from_vec(b"--\xFF=1".to_vec())]).is_trouble("unknown option");
    let long = "x".repeat(100_000);
    let ran = tool([long.as_str()]);
    ran.is_trouble("there is no command `xxx");
    assert!(ran.error.len() < 300);
}

#[test]
fn files_that_cannot_be_read() {
    let room = Room::new("unread");
    let endless = OsString::from("/dev/zero");
    let long = room.path("long");
    File::create(&long).unwrap().set_len(5 << 30).unwrap();
    let inside = Path::new(DEVICE).join("inside").into_os_string();
    let mut cases = vec![
        (room.path("missing"), "missing: no such file"),
        (room.0.path().as_os_str().to_os_string(), ": is a directory"),
        (long, "long: has 5368709120 bytes, and no file of more than 1048576 is read"),
        (endless, "/dev/zero: longer than 1048576 bytes"),
        (inside, "inside: cannot be read: Not a directory"),
        (OsString::from_vec([room.path("no").into_vec(), vec![0xFF]].concat()), "no\u{FFFD}: no such file"),
        (room.path("a\nb\x1B[0m"), "a\\nb\\u{1b}[0m: no such file"),
    ];
    let unreadable = room.file("unreadable", b"x");
    fs::set_permissions(&unreadable, fs::Permissions::from_mode(0o000)).unwrap();
    if File::open(&unreadable).is_err() {
        cases.push((unreadable, "unreadable: may not be read"));
    }
    for (name, message) in &cases {
        for place in PLACES {
            with_bad(place, name).is_trouble(message);
        }
    }
    for place in SCHEDULES {
        with_bad(place, &room.path("missing")).is_trouble("no such file, and no hex digits");
        for (name, message) in cases.iter().filter(|(_, message)| !message.contains("no such file") && !message.contains("Not a directory")) {
            with_bad(place, name).is_trouble(message);
        }
    }
}

#[test]
fn a_pipe() {
    let room = Room::new("pipe");
    let pipe = room.path("pipe");
    assert!(Command::new("mkfifo").arg(&pipe).status().unwrap().success());
    with_bad("list BAD", &pipe).is_trouble("pipe: cannot be read: a pipe that nobody writes to");
    let writer = std::thread::spawn({
        let pipe = pipe.clone();
        move || fs::write(pipe, fs::read(PROGRAM).unwrap()).unwrap()
    });
    let ran = with_bad("list BAD", &pipe);
    writer.join().unwrap();
    ran.is_accepted();
    assert_eq!(ran.out, fs::read(LISTING).unwrap());
}

#[test]
fn a_pipe_to_write() {
    let room = Room::new("pipe-out");
    let pipe = room.path("pipe");
    assert!(Command::new("mkfifo").arg(&pipe).status().unwrap().success());
    with_bad("list P -o BAD", &pipe).is_trouble("pipe: cannot be written: a pipe that nobody reads");
    let reader = std::thread::spawn({
        let pipe = pipe.clone();
        move || fs::read(pipe).unwrap()
    });
    let ran = with_bad("list P -o BAD", &pipe);
    ran.is_accepted();
    assert_eq!(reader.join().unwrap(), fs::read(LISTING).unwrap());
}

#[test]
fn links_to_write() {
    let room = Room::new("links-out");
    for (link, to) in [("link", "made"), ("again", "made"), ("itself", "itself")] {
        std::os::unix::fs::symlink(to, room.path(link)).unwrap();
    }
    for link in ["link", "again"] {
        with_bad("list P -o BAD", &room.path(link)).is_accepted();
        assert!(fs::symlink_metadata(room.path(link)).unwrap().file_type().is_symlink());
        assert_eq!(fs::read(room.path("made")).unwrap(), fs::read(LISTING).unwrap());
    }
    with_bad("list P -o BAD", &room.path("itself")).is_trouble("itself: cannot be written: Too many levels of symbolic links");
}

#[test]
fn lengths() {
    let room = Room::new("lengths");
    let most = room.file("most", &vec![b'Q'; 1 << 20]);
    with_bad("check BAD P", &most).is_refused(2);
    with_bad("check D BAD", &most).is_refused(4);
    with_bad("list BAD", &most).is_refused(4);
    with_bad("unlist BAD", &most).is_refused(27);
    let more = room.file("more", &vec![b'Q'; (1 << 20) + 1]);
    with_bad("check BAD P", &more).is_trouble("more: has 1048577 bytes, and no file of more than 1048576 is read");

    with_bad("bundle D BAD -o -", &room.file("u17", &[0; 65536])).is_trouble("u17: has 65536 bytes, and the u16 length of a bundle can say at most 65535");
    let ran = with_bad("bundle BAD BAD -o -", &room.file("u16", &[0; 65535]));
    assert_eq!((ran.status, ran.out.len()), (Some(0), 2 * 65537));
    assert!(ran.error.contains("the bundle has 131074 bytes; the printing program says BAD to more than 8192"), "{}", ran.error);
    let ran = with_bad("bundle D BAD -o -", &room.file("longest", &[0; 8192 - 4 - 29]));
    ran.is_accepted();
    assert_eq!(ran.out.len(), 8192);

    let steps = room.file("steps", &[0x10; 4096]);
    with_bad("run D P P BAD", &steps).is_accepted();
    with_bad("run D P P BAD", &room.file("too many", &[0x10; 4097])).is_refused(22);
    with_bad("run D P P BAD", &room.file("text", "10\n".repeat(4097).as_bytes())).is_refused(22);
}

#[test]
fn standard_input() {
    let fed = |line: &str, from: &str| {
        let line = words(line, &[("D", OsStr::new(DEVICE)), ("P", OsStr::new(PROGRAM))]);
        Ran::of(Command::new(TOOL).args(line).stdin(File::open(from).unwrap()))
    };
    fed("check - P", DEVICE).is_accepted();
    fed("check D -- -", PROGRAM).is_accepted();
    fed("check - P", "/dev/null").is_refused(1);
    fed("check - P", "/dev/zero").is_trouble("standard input: longer than 1048576 bytes");
    fed("check - P", env!("CARGO_TARGET_TMPDIR")).is_trouble("standard input: cannot be read: Is a directory");
    fed("run D P P -", "/dev/null").is_accepted();
    // one that is closed is one that is empty
    Ran::of(Command::new("sh").args(["-c", "\"$0\" check - \"$1\" <&-", TOOL, PROGRAM])).is_refused(1);
}

#[test]
fn names_that_are_no_utf8() {
    let room = Room::new("names");
    let name = OsStr::from_bytes(b"p\xFF\n");
    let program = room.file(name, &fs::read(PROGRAM).unwrap());
    with_bad("list BAD", &program).is_accepted();
    let ran = with_bad("check D BAD", &program);
    ran.is_accepted();
    assert!(String::from_utf8(ran.out).unwrap().contains("p\u{FFFD}\\n on "));

    let written = room.0.path().join(OsStr::from_bytes(b"o\xFE"));
    let joined = OsString::from_vec([b"-o=", written.as_os_str().as_bytes()].concat());
    for option in [vec![OsString::from("-o"), written.clone().into_os_string()], vec![joined]] {
        let ran = tool(vec![OsString::from("list"), program.clone()].into_iter().chain(option));
        ran.is_accepted();
        assert_eq!((ran.out.starts_with(b"written: "), fs::read(&written).unwrap()), (true, fs::read(LISTING).unwrap()));
        fs::remove_file(&written).unwrap();
    }
    room.file("--job", &fs::read(PROGRAM).unwrap());
    Ran::of(Command::new(TOOL).args(["list", "--", "--job"]).current_dir(room.0.path())).is_accepted();
}

#[test]
fn files_that_cannot_be_written() {
    let room = Room::new("unwritten");
    let folder = room.0.path().as_os_str().to_os_string();
    let nowhere = room.path("no/such/folder");
    for line in ["list P -o BAD", "list P -o BAD --json", "unlist T -o BAD", "bundle D P -o BAD"] {
        with_bad(line, &nowhere).is_trouble("no/such/folder: there is no such folder");
        with_bad(line, &folder).is_trouble(": is a directory");
        with_bad(line, OsStr::new("/dev/full")).is_trouble("/dev/full: cannot be written: No space left on device");
        with_bad(line, OsStr::new("")).is_trouble("-o takes the name of a file");
    }
    // nothing is written where the library refuses, and where a file cannot be read
    let there = room.file("there", b"before");
    let words = |line| words(line, &[("D", OsStr::new(DEVICE)), ("P", OsStr::new(PROGRAM)), ("OUT", &there)]);
    tool(words("list D -o OUT")).is_refused(2);
    tool(words("unlist P -o OUT")).is_refused(27);
    tool(words("bundle D missing -o OUT")).is_trouble("missing: no such file");
    assert_eq!(fs::read(&there).unwrap(), b"before");
    tool(words("bundle D P -o OUT")).is_accepted();
    assert_eq!(fs::read(&there).unwrap().len(), 2 + 29 + 2 + 24);
}

#[test]
fn refusals_are_the_library_s() {
    let room = Room::new("refusals");
    for (line, bytes, number) in [
        ("check D P --job 0", &b""[..], 25),
        ("check D P --job 3", b"", 25),
        ("check D P --job 257", b"", 25),
        ("check D P --job 18446744073709551615", b"", 25),
        ("why D P --job 3", b"", 25),
        ("check D P --job 2", b"", 13),
        ("check BAD P", b"", 1),
        ("check D BAD", b"", 1),
        ("check P D", b"", 2),
        ("route D 0 1 --job 3", b"", 25),
        ("route BAD 0 1", b"QLG", 1),
        ("route D 256 1", b"", 13),
        ("route D 0 18446744073709551615", b"", 13),
        ("route D 3 3", b"", 15),
        ("route D 0 2 --occupied 1,4", b"", 21),
        ("run BAD P P 10", b"", 1),
        ("run D BAD P 10", b"", 1),
        ("run D P BAD 10", b"", 1),
        ("run D P P BAD", b"\x10\x30", 23),
        ("run D P P 1030", b"", 23),
        ("run D P P BAD", b"xyz", 23),
        ("list BAD", b"QLS\0\x01\0\0\0\0", 8),
        ("unlist BAD", b"program 1\nmain", 27),
        ("unlist BAD", b"", 27),
        ("show BAD", b"", 1),
        ("show D BAD P --run 10", b"", 1),
        ("show D P P --run BAD", b"\x80", 23),
    ] {
        with_bad(line, &room.file("bad", bytes)).is_refused(number);
    }
}

#[test]
fn schedules() {
    let room = Room::new("schedules");
    for line in ["run D P P 1011", "run D P P 0x10,0x11", "run D P P 2021"] {
        with_samples(line).is_accepted();
    }
    tool(["run", DEVICE, PROGRAM, PROGRAM, ""]).is_accepted();
    tool(["run", DEVICE, PROGRAM, PROGRAM, "10 11, 20"]).is_accepted();
    for bytes in [&b""[..], b"\x10\x11\x20\x21", b"  ", b"10 11\n20 21\n", b"0x10, 0x11", b"\n"] {
        let ran = with_bad("run D P P BAD", &room.file("steps", bytes));
        if bytes == b"\n" {
            ran.is_refused(23); // no digit, so it is taken as a byte
        } else {
            ran.is_accepted();
        }
    }
    with_bad("run D P P BAD", &room.file("steps", b"10 1")).is_trouble("steps: taken as hex text, `1` stands alone");
    with_bad("run D P P BAD", &room.file("steps", b"10 zz")).is_trouble("steps: taken as hex text, `z` is no hex digit");
    with_bad("run D P P BAD --json", &room.file("steps", b"10 ; 20")).is_trouble("steps: taken as hex text, `;` is no hex digit");
}

/// Numbers that look random, the same each time.
struct Numbers(u64);

impl Numbers {
    fn next(&mut self, below: usize) -> usize {
        self.0 = self.0.wrapping_mul(6_364_136_223_846_793_005).wrapping_add(1_442_695_040_888_963_407);
        (self.0 >> 33) as usize % below
    }

    fn bytes(&mut self, length: usize) -> Vec<u8> {
        (0..length).map(|_| self.next(256) as u8).collect()
    }
}

/// Any bytes get an answer of the library.
fn is_answered(line: &str, file: &OsStr) {
    let ran = with_bad(line, file);
    assert!(matches!(ran.status, Some(0 | 1)) && !ran.out.is_empty(), "{line}: {ran:?}");
}

#[test]
fn any_bytes() {
    let room = Room::new("bytes");
    let mut numbers = Numbers(1);
    for round in 0..6 {
        let length = [0, 1, 9, 100, 2313, 5000][round];
        let mut bytes = numbers.bytes(length);
        for mark in [&b""[..], b"QLG\0\x01", b"QLS\0\x01", b"program 1\nmain\n"] {
            bytes.splice(..mark.len().min(length), mark.iter().copied());
            let file = room.file("any", &bytes);
            for place in PLACES {
                is_answered(place, &file);
            }
        }
        let file = room.file("steps", &[vec![0x80], bytes].concat());
        for place in SCHEDULES {
            is_answered(place, &file);
        }
    }
}

#[test]
fn samples_with_a_byte_changed() {
    let room = Room::new("changed");
    let mut numbers = Numbers(2);
    for (sample, places) in [
        (DEVICE, &["check BAD P", "why BAD P", "route BAD 0 2", "run BAD P P 10101010", "show BAD"][..]),
        (PROGRAM, &["check D BAD", "check D BAD --json", "why D BAD", "run D BAD BAD 1020102010201021", "list BAD --json"]),
        (LISTING, &["unlist BAD --json"]),
    ] {
        let good = fs::read(sample).unwrap();
        for at in 0..good.len() {
            let mut bytes = good.clone();
            bytes[at] = if numbers.next(2) == 0 { numbers.next(256) } else { numbers.next(8) } as u8;
            let file = room.file("changed", &bytes);
            is_answered(places[at % places.len()], &file);
        }
    }
}

#[test]
fn readers_that_go_away() {
    let room = Room::new("pipes");
    // a listing that is longer than what a pipe holds
    let program = [b"QLS\0\x01\0\x0F\xF0".to_vec(), [13, 0, 1].repeat(1360)].concat();
    let program = room.file("long", &program);
    for (line, status) in [("list BAD --json", 0), ("check D P", 0), ("check D BAD", 1), ("help check", 0), ("run D P P 10", 0), ("bundle D P", 0)] {
        let line = words(line, &[("D", OsStr::new(DEVICE)), ("P", OsStr::new(PROGRAM)), ("BAD", &program)]);
        let mut child = Command::new(TOOL).args(&line).stdout(Stdio::piped()).stderr(Stdio::piped()).spawn().unwrap();
        let mut out = child.stdout.take().unwrap();
        if line[0] == "list" {
            let mut byte = [0];
            out.read_exact(&mut byte).unwrap(); // as head -c 1
        }
        drop(out);
        let ended = child.wait_with_output().unwrap();
        assert_eq!((ended.status.code(), String::from_utf8_lossy(&ended.stderr).as_ref()), (Some(status), ""), "{line:?}");
    }
}

#[test]
fn outputs_that_are_closed_or_full() {
    let shell = |script: &str| Ran::of(Command::new("sh").args(["-c", script, TOOL, DEVICE, PROGRAM]));
    shell("\"$0\" check \"$1\" \"$2\" >/dev/full").is_trouble("standard output cannot be written: No space left on device");
    for (script, status) in [
        ("\"$0\" check \"$1\" \"$2\" >&-", 0),
        ("\"$0\" check \"$2\" \"$1\" >&-", 1),
        ("\"$0\" check missing \"$2\" 2>&-", 2),
        ("\"$0\" check missing \"$2\" >&- 2>&-", 2),
        ("\"$0\" check missing \"$2\" 2>/dev/full", 2),
        ("\"$0\" bundle \"$1\" \"$1\" >&- 2>&-", 0),
    ] {
        let ran = shell(script);
        assert_eq!((ran.status, ran.out.len(), ran.error.as_str()), (Some(status), 0, ""), "{script}");
    }
}

#[test]
fn json_says_nothing_where_it_could_not_try() {
    let json = ["check D BAD --json", "why D BAD --json", "route BAD 0 1 --json", "run D P BAD 10 --json", "list BAD --json", "unlist BAD --json"];
    for line in json {
        with_bad(line, OsStr::new("missing")).is_trouble("missing: no such file");
    }
    let room = Room::new("json");
    for line in json {
        let ran = with_bad(line, &room.file("bad", b"Q"));
        let out = String::from_utf8(ran.out).unwrap();
        assert_eq!((ran.status, ran.error.as_str(), out.matches('\n').count()), (Some(1), "", 1), "{line}: {out}");
        assert!(out.starts_with("{\"command\":\"") && out.ends_with("}\n") && out.contains("\"verdict\":\"refused\""), "{line}: {out}");
    }
}

#[test]
fn bytes_are_not_for_a_terminal() {
    // `script` gives its command a terminal, where it is installed
    let on_terminal = |command: &str| Command::new("script").args(["-qec", command, "/dev/null"]).stdin(Stdio::null()).output();
    if on_terminal("true").map_or(true, |ran| !ran.status.success()) {
        return;
    }
    for (command, message) in
        [(format!("'{TOOL}' unlist '{LISTING}'"), "a program is bytes"), (format!("'{TOOL}' bundle '{DEVICE}' '{PROGRAM}'"), "a bundle is bytes")]
    {
        let ran = on_terminal(&command).unwrap();
        let said = String::from_utf8_lossy(&ran.stdout).into_owned();
        assert!(ran.status.code() == Some(2) && said.contains(message), "{said}");
        assert_eq!(on_terminal(&format!("{command} -o -")).unwrap().status.code(), Some(0));
    }
}
