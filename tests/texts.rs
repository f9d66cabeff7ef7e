//! Listings: every kind of line both ways, the refusals of a text at each limit, those of a program, and which bytes of the buffers are written. The expected
//! answers are written from the document. In a text that is refused, `|` stands at the place: no listing has this character.

mod cases;
mod files;
mod library;

use cases::{filled, written, Tried};
use files::*;
use library::{no, Call, LISTING, NONE, PROGRAM};

const MAIN: &str = "program 1\nmain\n";

impl Tried {
    /// A program and its listing, both ways, in buffers that just fit, are longer, and are too short.
    fn both_ways(&mut self, what: &str, program: &[u8], text: &str) {
        let text = text.as_bytes();
        for more in [0, 1, 300] {
            let (listing, file) = (filled(text.len() + more), filled(program.len() + more));
            self.expect(what, &Call::write_listing(program, &listing), text.len() as u64, vec![written(&listing, text)]);
            self.expect(what, &Call::read_listing(text, &file), program.len() as u64, vec![written(&file, program)]);
        }
        for (listing, file) in [(text.len() - 1, program.len() - 1), (1, 1), (0, 0)] {
            self.untouched(what, &Call::write_listing(program, &filled(listing)), no(24, 0, NONE));
            self.untouched(what, &Call::read_listing(text, &filled(file)), no(24, 0, NONE));
        }
    }

    /// Main's statements and main's lines, without their first indent.
    fn main(&mut self, what: &str, statements: &[Statement], lines: &[&str]) {
        let lines: String = lines.iter().map(|line| format!("  {line}\n")).collect();
        self.both_ways(what, &only(statements), &format!("{MAIN}{lines}"));
    }

    /// A text that is refused where the mark is, whatever the buffer's length.
    fn refused(&mut self, marked: &str) {
        let place = marked.find('|').expect("a mark");
        let text = marked.replacen('|', "", 1);
        let what = if text.len() < 200 { marked } else { &marked[place.saturating_sub(60)..] };
        for length in [0, 8, 4_096] {
            self.untouched(what, &Call::read_listing(text.as_bytes(), &filled(length)), no(27, place as u64, LISTING));
        }
    }

    /// The same behind a text that begins a listing.
    fn refused_behind(&mut self, lines: &str, marked: &[&str]) {
        for marked in marked {
            self.refused(&format!("{lines}{marked}"));
        }
    }
}

fn kinds(tried: &mut Tried) {
    tried.both_ways("the empty program", &only(&[]), MAIN);
    tried.both_ways("program A", &program_a(), &format!("{MAIN}  init 0 0\n  init 1 2\n  merge 2 X 0 X 1\n  free 0\n  free 1\n"));
    tried.main("inits", &[init(31, 255), magic(0, 10), free(9)], &["init 31 255", "magic 0 10", "free 9"]);
    let gates: Vec<Statement> = (0..4).map(|gate| vec![4, gate, 5]).collect();
    tried.main("gates", &gates, &["gate X 5", "gate Z 5", "gate H 5", "gate S 5"]);
    tried.main("measurements", &[vec![5, 1, 0, 2], vec![5, 1, 1, 2]], &["measure 1 X 2", "measure 1 Z 2"]);
    tried.main("merges", &[vec![6, 1, 0, 2, 1, 3], vec![6, 1, 1, 2, 0, 3]], &["merge 1 X 2 Z 3", "merge 1 Z 2 X 3"]);
    tried.main("bools and references", &[boolean(4, 0), boolean(5, 1), refer(6, 4), get(7, 6), set(6, 5)], &[
        "bool 4 0", "bool 5 1", "ref 6 4", "get 7 6", "set 6 5",
    ]);
    tried.main("empty blocks", &[when(1, &[], &[]), repeat(2, &[])], &["if 1", "else", "while 2"]);
    let inner = when(1, &[free(2)], &[repeat(3, &[free(4)]), free(5)]);
    tried.main("blocks", &[inner, free(6)], &["if 1", "  free 2", "else", "  while 3", "    free 4", "  free 5", "free 6"]);
    tried.main("an if in each block of an if", &[when(0, &[when(1, &[], &[])], &[when(2, &[], &[])])], &[
        "if 0", "  if 1", "  else", "else", "  if 2", "  else",
    ]);
    let functions = [function(0, 0, &[]), function(2, 0, &[init(0, 1)]), function(3, 2, &[call(0, &[], &[]), call(1, &[2, 0], &[])])];
    let main = [call(2, &[7, 8, 255], &[30, 31]), call(1, &[9, 9], &[]), call(0, &[], &[])];
    let text = "program 1\nfunction 0 locations 0 arguments 0\nfunction 1 locations 2 arguments 0\n  init 0 1\nfunction 2 locations 3 arguments 2\n  call 0\n  \
                call 1 at 2 0\nmain\n  call 2 at 7 8 255 with 30 31\n  call 1 at 9 9\n  call 0\n";
    tried.both_ways("functions and calls", &calling(&functions, &main), text);
}

/// Lines that are at fault, and unfinished ones that are not.
fn lines(tried: &mut Tried) {
    for marked in ["|", "p|", "program|", "program |", "program 1|", "program 1\n|", "program 1\nm|", "program 1\nmain|", "program 1\nf|"] {
        tried.refused(marked);
    }
    for marked in ["|q", "|\n", "| ", "|program 2", "|program 01", "|program 1 ", "|program 10", "|program  1", "|Program 1\n", "|program 1\r\n", "|main\n"] {
        tried.refused(marked);
    }
    tried.refused_behind("program 1\n", &[
        "|program 1\n", "|else\n", "|  free 0\n", "| ", "|main \n", "|mains", "|\n", "|M", "function|", "function 0|", "|function 1",
    ]);
    tried.refused_behind(MAIN, &[
        "|\n", "|main\n", "|f", "|function 0 locations 0 arguments 0\n", "|free 0\n", "| free 0\n", "|   free 0\n", "|    free 0\n", "|\tfree 0\n",
    ]);
    tried.refused_behind(MAIN, &[
        " |", "  |", "|   ", "  f|", "  fr|", "  free|", "  free |", "  free 3|", "  free 31|", "|  free 32", "|  free 031", "|  free 0 ", "|  Free",
    ]);
    tried.refused_behind(MAIN, &[
        "  free 0\n|  free  0\n", "  free 0\n|  free 0\r\n", "|  free\n", "|  free 0 0\n", "|  free 00\n", "|  free +1\n", "|  free 0\0\n",
    ]);
    tried.refused_behind(MAIN, &[
        "  init 0 25|", "  init 0 255|", "|  init 0 256", "  gate |", "  gate H|", "|  gate x", "|  gate 0", "|  measure 0 H", "|  measure 0 X 0 X",
    ]);
    tried.refused_behind(MAIN, &[
        "  merge 0 X 0 Z |", "  merge 0 X 0 Z 31|", "|  merge 0 X 0\n", "  bool 0 |", "|  bool 0 2", "|  bool 0 10", "|  else\n", "|  c", "|  e",
    ]);
    let digits = "1234567890".repeat(4);
    tried.refused_behind(MAIN, &[
        &format!("|  free {digits}\n"), &format!("|  free {}1\n", "0".repeat(39)), "|  free 4294967296\n", "|  free 18446744073709551616\n",
    ]);
}

fn blocks(tried: &mut Tried) {
    let main = |lines: &[&str]| lines.iter().fold(MAIN.to_string(), |text, line| format!("{text}{line}"));
    tried.refused_behind(&main(&["  if 0\n"]), &[
        "|", "    |", "   |", "  e|", "  else|", "|  free 0\n", "|  f", "|      ", "|else\n", "|    else\n", "|  else 0\n", "|  while",
    ]);
    tried.refused_behind(&main(&["  if 0\n", "    free 0\n"]), &["|", "|  free 1\n", "|  if 0\n", "    |", "  |", "|main\n"]);
    tried.refused_behind(&main(&["  if 0\n", "  else\n"]), &["|  else\n", "|  e", "|      free 0\n", "|    else\n"]);
    tried.refused_behind(&main(&["  while 0\n"]), &["|  else\n", "|  e", "|      free 0\n", "    |", "    while 1|"]);
    tried.refused_behind(&main(&["  if 0\n", "    if 1\n"]), &[
        "|", "|  else\n", "|  e", "  |", "    else\n|", "    else\n  |", "    else\n|  free 0\n", "    |",
    ]);
    tried.refused_behind("program 1\nfunction 0 locations 0 arguments 0\n  if 0\n", &["|main\n", "|m", "  else\nm|", "  else\nf|"]);
    let deep: String = (1..8).map(|depth| format!("{}while 0\n", "  ".repeat(depth))).collect();
    let at_eight = "                ";
    let eighth = [
        format!("{at_eight}f|"), format!("{at_eight}i|"), format!("|{at_eight}if"), format!("|{at_eight}w"), format!("|{at_eight}  "),
        format!("{at_eight}|"),
    ];
    tried.refused_behind(&format!("{MAIN}{deep}"), &eighth.each_ref().map(|text| &text[..]));
    tried.both_ways("depth 8", &only(&[nested(7)]), &format!("{MAIN}{deep}"));
    tried.refused(&format!("{MAIN}{deep}|{at_eight}while 0\n"));
}

/// So many functions with these locations and no arguments, each without statements.
fn headers(locations: &[usize]) -> String {
    locations.iter().enumerate().map(|(i, k)| format!("function {i} locations {k} arguments 0\n")).collect()
}

fn functions(tried: &mut Tried) {
    let header = [
        "function 0 |", "function 0 locations |", "function 0 locations 1|", "function 0 locations 16|", "|function 0 locations 17",
        "|function 0 locations 1 \n",
    ];
    tried.refused_behind("program 1\n", &header);
    let header = [
        "function 0 locations 16 arguments 8|", "|function 0 locations 16 arguments 9", "|function 0 locations 2 arguments 3",
        "function 0 locations 2 arguments |",
    ];
    tried.refused_behind("program 1\n", &header);
    let ten = headers(&[0; 10]);
    tried.refused_behind(&format!("program 1\n{ten}"), &["function 1|", "function 10|", "|function 1 ", "|function 9", "|function 11", "|function 010"]);
    let fifteen = headers(&[0; 15]);
    tried.refused_behind(&format!("program 1\n{fifteen}"), &["|f", "|function 15 locations 0 arguments 0\n", "m|", "  |", "  call 13|", "|  call 14"]);
    tried.both_ways("fifteen functions", &calling(&vec![function(0, 0, &[]); 15], &[call(14, &[], &[])]), &format!("program 1\n{fifteen}main\n  call 14\n"));
    // A body without locations has no init, and no call of a function that needs one.
    let bare = |earlier: &[usize]| format!("program 1\n{}", headers(&[earlier, &[0]].concat()));
    tried.refused_behind(&bare(&[]), &["  i|", "|  in", "  if|", "  m|", "  me|", "|  ma", "|  c", "|  init 0 0\n"]);
    tried.refused_behind(&bare(&[1]), &["|  c", "|  call 0\n", "|  call 0 at 0\n"]);
    tried.refused_behind(&bare(&[0]), &["  c|", "  call |", "  call 0|", "|  call 1", "|  call 0 ", "|  call 00"]);
    tried.refused_behind(&bare(&[0, 1, 1, 1, 1, 1, 1, 1, 1, 1, 0]), &["  call 1|", "  call 10|", "|  call 1\n", "|  call 1 ", "|  call 2", "  call 0|"]);
    tried.refused_behind(&bare(&[0, 1, 1, 1, 1, 1, 1, 1, 1, 1, 1]), &["|  call 1", "  call |"]);
    // With locations: as many as the callee has.
    let called = "program 1\nfunction 0 locations 2 arguments 1\nfunction 1 locations 1 arguments 0\n";
    tried.refused_behind(called, &[
        "  call 0|", "  call 0 |", "  call 0 at|", "  call 0 at 0 |", "|  call 0 at 1", "|  call 0 at 0 w", "|  call 0 w", "|  call 0\n",
    ]);
    tried.refused_behind(called, &[
        "  call 0 at 0 0 |", "  call 0 at 0 0 w|", "  call 0 at 0 0 with 3|", "|  call 0 at 0 0 0", "|  call 0 at 0 0\n", "|  call 0 at 0 0 with 0 0",
    ]);
    tried.refused_behind(called, &["  init 0 0|", "|  init 0 1", "|  init 0 01"]);
    tried.refused_behind(&format!("{called}main\n"), &["  call 1 at 255|", "|  call 1 at 256", "|  call 1 at 0 ", "|  call 2", "  call 1|"]);
}

/// So many lines, each of a statement of two bytes.
fn frees(count: usize) -> String {
    "  free 0\n".repeat(count)
}

/// 4,096 bytes: 8 of them are the header and main's length word.
fn room(tried: &mut Tried) {
    let full = format!("{MAIN}{}", frees(2_044));
    tried.both_ways("2,044 frees", &only(&vec![free(0); 2_044]), &full);
    tried.refused_behind(&full, &["|  free 0\n", "| ", "|  ", "|  f"]);
    let one_left = format!("{MAIN}{}  gate X 0\n", frees(2_042));
    tried.refused_behind(&one_left, &["|  free 0\n", "| "]);
    let two_left = format!("{MAIN}{}", frees(2_043));
    tried.refused_behind(&two_left, &["  |", "  f|", "  free 0|", "|  g", "|  gate X 0\n", "|  i", "  free 0\n|  free 0\n"]);
    let three_left = format!("{MAIN}{}  gate X 0\n", frees(2_041));
    tried.refused_behind(&three_left, &["  g|", "  i|", "|  me", "|  if", "|  w", "  s|", "  free 0\n| "]);
    let four_left = format!("{MAIN}{}", frees(2_042));
    tried.refused_behind(&four_left, &["  m|", "  mea|", "|  mer", "|  if", "  w|", "  while 0\n|    ", "  while 0\n|  free 0\n"]);
    let six_left = format!("{MAIN}{}", frees(2_041));
    tried.refused_behind(&six_left, &["  mer|", "  if 0\n|", "  if 0\n  |", "  if 0\n  e|", "  if 0\n|   ", "  if 0\n  else\n| ", "  while 0\n    |"]);
    tried.both_ways("an if at the end of the room", &only(&[vec![free(0); 2_041], vec![when(0, &[], &[])]].concat()), &format!("{six_left}  if 0\n  else\n"));
    // A function takes 4, and main must still come.
    let function = "program 1\nfunction 0 locations 0 arguments 0\n";
    let body = format!("{function}{}", frees(2_042));
    tried.both_ways("2,042 frees in a function", &calling(&[(0, 0, vec![free(0); 2_042].concat())], &[]), &format!("{body}main\n"));
    tried.refused_behind(&body, &["|", "m|", "|  free 0\n", "| ", "|f", "main\n| "]);
    let four_left = format!("{function}{}", frees(2_040));
    tried.refused_behind(&four_left, &["f|", "  f|", "function 1 locations 0 arguments 0\n|", "function 1 locations 0 arguments 0\n| ", "main\n  w|"]);
    let two_left = format!("{function}{}", frees(2_041));
    tried.refused_behind(&two_left, &["|f", "  f|", "main\n  f|", "main\n|  w"]);
    // A call takes 4 and its lists.
    let wide = "program 1\nfunction 0 locations 1 arguments 1\nfunction 1 locations 0 arguments 0\nmain\n";
    let five_left = format!("{wide}{}  gate X 0\n", frees((4_096 - 16 - 3 - 5) / 2));
    tried.refused_behind(&five_left, &["  c|", "  call |", "|  call 0", "  call 1|"]);
    let six_left = format!("{wide}{}", frees((4_096 - 16 - 6) / 2));
    tried.refused_behind(&six_left, &["  call 0|", "  call 0 at 0 with 0|", "  call 0 at 0 with 0\n| "]);
}

/// A program's own refusals come first, whatever the buffer.
fn programs(tried: &mut Tried) {
    let empty = only(&[]);
    let refusals: [(&str, Vec<u8>, u64); 9] = [
        ("no bytes", Vec::new(), no(1, 0, PROGRAM)),
        ("seven bytes", empty[..7].to_vec(), no(1, 0, PROGRAM)),
        ("another mark", with(&empty, &[(0, 0)]), no(2, 0, PROGRAM)),
        ("version 2", with(&empty, &[(4, 2)]), no(3, 3, PROGRAM)),
        ("sixteen functions", with(&empty, &[(5, 16)]), no(4, 5, PROGRAM)),
        ("4,097 bytes", only(&[vec![free(0); 2_043], vec![gate(0)]].concat()), no(4, 0, PROGRAM)),
        ("a byte after main", [&empty[..], &[0]].concat(), no(8, 8, PROGRAM)),
        ("an unknown statement", only(&[vec![14]]), no(9, 8, PROGRAM)),
        ("slot 32", only(&[free(32)]), no(10, 9, PROGRAM)),
    ];
    for (what, program, answer) in refusals {
        for length in [0, 10, 65_536] {
            tried.untouched(what, &Call::write_listing(&program, &filled(length)), answer);
        }
    }
    // What typing or commands refuse has a listing all the same.
    tried.main("a free of an unbound slot", &[free(0), merge(0, 0, 0)], &["free 0", "merge 0 X 0 X 0"]);
}

fn main() {
    let mut tried = Tried::new("texts");
    kinds(&mut tried);
    lines(&mut tried);
    blocks(&mut tried);
    functions(&mut tried);
    room(&mut tried);
    programs(&mut tried);
    tried.end()
}
