//! The words of the command line: which command, with which files and options.
//!
//! Words are taken as the bytes that they are, so that names of files need not be UTF-8.

mod nearest;

use crate::commands::{overview, Command, COMMANDS};
use crate::said::{quoted, shown, trouble, Trouble};
use abwakiris::{Job, Refusal, MOST_LOCATIONS};
use nearest::nearest;
use std::ffi::{OsStr, OsString};
use std::os::unix::ffi::OsStrExt;

/// An option that takes a value; `--json` and `--help` take none.
#[derive(Clone, Copy, Debug, PartialEq, Eq)]
pub enum Takes {
    Job,
    Occupied,
    Output,
    Width,
    Run,
}

impl Takes {
    const ALL: [Takes; 5] = [Takes::Job, Takes::Occupied, Takes::Output, Takes::Width, Takes::Run];

    /// As it is written, and as a help page shows its value.
    pub const fn written(self) -> (&'static str, &'static str) {
        match self {
            Takes::Job => ("--job", "N"),
            Takes::Occupied => ("--occupied", "L,L,.."),
            Takes::Output => ("-o", "FILE"),
            Takes::Width => ("--width", "N"),
            Takes::Run => ("--run", "SCHEDULE"),
        }
    }

    /// What a help page says of it.
    pub const fn about(self) -> &'static str {
        match self {
            Takes::Job => "the job, 1 or 2; without it job 1, and for show both jobs",
            Takes::Occupied => "locations that are occupied, by their numbers",
            Takes::Output => "the file to write",
            Takes::Width => "draw the locations in rows of N",
            Takes::Run => "a schedule: hex digits, or a file",
        }
    }

    fn named(name: &OsStr) -> Option<Takes> {
        Takes::ALL.into_iter().find(|option| name == option.written().0)
    }
}

/// A command with its words, checked against what it takes.
#[derive(Debug)]
pub struct Asked {
    pub command: &'static Command,
    /// The words that are no options, in order.
    pub words: Vec<OsString>,
    pub json: bool,
    values: Vec<(Takes, OsString)>,
}

/// What the words ask for.
#[derive(Debug)]
pub enum Taken {
    /// A page of help.
    Help(String),
    Asked(Asked),
}

impl Asked {
    /// The value of an option.
    pub fn value(&self, option: Takes) -> Option<&OsStr> {
        self.values.iter().find(|(given, _)| *given == option).map(|(_, value)| value.as_os_str())
    }

    /// The value of an option that is a number.
    ///
    /// # Errors
    ///
    /// Where the value is no number.
    pub fn number(&self, option: Takes) -> Result<Option<u64>, Trouble> {
        self.value(option).map(|value| number(value, option.written().0)).transpose()
    }

    /// The job that is asked for; the library's refusal, 25, of another number.
    ///
    /// # Errors
    ///
    /// Where the value is no number.
    pub fn job(&self) -> Result<Result<Job, Refusal>, Trouble> {
        Ok(Job::try_from(self.number(Takes::Job)?.unwrap_or(1)))
    }

    /// How many locations a row of a picture has, where that is asked for. More than a device can have are no more than those.
    ///
    /// # Errors
    ///
    /// Where the value is no number, or 0.
    pub fn width(&self) -> Result<Option<usize>, Trouble> {
        let at_most = |width| usize::try_from(width).map_or(MOST_LOCATIONS, |width| width.min(MOST_LOCATIONS));
        match self.number(Takes::Width)? {
            Some(0) => trouble("--width takes a number from 1 on, not 0"),
            width => Ok(width.map(at_most)),
        }
    }

    /// Takes an option, whose value may be the next word.
    fn take(&mut self, word: &OsStr, rest: &mut impl Iterator<Item = OsString>) -> Result<(), Trouble> {
        let (name, given) = parts(word);
        if name == "--help" || name == "--json" {
            self.json = true; // a help without a value was answered before
            return given.map_or(Ok(()), |_| trouble(format!("{} takes no value", shown(name))));
        }
        let option = Takes::named(name).filter(|option| self.command.options.contains(option)).ok_or_else(|| unknown_option(self.command, name))?;
        let value = given.map_or_else(|| next_value(option.written(), rest), |value| Ok(value.to_os_string()))?;
        if self.value(option).is_some() {
            return trouble(format!("{} is given twice", option.written().0));
        }
        self.values.push((option, value));
        Ok(())
    }

    /// Whether the words are as many as the command takes, and its numbers are some.
    fn fits(&self) -> Result<(), Trouble> {
        let Command { name, usage, takes: (least, most), .. } = self.command;
        if let Some(word) = self.words.get(*most) {
            return trouble(format!("{} is a word too many: abwakiris {name} {usage}", quoted(word)));
        }
        if self.words.len() < *least {
            let missing = usage.split_whitespace().nth(self.words.len()).unwrap_or("a word");
            return trouble(format!("{missing} is missing: abwakiris {name} {usage}"));
        }
        let files = self.words.iter().map(OsString::as_os_str).chain(self.value(Takes::Run));
        if files.filter(|word| *word == "-").count() > 1 {
            return trouble("standard input, -, is given twice, and can be read once");
        }
        self.number(Takes::Job)?;
        self.width()?;
        Ok(())
    }
}

/// A decimal number.
///
/// # Errors
///
/// Where the word is none, named by what it is for.
pub fn number(word: &OsStr, what: &str) -> Result<u64, Trouble> {
    let digits = word.to_str().filter(|text| !text.is_empty() && text.bytes().all(|byte| byte.is_ascii_digit()));
    match digits.map(str::parse) {
        Some(Ok(value)) => Ok(value),
        Some(Err(_)) => trouble(format!("{what} takes a number up to {}, not {}", u64::MAX, quoted(word))),
        None => trouble(format!("{what} takes a number, not {}", quoted(word))),
    }
}

/// What these words ask for.
///
/// # Errors
///
/// Bad usage, in words that say what there is.
pub fn taken(words: Vec<OsString>) -> Result<Taken, Trouble> {
    let mut words = words.into_iter();
    let first = words.next().ok_or_else(|| Trouble("a command is needed; abwakiris --help says which there are".to_string()))?;
    match first.to_str() {
        Some("--help" | "-h" | "help") => help(&words.collect::<Vec<_>>()).map(Taken::Help),
        Some("--version" | "-V") => Ok(Taken::Help(concat!("abwakiris ", env!("CARGO_PKG_VERSION"), "\n").to_string())),
        _ => of_command(named(&first)?, words.collect()),
    }
}

/// The page that is asked for by the words after `help`.
fn help(words: &[OsString]) -> Result<String, Trouble> {
    match words {
        [] => Ok(overview()),
        [name] if is_help(name) => Ok(overview()),
        [name] => named(name).map(Command::page),
        [_, word, ..] => trouble(format!("help takes one command, and {} is a word too many", quoted(word))),
    }
}

fn is_help(word: &OsString) -> bool {
    word == "--help" || word == "-h"
}

/// The command of this name.
fn named(name: &OsStr) -> Result<&'static Command, Trouble> {
    if let Some(command) = COMMANDS.iter().find(|command| name == command.name) {
        return Ok(command);
    }
    let text = name.to_string_lossy();
    let hint = if text.starts_with('-') {
        "; options stand after the command".to_string()
    } else {
        perhaps(nearest(&text, COMMANDS.iter().map(|command| command.name)))
    };
    trouble(format!("there is no command {}{hint}; abwakiris --help says which there are", quoted(name)))
}

fn perhaps(known: Option<&str>) -> String {
    known.map_or(String::new(), |known| format!(", perhaps {known} is meant"))
}

/// The words after the name of a command.
fn of_command(command: &'static Command, words: Vec<OsString>) -> Result<Taken, Trouble> {
    if words.iter().take_while(|word| *word != "--").any(is_help) {
        return Ok(Taken::Help(command.page()));
    }
    let more = |Trouble(message)| Trouble(format!("{message}; abwakiris {} --help says more", command.name));
    sorted(command, words).map(Taken::Asked).map_err(more)
}

/// Words and options apart.
fn sorted(command: &'static Command, words: Vec<OsString>) -> Result<Asked, Trouble> {
    let mut asked = Asked { command, words: vec![], json: false, values: vec![] };
    let mut words = words.into_iter();
    while let Some(word) = words.next() {
        if word == "--" {
            asked.words.extend(words.by_ref());
        } else if is_option(&word) {
            asked.take(&word, &mut words)?;
        } else {
            asked.words.push(word);
        }
    }
    asked.fits()?;
    Ok(asked)
}

/// Whether a word begins as an option does; `-` alone is a file.
fn is_option(word: &OsStr) -> bool {
    word.as_bytes().starts_with(b"-") && word != "-"
}

/// The name of an option, and its value where one is joined to it by `=`.
fn parts(word: &OsStr) -> (&OsStr, Option<&OsStr>) {
    let mut parts = word.as_bytes().splitn(2, |&byte| byte == b'=').map(OsStr::from_bytes);
    (parts.next().unwrap_or(word), parts.next())
}

/// The value of an option from the words after it. An option is none, so that `-o --json` writes no file of that name.
fn next_value((name, value): (&str, &str), rest: &mut impl Iterator<Item = OsString>) -> Result<OsString, Trouble> {
    match rest.next() {
        None => trouble(format!("{name} takes a value, {name} {value}")),
        Some(word) if is_option(&word) => {
            trouble(format!("{name} takes a value, and {} stands there; {name}={} where it is the value", quoted(&word), shown(&word)))
        }
        Some(word) => Ok(word),
    }
}

fn unknown_option(command: &Command, name: &OsStr) -> Trouble {
    if name == "--json" || Takes::named(name).is_some() {
        return Trouble(format!("{} takes no {}", command.name, shown(name)));
    }
    let options = command.options.iter().map(|option| option.written().0);
    let known = options.chain(["--json", "--help"]);
    Trouble(format!("unknown option {}{}", quoted(name), perhaps(nearest(&name.to_string_lossy(), known))))
}

#[cfg(test)]
mod tests {
    use super::*;

    fn asked(words: &str) -> Result<Asked, String> {
        match taken(words.split_whitespace().map(OsString::from).collect()) {
            Ok(Taken::Asked(asked)) => Ok(asked),
            Ok(Taken::Help(page)) => panic!("a page: {page}"),
            Err(Trouble(message)) => Err(message),
        }
    }

    fn page(words: &str) -> String {
        match taken(words.split_whitespace().map(OsString::from).collect()) {
            Ok(Taken::Help(page)) => page,
            other => panic!("no page: {other:?}"),
        }
    }

    #[test]
    fn options() {
        for words in ["check d p --job 2 --json", "check --json --job=2 d p", "check d --job=2 --json -- p"] {
            let asked = asked(words).unwrap();
            assert_eq!(asked.words, ["d", "p"]);
            assert_eq!((asked.json, asked.job().unwrap().unwrap()), (true, Job::TWO));
        }
        assert_eq!(asked("check -- --job -").unwrap().words, ["--job", "-"]);
        assert_eq!(asked("list - -o -").unwrap().value(Takes::Output), Some(OsStr::new("-")));
        assert_eq!(asked("list p -o=--json").unwrap().value(Takes::Output), Some(OsStr::new("--json")));
        assert_eq!(asked("check d p").unwrap().job().unwrap(), Ok(Job::ONE));
        assert_eq!(asked("check d p --job 257").unwrap().job().unwrap().unwrap_err().number, abwakiris::Number::Job);
    }

    #[test]
    fn a_value_that_is_no_utf8() {
        let word = OsStr::from_bytes(b"-o=a=\xFF");
        assert_eq!(parts(word), (OsStr::new("-o"), Some(OsStr::from_bytes(b"a=\xFF"))));
        let asked = sorted(named(OsStr::new("list")).unwrap(), vec!["p".into(), word.to_os_string()]).unwrap();
        assert_eq!(asked.value(Takes::Output), Some(OsStr::from_bytes(b"a=\xFF")));
    }

    #[test]
    fn widths() {
        let width = |words| asked(words).and_then(|asked| asked.width().map_err(|Trouble(message)| message));
        assert_eq!(width("route d 0 1"), Ok(None));
        assert_eq!(width("route d 0 1 --width 3"), Ok(Some(3)));
        assert_eq!(width("route d 0 1 --width 18446744073709551615"), Ok(Some(256)));
        assert!(width("route d 0 1 --width 0").unwrap_err().starts_with("--width takes a number from 1 on, not 0"));
    }

    #[test]
    fn bad_usage() {
        for (words, message) in [
            ("", "a command is needed"),
            ("chek d p", "there is no command `chek`, perhaps check is meant"),
            ("--json check d p", "there is no command `--json`; options stand after the command"),
            ("help chek", "there is no command `chek`, perhaps check is meant"),
            ("help check list", "help takes one command, and `list` is a word too many"),
            ("check d", "PROGRAM is missing: abwakiris check DEVICE PROGRAM; abwakiris check --help says more"),
            ("check d p q", "`q` is a word too many: abwakiris check DEVICE PROGRAM"),
            ("check d p --jbo 1", "unknown option `--jbo`, perhaps --job is meant"),
            ("check d p --width 3", "check takes no --width"),
            ("bundle d p --width 3", "bundle takes no --width"),
            ("check d p --job", "--job takes a value, --job N"),
            ("check d p --job x", "--job takes a number, not `x`"),
            ("check d p --job=", "--job takes a number, not ``"),
            ("check d p --job 18446744073709551616", "--job takes a number up to 18446744073709551615, not `18446744073709551616`"),
            ("check d p --job 1 --job 1", "--job is given twice"),
            ("check d p --json=1", "--json takes no value"),
            ("check d p --help=1", "--help takes no value"),
            ("list p -o --json", "-o takes a value, and `--json` stands there; -o=--json where it is the value"),
            ("check - -", "standard input, -, is given twice"),
            ("show - p q --run -", "standard input, -, is given twice"),
        ] {
            let found = asked(words).unwrap_err();
            assert!(found.starts_with(message), "{words}: {found}");
        }
    }

    #[test]
    fn pages() {
        assert!(page("--version").starts_with("abwakiris "));
        for words in ["--help", "-h", "help", "help --help"] {
            assert_eq!(page(words), overview());
        }
        for command in COMMANDS {
            for words in ["help C", "--help C", "C --help", "C -h", "C --bogus x --help"] {
                assert_eq!(page(&words.replace('C', command.name)), command.page());
            }
        }
    }
}
