//! The help pages of the tool and of every command.

use super::{case, plain, Case};

const COMMANDS: [&str; 9] = ["check", "why", "route", "run", "list", "unlist", "show", "bundle", "refusal"];

pub fn cases() -> Vec<Case> {
    let page = |name: &'static str, command: &'static str| case(name, plain(&[command, "--help"])).says(&["usage: abwakiris ", command, "--help"]);
    vec![
        case("help", plain(&["--help"])).says(&COMMANDS).says(&["0 accepted, 1 refused, 2 could not try"]),
        case("help-by-its-word", plain(&["help"])).says(&["usage: abwakiris COMMAND"]).and(plain(&["help", "list"])).says(&["usage: abwakiris list PROGRAM"]),
        case("version", plain(&["--version"])).says(&["abwakiris "]),
        page("help-check", "check"),
        page("help-why", "why"),
        page("help-route", "route"),
        page("help-run", "run"),
        page("help-list", "list"),
        page("help-unlist", "unlist"),
        page("help-show", "show"),
        page("help-bundle", "bundle"),
        page("help-refusal", "refusal"),
    ]
}
