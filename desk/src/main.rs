//! The command `abwakiris`.

#![forbid(unsafe_code)]

use std::process::ExitCode;

fn main() -> ExitCode {
    ExitCode::from(abwakiris_desk::run(std::env::args_os().skip(1).collect()))
}
