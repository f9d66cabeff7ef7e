//! The file that `-o` names. Without one, and for `-`, what a command makes goes to standard output.

use crate::args::{Asked, Takes};
use crate::input::{NO_WAITING, PATIENCE};
use crate::json::Json;
use crate::said::{reason, shown, trouble, Said, Trouble};
use std::ffi::OsStr;
use std::fs::OpenOptions;
use std::io::ErrorKind;
use std::os::unix::fs::{FileTypeExt, MetadataExt, OpenOptionsExt};
use std::path::{Path, PathBuf};
use std::time::{Duration, Instant};

/// What a command made, for the file that `-o` names, else for standard output; with `--json` a line of it for machines is said beside.
///
/// # Errors
///
/// Where the file cannot be written.
pub fn text(asked: &Asked, made: &[u8], machine: impl FnOnce() -> Json) -> Result<Said, Trouble> {
    let file = asked.value(Takes::Output).filter(|name| *name != "-");
    if let Some(name) = file {
        write(name, made)?;
    }
    Ok(match (asked.json, file.map(shown)) {
        (true, name) => Said::accepted(format!("{}\n", machine().with("written", name))),
        (false, Some(name)) => Said::accepted(format!("written: {name}\n")),
        (false, None) => Said::accepted(made),
    })
}

/// The same for bytes that are no text, which are not written on a terminal unless `-o -` asks for it.
///
/// # Errors
///
/// Where standard output is a terminal, or the file cannot be written.
pub fn bytes(asked: &Asked, what: &str, made: &[u8]) -> Result<Said, Trouble> {
    if asked.value(Takes::Output).is_none() && !asked.json && is_terminal() {
        return trouble(format!("{what} is bytes, not text: name a file with -o FILE, or send standard output to a file or a pipe"));
    }
    let hex = || made.iter().map(|byte| format!("{byte:02x}")).collect::<String>();
    text(asked, made, || Json::head(asked.command.name, true).with("bytes", made.len()).with("hex", hex()))
}

/// Writes a file whole: beside its place first, so that an error leaves what was there.
///
/// # Errors
///
/// Where it cannot be written.
pub fn write(name: &OsStr, bytes: &[u8]) -> Result<(), Trouble> {
    if name.is_empty() {
        return trouble("-o takes the name of a file, and the one given is empty");
    }
    let refused = |why: &str| trouble(format!("{}: {why}", shown(name)));
    let place = std::fs::canonicalize(name).unwrap_or_else(|_| PathBuf::from(name)); // a link stays a link
    let there = std::fs::metadata(&place);
    let written = match &there {
        Ok(about) if about.is_dir() => return refused("is a directory"),
        Ok(about) if about.permissions().readonly() => return refused("may not be written"),
        Ok(about) if about.file_type().is_fifo() => into_pipe(&place, bytes),
        Ok(about) if !about.is_file() => std::fs::write(&place, bytes), // a device
        Err(_) if place.is_symlink() => std::fs::write(&place, bytes),  // a link to what is not there yet
        _ => beside(&place, bytes),
    };
    written.or_else(|wrong| match wrong.kind() {
        ErrorKind::NotFound => refused("there is no such folder"),
        ErrorKind::PermissionDenied => refused("may not be written"),
        _ => refused(&format!("cannot be written: {}", reason(&wrong))),
    })
}

/// Writes into a pipe that somebody reads, or soon does. It opens without waiting first, which does not go as long as nobody reads.
fn into_pipe(place: &Path, bytes: &[u8]) -> std::io::Result<()> {
    const NOBODY_READS: i32 = 6; // ENXIO on Linux
    let end = Instant::now() + PATIENCE;
    loop {
        match OpenOptions::new().write(true).custom_flags(NO_WAITING).open(place) {
            Ok(_held) => return std::fs::write(place, bytes), // held open, so that the reader sees no end before
            Err(_) if Instant::now() < end => std::thread::sleep(Duration::from_millis(2)),
            Err(wrong) if wrong.raw_os_error() == Some(NOBODY_READS) => return Err(std::io::Error::new(ErrorKind::Other, "a pipe that nobody reads")),
            Err(wrong) => return Err(wrong),
        }
    }
}

/// Writes a file under a name that no other process takes, and gives it its own name where all is written.
fn beside(place: &Path, bytes: &[u8]) -> std::io::Result<()> {
    let mut name = place.as_os_str().to_os_string();
    name.push(format!(".{}.part", std::process::id()));
    let written = std::fs::write(&name, bytes).and_then(|()| std::fs::rename(&name, place));
    if written.is_err() {
        let _ = std::fs::remove_file(&name); // it may not even be there
    }
    written
}

/// Whether standard output is a terminal: a character device with the major number of one, as Linux numbers them.
fn is_terminal() -> bool {
    let is = |about: std::fs::Metadata| about.file_type().is_char_device() && matches!(about.rdev() >> 8 & 0xFFF, 4 | 5 | 136..=143);
    std::fs::metadata("/proc/self/fd/1").map_or(false, is)
}
