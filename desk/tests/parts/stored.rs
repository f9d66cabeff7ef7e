//! The stored outputs: `stored/NAME.txt` for each case. `DESK_STORE=1` writes them instead of comparing.

use crate::diff::diff;
use std::path::PathBuf;

/// How outputs are stored again.
pub const HOW: &str = "if it should be so now: DESK_STORE=1 cargo test --offline --manifest-path desk/Cargo.toml --target-dir target/desk --test outputs";

fn folder() -> PathBuf {
    PathBuf::from(env!("CARGO_MANIFEST_DIR")).join("tests/stored")
}

fn is_storing() -> bool {
    std::env::var_os("DESK_STORE").map_or(false, |value| value == "1")
}

/// Compares an output with the stored one, or stores it.
pub fn hold(name: &str, found: &str) -> Result<(), String> {
    let path = folder().join(format!("{name}.txt"));
    let stored = std::fs::read_to_string(&path);
    if stored.as_deref().ok() == Some(found) {
        return Ok(());
    }
    if is_storing() {
        return std::fs::create_dir_all(folder()).and_then(|()| std::fs::write(&path, found)).map_err(|wrong| format!("it cannot be stored: {wrong}"));
    }
    Err(match stored {
        Ok(stored) => format!("it is not as stored (- stored, + found)\n{}", diff(&stored, found)),
        Err(_) => "nothing is stored for it".to_string(),
    })
}

/// The stored files that belong to none of these cases.
pub fn without_case(names: &[&str]) -> Vec<String> {
    let entries = std::fs::read_dir(folder()).into_iter().flatten().flatten();
    let files = entries.map(|entry| entry.file_name().to_string_lossy().into_owned());
    files.filter(|file| !names.iter().any(|name| file == &format!("{name}.txt"))).collect()
}
