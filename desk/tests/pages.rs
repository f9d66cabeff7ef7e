//! The pages hold what the tool prints: in README.md and docs/desk.md each line `$ desk/abwakiris ..` of a fenced block is followed by its whole output.
//!
//! With `DESK_STORE=1` the outputs are written into the pages instead.

#[path = "parts/scratch.rs"]
mod scratch;

use scratch::Scratch;
use std::path::{Path, PathBuf};
use std::process::Command;

const PAGES: [&str; 2] = ["README.md", "docs/desk.md"];
const PROMPT: &str = "$ desk/abwakiris ";

fn top() -> PathBuf {
    Path::new(env!("CARGO_MANIFEST_DIR")).join("..")
}

/// A folder that has the samples, and takes what the commands write.
fn room() -> Scratch {
    let room = Scratch::new("pages");
    let samples = room.path().join("samples");
    std::fs::create_dir(&samples).expect("a folder for the samples");
    for entry in std::fs::read_dir(top().join("samples")).expect("samples").flatten() {
        std::fs::copy(entry.path(), samples.join(entry.file_name())).expect("a sample copied");
    }
    room
}

/// What the tool prints for these words, which have no quotes but around whole words.
fn printed(words: &str, room: &Path) -> String {
    let words: Vec<&str> = words.split_whitespace().collect();
    let output = Command::new(env!("CARGO_BIN_EXE_abwakiris")).args(&words).current_dir(room).output().expect("the tool runs");
    assert_ne!(output.status.code(), Some(2), "{words:?}: {}", String::from_utf8_lossy(&output.stderr));
    String::from_utf8(output.stdout).expect("text")
}

/// The page with the true output after each command, and how many commands there are.
fn true_page(page: &str, room: &Path) -> (String, usize) {
    let (mut written, mut commands) = (String::new(), 0);
    let (mut fenced, mut skipping) = (false, false);
    for line in page.lines() {
        if line.starts_with("```") {
            fenced = !fenced;
            skipping = false;
        }
        let words = line.strip_prefix(PROMPT).filter(|_| fenced);
        skipping = skipping && words.is_none();
        if !skipping {
            written.push_str(line);
            written.push('\n');
        }
        if let Some(words) = words {
            written.push_str(&printed(words, room));
            commands += 1;
            skipping = true;
        }
    }
    (written, commands)
}

#[test]
fn pages() {
    let room = room();
    for name in PAGES {
        let path = top().join(name);
        let page = std::fs::read_to_string(&path).expect(name);
        let (written, commands) = true_page(&page, room.path());
        assert!(commands > 0, "{name} has no command");
        if std::env::var_os("DESK_STORE").is_some() {
            std::fs::write(&path, &written).expect(name);
        } else {
            let differs = written.lines().zip(page.lines()).find(|(new, old)| new != old);
            assert!(written == page, "{name} differs from what the tool prints (DESK_STORE=1 writes it): {differs:?}");
        }
    }
}
