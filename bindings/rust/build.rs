//! Writes the table of refusals from the list in include/abwakiris.h, and says where the archive libabwakiris.a is. Without the archive the crate is
//! checked and documented all the same; what is linked then fails.

#[path = "build/archive.rs"]
mod archive;
#[path = "build/list.rs"]
mod list;

use std::path::{Path, PathBuf};

fn main() {
    let package = PathBuf::from(std::env::var_os("CARGO_MANIFEST_DIR").expect("cargo names the crate's folder"));
    let top = package.join("../..");
    let top = top.canonicalize().unwrap_or(top);
    if let Err(wrong) = write_table(&top.join("include/abwakiris.h")) {
        eprintln!("{wrong}");
        std::process::exit(1);
    }
    archive::link(&package, &top);
}

/// Writes numbers.rs for `src/numbers.rs`: the macro `numbers` with a line for each entry of the header's list.
fn write_table(header: &Path) -> Result<(), String> {
    println!("cargo:rerun-if-changed={}", header.display());
    let at = |wrong: &dyn std::fmt::Display| format!("{}: {wrong}", header.display());
    let text = std::fs::read_to_string(header).map_err(|wrong| at(&wrong))?;
    let entries = list::entries(&text).map_err(|wrong| at(&wrong))?;
    let lines: String = entries.iter().map(|entry| format!("    {} {} {:?}\n", entry.number, entry.rust_name, entry.words)).collect();
    let table = Path::new(&std::env::var_os("OUT_DIR").expect("cargo names a folder to write to")).join("numbers.rs");
    std::fs::write(&table, format!("numbers! {{\n{lines}}}\n")).map_err(|wrong| format!("{}: {wrong}", table.display()))
}
