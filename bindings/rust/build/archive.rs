//! Where the archive libabwakiris.a is: in the folder that ABWAKIRIS_LIB_DIR names, else in target/staticlib at the top of the repository, where
//! `tools/archive` writes it.

use std::ffi::OsString;
use std::path::{Path, PathBuf};

/// Tells cargo to link the archive; where there is none, warns and leaves it out. Cargo runs this again when the archive comes, goes or changes.
pub fn link(package: &Path, top: &Path) {
    println!("cargo:rerun-if-env-changed=ABWAKIRIS_LIB_DIR");
    let named = std::env::var_os("ABWAKIRIS_LIB_DIR").filter(|folder| !folder.is_empty());
    let folder = named.map_or_else(|| top.join("target/staticlib"), |folder| from_user(package, folder));
    let archive = folder.join("libabwakiris.a");
    println!("cargo:rerun-if-changed={}", archive.display());
    if archive.is_file() {
        println!("cargo:rustc-link-search=native={}", folder.display());
        println!("cargo:rustc-link-lib=static=abwakiris");
    } else {
        let how = "run `bash tools/archive` at the top of the repository, or name the archive's folder in ABWAKIRIS_LIB_DIR";
        println!("cargo:warning=there is no {}: {how}", archive.display());
        println!("cargo:warning=without it `cargo check` and `cargo doc` work, but a program or a test is not linked: the symbols abwakiris_.. are undefined");
    }
}

/// A folder as the user names it, from where the user stands. Cargo runs this in the package's folder, and the shell says in PWD where it was called.
fn from_user(package: &Path, folder: OsString) -> PathBuf {
    let folder = PathBuf::from(folder);
    if folder.is_absolute() {
        return folder;
    }
    println!("cargo:rerun-if-env-changed=PWD");
    let stands = std::env::var_os("PWD").map(PathBuf::from).filter(|stands| stands.is_absolute() && stands.is_dir());
    stands.unwrap_or_else(|| package.to_path_buf()).join(folder)
}
