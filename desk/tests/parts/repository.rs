//! The files, the generator and the reference of the repository's own tests.
//!
//! They name one another at the top, so a test that takes the generator has there `use repository::{generator, library, reference};`.

#[rustfmt::skip] // they have a layout of their own
#[allow(clippy::all)]
#[path = "../../../tests"]
mod top {
    pub mod files;
    pub mod generator;
    pub mod library;
    pub mod reference;
}

#[allow(unused_imports)] // each test takes some of them
pub use top::{files, generator, library, reference};
