//! The seven calls of the proved library, as safe functions.
//!
//! Every call takes any bytes and any numbers and always answers: a value, or a [`Refusal`] that says why, where and in which file. After a
//! refusal every buffer that was lent holds the bytes it held before; bytes past what a call writes stay as they are.
//!
//! No state is kept between calls, so every call may be made from any thread at once. The most stack that a call took, as measured on x86-64,
//! is 39,128 bytes, for a check.
//!
//! Device G has 2 rows of 3 locations, all owned by job 1; program A makes two qubits in corners, measures them together and frees them.
//!
//! ```
//! use abwakiris::{check, route, Counted, File, Job, Number, Refusal};
//!
//! let g = b"QLG\x00\x01\x00\x06\x00\x07\x01\x01\x01\x01\x01\x01\x00\x01\x00\x03\x01\x02\x01\x04\x02\x05\x03\x04\x04\x05";
//! let mut a = *b"QLS\x00\x01\x00\x00\x10\x01\x00\x00\x01\x01\x02\x06\x02\x00\x00\x00\x01\x03\x00\x03\x01";
//!
//! assert_eq!(check(g, &a, Job::ONE), Ok(Counted { count: 5, live: 0 }));
//!
//! a[19] = 0; // the merge measures slot 0 twice
//! assert_eq!(check(g, &a, Job::ONE), Err(Refusal { number: Number::Twice, place: 14, file: File::Program(Some(Job::ONE)) }));
//!
//! let mut buffer = [0; 6];
//! assert_eq!(route(g, Job::ONE, &[0, 9, 0, 0, 0, 0], 0, 2, &mut buffer), Ok(5));
//! assert_eq!(buffer, [0, 3, 4, 5, 2, 0]);
//! ```

#![deny(missing_docs)]
#![deny(unsafe_op_in_unsafe_fn)]

mod calls;
mod exports;
mod job;
mod listing;
mod numbers;
mod record;
mod refusal;
mod schedule;
mod sizes;

pub use calls::{check, locations, read_device, read_program, route, run, Counted, Moved};
pub use job::Job;
pub use listing::{read_listing, write_listing};
pub use numbers::{Number, UnknownNumber};
pub use record::{Record, Records, Told};
pub use refusal::{File, Refusal};
pub use schedule::Schedule;
pub use sizes::{MOST_COUNT, MOST_EDGES, MOST_LISTING_BYTES, MOST_LIVE, MOST_LOCATIONS, MOST_PROGRAM_BYTES, MOST_STEPS, RECORD_BYTES};
