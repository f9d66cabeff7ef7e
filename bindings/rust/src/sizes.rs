//! Sizes.

/// The most locations of a device.
pub const MOST_LOCATIONS: usize = 256;
/// The most edges of a device.
pub const MOST_EDGES: usize = 1024;
/// The most bytes of a program file.
pub const MOST_PROGRAM_BYTES: usize = 4096;
/// The most bytes of a listing.
pub const MOST_LISTING_BYTES: usize = 65536;
/// The most commands of a program.
pub const MOST_COUNT: u32 = 65535;
/// The most qubits that a program leaves live: one in each slot.
pub const MOST_LIVE: u32 = 32;
/// The most bytes of a schedule, each one step.
pub const MOST_STEPS: usize = 4096;
/// The bytes that a run records for each step.
pub const RECORD_BYTES: usize = 4;
