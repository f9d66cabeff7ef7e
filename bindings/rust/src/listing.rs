//! The two calls of listings, as safe functions. `docs/listing.md` has the lines of a listing.
//!
//! Safety of each: a pointer and its length are those of a slice that is lent for the call. What is written is a buffer of the function's own, so that it
//! overlaps nothing else. It is as long as any listing or program, so 24 does not come up.

use crate::exports;
use crate::refusal::unpack;
use crate::{Refusal, MOST_LISTING_BYTES, MOST_PROGRAM_BYTES};

/// The listing of a program: its text, one statement a line. Each program that reads has exactly one, of at most 65,536 bytes.
///
/// # Errors
///
/// The program's refusals, 1 to 4 and 8 to 10, at a byte of the program, which is read for no job.
///
/// ```
/// use abwakiris::{write_listing, Number};
///
/// let program = b"QLS\x00\x01\x00\x00\x05\x01\x00\x04\x03\x00"; // an init at 4 and its free
/// assert_eq!(write_listing(program)?, "program 1\nmain\n  init 0 4\n  free 0\n");
/// assert_eq!(write_listing(&program[..12]).unwrap_err().number, Number::Fit);
/// # Ok::<(), abwakiris::Refusal>(())
/// ```
pub fn write_listing(program: &[u8]) -> Result<String, Refusal> {
    let text = filled(MOST_LISTING_BYTES, |text| unsafe {
        exports::abwakiris_write_listing(program.as_ptr(), program.len(), text.as_mut_ptr(), text.len())
    })?;
    Ok(String::from_utf8(text).expect("a listing has letters, digits, spaces and newlines only"))
}

/// The program that a text is the listing of: exactly what [`write_listing`] writes is taken, and gives back the same bytes.
///
/// The text may be any bytes: a `str`, or what was read from a file and need not be UTF-8.
///
/// # Errors
///
/// 27, in the listing: at the start of the first line with which the text so far begins no listing; at the text's end where lines are missing or the
/// last line is unfinished.
///
/// ```
/// use abwakiris::{read_listing, File, Number, Refusal};
///
/// assert_eq!(read_listing("program 1\nmain\n  free 0\n")?, b"QLS\x00\x01\x00\x00\x02\x03\x00");
///
/// let refused = |text: &[u8]| read_listing(text).unwrap_err();
/// let at = |place| Refusal { number: Number::Listing, place, file: File::Listing };
/// assert_eq!(refused(b"program 1\nmain\n  free 32\n"), at(15)); // slots are 0 to 31
/// assert_eq!(refused(b"program 1\nmain\n  free 3"), at(23)); // the newline is missing
/// assert_eq!(refused(b"program 1\nmain\n\xFF"), at(15));
/// # Ok::<(), abwakiris::Refusal>(())
/// ```
pub fn read_listing(text: impl AsRef<[u8]>) -> Result<Vec<u8>, Refusal> {
    let text = text.as_ref();
    filled(MOST_PROGRAM_BYTES, |program| unsafe { exports::abwakiris_read_listing(text.as_ptr(), text.len(), program.as_mut_ptr(), program.len()) })
}

/// What a call writes from the start of a buffer of so many bytes; its value is how many it wrote.
fn filled(most: usize, call: impl FnOnce(&mut [u8]) -> u64) -> Result<Vec<u8>, Refusal> {
    let mut buffer = vec![0; most];
    let written = unpack(call(&mut buffer))?;
    buffer.truncate(written as usize);
    buffer.shrink_to_fit();
    Ok(buffer)
}
