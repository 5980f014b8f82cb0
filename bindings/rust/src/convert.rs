//! The converter.

use crate::{ffi, Refusal};

/// Converts an accepted compact record, of which nothing is skipped, to the sliced one with the same first known type,
/// members and bytes, and gives its length. A reader with an older table, which refuses the compact record if it lacks its
/// type, reads the sliced one.
///
/// The sliced record is put at the start of `out`; the bytes beyond it stay, and on a refusal all of them. Where `out` is
/// too short, the place of the refusal is the length needed.
///
/// The library reads the message twice: once for the record and once for its length.
pub fn convert(table: &[u8], top: u32, message: &[u8], out: &mut [u8]) -> Result<usize, Refusal> {
    match ffi::convert(table, top, message, out) {
        0 => Ok(ffi::convert_length(table, top, message, out.len()) as usize),
        number => Err(Refusal { number, place: ffi::convert_place(table, top, message, out.len()) }),
    }
}
