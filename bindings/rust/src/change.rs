//! Setting and removing one optional; the rest of the message is passed on.

use crate::{ffi, Refusal};

/// Sets an optional of an accepted parameter list or sliced record: adds it where the message lacks it, and else replaces
/// its value. Gives the length of the result.
///
/// `member` is the member row of an optional of the message's first known type or of a base of it. `bytes` is its value as
/// [`Row`](crate::Row) has it. All else keeps its bytes and order, also what the table does not know. Every table that
/// extends this one and accepted the message accepts the result, and its list differs in that member only, apart from
/// places. Setting the bytes that are there gives the same message.
///
/// The result is put at the start of `out`; the bytes beyond it stay, and on a refusal all of them. Where `out` is too
/// short, the place of the refusal is the length needed.
///
/// The library reads the message twice: once for the result and once for its length.
///
/// ```
/// // Rows short, long, int, and a parameter list of a short, an optional(7) long and an optional(8) int.
/// let table = b"FGT\x01\0\x04\0\x03\0\0\0\0\
///     \x02\0\0\0\0\0\0\0\0\0\0\0\
///     \x04\0\0\0\0\0\0\0\0\0\0\0\
///     \x03\0\0\0\0\0\0\0\0\0\0\0\
///     \x0F\0\0\0\x03\0\0\0\0\0\0\0\
///     \0\0\0\0\0\0\0\0\
///     \x01\0\x01\0\x07\0\0\0\
///     \x02\0\x01\0\x08\0\0\0";
/// // A report of a newer sender: after the reading an optional(9) byte that this table does not know.
/// let message = b"\x0A\0\0\0\x01\x01\x0C\xFE\x48\x50";
///
/// let mut out = [0; 64];
/// let length = icehub::set(table, 3, message, 2, &3_600i32.to_le_bytes(), &mut out)?;
/// assert_eq!(&out[..length], b"\x0F\0\0\0\x01\x01\x0C\xFE\x42\x10\x0E\0\0\x48\x50");
/// # Ok::<(), icehub::Refusal>(())
/// ```
pub fn set(
    table: &[u8],
    top: u32,
    message: &[u8],
    member: u32,
    bytes: &[u8],
    out: &mut [u8],
) -> Result<usize, Refusal> {
    match ffi::set(table, top, message, member, bytes, out) {
        0 => Ok(ffi::set_length(table, top, message, member, bytes, out.len()) as usize),
        number => Err(Refusal { number, place: ffi::set_place(table, top, message, member, bytes, out.len()) }),
    }
}

/// Removes an optional that an accepted parameter list or sliced record has, and gives the length of the result.
///
/// All else keeps its bytes and order, as in [`set`](set()). Removing what was set where nothing was before gives the
/// message back.
///
/// The result is put at the start of `out`; the bytes beyond it stay, and on a refusal all of them. Where `out` is too
/// short, the place of the refusal is the length needed.
///
/// The library reads the message twice: once for the result and once for its length.
pub fn remove(table: &[u8], top: u32, message: &[u8], member: u32, out: &mut [u8]) -> Result<usize, Refusal> {
    match ffi::remove(table, top, message, member, out) {
        0 => Ok(ffi::remove_length(table, top, message, member, out.len()) as usize),
        number => Err(Refusal { number, place: ffi::remove_place(table, top, message, member, out.len()) }),
    }
}
