//! The converter.

use crate::{read, write, Refusal};

/// Writes the sliced form of an accepted compact record with nothing skipped, and gives its length: the rows that the
/// reader lists, which point into the record, written in format 1.
pub fn convert(table: &[u8], top: u32, message: &[u8], out: &mut [u8]) -> Result<u32, Refusal> {
    // A table has at most 1,024 members, and no member is in a message twice.
    let mut rows = [0; 12 * 1_024];
    let reading = read(table, top, message, &mut rows)?;
    if reading.format != 0 {
        return Err((47, 0));
    }
    if (reading.optionals_skipped, reading.slices_skipped) != (0, 0) {
        return Err((48, 0));
    }
    write(table, reading.first, 1, reading.rows, &rows, message, out)
}
