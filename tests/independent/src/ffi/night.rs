//! The calls for many messages in one buffer.

use crate::night::{Night, Walked};

extern "C" {
    fn icehub_night(
        table: *const u8,
        table_length: usize,
        top: u32,
        buffer: *const u8,
        buffer_length: usize,
        answers: *mut u8,
        answers_length: usize,
        rows: *mut u8,
        rows_length: usize,
    ) -> usize;
    fn icehub_night_place(
        table: *const u8,
        table_length: usize,
        top: u32,
        buffer: *const u8,
        buffer_length: usize,
        answers_length: usize,
        rows_length: usize,
    ) -> usize;
}

/// The number of answers.
pub fn night(table: &[u8], top: u32, buffer: &[u8], answers: &mut [u8], rows: &mut [u8]) -> usize {
    // SAFETY: each pointer comes with the length of its slice; only `answers` and `rows` are written.
    unsafe {
        icehub_night(
            table.as_ptr(),
            table.len(),
            top,
            buffer.as_ptr(),
            buffer.len(),
            answers.as_mut_ptr(),
            answers.len(),
            rows.as_mut_ptr(),
            rows.len(),
        )
    }
}

/// The place of what stopped the walk.
pub fn place(table: &[u8], top: u32, buffer: &[u8], answers: usize, rows: usize) -> usize {
    // SAFETY: as above; nothing is written.
    unsafe { icehub_night_place(table.as_ptr(), table.len(), top, buffer.as_ptr(), buffer.len(), answers, rows) }
}

/// The library's answer to a call; none if it touched a byte that should have stayed.
pub fn answer(call: &Night) -> Option<Walked> {
    let Night { table, top, buffer, .. } = call;
    call.answer_by(|answers, rows| {
        let count = night(table, *top, buffer, answers, rows);
        (count, place(table, *top, buffer, answers.len(), rows.len()))
    })
}
