//! The calls for the season sheet.

use crate::sheet::{SheetAnswer, SheetCall};

extern "C" {
    fn icehub_sheet(
        table: *const u8,
        table_length: usize,
        top: u32,
        buffer: *const u8,
        buffer_length: usize,
        member: u32,
        sheet: *mut u8,
        sheet_length: usize,
    ) -> u32;
    fn icehub_sheet_place(
        table: *const u8,
        table_length: usize,
        top: u32,
        buffer: *const u8,
        buffer_length: usize,
        member: u32,
        sheet: *const u8,
        sheet_length: usize,
    ) -> u32;
}

/// The refusal's number, or 0.
pub fn sheet(table: &[u8], top: u32, buffer: &[u8], member: u32, sheet: &mut [u8]) -> u32 {
    // SAFETY: each pointer comes with the length of its slice; only `sheet` is written.
    unsafe {
        icehub_sheet(
            table.as_ptr(),
            table.len(),
            top,
            buffer.as_ptr(),
            buffer.len(),
            member,
            sheet.as_mut_ptr(),
            sheet.len(),
        )
    }
}

/// The place of the refusal.
pub fn place(table: &[u8], top: u32, buffer: &[u8], member: u32, sheet: &[u8]) -> u32 {
    // SAFETY: as above; nothing is written.
    unsafe {
        icehub_sheet_place(
            table.as_ptr(),
            table.len(),
            top,
            buffer.as_ptr(),
            buffer.len(),
            member,
            sheet.as_ptr(),
            sheet.len(),
        )
    }
}

/// The library's answer to a call.
pub fn answer(call: &SheetCall) -> SheetAnswer {
    let SheetCall { table, top, buffer, member, sheet: before } = call;
    let mut lent = before.clone();
    let number = sheet(table, *top, buffer, *member, &mut lent);
    SheetAnswer { refusal: (number, place(table, *top, buffer, *member, before)), sheet: lent }
}
