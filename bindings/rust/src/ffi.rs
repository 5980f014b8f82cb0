//! The C functions of libicehub.a, as functions on slices. All that is unsafe in this crate is here.
//!
//! What include/icehub.h asks of a caller holds of every call: a slice has a pointer that is not null, also where it is
//! empty, and as many bytes as its length says; a `&mut` slice overlaps nothing, and nobody else uses it meanwhile.

extern "C" {
    fn icehub_table(table: *const u8, table_len: usize) -> u32;
    fn icehub_table_place(table: *const u8, table_len: usize) -> u32;
    fn icehub_read_numbers(
        table: *const u8,
        table_len: usize,
        top: u32,
        message: *const u8,
        message_len: usize,
        rows: *mut u8,
        rows_len: usize,
        numbers: *mut u8,
        numbers_len: usize,
    ) -> u32;
    fn icehub_member(
        table: *const u8,
        table_len: usize,
        top: u32,
        message: *const u8,
        message_len: usize,
        member: u32,
        numbers: *mut u8,
        numbers_len: usize,
    ) -> u32;
    fn icehub_write(
        table: *const u8,
        table_len: usize,
        of: u32,
        format: u32,
        count: u32,
        rows: *const u8,
        rows_len: usize,
        buffer: *const u8,
        buffer_len: usize,
        out: *mut u8,
        out_len: usize,
    ) -> u32;
    fn icehub_convert(
        table: *const u8,
        table_len: usize,
        top: u32,
        message: *const u8,
        message_len: usize,
        out: *mut u8,
        out_len: usize,
    ) -> u32;
    fn icehub_set(
        table: *const u8,
        table_len: usize,
        top: u32,
        message: *const u8,
        message_len: usize,
        member: u32,
        bytes: *const u8,
        bytes_len: usize,
        out: *mut u8,
        out_len: usize,
    ) -> u32;
    fn icehub_remove(
        table: *const u8,
        table_len: usize,
        top: u32,
        message: *const u8,
        message_len: usize,
        member: u32,
        out: *mut u8,
        out_len: usize,
    ) -> u32;
}

/// Checks a table: 0, or the number of the first rule that it breaks.
pub fn table(table: &[u8]) -> u32 {
    // SAFETY: the pointer comes with the length of its slice; nothing is written.
    unsafe { icehub_table(table.as_ptr(), table.len()) }
}

/// The place of the first rule that a table breaks; 0 if it breaks none.
pub fn table_place(table: &[u8]) -> u32 {
    // SAFETY: as above.
    unsafe { icehub_table_place(table.as_ptr(), table.len()) }
}

/// Number i of lent numbers, little-endian.
fn number(numbers: &[u8], i: usize) -> u32 {
    let at = 4 * i;
    u32::from_le_bytes([numbers[at], numbers[at + 1], numbers[at + 2], numbers[at + 3]])
}

/// Reads a message: the rows are in `rows`, and first known type, format, rows, optionals skipped and slices skipped
/// are returned; or the number of a refusal.
pub fn read(table: &[u8], top: u32, message: &[u8], rows: &mut [u8]) -> Result<[u32; 5], u32> {
    let mut numbers = [0; 20];
    // SAFETY: each pointer comes with the length of its slice; only `rows` and `numbers` are written.
    let refusal = unsafe {
        icehub_read_numbers(
            table.as_ptr(),
            table.len(),
            top,
            message.as_ptr(),
            message.len(),
            rows.as_mut_ptr(),
            rows.len(),
            numbers.as_mut_ptr(),
            numbers.len(),
        )
    };
    match refusal {
        0 => Ok([0, 1, 2, 3, 4].map(|i| number(&numbers, i))),
        refusal => Err(refusal),
    }
}

/// Finds a member: origin, place and length, or the number of a refusal.
pub fn member(table: &[u8], top: u32, message: &[u8], member: u32) -> Result<[u32; 3], u32> {
    let mut numbers = [0; 12];
    // SAFETY: each pointer comes with the length of its slice; only `numbers` is written.
    let refusal = unsafe {
        icehub_member(
            table.as_ptr(),
            table.len(),
            top,
            message.as_ptr(),
            message.len(),
            member,
            numbers.as_mut_ptr(),
            numbers.len(),
        )
    };
    match refusal {
        0 => Ok([0, 1, 2].map(|i| number(&numbers, i))),
        refusal => Err(refusal),
    }
}

/// What the writer is given besides its output.
#[derive(Clone, Copy)]
pub struct Given<'a> {
    pub table: &'a [u8],
    pub of: u32,
    pub format: u32,
    pub count: u32,
    pub rows: &'a [u8],
    pub buffer: &'a [u8],
}

/// Writes a message: 0, and the message is in `out`, or the number of a refusal.
pub fn write(given: Given, out: &mut [u8]) -> u32 {
    let Given { table, of, format, count, rows, buffer } = given;
    // SAFETY: each pointer comes with the length of its slice; only `out` is written.
    unsafe {
        icehub_write(
            table.as_ptr(),
            table.len(),
            of,
            format,
            count,
            rows.as_ptr(),
            rows.len(),
            buffer.as_ptr(),
            buffer.len(),
            out.as_mut_ptr(),
            out.len(),
        )
    }
}

/// Converts a message: 0, and the sliced record is in `out`, or the number of a refusal.
pub fn convert(table: &[u8], top: u32, message: &[u8], out: &mut [u8]) -> u32 {
    // SAFETY: each pointer comes with the length of its slice; only `out` is written.
    unsafe {
        icehub_convert(table.as_ptr(), table.len(), top, message.as_ptr(), message.len(), out.as_mut_ptr(), out.len())
    }
}

/// Sets an optional: 0, and the result is in `out`, or the number of a refusal.
pub fn set(table: &[u8], top: u32, message: &[u8], member: u32, bytes: &[u8], out: &mut [u8]) -> u32 {
    // SAFETY: each pointer comes with the length of its slice; only `out` is written.
    unsafe {
        icehub_set(
            table.as_ptr(),
            table.len(),
            top,
            message.as_ptr(),
            message.len(),
            member,
            bytes.as_ptr(),
            bytes.len(),
            out.as_mut_ptr(),
            out.len(),
        )
    }
}

/// Removes an optional: 0, and the result is in `out`, or the number of a refusal.
pub fn remove(table: &[u8], top: u32, message: &[u8], member: u32, out: &mut [u8]) -> u32 {
    // SAFETY: as above.
    unsafe {
        icehub_remove(
            table.as_ptr(),
            table.len(),
            top,
            message.as_ptr(),
            message.len(),
            member,
            out.as_mut_ptr(),
            out.len(),
        )
    }
}

/// The other numbers of a change with an output of so many bytes.
macro_rules! change_numbers {
    (set { $($set:ident = $icehub_set:ident;)* } remove { $($remove:ident = $icehub_remove:ident;)* }) => {
        extern "C" {
            $(fn $icehub_set(
                table: *const u8,
                table_len: usize,
                top: u32,
                message: *const u8,
                message_len: usize,
                member: u32,
                bytes: *const u8,
                bytes_len: usize,
                out_len: usize,
            ) -> u32;)*
            $(fn $icehub_remove(
                table: *const u8,
                table_len: usize,
                top: u32,
                message: *const u8,
                message_len: usize,
                member: u32,
                out_len: usize,
            ) -> u32;)*
        }
        $(pub fn $set(table: &[u8], top: u32, message: &[u8], member: u32, bytes: &[u8], out_len: usize) -> u32 {
            // SAFETY: each pointer comes with the length of its slice; nothing is written.
            unsafe {
                $icehub_set(
                    table.as_ptr(),
                    table.len(),
                    top,
                    message.as_ptr(),
                    message.len(),
                    member,
                    bytes.as_ptr(),
                    bytes.len(),
                    out_len,
                )
            }
        })*
        $(pub fn $remove(table: &[u8], top: u32, message: &[u8], member: u32, out_len: usize) -> u32 {
            // SAFETY: as above.
            unsafe {
                $icehub_remove(table.as_ptr(), table.len(), top, message.as_ptr(), message.len(), member, out_len)
            }
        })*
    };
}

change_numbers! {
    set {
        set_place = icehub_set_place;
        set_length = icehub_set_length;
    }
    remove {
        remove_place = icehub_remove_place;
        remove_length = icehub_remove_length;
    }
}

/// The other numbers of a reading with a list of so many bytes, of a conversion and of a writing with an output of so
/// many bytes.
macro_rules! numbers {
    (read { $($read:ident = $icehub_read:ident;)* } write { $($write:ident = $icehub_write:ident;)* }) => {
        extern "C" {
            $(fn $icehub_read(
                table: *const u8,
                table_len: usize,
                top: u32,
                message: *const u8,
                message_len: usize,
                lent_len: usize,
            ) -> u32;)*
            $(fn $icehub_write(
                table: *const u8,
                table_len: usize,
                of: u32,
                format: u32,
                count: u32,
                rows: *const u8,
                rows_len: usize,
                buffer: *const u8,
                buffer_len: usize,
                out_len: usize,
            ) -> u32;)*
        }
        $(pub fn $read(table: &[u8], top: u32, message: &[u8], lent_len: usize) -> u32 {
            // SAFETY: each pointer comes with the length of its slice; nothing is written.
            unsafe { $icehub_read(table.as_ptr(), table.len(), top, message.as_ptr(), message.len(), lent_len) }
        })*
        $(pub fn $write(given: Given, out_len: usize) -> u32 {
            let Given { table, of, format, count, rows, buffer } = given;
            // SAFETY: each pointer comes with the length of its slice; nothing is written.
            unsafe {
                $icehub_write(
                    table.as_ptr(),
                    table.len(),
                    of,
                    format,
                    count,
                    rows.as_ptr(),
                    rows.len(),
                    buffer.as_ptr(),
                    buffer.len(),
                    out_len,
                )
            }
        })*
    };
}

numbers! {
    read {
        read_place = icehub_read_place;
        convert_place = icehub_convert_place;
        convert_length = icehub_convert_length;
    }
    write {
        write_place = icehub_write_place;
        write_length = icehub_write_length;
    }
}

extern "C" {
    fn icehub_night(
        table: *const u8,
        table_len: usize,
        top: u32,
        buffer: *const u8,
        buffer_len: usize,
        answers: *mut u8,
        answers_len: usize,
        rows: *mut u8,
        rows_len: usize,
    ) -> usize;
    fn icehub_night_place(
        table: *const u8,
        table_len: usize,
        top: u32,
        buffer: *const u8,
        buffer_len: usize,
        answers_len: usize,
        rows_len: usize,
    ) -> usize;
}

/// Reads the messages of a buffer: the number of answers, which are in `answers`; their rows are in `rows`.
pub fn night(table: &[u8], top: u32, buffer: &[u8], answers: &mut [u8], rows: &mut [u8]) -> usize {
    // SAFETY: each pointer comes with the length of its slice; only `answers` and `rows` are written.
    unsafe {
        icehub_night(
            table.as_ptr(),
            table.len(),
            top,
            buffer.as_ptr(),
            buffer.len(),
            answers.as_mut_ptr(),
            answers.len(),
            rows.as_mut_ptr(),
            rows.len(),
        )
    }
}

extern "C" {
    fn icehub_sheet(
        table: *const u8,
        table_len: usize,
        top: u32,
        buffer: *const u8,
        buffer_len: usize,
        member: u32,
        sheet: *mut u8,
        sheet_len: usize,
    ) -> u32;
    fn icehub_sheet_place(
        table: *const u8,
        table_len: usize,
        top: u32,
        buffer: *const u8,
        buffer_len: usize,
        member: u32,
        sheet: *const u8,
        sheet_len: usize,
    ) -> u32;
}

/// Adds the messages of a buffer to a sheet: 0 or the refusal's number.
pub fn sheet(table: &[u8], top: u32, buffer: &[u8], member: u32, sheet: &mut [u8]) -> u32 {
    // SAFETY: each pointer comes with the length of its slice; only `sheet` is written.
    unsafe {
        icehub_sheet(
            table.as_ptr(),
            table.len(),
            top,
            buffer.as_ptr(),
            buffer.len(),
            member,
            sheet.as_mut_ptr(),
            sheet.len(),
        )
    }
}

/// The place of the refusal of that call.
pub fn sheet_place(table: &[u8], top: u32, buffer: &[u8], member: u32, sheet: &[u8]) -> u32 {
    // SAFETY: as above; nothing is written.
    unsafe {
        icehub_sheet_place(
            table.as_ptr(),
            table.len(),
            top,
            buffer.as_ptr(),
            buffer.len(),
            member,
            sheet.as_ptr(),
            sheet.len(),
        )
    }
}

/// The place of what stopped the walk over a buffer, or its length.
pub fn night_place(table: &[u8], top: u32, buffer: &[u8], answers: usize, rows: usize) -> usize {
    // SAFETY: as above; nothing is written.
    unsafe { icehub_night_place(table.as_ptr(), table.len(), top, buffer.as_ptr(), buffer.len(), answers, rows) }
}

extern "C" {
    fn icehub_proxy_endpoint(proxy: *const u8, proxy_len: usize, n: u32, numbers: *mut u8, numbers_len: usize) -> u32;
    fn icehub_proxy_endpoint_place(proxy: *const u8, proxy_len: usize, n: u32, numbers_len: usize) -> u32;
    fn icehub_endpoint(bytes: *const u8, bytes_len: usize, numbers: *mut u8, numbers_len: usize) -> u32;
    fn icehub_endpoint_place(bytes: *const u8, bytes_len: usize, numbers_len: usize) -> u32;
    fn icehub_endpoint_write(
        of: u32,
        host: *const u8,
        host_len: usize,
        port: u32,
        timeout: u32,
        compress: bool,
        out: *mut u8,
        out_len: usize,
    ) -> u32;
    fn icehub_endpoint_write_place(
        of: u32,
        host: *const u8,
        host_len: usize,
        port: u32,
        timeout: u32,
        compress: bool,
        out_len: usize,
    ) -> u32;
    fn icehub_endpoint_write_length(
        of: u32,
        host: *const u8,
        host_len: usize,
        port: u32,
        timeout: u32,
        compress: bool,
        out_len: usize,
    ) -> u32;
}

/// Finds an endpoint of a proxy: how many there are, place and length; or the number and the place of a refusal.
pub fn proxy_endpoint(proxy: &[u8], n: u32) -> Result<[u32; 3], (u32, u32)> {
    let mut numbers = [0; 12];
    // SAFETY: each pointer comes with the length of its slice; only `numbers` is written.
    let refusal = unsafe { icehub_proxy_endpoint(proxy.as_ptr(), proxy.len(), n, numbers.as_mut_ptr(), numbers.len()) };
    match refusal {
        0 => Ok([0, 1, 2].map(|i| number(&numbers, i))),
        // SAFETY: as above; nothing is written.
        _ => Err((refusal, unsafe { icehub_proxy_endpoint_place(proxy.as_ptr(), proxy.len(), n, numbers.len()) })),
    }
}

/// Opens an endpoint: its seven numbers, or the number and the place of a refusal.
pub fn endpoint(bytes: &[u8]) -> Result<[u32; 7], (u32, u32)> {
    let mut numbers = [0; 28];
    // SAFETY: each pointer comes with the length of its slice; only `numbers` is written.
    let refusal = unsafe { icehub_endpoint(bytes.as_ptr(), bytes.len(), numbers.as_mut_ptr(), numbers.len()) };
    match refusal {
        0 => Ok([0, 1, 2, 3, 4, 5, 6].map(|i| number(&numbers, i))),
        // SAFETY: as above; nothing is written.
        _ => Err((refusal, unsafe { icehub_endpoint_place(bytes.as_ptr(), bytes.len(), numbers.len()) })),
    }
}

/// What the writer of an endpoint is given besides its output: type, host, port, timeout, compress.
pub type GivenEndpoint<'a> = (u32, &'a [u8], u32, u32, bool);

/// Writes an endpoint: its length, or the number and the place of a refusal.
pub fn endpoint_write(given: GivenEndpoint, out: &mut [u8]) -> Result<u32, (u32, u32)> {
    let (of, host, port, timeout, compress) = given;
    let (host, host_len) = (host.as_ptr(), host.len());
    // SAFETY: each pointer comes with the length of its slice; only `out` is written.
    unsafe {
        match icehub_endpoint_write(of, host, host_len, port, timeout, compress, out.as_mut_ptr(), out.len()) {
            0 => Ok(icehub_endpoint_write_length(of, host, host_len, port, timeout, compress, out.len())),
            no => Err((no, icehub_endpoint_write_place(of, host, host_len, port, timeout, compress, out.len()))),
        }
    }
}

extern "C" {
    fn icehub_check_plan(messages: *const u64, messages_len: usize, entries: *const u64, entries_len: usize) -> u32;
    fn icehub_check_plan_place(
        messages: *const u64,
        messages_len: usize,
        entries: *const u64,
        entries_len: usize,
    ) -> u64;
    fn icehub_plan(messages: *const u64, messages_len: usize, entries: *mut u64, entries_len: usize) -> u32;
    fn icehub_plan_place(messages: *const u64, messages_len: usize, entries_len: usize) -> u64;
}

/// Checks a burst plan: 0 or 46.
pub fn check_plan(messages: &[u64], entries: &[u64]) -> u32 {
    // SAFETY: each pointer comes with the length of its slice; nothing is written.
    unsafe { icehub_check_plan(messages.as_ptr(), messages.len(), entries.as_ptr(), entries.len()) }
}

/// The place of the check's refusal.
pub fn check_plan_place(messages: &[u64], entries: &[u64]) -> u64 {
    // SAFETY: as above.
    unsafe { icehub_check_plan_place(messages.as_ptr(), messages.len(), entries.as_ptr(), entries.len()) }
}

/// Plans bursts: 0 or the refusal number.
pub fn plan(messages: &[u64], entries: &mut [u64]) -> u32 {
    // SAFETY: as above; only `entries` is written.
    unsafe { icehub_plan(messages.as_ptr(), messages.len(), entries.as_mut_ptr(), entries.len()) }
}

/// The place of the planner's refusal, with a list of so many numbers.
pub fn plan_place(messages: &[u64], room: usize) -> u64 {
    // SAFETY: as above; nothing is written.
    unsafe { icehub_plan_place(messages.as_ptr(), messages.len(), room) }
}

extern "C" {
    fn icehub_guard_start(set_point: u16, state: *mut u8, state_len: usize) -> u32;
    fn icehub_guard_report(
        state: *const u8,
        state_len: usize,
        message: *const u8,
        message_len: usize,
        next: *mut u8,
        next_len: usize,
    ) -> u32;
    fn icehub_guard_place(
        state: *const u8,
        state_len: usize,
        message: *const u8,
        message_len: usize,
        next_len: usize,
    ) -> u32;
    fn icehub_guard_fires(
        state: *const u8,
        state_len: usize,
        message: *const u8,
        message_len: usize,
        next_len: usize,
    ) -> u32;
}

/// Puts the state of a frost guard at the start: 0 or 22.
pub fn guard_start(set_point: u16, state: &mut [u8]) -> u32 {
    // SAFETY: the pointer comes with the length of its slice; only `state` is written.
    unsafe { icehub_guard_start(set_point, state.as_mut_ptr(), state.len()) }
}

/// A report to a frost guard: 0 or the refusal number.
pub fn guard_report(state: &[u8], message: &[u8], next: &mut [u8]) -> u32 {
    // SAFETY: as above; only `next` is written.
    unsafe {
        icehub_guard_report(state.as_ptr(), state.len(), message.as_ptr(), message.len(), next.as_mut_ptr(), next.len())
    }
}

/// The place of its refusal, with `room` bytes for the state after it.
pub fn guard_place(state: &[u8], message: &[u8], room: usize) -> u32 {
    // SAFETY: as above; nothing is written.
    unsafe { icehub_guard_place(state.as_ptr(), state.len(), message.as_ptr(), message.len(), room) }
}

/// Whether the timer fires with it: 1 or 0.
pub fn guard_fires(state: &[u8], message: &[u8], room: usize) -> u32 {
    // SAFETY: as above.
    unsafe { icehub_guard_fires(state.as_ptr(), state.len(), message.as_ptr(), message.len(), room) }
}

extern "C" {
    fn icehub_compare(
        old: *const u8,
        old_len: usize,
        old_top: u32,
        new: *const u8,
        new_len: usize,
        new_top: u32,
        list: *mut u8,
        list_len: usize,
    ) -> u32;
    fn icehub_compare_place(
        old: *const u8,
        old_len: usize,
        old_top: u32,
        new: *const u8,
        new_len: usize,
        new_top: u32,
        list_len: usize,
    ) -> u32;
    fn icehub_compare_count(
        old: *const u8,
        old_len: usize,
        old_top: u32,
        new: *const u8,
        new_len: usize,
        new_top: u32,
        list_len: usize,
    ) -> u32;
    fn icehub_compare_extends(
        old: *const u8,
        old_len: usize,
        old_top: u32,
        new: *const u8,
        new_len: usize,
        new_top: u32,
        list_len: usize,
    ) -> u32;
}

/// Two tables compared: 0 or the refusal number.
pub fn compare(old: &[u8], old_top: u32, new: &[u8], new_top: u32, list: &mut [u8]) -> u32 {
    let (old, old_len, new, new_len) = (old.as_ptr(), old.len(), new.as_ptr(), new.len());
    // SAFETY: each pointer comes with the length of its slice; only `list` is written.
    unsafe { icehub_compare(old, old_len, old_top, new, new_len, new_top, list.as_mut_ptr(), list.len()) }
}

/// The place of a comparison's refusal, with a list of so many bytes.
pub fn compare_place(old: &[u8], old_top: u32, new: &[u8], new_top: u32, room: usize) -> u32 {
    let (old, old_len, new, new_len) = (old.as_ptr(), old.len(), new.as_ptr(), new.len());
    // SAFETY: as above; nothing is written.
    unsafe { icehub_compare_place(old, old_len, old_top, new, new_len, new_top, room) }
}

/// The number of differences.
pub fn compare_count(old: &[u8], old_top: u32, new: &[u8], new_top: u32, room: usize) -> u32 {
    let (old, old_len, new, new_len) = (old.as_ptr(), old.len(), new.as_ptr(), new.len());
    // SAFETY: as above; nothing is written.
    unsafe { icehub_compare_count(old, old_len, old_top, new, new_len, new_top, room) }
}

/// 1 if the new table extends the old one and the tops match.
pub fn compare_extends(old: &[u8], old_top: u32, new: &[u8], new_top: u32, room: usize) -> u32 {
    let (old, old_len, new, new_len) = (old.as_ptr(), old.len(), new.as_ptr(), new.len());
    // SAFETY: as above; nothing is written.
    unsafe { icehub_compare_extends(old, old_len, old_top, new, new_len, new_top, room) }
}
