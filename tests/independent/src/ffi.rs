//! The proved library over C (libicehub.a): a slice is its pointer, then its length; 0 or the refusal number comes
//! back, the place and the other numbers by further calls on the same input.

pub mod endpoint;
pub mod night;
pub mod sheet;

use crate::bursts::{self, PlanAnswer, PlanCall};
use crate::calls::{Answer, Call, LENT};
use crate::compare::{CompareCall, Compared};
use crate::frost::{GuardAnswer, GuardCall};
use crate::Reading;
use std::hint::black_box;

extern "C" {
    fn icehub_table(table: *const u8, table_length: usize) -> u32;
    fn icehub_table_place(table: *const u8, table_length: usize) -> u32;
    fn icehub_read(
        table: *const u8,
        table_length: usize,
        top: u32,
        message: *const u8,
        message_length: usize,
        rows: *mut u8,
        rows_length: usize,
    ) -> u32;
    fn icehub_read_numbers(
        table: *const u8,
        table_length: usize,
        top: u32,
        message: *const u8,
        message_length: usize,
        rows: *mut u8,
        rows_length: usize,
        numbers: *mut u8,
        numbers_length: usize,
    ) -> u32;
    fn icehub_member(
        table: *const u8,
        table_length: usize,
        top: u32,
        message: *const u8,
        message_length: usize,
        member: u32,
        numbers: *mut u8,
        numbers_length: usize,
    ) -> u32;
    fn icehub_write(
        table: *const u8,
        table_length: usize,
        of: u32,
        format: u32,
        count: u32,
        rows: *const u8,
        rows_length: usize,
        buffer: *const u8,
        buffer_length: usize,
        out: *mut u8,
        out_length: usize,
    ) -> u32;
    fn icehub_convert(
        table: *const u8,
        table_length: usize,
        top: u32,
        message: *const u8,
        message_length: usize,
        out: *mut u8,
        out_length: usize,
    ) -> u32;
    fn icehub_set(
        table: *const u8,
        table_length: usize,
        top: u32,
        message: *const u8,
        message_length: usize,
        member: u32,
        bytes: *const u8,
        bytes_length: usize,
        out: *mut u8,
        out_length: usize,
    ) -> u32;
    fn icehub_remove(
        table: *const u8,
        table_length: usize,
        top: u32,
        message: *const u8,
        message_length: usize,
        member: u32,
        out: *mut u8,
        out_length: usize,
    ) -> u32;
}

/// Declares the further calls of the reader, which the converter's are like, of the writer, and of set and remove; they
/// differ in their names only.
macro_rules! further {
    (read: $($read:ident)*; write: $($write:ident)*; set: $($set:ident)*; remove: $($remove:ident)*) => {
        extern "C" {
            $(fn $read(
                table: *const u8,
                table_length: usize,
                top: u32,
                message: *const u8,
                message_length: usize,
                rows_length: usize,
            ) -> u32;)*
            $(fn $write(
                table: *const u8,
                table_length: usize,
                of: u32,
                format: u32,
                count: u32,
                rows: *const u8,
                rows_length: usize,
                buffer: *const u8,
                buffer_length: usize,
                out_length: usize,
            ) -> u32;)*
            $(fn $set(
                table: *const u8,
                table_length: usize,
                top: u32,
                message: *const u8,
                message_length: usize,
                member: u32,
                bytes: *const u8,
                bytes_length: usize,
                out_length: usize,
            ) -> u32;)*
            $(fn $remove(
                table: *const u8,
                table_length: usize,
                top: u32,
                message: *const u8,
                message_length: usize,
                member: u32,
                out_length: usize,
            ) -> u32;)*
        }
    };
}

further! {
    read: icehub_read_place icehub_read_type icehub_read_format icehub_read_count
        icehub_read_optionals_skipped icehub_read_slices_skipped
        icehub_convert_place icehub_convert_length;
    write: icehub_write_place icehub_write_length;
    set: icehub_set_place icehub_set_length;
    remove: icehub_remove_place icehub_remove_length
}

/// The reader: 0 or the refusal number.
pub fn read(table: &[u8], top: u32, message: &[u8], rows: &mut [u8]) -> u32 {
    // SAFETY: each pointer comes with the length of its slice; only `rows` is written.
    unsafe {
        icehub_read(table.as_ptr(), table.len(), top, message.as_ptr(), message.len(), rows.as_mut_ptr(), rows.len())
    }
}

/// The place of the reader's refusal.
pub fn read_place(table: &[u8], top: u32, message: &[u8], room: usize) -> u32 {
    // SAFETY: as above; nothing is written.
    unsafe { icehub_read_place(table.as_ptr(), table.len(), top, message.as_ptr(), message.len(), room) }
}

/// The reader with its five numbers: 0 or the refusal number.
pub fn read_numbers(table: &[u8], top: u32, message: &[u8], rows: &mut [u8], numbers: &mut [u8]) -> u32 {
    // SAFETY: as above; only `rows` and `numbers` are written.
    unsafe {
        icehub_read_numbers(
            table.as_ptr(),
            table.len(),
            top,
            message.as_ptr(),
            message.len(),
            rows.as_mut_ptr(),
            rows.len(),
            numbers.as_mut_ptr(),
            numbers.len(),
        )
    }
}

/// The member view: 0 or the refusal number.
pub fn member(table: &[u8], top: u32, message: &[u8], member: u32, numbers: &mut [u8]) -> u32 {
    // SAFETY: as above; only `numbers` is written.
    unsafe {
        icehub_member(
            table.as_ptr(),
            table.len(),
            top,
            message.as_ptr(),
            message.len(),
            member,
            numbers.as_mut_ptr(),
            numbers.len(),
        )
    }
}

/// The writer: 0 or the refusal number.
pub fn write(table: &[u8], of: u32, format: u32, count: u32, rows: &[u8], buffer: &[u8], out: &mut [u8]) -> u32 {
    // SAFETY: as above; only `out` is written.
    unsafe {
        icehub_write(
            table.as_ptr(),
            table.len(),
            of,
            format,
            count,
            rows.as_ptr(),
            rows.len(),
            buffer.as_ptr(),
            buffer.len(),
            out.as_mut_ptr(),
            out.len(),
        )
    }
}

/// The converter: 0 or the refusal number.
pub fn convert(table: &[u8], top: u32, message: &[u8], out: &mut [u8]) -> u32 {
    // SAFETY: as above; only `out` is written.
    unsafe {
        icehub_convert(table.as_ptr(), table.len(), top, message.as_ptr(), message.len(), out.as_mut_ptr(), out.len())
    }
}

/// Sets an optional: 0 or the refusal number.
pub fn set(table: &[u8], top: u32, message: &[u8], member: u32, bytes: &[u8], out: &mut [u8]) -> u32 {
    // SAFETY: as above; only `out` is written.
    unsafe {
        icehub_set(
            table.as_ptr(),
            table.len(),
            top,
            message.as_ptr(),
            message.len(),
            member,
            bytes.as_ptr(),
            bytes.len(),
            out.as_mut_ptr(),
            out.len(),
        )
    }
}

/// Removes an optional: 0 or the refusal number.
pub fn remove(table: &[u8], top: u32, message: &[u8], member: u32, out: &mut [u8]) -> u32 {
    // SAFETY: as above; only `out` is written.
    unsafe {
        icehub_remove(
            table.as_ptr(),
            table.len(),
            top,
            message.as_ptr(),
            message.len(),
            member,
            out.as_mut_ptr(),
            out.len(),
        )
    }
}

type ReadNumber = unsafe extern "C" fn(*const u8, usize, u32, *const u8, usize, usize) -> u32;
type WriteNumber =
    unsafe extern "C" fn(*const u8, usize, u32, u32, u32, *const u8, usize, *const u8, usize, usize) -> u32;
type SetNumber = unsafe extern "C" fn(*const u8, usize, u32, *const u8, usize, u32, *const u8, usize, usize) -> u32;
type RemoveNumber = unsafe extern "C" fn(*const u8, usize, u32, *const u8, usize, u32, usize) -> u32;

/// The further calls, by their names.
const READ_NUMBERS: [(&str, ReadNumber); 6] = [
    ("icehub_read_place", icehub_read_place),
    ("icehub_read_type", icehub_read_type),
    ("icehub_read_format", icehub_read_format),
    ("icehub_read_count", icehub_read_count),
    ("icehub_read_optionals_skipped", icehub_read_optionals_skipped),
    ("icehub_read_slices_skipped", icehub_read_slices_skipped),
];
const CONVERT_NUMBERS: [(&str, ReadNumber); 2] =
    [("icehub_convert_place", icehub_convert_place), ("icehub_convert_length", icehub_convert_length)];
const WRITE_NUMBERS: [(&str, WriteNumber); 2] =
    [("icehub_write_place", icehub_write_place), ("icehub_write_length", icehub_write_length)];
const SET_NUMBERS: [(&str, SetNumber); 2] =
    [("icehub_set_place", icehub_set_place), ("icehub_set_length", icehub_set_length)];
const REMOVE_NUMBERS: [(&str, RemoveNumber); 2] =
    [("icehub_remove_place", icehub_remove_place), ("icehub_remove_length", icehub_remove_length)];

/// The bytes of the numbers of a reading, and of a member view.
const NUMBERS: usize = 20;
const VIEW: usize = 12;

/// The numbers as they are lent.
fn numbers_of(bytes: &[u8]) -> Vec<u32> {
    bytes.as_chunks().0.iter().map(|&number| u32::from_le_bytes(number)).collect()
}

/// Whether the reader with its numbers agrees with the reader and its further calls, for numbers that are too short,
/// exact and too long. What it should leave in the list is what the reader left there.
fn numbers_agree(call: (&[u8], u32, &[u8]), refusal: u32, reading: &Reading, list: &[u8]) -> bool {
    let (table, top, message) = call;
    [0, NUMBERS - 1, NUMBERS, NUMBERS + 3].into_iter().all(|length| {
        let (mut rows, mut numbers) = (vec![LENT; list.len()], vec![LENT; length]);
        let given = read_numbers(table, top, message, &mut rows, &mut numbers);
        let (first, beyond) = numbers.split_at(length.min(NUMBERS));
        let kept = |bytes: &[u8]| bytes.iter().all(|&byte| byte == LENT);
        if refusal != 0 {
            given == refusal && rows == list && kept(&numbers)
        } else if length < NUMBERS {
            given == 22 && kept(&rows) && kept(&numbers)
        } else {
            let Reading { first: of, format, rows: count, optionals_skipped, slices_skipped } = *reading;
            let expected = [of, format, count, optionals_skipped, slices_skipped];
            given == 0 && rows == list && numbers_of(first) == expected && kept(beyond)
        }
    })
}

/// The member view's answer, for numbers that are too short, exact and too long: the bytes found, or a refusal, which
/// is the reader's with room for all rows.
fn view(call: (&[u8], u32, &[u8]), wanted: u32, fallback: &[u8]) -> Answer {
    let (table, top, message) = call;
    let refusal = read(table, top, message, &mut vec![LENT; 12 * 1_024]);
    let kept = |bytes: &[u8]| bytes.iter().all(|&byte| byte == LENT);
    for length in [0, VIEW - 1] {
        let mut numbers = vec![LENT; length];
        let given = member(table, top, message, wanted, &mut numbers);
        if given != if refusal != 0 { refusal } else { 22 } || !kept(&numbers) {
            return Answer::Astray;
        }
    }
    let mut numbers = [LENT; VIEW + 3];
    let given = member(table, top, message, wanted, &mut numbers);
    let (first, beyond) = numbers.split_at(VIEW);
    if given != refusal || !kept(beyond) || given != 0 && !kept(first) {
        return Answer::Astray;
    }
    let (from, bytes) = match (given, &numbers_of(first)[..]) {
        (0, &[1, place, length]) => match message.get(place as usize..).and_then(|rest| rest.get(..length as usize)) {
            Some(part) => ("msg", part),
            None => return Answer::Astray,
        },
        (0, [2, 0, 0]) => ("fallback", fallback),
        (0, [0, 0, 0]) => ("empty", &[][..]),
        (0, _) => return Answer::Astray,
        _ => ("empty", &[][..]),
    };
    Answer::View { from: if bytes.is_empty() { "empty" } else { from }, bytes: bytes.to_vec() }
}

/// Hands `run` each call of the library on this input, with its name, to be made once.
pub fn each(call: &Call, mut run: impl FnMut(&'static str, &mut dyn FnMut())) {
    match call {
        Call::Read { table, top, message, room } => {
            let mut lent = vec![LENT; *room];
            run("icehub_read", &mut || {
                black_box(read(table, *top, message, &mut lent));
            });
            let mut numbers = [LENT; NUMBERS];
            run("icehub_read_numbers", &mut || {
                black_box(read_numbers(table, *top, message, &mut lent, &mut numbers));
            });
            run("icehub_member", &mut || {
                black_box(member(table, *top, message, 0, &mut numbers));
            });
            let (table, message) = (&table[..], &message[..]);
            for (name, number) in READ_NUMBERS {
                // SAFETY: each pointer comes with the length of its slice; nothing is written.
                run(name, &mut || unsafe {
                    black_box(number(table.as_ptr(), table.len(), *top, message.as_ptr(), message.len(), *room));
                });
            }
        }
        Call::Write { table, of, format, count, rows, buffer, room } => {
            let mut lent = vec![LENT; *room];
            run("icehub_write", &mut || {
                black_box(write(table, *of, *format, *count, rows, buffer, &mut lent));
            });
            let (table, rows, buffer) = (&table[..], &rows[..], &buffer[..]);
            for (name, number) in WRITE_NUMBERS {
                // SAFETY: as above.
                run(name, &mut || unsafe {
                    black_box(number(
                        table.as_ptr(),
                        table.len(),
                        *of,
                        *format,
                        *count,
                        rows.as_ptr(),
                        rows.len(),
                        buffer.as_ptr(),
                        buffer.len(),
                        *room,
                    ));
                });
            }
        }
        Call::Check { table } => {
            run("icehub_table", &mut || {
                // SAFETY: the pointer comes with the length of its slice; nothing is written.
                black_box(unsafe { icehub_table(table.as_ptr(), table.len()) });
            });
            run("icehub_table_place", &mut || {
                // SAFETY: as above.
                black_box(unsafe { icehub_table_place(table.as_ptr(), table.len()) });
            });
        }
        Call::Night(call) => {
            let (mut answers, mut rows) = (vec![LENT; call.answers], vec![LENT; call.rows]);
            run("icehub_night", &mut || {
                black_box(night::night(&call.table, call.top, &call.buffer, &mut answers, &mut rows));
            });
            run("icehub_night_place", &mut || {
                black_box(night::place(&call.table, call.top, &call.buffer, call.answers, call.rows));
            });
        }
        Call::Sheet(call) => {
            let mut lent = call.sheet.clone();
            run("icehub_sheet", &mut || {
                lent.copy_from_slice(&call.sheet);
                black_box(sheet::sheet(&call.table, call.top, &call.buffer, call.member, &mut lent));
            });
            run("icehub_sheet_place", &mut || {
                black_box(sheet::place(&call.table, call.top, &call.buffer, call.member, &call.sheet));
            });
        }
        Call::View { .. } => {}
        Call::Guard(call) => each_guard(call, &mut run),
        Call::Compare(call) => each_compare(call, &mut run),
        Call::Convert { table, top, message, room } => {
            let mut lent = vec![LENT; *room];
            run("icehub_convert", &mut || {
                black_box(convert(table, *top, message, &mut lent));
            });
            let (table, message) = (&table[..], &message[..]);
            for (name, number) in CONVERT_NUMBERS {
                // SAFETY: as above.
                run(name, &mut || unsafe {
                    black_box(number(table.as_ptr(), table.len(), *top, message.as_ptr(), message.len(), *room));
                });
            }
        }
        Call::Set { table, top, message, member, bytes, room } => {
            let mut lent = vec![LENT; *room];
            run("icehub_set", &mut || {
                black_box(set(table, *top, message, *member, bytes, &mut lent));
            });
            for (name, number) in SET_NUMBERS {
                run(name, &mut || {
                    black_box(set_number(number, (table, *top, message), *member, bytes, *room));
                });
            }
        }
        Call::Remove { table, top, message, member, room } => {
            let mut lent = vec![LENT; *room];
            run("icehub_remove", &mut || {
                black_box(remove(table, *top, message, *member, &mut lent));
            });
            for (name, number) in REMOVE_NUMBERS {
                run(name, &mut || {
                    black_box(remove_number(number, (table, *top, message), *member, *room));
                });
            }
        }
        Call::Endpoint(call) => endpoint::each(call, run),
        Call::Plan(call) => each_plan(call, &mut run),
    }
}

/// A further call of `set`.
fn set_number(number: SetNumber, call: (&[u8], u32, &[u8]), member: u32, bytes: &[u8], room: usize) -> u32 {
    let (table, top, message) = call;
    let (table, length) = (table.as_ptr(), table.len());
    // SAFETY: each pointer comes with the length of its slice; nothing is written.
    unsafe { number(table, length, top, message.as_ptr(), message.len(), member, bytes.as_ptr(), bytes.len(), room) }
}

/// A further call of `remove`.
fn remove_number(number: RemoveNumber, call: (&[u8], u32, &[u8]), member: u32, room: usize) -> u32 {
    let (table, top, message) = call;
    // SAFETY: as above.
    unsafe { number(table.as_ptr(), table.len(), top, message.as_ptr(), message.len(), member, room) }
}

/// The library's answer to a call; none to a call that C does not have.
pub fn answer(call: &Call) -> Option<Answer> {
    match call {
        Call::Read { table, top, message, room } => {
            let mut lent = vec![LENT; *room];
            let refusal = read(table, *top, message, &mut lent);
            let (table, message) = (&table[..], &message[..]);
            // SAFETY: each pointer comes with the length of its slice; nothing is written.
            let further = |number: ReadNumber| unsafe {
                number(table.as_ptr(), table.len(), *top, message.as_ptr(), message.len(), *room)
            };
            let reading = Reading {
                first: further(icehub_read_type),
                format: further(icehub_read_format),
                rows: further(icehub_read_count),
                optionals_skipped: further(icehub_read_optionals_skipped),
                slices_skipped: further(icehub_read_slices_skipped),
            };
            if !numbers_agree((table, *top, message), refusal, &reading, &lent) {
                return Some(Answer::Astray);
            }
            Some(Answer::of_read((refusal, further(icehub_read_place)), reading, &lent))
        }
        Call::Write { table, of, format, count, rows, buffer, room } => {
            let mut lent = vec![LENT; *room];
            let refusal = write(table, *of, *format, *count, rows, buffer, &mut lent);
            let (rows_length, buffer_length) = (rows.len(), buffer.len());
            let (table, length) = (table.as_ptr(), table.len());
            let (rows, buffer) = (rows.as_ptr(), buffer.as_ptr());
            // SAFETY: as above.
            let further = |number: WriteNumber| unsafe {
                number(table, length, *of, *format, *count, rows, rows_length, buffer, buffer_length, *room)
            };
            Some(Answer::of_write((refusal, further(icehub_write_place)), further(icehub_write_length), &lent))
        }
        Call::Convert { table, top, message, room } => {
            let mut lent = vec![LENT; *room];
            let refusal = convert(table, *top, message, &mut lent);
            let (table, message) = (&table[..], &message[..]);
            // SAFETY: as above.
            let further = |number: ReadNumber| unsafe {
                number(table.as_ptr(), table.len(), *top, message.as_ptr(), message.len(), *room)
            };
            Some(Answer::of_write((refusal, further(icehub_convert_place)), further(icehub_convert_length), &lent))
        }
        Call::Set { table, top, message, member, bytes, room } => {
            let mut lent = vec![LENT; *room];
            let refusal = set(table, *top, message, *member, bytes, &mut lent);
            let further = |number| set_number(number, (table, *top, message), *member, bytes, *room);
            Some(Answer::of_write((refusal, further(icehub_set_place)), further(icehub_set_length), &lent))
        }
        Call::Remove { table, top, message, member, room } => {
            let mut lent = vec![LENT; *room];
            let refusal = remove(table, *top, message, *member, &mut lent);
            let further = |number| remove_number(number, (table, *top, message), *member, *room);
            Some(Answer::of_write((refusal, further(icehub_remove_place)), further(icehub_remove_length), &lent))
        }
        Call::View { table, top, message, member, fallback } => Some(view((table, *top, message), *member, fallback)),
        Call::Guard(call) => Some(guard_answer(call)),
        Call::Check { table } => {
            // SAFETY: each pointer comes with the length of its slice; nothing is written.
            let refusal =
                unsafe { (icehub_table(table.as_ptr(), table.len()), icehub_table_place(table.as_ptr(), table.len())) };
            Some(Answer::Check { refusal })
        }
        Call::Night(call) => Some(night::answer(call).map_or(Answer::Astray, Answer::Night)),
        Call::Sheet(call) => Some(Answer::Sheet(sheet::answer(call))),
        Call::Endpoint(call) => Some(endpoint::answer(call)),
        Call::Plan(call) => Some(plan_answer(call)),
        Call::Compare(call) => Some(compare_answer(call)),
    }
}

extern "C" {
    fn icehub_check_plan(
        messages: *const u64,
        messages_length: usize,
        entries: *const u64,
        entries_length: usize,
    ) -> u32;
    fn icehub_check_plan_place(
        messages: *const u64,
        messages_length: usize,
        entries: *const u64,
        entries_length: usize,
    ) -> u64;
    fn icehub_plan(messages: *const u64, messages_length: usize, entries: *mut u64, entries_length: usize) -> u32;
    fn icehub_plan_place(messages: *const u64, messages_length: usize, entries_length: usize) -> u64;
}

/// The check of a plan: 0 or 46.
pub fn check_plan(messages: &[u64], entries: &[u64]) -> u32 {
    // SAFETY: each pointer comes with the length of its slice; nothing is written.
    unsafe { icehub_check_plan(messages.as_ptr(), messages.len(), entries.as_ptr(), entries.len()) }
}

/// The planner: 0 or the refusal number.
pub fn plan(messages: &[u64], entries: &mut [u64]) -> u32 {
    // SAFETY: as above; only `entries` is written.
    unsafe { icehub_plan(messages.as_ptr(), messages.len(), entries.as_mut_ptr(), entries.len()) }
}

/// The library's answer to a call on burst plans.
fn plan_answer(call: &PlanCall) -> Answer {
    match call {
        PlanCall::Check { messages, entries } => {
            // SAFETY: as above; nothing is written.
            let place =
                unsafe { icehub_check_plan_place(messages.as_ptr(), messages.len(), entries.as_ptr(), entries.len()) };
            Answer::Plan(PlanAnswer { refusal: (check_plan(messages, entries), place), entries: vec![] })
        }
        PlanCall::Plan { messages, room } => {
            let mut lent = vec![bursts::LENT; *room];
            let refusal = plan(messages, &mut lent);
            // SAFETY: as above.
            let place = unsafe { icehub_plan_place(messages.as_ptr(), messages.len(), *room) };
            call.of_plan((refusal, place), &lent)
        }
    }
}

/// Hands `run` each call of the library on these lists, with its name, to be made once.
fn each_plan(call: &PlanCall, run: &mut impl FnMut(&'static str, &mut dyn FnMut())) {
    match call {
        PlanCall::Check { messages, entries } => {
            run("icehub_check_plan", &mut || {
                black_box(check_plan(messages, entries));
            });
            // SAFETY: as above.
            run("icehub_check_plan_place", &mut || unsafe {
                let (messages_length, entries_length) = (messages.len(), entries.len());
                black_box(icehub_check_plan_place(
                    messages.as_ptr(),
                    messages_length,
                    entries.as_ptr(),
                    entries_length,
                ));
            });
        }
        PlanCall::Plan { messages, room } => {
            let mut lent = vec![bursts::LENT; *room];
            run("icehub_plan", &mut || {
                black_box(plan(messages, &mut lent));
            });
            // SAFETY: as above.
            run("icehub_plan_place", &mut || unsafe {
                black_box(icehub_plan_place(messages.as_ptr(), messages.len(), *room));
            });
        }
    }
}

extern "C" {
    fn icehub_guard_start(set_point: u16, state: *mut u8, state_length: usize) -> u32;
    fn icehub_guard_report(
        state: *const u8,
        state_length: usize,
        message: *const u8,
        message_length: usize,
        next: *mut u8,
        next_length: usize,
    ) -> u32;
    fn icehub_guard_place(
        state: *const u8,
        state_length: usize,
        message: *const u8,
        message_length: usize,
        next_length: usize,
    ) -> u32;
    fn icehub_guard_fires(
        state: *const u8,
        state_length: usize,
        message: *const u8,
        message_length: usize,
        next_length: usize,
    ) -> u32;
}

/// The guard at the start: 0 or 22.
pub fn guard_start(set_point: i16, state: &mut [u8]) -> u32 {
    // SAFETY: the pointer comes with the length of its slice; only `state` is written.
    unsafe { icehub_guard_start(set_point as u16, state.as_mut_ptr(), state.len()) }
}

/// A report: 0 or the refusal number.
pub fn guard_report(state: &[u8], message: &[u8], next: &mut [u8]) -> u32 {
    // SAFETY: as above; only `next` is written.
    unsafe {
        icehub_guard_report(state.as_ptr(), state.len(), message.as_ptr(), message.len(), next.as_mut_ptr(), next.len())
    }
}

/// Place of the refusal, and whether the timer fires.
fn guard_numbers(state: &[u8], message: &[u8], room: usize) -> [u32; 2] {
    // SAFETY: as above; nothing is written.
    unsafe {
        [
            icehub_guard_place(state.as_ptr(), state.len(), message.as_ptr(), message.len(), room),
            icehub_guard_fires(state.as_ptr(), state.len(), message.as_ptr(), message.len(), room),
        ]
    }
}

/// The library's answer to a report.
fn guard_answer(call: &GuardCall) -> Answer {
    let GuardCall { state, message, room } = call;
    let mut lent = vec![LENT; *room];
    let refusal = guard_report(state, message, &mut lent);
    match guard_numbers(state, message, *room) {
        [place, fires @ 0..=1] => GuardAnswer::of((refusal, place), fires == 1, &lent),
        _ => Answer::Astray,
    }
}

type CompareNumber = unsafe extern "C" fn(
    old: *const u8,
    old_length: usize,
    old_top: u32,
    new: *const u8,
    new_length: usize,
    new_top: u32,
    room: usize,
) -> u32;

extern "C" {
    fn icehub_compare(
        old: *const u8,
        old_length: usize,
        old_top: u32,
        new: *const u8,
        new_length: usize,
        new_top: u32,
        list: *mut u8,
        list_length: usize,
    ) -> u32;
    fn icehub_compare_place(
        old: *const u8,
        old_length: usize,
        old_top: u32,
        new: *const u8,
        new_length: usize,
        new_top: u32,
        room: usize,
    ) -> u32;
    fn icehub_compare_count(
        old: *const u8,
        old_length: usize,
        old_top: u32,
        new: *const u8,
        new_length: usize,
        new_top: u32,
        room: usize,
    ) -> u32;
    fn icehub_compare_extends(
        old: *const u8,
        old_length: usize,
        old_top: u32,
        new: *const u8,
        new_length: usize,
        new_top: u32,
        room: usize,
    ) -> u32;
}

/// The calls that tell the numbers of a comparison, with their names.
const COMPARE_NUMBERS: [(&str, CompareNumber); 3] = [
    ("icehub_compare_place", icehub_compare_place),
    ("icehub_compare_count", icehub_compare_count),
    ("icehub_compare_extends", icehub_compare_extends),
];

/// Two tables compared: 0 or the refusal number.
pub fn compare(call: &CompareCall, list: &mut [u8]) -> u32 {
    let (old, new) = (&call.old[..], &call.new[..]);
    // SAFETY: each pointer comes with the length of its slice; only `list` is written.
    unsafe {
        icehub_compare(
            old.as_ptr(),
            old.len(),
            call.old_top,
            new.as_ptr(),
            new.len(),
            call.new_top,
            list.as_mut_ptr(),
            list.len(),
        )
    }
}

/// One of the numbers of a comparison.
fn compare_number(number: CompareNumber, call: &CompareCall) -> u32 {
    let (old, new) = (&call.old[..], &call.new[..]);
    // SAFETY: as above; nothing is written.
    unsafe { number(old.as_ptr(), old.len(), call.old_top, new.as_ptr(), new.len(), call.new_top, call.room) }
}

/// The library's answer to a comparison.
fn compare_answer(call: &CompareCall) -> Answer {
    let mut list = vec![LENT; call.room];
    let refusal = compare(call, &mut list);
    let [place, count, extends] = COMPARE_NUMBERS.map(|(_, number)| compare_number(number, call));
    match extends {
        0 | 1 => Compared::of_list((refusal, place), count, extends == 1, &list),
        _ => Answer::Astray,
    }
}

/// Hands `run` each call of the library on this report, with its name, to be made once.
fn each_guard(call: &GuardCall, run: &mut impl FnMut(&'static str, &mut dyn FnMut())) {
    let GuardCall { state, message, room } = call;
    let mut lent = vec![LENT; *room];
    run("icehub_guard_report", &mut || {
        black_box(guard_report(state, message, &mut lent));
    });
    run("icehub_guard_place, icehub_guard_fires", &mut || {
        black_box(guard_numbers(state, message, *room));
    });
    run("icehub_guard_start", &mut || {
        black_box(guard_start(0, &mut lent));
    });
}

/// Hands `run` each call of the library on these tables, with its name, to be made once.
fn each_compare(call: &CompareCall, run: &mut impl FnMut(&'static str, &mut dyn FnMut())) {
    let mut list = vec![LENT; call.room];
    run("icehub_compare", &mut || {
        black_box(compare(call, &mut list));
    });
    for (name, number) in COMPARE_NUMBERS {
        run(name, &mut || {
            black_box(compare_number(number, call));
        });
    }
}
