//! The recorded calls of the gate, as crates/replay reads them from its file `stdin`, and the lines that it has to print.

use crate::bursts::PlanCall;
use crate::calls::{Answer, Call};
use crate::compare::CompareCall;
use crate::endpoint::EndpointCall;
use crate::frost::GuardCall;
use crate::json::hex;
use crate::night::Night;
use crate::sheet::SheetCall;
use crate::{forms, write, Reading};

/// A recorded call; one of the reader may be made with eight row records in place of the lent list.
#[derive(Clone, Debug)]
pub struct Recorded {
    pub call: Call,
    pub is_of_records: bool,
}

impl From<Call> for Recorded {
    fn from(call: Call) -> Recorded {
        Recorded { call, is_of_records: false }
    }
}

/// Takes numbers and bytes from the front of a file.
struct Records<'a>(&'a [u8]);

impl<'a> Records<'a> {
    fn take(&mut self, count: usize) -> Option<&'a [u8]> {
        let (taken, rest) = self.0.split_at_checked(count)?;
        self.0 = rest;
        Some(taken)
    }

    fn int(&mut self) -> Option<u32> {
        self.take(4)?.try_into().map(u32::from_le_bytes).ok()
    }

    /// A record: a table to hold, or a call under the table held. A call with row records is one of the reader with room
    /// for eight rows.
    fn record(&mut self, table: &mut Vec<u8>) -> Option<Option<Recorded>> {
        let (kind, length) = (self.int()?, self.int()?);
        let [a, b, c, d, e] = [self.int()?, self.int()?, self.int()?, self.int()?, self.int()?];
        let bytes = self.take(length as usize)?;
        let parts = |first: u32| bytes.split_at_checked(first as usize).map(|(x, y)| (x.to_vec(), y.to_vec()));
        let held = table.clone();
        let call = match kind {
            0 => {
                *table = bytes.to_vec();
                return Some(None);
            }
            1 => Call::Read { table: held, top: a, message: bytes.to_vec(), room: b as usize },
            2 => {
                let (message, fallback) = parts(c)?;
                Call::View { table: held, top: a, message, member: b, fallback }
            }
            3 => {
                let (rows, buffer) = parts(d)?;
                Call::Write { table: held, of: a, format: b, count: c, rows, buffer, room: e as usize }
            }
            4 => Call::Read { table: held, top: a, message: bytes.to_vec(), room: RECORDS },
            5 => Call::Check { table: held },
            6 => Call::Convert { table: held, top: a, message: bytes.to_vec(), room: b as usize },
            7 => {
                let (message, bytes) = parts(c)?;
                Call::Set { table: held, top: a, message, member: b, bytes, room: d as usize }
            }
            8 => Call::Remove { table: held, top: a, message: bytes.to_vec(), member: b, room: c as usize },
            9 => {
                let (answers, rows) = (b as usize, c as usize);
                Call::Night(Night { table: held, top: a, buffer: bytes.to_vec(), answers, rows })
            }
            10 => {
                let (buffer, sheet) = parts(c)?;
                Call::Sheet(SheetCall { table: held, top: a, buffer, member: b, sheet })
            }
            11 => Call::Compare(CompareCall::of_record([a, b, c, d], bytes)?),
            12 | 13 => Call::Endpoint(EndpointCall::of_record(kind, [a, b, c, d, e], bytes)),
            15 | 16 => Call::Plan(PlanCall::of_record(kind, a, bytes)?),
            14 => {
                let (state, message) = parts(b)?;
                Call::Guard(GuardCall { state, message, room: a as usize })
            }
            _ => return None,
        };
        Some(Some(Recorded { call, is_of_records: kind == 4 }))
    }
}

/// The bytes of eight rows.
pub const RECORDS: usize = 96;

/// The most bytes of a list that the program lends.
pub const MOST_LENT: usize = 65_536;

/// The calls of crates/replay; none if its file is cut off or has a record of another kind.
pub fn calls(stdin: &[u8]) -> Option<Vec<Recorded>> {
    let (mut records, mut calls, mut table) = (Records(stdin), vec![], vec![]);
    while !records.0.is_empty() {
        calls.extend(records.record(&mut table)?);
    }
    Some(calls)
}

impl Recorded {
    /// The record of the call without its table: its head and its bytes.
    fn record(&self) -> Vec<u8> {
        let (numbers, bytes) = match &self.call {
            Call::Check { .. } => ([5, 0, 0, 0, 0, 0], vec![]),
            Call::Read { top, message, .. } if self.is_of_records => ([4, *top, 0, 0, 0, 0], message.clone()),
            Call::Read { top, message, room, .. } => ([1, *top, *room as u32, 0, 0, 0], message.clone()),
            Call::View { top, message, member, fallback, .. } => {
                ([2, *top, *member, message.len() as u32, 0, 0], [&message[..], fallback].concat())
            }
            Call::Write { of, format, count, rows, buffer, room, .. } => {
                ([3, *of, *format, *count, rows.len() as u32, *room as u32], [&rows[..], buffer].concat())
            }
            Call::Convert { top, message, room, .. } => ([6, *top, *room as u32, 0, 0, 0], message.clone()),
            Call::Set { top, message, member, bytes, room, .. } => {
                ([7, *top, *member, message.len() as u32, *room as u32, 0], [&message[..], bytes].concat())
            }
            Call::Remove { top, message, member, room, .. } => {
                ([8, *top, *member, *room as u32, 0, 0], message.clone())
            }
            Call::Night(Night { top, buffer, answers, rows, .. }) => {
                ([9, *top, *answers as u32, *rows as u32, 0, 0], buffer.clone())
            }
            Call::Sheet(SheetCall { top, buffer, member, sheet, .. }) => {
                ([10, *top, *member, buffer.len() as u32, 0, 0], [&buffer[..], sheet].concat())
            }
            Call::Endpoint(call) => call.record(),
            Call::Plan(call) => {
                let (kind, first, bytes) = call.record();
                ([kind, first, 0, 0, 0, 0], bytes)
            }
            Call::Guard(GuardCall { state, message, room }) => {
                ([14, *room as u32, state.len() as u32, 0, 0, 0], [&state[..], message].concat())
            }
            Call::Compare(call) => call.record(),
        };
        let [kind, a, b, c, d, e] = numbers;
        record(kind, [a, b, c, d, e], &bytes)
    }

    /// The line that the program has to print for an answer.
    pub fn line(&self, answer: &Answer) -> String {
        let numbers = |numbers: &[u32]| numbers.iter().map(|number| format!("{number} ")).collect::<String>();
        match (&self.call, answer) {
            (Call::Check { table }, Answer::Check { refusal: (0, 0) }) => {
                format!("0 0 {}", forms(table).iter().map(|&form| letter(form)).collect::<String>())
            }
            (_, Answer::Check { refusal: (rule, place) }) => format!("{rule} {place}"),
            (_, Answer::Read { rows, .. }) if self.is_of_records => {
                let mut eight = rows.concat();
                eight.resize(24, 0);
                numbers(&eight)
            }
            (call, Answer::Read { refusal: (no, place), reading, rows }) => {
                let Reading { first, format, rows: count, optionals_skipped, slices_skipped } = *reading;
                let shown = [*no, *place, first, format, count, optionals_skipped, slices_skipped];
                let again = if *no == 0 && is_written_again(call, reading, rows) { "again" } else { "" };
                numbers(&shown) + &numbers(&rows.concat()) + again
            }
            (_, Answer::View { bytes, .. }) => hex(bytes),
            (_, Answer::Write { refusal: (no, place), out }) => numbers(&[*no, *place, out.len() as u32]) + &hex(out),
            (_, Answer::Night(walked)) => walked.line(),
            (_, Answer::Sheet(sheet)) => sheet.line(),
            (_, Answer::Endpoint(endpoint)) => endpoint.line(),
            (_, Answer::Plan(plan)) => plan.line(),
            (_, Answer::Guard(guard)) => guard.line(),
            (_, Answer::Compare(compared)) => compared.line(),
            (_, Answer::Astray) => "touched".to_string(),
        }
    }
}

/// The letter of an optional's form: a to e for F1 to F8 and Size, i for a size of its own, j for VSize, k for FSize.
fn letter((optional, has_own_size): (u8, bool)) -> char {
    match optional {
        5 if has_own_size => 'i',
        5 => 'j',
        6 => 'k',
        _ => char::from(b'a' + optional),
    }
}

/// Whether a message with nothing skipped, written again from its own rows in its own format, is the same. A compact
/// record is not: its format is refused.
fn is_written_again(call: &Call, reading: &Reading, rows: &[[u32; 3]]) -> bool {
    let Call::Read { table, message, .. } = call else { return false };
    let list: Vec<u8> = rows.iter().flatten().flat_map(|number| number.to_le_bytes()).collect();
    let mut out = vec![0; 65_536];
    let Reading { first, format, rows: count, optionals_skipped, slices_skipped } = *reading;
    (optionals_skipped, slices_skipped) == (0, 0)
        && write(table, first, format, count, &list, message, &mut out)
            .is_ok_and(|length| out[..length as usize] == message[..])
}

/// A record: a head of seven numbers, then its bytes.
fn record(kind: u32, numbers: [u32; 5], bytes: &[u8]) -> Vec<u8> {
    let head = [kind, bytes.len() as u32].into_iter().chain(numbers);
    head.flat_map(u32::to_le_bytes).chain(bytes.iter().copied()).collect()
}

/// The file of these calls, with each table before the first call under it.
pub fn stdin(calls: &[Recorded]) -> Vec<u8> {
    let mut file = vec![];
    let mut held = None;
    for call in calls {
        let table = call.call.table();
        let own = matches!(call.call, Call::Endpoint(_) | Call::Plan(_) | Call::Guard(_) | Call::Compare(_));
        if held != Some(table) && !own {
            held = Some(table);
            file.extend(record(0, [0; 5], table));
        }
        file.extend(call.record());
    }
    file
}

#[cfg(test)]
mod tests {
    use super::*;

    const STDIN: &[u8] = include_bytes!("../../../crates/replay/stdin");

    /// The line of each call is what the program has to print, and the file is that of its calls.
    #[test]
    fn as_replayed() {
        let (calls, lines) = (calls(STDIN).unwrap(), include_str!("../../../crates/replay/stdout"));
        assert_eq!(calls.len(), lines.lines().count());
        for (recorded, line) in calls.iter().zip(lines.lines()) {
            let answer = recorded.call.answer();
            assert_eq!(recorded.line(&answer), line, "{}", recorded.call.json(&answer));
        }
        assert!(stdin(&calls) == STDIN);
    }

    #[test]
    fn cut_off() {
        assert!(calls(&STDIN[..STDIN.len() - 1]).is_none());
    }
}
