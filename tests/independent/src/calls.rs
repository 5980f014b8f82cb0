//! Calls and their answers, as the recorded calls have them: one JSON object a line.

use crate::bursts::{PlanAnswer, PlanCall};
use crate::compare::{CompareCall, Compared};
use crate::endpoint::{EndpointAnswer, EndpointCall};
use crate::frost::{GuardAnswer, GuardCall};
use crate::json::{hex, Json};
use crate::night::{Night, Walked};
use crate::sheet::{SheetAnswer, SheetCall};
use crate::{check, convert, member, read, remove, set, write, Reading, Refusal};

#[derive(Clone, Debug)]
pub enum Call {
    Check {
        table: Vec<u8>,
    },
    /// `room` bytes of the lent list.
    Read {
        table: Vec<u8>,
        top: u32,
        message: Vec<u8>,
        room: usize,
    },
    /// `room` bytes of the output.
    Write {
        table: Vec<u8>,
        of: u32,
        format: u32,
        count: u32,
        rows: Vec<u8>,
        buffer: Vec<u8>,
        room: usize,
    },
    View {
        table: Vec<u8>,
        top: u32,
        message: Vec<u8>,
        member: u32,
        fallback: Vec<u8>,
    },
    /// `room` bytes of the output.
    Convert {
        table: Vec<u8>,
        top: u32,
        message: Vec<u8>,
        room: usize,
    },
    /// `room` bytes of the output.
    Set {
        table: Vec<u8>,
        top: u32,
        message: Vec<u8>,
        member: u32,
        bytes: Vec<u8>,
        room: usize,
    },
    /// `room` bytes of the output.
    Remove {
        table: Vec<u8>,
        top: u32,
        message: Vec<u8>,
        member: u32,
        room: usize,
    },
    Night(Night),
    Sheet(SheetCall),
    Endpoint(EndpointCall),
    Plan(PlanCall),
    Guard(GuardCall),
    Compare(CompareCall),
}

#[derive(Clone, Debug, PartialEq)]
pub enum Answer {
    Check {
        refusal: Refusal,
    },
    /// `reading.rows` is the number of `rows`.
    Read {
        refusal: Refusal,
        reading: Reading,
        rows: Vec<[u32; 3]>,
    },
    /// The converter's too, and that of a change.
    Write {
        refusal: Refusal,
        out: Vec<u8>,
    },
    View {
        from: &'static str,
        bytes: Vec<u8>,
    },
    Night(Walked),
    Sheet(SheetAnswer),
    Endpoint(EndpointAnswer),
    Plan(PlanAnswer),
    Guard(GuardAnswer),
    Compare(Compared),
    /// A lent byte was touched that should have stayed, or more is claimed than was lent.
    Astray,
}

/// What every lent byte is before a call.
pub const LENT: u8 = 0xA5;

impl Call {
    /// The table that the call is made under; empty for a call without one.
    pub fn table(&self) -> &[u8] {
        match self {
            Call::Check { table }
            | Call::Read { table, .. }
            | Call::Write { table, .. }
            | Call::View { table, .. }
            | Call::Convert { table, .. }
            | Call::Set { table, .. }
            | Call::Remove { table, .. } => table,
            Call::Night(night) => &night.table,
            Call::Sheet(call) => &call.table,
            Call::Endpoint(_) | Call::Plan(_) | Call::Guard(_) | Call::Compare(_) => &[],
        }
    }

    /// Whether that table is of version 2.
    pub fn is_of_version_2(&self) -> bool {
        self.table().get(3..5) == Some(&[2, 0])
    }

    /// The answer of this implementation.
    pub fn answer(&self) -> Answer {
        match self {
            Call::Check { table } => Answer::Check { refusal: check(table).err().unwrap_or_default() },
            Call::Read { table, top, message, room } => {
                let mut rows = vec![LENT; *room];
                let result = read(table, *top, message, &mut rows);
                Answer::of_read(result.err().unwrap_or_default(), result.unwrap_or_default(), &rows)
            }
            Call::Write { table, of, format, count, rows, buffer, room } => {
                let mut out = vec![LENT; *room];
                let result = write(table, *of, *format, *count, rows, buffer, &mut out);
                Answer::of_write(result.err().unwrap_or_default(), result.unwrap_or_default(), &out)
            }
            Call::View { table, top, message, member: wanted, fallback } => {
                let bytes = member(table, *top, message, *wanted, fallback);
                let from = match bytes {
                    [] => "empty",
                    _ if bytes.as_ptr() == fallback.as_ptr() && bytes.len() == fallback.len() => "fallback",
                    _ if message.as_ptr_range().contains(&bytes.as_ptr()) => "msg",
                    _ => "elsewhere",
                };
                Answer::View { from, bytes: bytes.to_vec() }
            }
            Call::Convert { table, top, message, room } => {
                let mut out = vec![LENT; *room];
                let result = convert(table, *top, message, &mut out);
                Answer::of_write(result.err().unwrap_or_default(), result.unwrap_or_default(), &out)
            }
            Call::Set { table, top, message, member, bytes, room } => {
                let mut out = vec![LENT; *room];
                let result = set(table, *top, message, *member, bytes, &mut out);
                Answer::of_write(result.err().unwrap_or_default(), result.unwrap_or_default(), &out)
            }
            Call::Remove { table, top, message, member, room } => {
                let mut out = vec![LENT; *room];
                let result = remove(table, *top, message, *member, &mut out);
                Answer::of_write(result.err().unwrap_or_default(), result.unwrap_or_default(), &out)
            }
            Call::Night(night) => night.answer().map_or(Answer::Astray, Answer::Night),
            Call::Sheet(call) => Answer::Sheet(call.answer()),
            Call::Endpoint(call) => call.answer(),
            Call::Plan(call) => call.answer(),
            Call::Guard(call) => call.answer(),
            Call::Compare(call) => call.answer(),
        }
    }

    /// The view of a member of the message that this call reads.
    pub fn view(&self, member: u32) -> Option<Call> {
        match self {
            Call::Read { table, top, message, .. } => Some(Call::View {
                table: table.clone(),
                top: *top,
                message: message.clone(),
                member,
                fallback: vec![LENT; 3],
            }),
            _ => None,
        }
    }

    /// The conversion of the message that this call reads, into an output of so many bytes.
    pub fn conversion(&self, room: usize) -> Option<Call> {
        match self {
            Call::Read { table, top, message, .. } => {
                Some(Call::Convert { table: table.clone(), top: *top, message: message.clone(), room })
            }
            _ => None,
        }
    }

    /// The call and its answer from a line.
    pub fn parse(line: &str) -> Option<(Call, Answer)> {
        if let Some(endpoint) = EndpointCall::parse(line) {
            return Some(endpoint);
        }
        if let Some(plan) = PlanCall::parse(line) {
            return Some(plan);
        }
        if let Some(guard) = GuardCall::parse(line) {
            return Some(guard);
        }
        if let Some(compare) = CompareCall::parse(line) {
            return Some(compare);
        }
        let call = Json::parse(line)?;
        let expect = call.get("expect")?;
        let refusal = || Some((expect.number("no")?, expect.number("place")?));
        let table = call.bytes("table")?;
        Some(match call.text("op")? {
            "check" => (Call::Check { table }, Answer::Check { refusal: refusal()? }),
            "read" => {
                let Json::List(rows) = expect.get("rows")? else { return None };
                let rows = rows.iter().map(row).collect::<Option<Vec<_>>>()?;
                let reading = Reading {
                    first: expect.number("first")?,
                    format: expect.number("format")?,
                    rows: rows.len() as u32,
                    optionals_skipped: expect.number("opts")?,
                    slices_skipped: expect.number("slices")?,
                };
                let (top, room) = (call.number("top")?, call.number("room")? as usize);
                let call = Call::Read { table, top, message: call.bytes("msg")?, room };
                (call, Answer::Read { refusal: refusal()?, reading, rows })
            }
            "write" => {
                let (of, format, count) = (call.number("type")?, call.number("format")?, call.number("count")?);
                let (rows, buffer) = (call.bytes("rows")?, call.bytes("buffer")?);
                let room = call.number("room")? as usize;
                let out = expect.bytes("out")?;
                let call = Call::Write { table, of, format, count, rows, buffer, room };
                (call, Answer::Write { refusal: refusal()?, out })
            }
            "view" => {
                let from = ["msg", "fallback", "empty"].into_iter().find(|&from| Some(from) == expect.text("from"))?;
                let bytes = expect.bytes("bytes")?;
                let (top, member) = (call.number("top")?, call.number("member")?);
                let (message, fallback) = (call.bytes("msg")?, call.bytes("fallback")?);
                (Call::View { table, top, message, member, fallback }, Answer::View { from, bytes })
            }
            "convert" => {
                let (top, room) = (call.number("top")?, call.number("room")? as usize);
                let out = expect.bytes("out")?;
                let call = Call::Convert { table, top, message: call.bytes("msg")?, room };
                (call, Answer::Write { refusal: refusal()?, out })
            }
            op @ ("set" | "remove") => {
                let (top, member, room) = (call.number("top")?, call.number("member")?, call.number("room")? as usize);
                let (message, out) = (call.bytes("msg")?, expect.bytes("out")?);
                let call = if op == "set" {
                    Call::Set { table, top, message, member, bytes: call.bytes("bytes")?, room }
                } else {
                    Call::Remove { table, top, message, member, room }
                };
                (call, Answer::Write { refusal: refusal()?, out })
            }
            "night" => (Call::Night(Night::parse(&call)?), Answer::Night(Walked::parse(expect)?)),
            "sheet" => {
                let (call, answer) = SheetCall::parse(&call)?;
                (Call::Sheet(call), Answer::Sheet(answer))
            }
            _ => return None,
        })
    }

    /// The call with an answer to expect, as a line.
    pub fn json(&self, expect: &Answer) -> String {
        let fields = match self {
            Call::Check { table } => format!(r#""op":"check","table":"{}""#, hex(table)),
            Call::Read { table, top, message, room } => {
                format!(r#""op":"read","table":"{}","top":{top},"msg":"{}","room":{room}"#, hex(table), hex(message))
            }
            Call::Write { table, of, format, count, rows, buffer, room } => format!(
                r#""op":"write","table":"{}","type":{of},"format":{format},"count":{count},"rows":"{}","buffer":"{}","room":{room}"#,
                hex(table),
                hex(rows),
                hex(buffer)
            ),
            Call::View { table, top, message, member, fallback } => format!(
                r#""op":"view","table":"{}","top":{top},"msg":"{}","fallback":"{}","member":{member}"#,
                hex(table),
                hex(message),
                hex(fallback)
            ),
            Call::Convert { table, top, message, room } => {
                format!(r#""op":"convert","table":"{}","top":{top},"msg":"{}","room":{room}"#, hex(table), hex(message))
            }
            Call::Set { table, top, message, member, bytes, room } => format!(
                r#""op":"set","table":"{}","top":{top},"msg":"{}","member":{member},"bytes":"{}","room":{room}"#,
                hex(table),
                hex(message),
                hex(bytes)
            ),
            Call::Remove { table, top, message, member, room } => format!(
                r#""op":"remove","table":"{}","top":{top},"msg":"{}","member":{member},"room":{room}"#,
                hex(table),
                hex(message)
            ),
            Call::Night(night) => night.json(),
            Call::Sheet(call) => call.json(),
            Call::Endpoint(call) => call.json(),
            Call::Plan(call) => call.json(),
            Call::Guard(call) => call.json(),
            Call::Compare(call) => call.json(),
        };
        format!(r#"{{{fields},"expect":{}}}"#, expect.json())
    }
}

impl Answer {
    /// The reader's, from its numbers and the lent list.
    pub fn of_read(refusal: Refusal, reading: Reading, lent: &[u8]) -> Answer {
        match lent.split_at_checked(12 * reading.rows as usize) {
            Some((given, beyond)) if beyond.iter().all(|&byte| byte == LENT) => {
                let number = |bytes: &[u8]| u32::from_le_bytes([bytes[0], bytes[1], bytes[2], bytes[3]]);
                let rows = given.as_chunks::<12>().0.iter();
                let rows = rows.map(|row| [number(row), number(&row[4..]), number(&row[8..])]).collect();
                Answer::Read { refusal, reading, rows }
            }
            _ => Answer::Astray,
        }
    }

    /// The writer's, from its numbers and the output.
    pub fn of_write(refusal: Refusal, length: u32, lent: &[u8]) -> Answer {
        match lent.split_at_checked(length as usize) {
            Some((out, beyond)) if beyond.iter().all(|&byte| byte == LENT) => {
                Answer::Write { refusal, out: out.to_vec() }
            }
            _ => Answer::Astray,
        }
    }

    /// The number of the refusal, or 0.
    pub fn refusal(&self) -> u32 {
        match self {
            Answer::Check { refusal } | Answer::Read { refusal, .. } | Answer::Write { refusal, .. } => refusal.0,
            Answer::Endpoint(endpoint) => endpoint.refusal().0,
            Answer::Plan(plan) => plan.refusal.0,
            Answer::Guard(guard) => guard.refusal.0,
            Answer::Sheet(sheet) => sheet.refusal.0,
            Answer::Compare(compared) => compared.refusal.0,
            Answer::View { .. } | Answer::Night(_) | Answer::Astray => 0,
        }
    }

    pub fn json(&self) -> String {
        match self {
            Answer::Check { refusal: (no, place) } => format!(r#"{{"no":{no},"place":{place}}}"#),
            Answer::Read { refusal: (no, place), reading, rows } => {
                let rows: Vec<_> = rows.iter().map(|[m, place, length]| format!("[{m},{place},{length}]")).collect();
                format!(
                    r#"{{"no":{no},"place":{place},"first":{},"format":{},"rows":[{}],"opts":{},"slices":{}}}"#,
                    reading.first,
                    reading.format,
                    rows.join(","),
                    reading.optionals_skipped,
                    reading.slices_skipped
                )
            }
            Answer::Write { refusal: (no, place), out } => {
                format!(r#"{{"no":{no},"place":{place},"out":"{}"}}"#, hex(out))
            }
            Answer::View { from, bytes } => format!(r#"{{"from":"{from}","bytes":"{}"}}"#, hex(bytes)),
            Answer::Night(walked) => walked.json(),
            Answer::Sheet(sheet) => sheet.json(),
            Answer::Endpoint(endpoint) => endpoint.json(),
            Answer::Plan(plan) => plan.json(),
            Answer::Guard(guard) => guard.json(),
            Answer::Compare(compared) => compared.json(),
            Answer::Astray => r#"{"astray":1}"#.to_string(),
        }
    }
}

fn row(json: &Json) -> Option<[u32; 3]> {
    match json {
        Json::List(numbers) => match numbers[..] {
            [Json::Number(member), Json::Number(place), Json::Number(length)] => {
                Some([member.try_into().ok()?, place.try_into().ok()?, length.try_into().ok()?])
            }
            _ => None,
        },
        _ => None,
    }
}
