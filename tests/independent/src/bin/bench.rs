//! Times the proved library and this implementation on the same inputs, in one run: nanoseconds a call, each the least
//! of several rounds, the rounds of the two in turn. Then times other calls of C against the reader's in the same way, the
//! reader of a message that is one long string against the standard library's check of that string, and sequences of
//! 20,000 elements against those of 20. Some ratios have a bar; one that is missed is named at the end, and the exit
//! status is 1 then. With the argument `logs` only the sequences are timed.

use independent::compare::CompareCall;
use independent::endpoint::{self, Given};
use independent::ffi::endpoint as endpoint_ffi;
use independent::night::night;
use independent::sheet::{sheet, SHEET};
use independent::spec::Spec;
use independent::{bursts, convert, ffi, frost, read, set, write};
use std::array;
use std::cell::RefCell;
use std::env;
use std::hint::black_box;
use std::process::ExitCode;
use std::time::{Duration, Instant};

/// Rounds are short and many, so that some of them are not disturbed by other programs.
const ROUND: Duration = Duration::from_micros(50);
const WHILE: Duration = Duration::from_millis(500);
const LEAST_ROUNDS: usize = 20;

/// A ratio that is above its bar by less than a tenth is measured on, for at most so many times as long: the least times
/// only fall.
const PATIENCE: u32 = 20;

/// Bars, each held on the ratio as measured. A message is read in at most this part of the time of plain Rust: P2, the
/// record of four slices, its compact form and a newer one, exceptions of 1.1 and 1.0, the dense record.
const READ: f64 = 0.9;

/// So is a log, a message of one sequence of 20 numbers or of as many as a message holds.
const READ_LOG: f64 = 0.75;

/// So is a parameter list of 33 to 1,024 required ints.
const READ_REQUIRED: f64 = 1.0;

/// So is one of as many optional ints.
const READ_OPTIONAL: f64 = 1.2;

/// P2 and logs are written in at most this part of the time of plain Rust; M-103 asks for 1.1 of 20,000 shorts.
const WRITE: f64 = 1.0;

/// So are records and exceptions.
const WRITE_RECORD: f64 = 1.2;

/// The reader with its numbers takes at most so many times the time of the reader.
const NUMBERS: f64 = 1.05;

/// A long sequence of numbers is read in at most twice the time of a short one (document 02, M-103), and one of shorts in
/// at most 1.2 times it. One of bools is read in at most 2.8 times the time of plain Rust: a quarter of what it was when
/// they were judged one by one. A report to a frost guard takes at most 1.3 times a read of its message.
const LONG: f64 = 2.0;
const LONG_SHORTS: f64 = 1.2;
const BOOLS: f64 = 2.8;
const REPORT: f64 = 1.3;

/// Two tables are compared in at most so many times the time of plain Rust (M-109).
const COMPARED: f64 = 1.5;

/// A frost guard in the middle of a freeze.
const FREEZE: frost::Guard = frost::Guard { set: 0, tick: Some(1 << 31), start: Some(1 << 31), delay: Some(30) };

/// Converting a compact record takes at most so many times the time of reading it (M-111), reading an exception of 1.0 at
/// most the time of the same of 1.1 (M-104). A night takes at most the time of plain Rust, and so much of the time of single
/// reads (M-107).
const CONVERTING: f64 = 1.3;
const OLD: f64 = 1.0;
const NIGHT: f64 = 1.0;
const SINGLE: f64 = 0.6;

/// Setting a member takes at most so many times the time of reading the message (M-112).
const SETTING: f64 = 1.5;

/// 10,000 messages are planned, and a plan of them whose numbers rise is checked, in at most so many times the time of
/// plain Rust, and of 1,000 messages (M-110).
const PLAN: f64 = 1.2;
const TEN_PLANS: f64 = 11.0;

/// A table and a message under it, with the rows that the reader gives.
#[derive(Clone)]
struct Case {
    name: &'static str,
    table: Vec<u8>,
    top: u32,
    format: u32,
    message: Vec<u8>,
    rows: Vec<u8>,
}

impl Case {
    /// The case whose members, in message order, have these bytes.
    fn new(name: &'static str, spec: &Spec, top: u16, values: &[(usize, Vec<u8>)]) -> Case {
        Case::in_format(1, name, spec, top, values)
    }

    /// The same in a format.
    fn in_format(format: u32, name: &'static str, spec: &Spec, top: u16, values: &[(usize, Vec<u8>)]) -> Case {
        let (mut rows, mut buffer) = (vec![], vec![]);
        for (member, value) in values {
            for number in [*member, buffer.len(), value.len()] {
                rows.extend((number as u32).to_le_bytes());
            }
            buffer.extend(value);
        }
        let (table, top) = (spec.bytes(), top.into());
        let mut message = vec![0; 65_536];
        let count = values.len() as u32;
        let length = write(&table, top, format, count, &rows, &buffer, &mut message).expect(name);
        message.truncate(length as usize);
        read(&table, top, &message, &mut rows).expect(name);
        Case { name, table, top, format, message, rows }
    }

    fn run(&self) {
        // Without a bar none is missed.
        let _ = self.run_with(None, None);
    }

    /// Reader, writer and table check, the first two with a bar each.
    fn run_with(&self, read_bar: Option<f64>, write_bar: Option<f64>) -> [Result<(), String>; 2] {
        let Case { name, table, top, .. } = self;
        let bars = [self.run_read(read_bar), self.run_write(write_bar)];
        // The empty input is refused by 4 right after the rules of the table.
        report(
            &format!("{name}: table check, {} bytes", table.len()),
            || ffi::read(black_box(table), *top, &[], &mut []),
            || number(read(black_box(table), *top, &[], &mut [])),
            4,
        );
        bars
    }

    /// The writer; both write to the same bytes, since the time of a long copy depends on where they lie.
    fn run_write(&self, bar: Option<f64>) -> Result<(), String> {
        let Case { name, table, top, format, message, rows } = self;
        let count = (rows.len() / 12) as u32;
        let out = RefCell::new(vec![0; message.len()]);
        let out = || out.borrow_mut();
        compare(
            &format!("{name}: write, {count} rows"),
            || ffi::write(black_box(table), *top, *format, count, black_box(rows), black_box(message), &mut out()),
            || number(write(black_box(table), *top, *format, count, black_box(rows), black_box(message), &mut out())),
            0,
            bar,
        )
    }

    /// The reader, without the table check.
    fn run_read(&self, bar: Option<f64>) -> Result<(), String> {
        let Case { name, table, top, message, rows, .. } = self;
        let mut lent = vec![0; rows.len()];
        let mut other = lent.clone();
        compare(
            &format!("{name}: read, {} bytes", message.len()),
            || ffi::read(black_box(table), *top, black_box(message), &mut lent),
            || number(read(black_box(table), *top, black_box(message), &mut other)),
            0,
            bar,
        )
    }

    /// The library's reader and writer on this case against the same on a shorter one.
    fn run_lengths(&self, short: &Case, bar: f64) -> Result<(), String> {
        let name = format!("{} : {}", self.name, short.name);
        let reader = |case: &Case| {
            let Case { table, top, message, rows, .. } = case;
            let mut lent = vec![0; rows.len()];
            let (table, top, message) = (table.clone(), *top, message.clone());
            move || ffi::read(black_box(&table), top, black_box(&message), &mut lent)
        };
        let writer = |case: &Case| {
            let Case { table, top, format, message, rows, .. } = case;
            let mut out = vec![0; message.len()];
            let (table, top, format, message, rows) = (table.clone(), *top, *format, message.clone(), rows.clone());
            move || ffi::write(black_box(&table), top, format, 1, black_box(&rows), black_box(&message), &mut out)
        };
        let met = compare(&format!("{name}: read"), reader(self), reader(short), 0, Some(bar));
        report(&format!("{name}: write"), writer(self), writer(short), 0);
        met
    }

    /// The reader of a message of one string against the standard library's check of that string.
    fn run_text(&self) {
        let Case { name, table, top, message, rows, .. } = self;
        let mut lent = vec![0; rows.len()];
        let text = &message[11..];
        report(
            &format!("{name}: icehub_read"),
            || ffi::read(black_box(table), *top, black_box(message), &mut lent),
            || std::str::from_utf8(black_box(text)).is_err().into(),
            0,
        );
    }

    /// The converter on the compact form of a class instance, which the reader reads as this one.
    fn run_conversion(&self, compact: &[u8]) {
        let Case { name, table, top, message, .. } = self;
        let mut out = vec![0; message.len()];
        let mut other = out.clone();
        report(
            &format!("{name}: convert, {} bytes", compact.len()),
            || ffi::convert(black_box(table), *top, black_box(compact), &mut out),
            || number(convert(black_box(table), *top, black_box(compact), &mut other)),
            0,
        );
        assert!(out == *message);
    }

    /// The converter against the reader of the same compact record; if its bar is missed, by what.
    fn run_conversion_call(&self, compact: &[u8]) -> Result<(), String> {
        let Case { name, table, top, message, rows, .. } = self;
        let (mut out, mut lent) = (vec![0; message.len()], vec![0; rows.len()]);
        compare(
            &format!("{name}: icehub_convert"),
            || ffi::convert(black_box(table), *top, black_box(compact), &mut out),
            || ffi::read(black_box(table), *top, black_box(compact), &mut lent),
            0,
            Some(CONVERTING),
        )
    }

    /// Setting the last member listed to the bytes that it has.
    fn run_setting(&self) {
        let Case { name, table, top, message, .. } = self;
        let (member, bytes) = self.last();
        let mut out = vec![0; message.len()];
        let mut other = out.clone();
        report(
            &format!("{name}: set"),
            || ffi::set(black_box(table), *top, black_box(message), member, black_box(bytes), &mut out),
            || number(set(black_box(table), *top, black_box(message), member, black_box(bytes), &mut other)),
            0,
        );
        assert!(out == *message);
    }

    /// The same against the reader of the message; if its bar is missed, by what.
    fn run_setting_call(&self) -> Result<(), String> {
        let Case { name, table, top, message, rows, .. } = self;
        let (member, bytes) = self.last();
        let (mut out, mut lent) = (vec![0; message.len()], vec![0; rows.len()]);
        compare(
            &format!("{name}: icehub_set"),
            || ffi::set(black_box(table), *top, black_box(message), member, black_box(bytes), &mut out),
            || ffi::read(black_box(table), *top, black_box(message), &mut lent),
            0,
            Some(SETTING),
        )
    }

    /// The last member listed, and its bytes in the message.
    fn last(&self) -> (u32, &[u8]) {
        let mut rows = self.rows.clone();
        ffi::read(&self.table, self.top, &self.message, &mut rows);
        let last = &rows[rows.len() - 12..];
        let number = |at: usize| u32::from_le_bytes([last[at], last[at + 1], last[at + 2], last[at + 3]]);
        let (place, length) = (number(4) as usize, number(8) as usize);
        (number(0), &self.message[place..place + length])
    }

    /// A report to a frost guard, this message, in the middle of a freeze.
    fn run_report(&self) {
        let state = FREEZE.bytes();
        let (mut next, mut other) = ([0; frost::STATE], [0; frost::STATE]);
        report(
            &format!("{}: report to a frost guard", self.name),
            || ffi::guard_report(black_box(&state), black_box(&self.message), &mut next),
            || number(frost::report(black_box(&state), black_box(&self.message), &mut other)),
            0,
        );
        assert_eq!(next, other);
    }

    /// The same against the reader of the message.
    fn run_report_call(&self) -> Result<(), String> {
        let Case { name, table, top, message, rows, .. } = self;
        let state = FREEZE.bytes();
        let (mut next, mut lent) = ([0; frost::STATE], vec![0; rows.len()]);
        compare(
            &format!("{name}: icehub_guard_report"),
            || ffi::guard_report(black_box(&state), black_box(message), &mut next),
            || ffi::read(black_box(table), *top, black_box(message), &mut lent),
            0,
            Some(REPORT),
        )
    }

    /// The reader of this message, of 1.0, against that of the same in 1.1; if its bar is missed, by what.
    fn run_against(&self, new: &Case) -> Result<(), String> {
        let (mut lent, mut other) = (vec![0; self.rows.len()], vec![0; new.rows.len()]);
        compare(
            &format!("{}: icehub_read, against 1.1", self.name),
            || ffi::read(black_box(&self.table), self.top, black_box(&self.message), &mut lent),
            || ffi::read(black_box(&new.table), new.top, black_box(&new.message), &mut other),
            0,
            Some(OLD),
        )
    }

    /// The reader with its numbers, which has a bar, and the view of the last member listed, against the reader.
    fn run_calls(&self) -> Result<(), String> {
        let Case { name, table, top, message, rows, .. } = self;
        let mut lent = vec![0; rows.len()];
        let mut other = lent.clone();
        let mut numbers = Places { bytes: vec![0; 4_096], calls: 0 };
        let met = compare(
            &format!("{name}: icehub_read_numbers"),
            || ffi::read_numbers(black_box(table), *top, black_box(message), &mut lent, numbers.next()),
            || ffi::read(black_box(table), *top, black_box(message), &mut other),
            0,
            Some(NUMBERS),
        );
        let last = rows.len() - 12;
        let member = u32::from_le_bytes([rows[last], rows[last + 1], rows[last + 2], rows[last + 3]]);
        report(
            &format!("{name}: icehub_member"),
            || ffi::member(black_box(table), *top, black_box(message), member, numbers.next()),
            || ffi::read(black_box(table), *top, black_box(message), &mut other),
            0,
        );
        met
    }
}

/// Bytes for the numbers of an answer, which lie elsewhere after each thousand calls: where their addresses end as those of
/// bytes on the stack of the call do, the processor takes one for the other and waits, which says nothing of the call.
struct Places {
    bytes: Vec<u8>,
    calls: usize,
}

impl Places {
    fn next(&mut self) -> &mut [u8] {
        self.calls += 1;
        let at = self.calls / 1_024 % 64 * 63;
        &mut self.bytes[at..at + 20]
    }
}

/// The types of the record's members in a table: int, bool, double, string, enum.
fn record_types(spec: &mut Spec) -> [u16; 5] {
    let [truth, int, double, text] = [0, 3, 6, 7].map(|kind| spec.basic(kind));
    [int, truth, double, text, spec.enumeration(300)]
}

/// A class instance of four slices, each with required members and optionals, 1 KB.
fn record() -> Case {
    let mut spec = Spec::default();
    let [int, truth, double, text, state] = record_types(&mut spec);
    let point = spec.owner(9, &[(double, None), (double, None), (int, None)]);
    let points = spec.row(10, [point, 0, 0, 0, 0]);
    let lookup = spec.row(11, [text, int, 0, 0, 0]);
    let members = [
        (int, None),
        (truth, None),
        (text, None),
        (state, None),
        (points, Some(1)),
        (lookup, Some(2)),
        (text, Some(30)),
        (double, Some(31)),
    ];
    let mut chain = vec![];
    for name in [&b"::Cabin"[..], b"::Heated::Cabin", b"::Guarded::Cabin", b"::Frost::Guarded::Cabin"] {
        chain.push(spec.record(14, chain.last().copied(), name, &members));
    }
    let mut values = vec![];
    for &record in chain.iter().rev() {
        let first = spec.rows[record as usize].1[0] as usize;
        let pairs = [&[3][..], &string(5), &[1; 4], &string(9), &[2; 4], &string(7), &[3; 4]].concat();
        let data = [
            vec![7; 4],
            vec![1],
            string(63),
            vec![255, 44, 1, 0, 0],
            [&[4][..], &[9; 80]].concat(),
            pairs,
            string(20),
            vec![6; 8],
        ];
        values.extend(data.into_iter().enumerate().map(|(i, value)| (first + i, value)));
    }
    Case::new("record of 4 slices", &spec, chain[3], &values)
}

/// The record as a newer message: the table lacks its most derived class and half of its optionals.
fn newer(record: &Case) -> Case {
    let mut spec = Spec::default();
    let [int, truth, double, text, state] = record_types(&mut spec);
    let members = [(int, None), (truth, None), (text, None), (state, None), (text, Some(30)), (double, Some(31))];
    let mut chain = vec![];
    for name in [&b"::Cabin"[..], b"::Heated::Cabin", b"::Guarded::Cabin"] {
        chain.push(spec.record(14, chain.last().copied(), name, &members));
    }
    let (table, top) = (spec.bytes(), chain[0].into());
    let mut rows = vec![0; 12 * spec.members.len()];
    let reading = read(&table, top, &record.message, &mut rows).expect("newer message");
    assert_eq!((reading.rows, reading.optionals_skipped, reading.slices_skipped), (18, 6, 1));
    Case { name: "newer message", table, top, format: 1, message: record.message.clone(), rows }
}

/// A class instance of three slices, each with 20 required members and 20 optionals of all basic kinds.
fn dense() -> Case {
    let mut spec = Spec::default();
    let kinds: [u16; 8] = array::from_fn(|kind| spec.basic(kind as u8));
    let mut chain = vec![];
    for (shift, name) in [&b"::Dense::A"[..], b"::Dense::B", b"::Dense::C"].into_iter().enumerate() {
        let tag = |i: usize| (i >= 20).then_some(i as u32);
        let members: Vec<_> = (0..40).map(|i| (kinds[(i + shift) % 8], tag(i))).collect();
        chain.push(spec.record(14, chain.last().copied(), name, &members));
    }
    let mut values = vec![];
    for (shift, &class) in chain.iter().enumerate().rev() {
        let first = spec.rows[class as usize].1[0] as usize;
        values.extend((0..40).map(|i| (first + i, basic_value(i + shift))));
    }
    Case::new("dense record", &spec, chain[2], &values)
}

/// A value of a basic kind, by a number whose rest by 8 is the kind.
fn basic_value(kind: usize) -> Vec<u8> {
    vec![1; [1, 1, 2, 4, 8, 4, 8, 2][kind % 8]]
}

/// A parameter list of so many ints.
fn ints(count: u32, what: &str, tag: impl Fn(u32) -> Option<u32>) -> Case {
    let mut spec = Spec::default();
    let int = spec.basic(3);
    let members: Vec<_> = (0..count).map(|i| (int, tag(i))).collect();
    let top = spec.owner(15, &members);
    let values: Vec<_> = (0..count as usize).map(|m| (m, vec![1; 4])).collect();
    Case::new(format!("{} {what}", grouped(count as usize)).leak(), &spec, top, &values)
}

/// An exception of four slices without optionals, 1 KB: in encoding 1.1, or in format 2 in 1.0.
fn exception(format: u32) -> Case {
    let mut spec = Spec::default();
    let [truth, int, double, text] = [0, 3, 6, 7].map(|kind| spec.basic(kind));
    let state = spec.enumeration(300);
    let point = spec.owner(9, &[(double, None), (double, None), (int, None)]);
    let points = spec.row(10, [point, 0, 0, 0, 0]);
    let lookup = spec.row(11, [text, int, 0, 0, 0]);
    let members = [int, truth, text, state, points, lookup, text, double].map(|of| (of, None));
    let mut chain = vec![];
    for name in [&b"::Fault"[..], b"::Heating::Fault", b"::Guarded::Fault", b"::Frost::Guarded::Fault"] {
        chain.push(spec.record(13, chain.last().copied(), name, &members));
    }
    let enumerator = if format == 2 { vec![44, 1] } else { vec![255, 44, 1, 0, 0] };
    let mut values = vec![];
    for &record in chain.iter().rev() {
        let first = spec.rows[record as usize].1[0] as usize;
        let pairs = [&[3][..], &string(5), &[1; 4], &string(9), &[2; 4], &string(7), &[3; 4]].concat();
        let points = [&[4][..], &[9; 80]].concat();
        let data = [vec![7; 4], vec![1], string(63), enumerator.clone(), points, pairs, string(20), vec![6; 8]];
        values.extend(data.into_iter().enumerate().map(|(i, value)| (first + i, value)));
    }
    let name = if format == 2 { "exception of 1.0" } else { "exception of 1.1" };
    Case::in_format(format, name, &spec, chain[3], &values)
}

/// The compact form of a sliced class instance: no sizes, and no type ID but the first.
fn compact(message: &[u8]) -> Vec<u8> {
    let (mut compact, mut at) = (message[..7].to_vec(), 7);
    while at < message.len() {
        let is_first = at == 7;
        compact.push(message[at] & !16 & !u8::from(!is_first));
        let id = at + 1..at + 2 + message[at + 1] as usize;
        let data = id.end + 4;
        at = id.end + u32::from_le_bytes(message[id.end..data].try_into().unwrap()) as usize;
        compact.extend(&message[if is_first { id } else { 0..0 }]);
        compact.extend(&message[data..at]);
    }
    let length = (compact.len() as u32).to_le_bytes();
    compact[..4].copy_from_slice(&length);
    compact
}

/// So many messages of a case, back to back.
struct Night<'a> {
    name: &'static str,
    case: &'a Case,
    buffer: Vec<u8>,
    count: usize,
}

impl<'a> Night<'a> {
    fn new(name: &'static str, case: &'a Case, count: usize) -> Night<'a> {
        Night { name, case, buffer: case.message.repeat(count), count }
    }

    /// The lists that hold all answers and rows.
    fn lists(&self) -> (Vec<u8>, Vec<u8>) {
        (vec![0; 28 * self.count], vec![0; self.case.rows.len() * self.count])
    }

    fn run(&self) -> Result<(), String> {
        let Night { name, case: Case { table, top, .. }, buffer, count } = self;
        let ((mut answers, mut rows), (mut other, mut other_rows)) = (self.lists(), self.lists());
        let met = compare(
            &format!("night of {name}"),
            || ffi::night::night(black_box(table), *top, black_box(buffer), &mut answers, &mut rows) as u32,
            || night(black_box(table), *top, black_box(buffer), &mut other, &mut other_rows).0 as u32,
            *count as u32,
            Some(NIGHT),
        );
        assert_eq!((answers, rows), (other, other_rows), "{name}");
        met
    }

    /// The first member of all messages summed up.
    fn run_sheet(&self) {
        let Night { name, case: Case { table, top, .. }, buffer, .. } = self;
        let (mut lent, mut other) = ([0; SHEET], [0; SHEET]);
        report(
            &format!("sheet of {name}"),
            || {
                lent = [0; SHEET];
                ffi::sheet::sheet(black_box(table), *top, black_box(buffer), 0, &mut lent)
            },
            || {
                other = [0; SHEET];
                sheet(black_box(table), *top, black_box(buffer), 0, &mut other).map_or_else(|refusal| refusal.0, |()| 0)
            },
            0,
        );
        assert_eq!(lent, other, "{name}");
    }

    /// The same against the night of these messages: at most 1.1 of its time.
    fn run_sheet_against_night(&self) -> Result<(), String> {
        let Night { name, case: Case { table, top, .. }, buffer, count } = self;
        let (mut lent, (mut answers, mut rows)) = ([0; SHEET], self.lists());
        compare(
            &format!("sheet of {name}"),
            || {
                lent = [0; SHEET];
                ffi::sheet::sheet(black_box(table), *top, black_box(buffer), 0, &mut lent) + *count as u32
            },
            || ffi::night::night(black_box(table), *top, black_box(buffer), &mut answers, &mut rows) as u32,
            *count as u32,
            Some(1.1),
        )
    }

    /// The same messages by as many calls of the reader with its numbers.
    fn run_single(&self) -> Result<(), String> {
        let Night { name, case: Case { table, top, message, rows: list, .. }, buffer, count } = self;
        let (mut answers, mut rows) = self.lists();
        let (mut lent, mut numbers) = (vec![0; list.len()], [0; 20]);
        compare(
            &format!("night of {name}"),
            || ffi::night::night(black_box(table), *top, black_box(buffer), &mut answers, &mut rows) as u32,
            || {
                let read = |message: &[u8]| ffi::read_numbers(black_box(table), *top, message, &mut lent, &mut numbers);
                let refusals: u32 = buffer.chunks(message.len()).map(read).sum();
                assert_eq!(refusals, 0);
                *count as u32
            },
            *count as u32,
            Some(SINGLE),
        )
    }
}

/// So many waiting messages of so many cabins.
fn waiting(count: u64, cabins: u64) -> Vec<u64> {
    (0..count).flat_map(|i| [20 + i * 37 % 120, i * 7 % cabins]).collect()
}

/// So many messages planned, and that plan checked.
fn run_bursts(count: u64, bar: Option<f64>) -> [Result<(), String>; 2] {
    let messages = waiting(count, 50);
    let (mut entries, mut other) = (vec![0; messages.len()], vec![0; messages.len()]);
    let planned = compare(
        &format!("plan of {count} messages"),
        || ffi::plan(black_box(&messages), &mut entries),
        || bursts::plan(black_box(&messages), &mut other).err().map_or(0, |(number, _)| number),
        0,
        bar,
    );
    [planned, run_plan_check("rising", &messages, &entries, bar)]
}

/// A plan in falling order checked, each cabin with one message.
fn run_falling(count: u64) {
    let falling: Vec<_> = (0..count).flat_map(|i| [count - 1 - i, i]).collect();
    // Without a bar none is missed.
    let _ = run_plan_check("falling", &waiting(count, u64::MAX), &falling, None);
}

fn run_plan_check(what: &str, messages: &[u64], entries: &[u64], bar: Option<f64>) -> Result<(), String> {
    compare(
        &format!("check of {} messages, {what}", messages.len() / 2),
        || ffi::check_plan(black_box(messages), black_box(entries)),
        || bursts::check_plan(black_box(messages), black_box(entries)).map_or(46, |()| 0),
        0,
        bar,
    )
}

/// The library's planner, and its check of that plan, on 10,000 messages against the same on 1,000.
fn run_plan_lengths() -> [Result<(), String>; 2] {
    let (many, few) = (waiting(10_000, 50), waiting(1_000, 50));
    let (mut entries, mut other) = (vec![0; many.len()], vec![0; few.len()]);
    let planned = compare(
        "plan of 10000 : 1000 messages",
        || ffi::plan(black_box(&many), &mut entries),
        || ffi::plan(black_box(&few), &mut other),
        0,
        Some(TEN_PLANS),
    );
    let checked = compare(
        "check of 10000 : 1000 messages, rising",
        || ffi::check_plan(black_box(&many), black_box(&entries)),
        || ffi::check_plan(black_box(&few), black_box(&other)),
        0,
        Some(TEN_PLANS),
    );
    [planned, checked]
}

/// A table of 256 rows and 1,024 members: structs of four members, first so many ints, then of the row before, and classes
/// with required and optional members, `more` of which have another tag.
fn wide_table(ints: usize, more: usize) -> Spec {
    let mut spec = Spec::default();
    let int = spec.basic(3);
    let mut last = int;
    for _ in 0..192 {
        let parts: [_; 4] = array::from_fn(|i| (if i < ints { int } else { last }, None));
        last = spec.owner(9, &parts);
    }
    for class in 0..63 {
        let tag = if class < more { 9 } else { 8 };
        let name = format!("::Guard::Class{}", class * 37 % 63);
        let members = [(int, None), (last, None), (int, Some(tag)), (last, Some(3))];
        let ints = [(int, None); 4];
        let first = if class == 0 { &ints[..] } else { &[] };
        spec.record(14, None, name.as_bytes(), &[first, &members].concat());
    }
    assert_eq!((spec.rows.len(), spec.members.len()), (256, 1_024));
    spec
}

/// Two of these tables compared; if the bar is missed, by what.
fn run_compare(name: &str, ints: usize) -> Result<(), String> {
    let (old, new, top) = (wide_table(ints, 0), wide_table(ints, 20), 193);
    let call = CompareCall { old: old.bytes(), old_top: top, new: new.bytes(), new_top: top, room: 65_536 };
    let (mut list, mut other) = (vec![0; call.room], vec![0; call.room]);
    compare(
        name,
        || ffi::compare(black_box(&call), &mut list),
        || number(independent::compare::compare(&call.old, top, &call.new, top, &mut other)),
        0,
        Some(COMPARED),
    )
}

fn number<T>(result: Result<T, (u32, u32)>) -> u32 {
    result.err().map_or(0, |(number, _)| number)
}

/// One line: both must give `answer`.
fn report(name: &str, call: impl FnMut() -> u32, other: impl FnMut() -> u32, answer: u32) {
    let _ = compare(name, call, other, answer, None);
}

/// The same with a bar that the ratio has to meet; if it is missed, which and by what.
fn compare(
    name: &str,
    mut call: impl FnMut() -> u32,
    mut other: impl FnMut() -> u32,
    answer: u32,
    bar: Option<f64>,
) -> Result<(), String> {
    assert_eq!((call(), other()), (answer, answer), "{name}");
    let (calls, other_calls) = (calls_a_round(&mut call), calls_a_round(&mut other));
    let (mut least, mut other_least) = (f64::MAX, f64::MAX);
    let (start, mut rounds) = (Instant::now(), 0);
    let most = bar.unwrap_or(f64::MAX);
    while rounds < LEAST_ROUNDS
        || start.elapsed() < WHILE
        || least / other_least > most && least / other_least < 1.1 * most && start.elapsed() < WHILE * PATIENCE
    {
        least = least.min(round(&mut call, calls));
        other_least = other_least.min(round(&mut other, other_calls));
        rounds += 1;
    }
    let ratio = least / other_least;
    let told = bar.map_or(format!("{ratio:>8.2}"), |bar| format!("{ratio:>8.3}  at most {bar}"));
    println!("{name:<46} {least:>12.1} {other_least:>12.1} {told}");
    if ratio > most {
        return Err(format!("{name}: {ratio:.3}, the bar is {most}"));
    }
    Ok(())
}

/// How many calls a round takes.
fn calls_a_round(call: &mut impl FnMut() -> u32) -> u32 {
    let mut calls = 1;
    loop {
        let time = round(call, calls) * f64::from(calls);
        if time >= ROUND.as_nanos() as f64 {
            return calls;
        }
        calls *= 2;
    }
}

/// Nanoseconds a call.
fn round(call: &mut impl FnMut() -> u32, calls: u32) -> f64 {
    let start = Instant::now();
    for _ in 0..calls {
        black_box(call());
    }
    start.elapsed().as_nanos() as f64 / f64::from(calls)
}

fn string(length: usize) -> Vec<u8> {
    [&[length as u8][..], &vec![b'a'; length]].concat()
}

/// A long size.
fn size(size: u32) -> Vec<u8> {
    [&[255][..], &size.to_le_bytes()].concat()
}

/// An endpoint opened and written, and found as the last of eight in its proxy.
fn endpoints() {
    let given = Given { kind: 1, host: b"guard.cabins.local".to_vec(), port: 4_061, timeout: 60_000, compress: false };
    let mut out = [0; 64];
    let length = endpoint::write_endpoint(&given, &mut out).unwrap_or_default() as usize;
    let bytes = &out[..length].to_vec();
    let mut numbers = [0; endpoint::OPENED];
    let opened = || number(endpoint::open(black_box(bytes)).map(black_box));
    report(
        &format!("endpoint: open, {length} bytes"),
        || endpoint_ffi::open(black_box(bytes), &mut numbers),
        opened,
        0,
    );
    let mut other = out;
    report(
        &format!("endpoint: write, {length} bytes"),
        || endpoint_ffi::write(black_box(&given), &mut out),
        || number(endpoint::write_endpoint(black_box(&given), &mut other)),
        0,
    );
    let proxy = [&b"\x05guard\0\0\0\0\x01\0\x01\x01\x08"[..], &bytes.repeat(8)].concat();
    let found = || number(endpoint::endpoint_at(black_box(&proxy), 7).map(black_box));
    report("proxy: last of 8 endpoints", || endpoint_ffi::locate(black_box(&proxy), 7, &mut numbers), found, 0);
}

/// The heads of the columns.
fn heads(call: &str, other: &str) {
    println!("{:<46} {call:>12} {other:>12} {:>8}", "ns a call", "ratio");
}

/// A message of one sequence of so many elements of a basic kind, each of so many bytes.
fn sequence(kind: u8, what: &str, width: usize, count: usize) -> Case {
    let mut spec = Spec::default();
    let element = spec.basic(kind);
    let log = spec.row(10, [element, 0, 0, 0, 0]);
    let top = spec.owner(15, &[(log, None)]);
    let count_bytes = if count < 255 { vec![count as u8] } else { size(count as u32) };
    let name = format!("{} {what}", grouped(count)).leak();
    Case::new(name, &spec, top, &[(0, [count_bytes, vec![1; count * width]].concat())])
}

/// A number below a million with a comma between its thousands and the rest.
fn grouped(n: usize) -> String {
    if n < 1_000 {
        n.to_string()
    } else {
        format!("{},{:03}", n / 1_000, n % 1_000)
    }
}

/// Sequences of 20 elements and of 20,000, or of as many as a message holds; gives the bars that were missed.
fn logs() -> Vec<String> {
    let kinds =
        [("shorts", 2, 2), ("bytes", 1, 1), ("ints", 3, 4), ("longs", 4, 8), ("floats", 5, 4), ("doubles", 6, 8)];
    let log = |(what, kind, width): (&str, u8, usize)| {
        let most = (65_536 - 6 - 5) / width;
        (sequence(kind, what, width, most.min(20_000)), sequence(kind, what, width, 20))
    };
    let logs = kinds.map(log);
    let bools = log(("bools", 0, 1));

    println!();
    heads("library", "independent");
    let mut bars = vec![];
    for case in logs.iter().flat_map(|(long, short)| [long, short]) {
        bars.extend([case.run_read(Some(READ_LOG)), case.run_write(Some(WRITE))]);
    }
    let (long, short) = &bools;
    bars.extend([long.run_read(Some(BOOLS)), long.run_write(None), short.run_read(None), short.run_write(None)]);

    println!();
    heads("long", "short");
    for (long, short) in &logs {
        bars.push(long.run_lengths(short, if long.name == "20,000 shorts" { LONG_SHORTS } else { LONG }));
    }
    bars.into_iter().filter_map(Result::err).collect()
}

fn main() -> ExitCode {
    let mut missed = vec![];
    if env::args().nth(1).is_none_or(|only| only != "logs") {
        missed.extend(all_but_logs());
    }
    missed.extend(logs());
    for bar in &missed {
        eprintln!("missed: {bar}");
    }
    if missed.is_empty() {
        ExitCode::SUCCESS
    } else {
        ExitCode::FAILURE
    }
}

/// Everything else; gives the bars that were missed.
fn all_but_logs() -> Vec<String> {
    heads("library", "independent");

    let mut spec = Spec::default();
    let (short, int, long) = (spec.basic(2), spec.basic(3), spec.basic(4));
    let top = spec.owner(15, &[(short, None), (long, Some(7)), (int, Some(8))]);
    let p2_values = [(0, vec![0x0C, 0xFE]), (1, vec![0, 0, 0, 0, 1, 0, 0, 0]), (2, vec![8, 7, 0, 0])];
    let p2 = Case::new("P2", &spec, top, &p2_values);
    let mut bars: Vec<_> = p2.run_with(Some(READ), Some(WRITE)).into();

    let record = record();
    let compact = compact(&record.message);
    bars.extend(record.run_with(Some(READ), Some(WRITE_RECORD)));
    bars.push(Case { name: "compact record", message: compact.clone(), ..record.clone() }.run_read(Some(READ)));
    bars.push(newer(&record).run_read(Some(READ)));
    record.run_conversion(&compact);
    record.run_setting();
    let (new, old) = (exception(1), exception(2));
    for case in [&new, &old, &dense()] {
        bars.extend(case.run_with(Some(READ), Some(WRITE_RECORD)));
    }
    for count in [33, 128, 1_024] {
        bars.push(ints(count, "required ints", |_| None).run_read(Some(READ_REQUIRED)));
        bars.push(ints(count, "optional ints", Some).run_read(Some(READ_OPTIONAL)));
    }

    let mut spec = Spec::default();
    let text = spec.basic(7);
    let names = spec.row(10, [text, 0, 0, 0, 0]);
    let top = spec.owner(15, &[(names, None)]);
    let strings = (0..20_000).flat_map(|i| string(1 + i % 3)).collect::<Vec<_>>();
    Case::new("20,000 short strings", &spec, top, &[(0, [size(20_000), strings].concat())]).run();

    // One string of 60,000 bytes: ASCII, a letter of two bytes in each word, characters of three bytes.
    let mut spec = Spec::default();
    let text = spec.basic(7);
    let top = spec.owner(15, &[(text, None)]);
    let texts = [
        ("ASCII", "cabin keeper"),
        ("mostly ASCII", "k\u{F8}kkenvindu"),
        ("wide text", "\u{5C71}\u{5C0F}\u{5C4B}\u{6771}"),
    ];
    let texts = texts.map(|(what, part)| {
        let name: &'static str = format!("60 KB of {what}").leak();
        Case::new(name, &spec, top, &[(0, [size(60_000), part.repeat(60_000 / part.len()).into_bytes()].concat())])
    });
    texts.iter().for_each(Case::run);

    // Enumerators by a list of 1,024 entries, in which each is searched, and by their greatest.
    let allowed: Vec<u32> = (0..1_024).map(|i| 1_000 + 3 * i).collect();
    let enumerators = (0..12_000).flat_map(|i| size(allowed[i * 389 % 1_024])).collect::<Vec<_>>();
    let value = [(0, [size(12_000), enumerators].concat())];
    let list = |mut spec: Spec, state: u16| {
        let states = spec.row(10, [state, 0, 0, 0, 0]);
        let top = spec.owner(15, &[(states, None)]);
        (spec, top)
    };
    let mut spec = Spec::default();
    let state = spec.listed(&allowed);
    let (spec, top) = list(spec, state);
    Case::new("12,000 listed enums", &spec, top, &value).run();
    let mut spec = Spec::default();
    let state = spec.enumeration(allowed[1_023]);
    let (spec, top) = list(spec, state);
    Case::new("12,000 enums", &spec, top, &value).run();

    let mut spec = Spec::default();
    let kinds: Vec<u16> = (0..8).map(|kind| spec.basic(kind)).collect();
    let members: Vec<_> = (0..1_024).map(|i| (kinds[i % 8], if i < 512 { None } else { Some(i as u32) })).collect();
    let top = spec.owner(15, &members);
    let values: Vec<_> = (0..1_024).map(|i| (i, basic_value(i))).collect();
    let many = Case::new("1,024 members", &spec, top, &values);
    many.run();

    // The slowest that we know: tags that fall, so that each is compared with all before; a bool inside 253 structs,
    // as often as a message can hold it.
    let mut spec = Spec::default();
    let byte = spec.basic(1);
    let members: Vec<_> = (0..1_024).map(|i| (byte, Some(1_024 - i))).collect();
    let top = spec.owner(15, &members);
    Case::new("1,024 falling tags", &spec, top, &[]).run();

    let mut spec = Spec::default();
    let mut part = spec.basic(0);
    for _ in 0..253 {
        part = spec.owner(9, &[(part, None)]);
    }
    let parts = spec.row(10, [part, 0, 0, 0, 0]);
    let top = spec.owner(15, &[(parts, None)]);
    let member = spec.members.len() - 1;
    Case::new("65,525 deep bools", &spec, top, &[(member, [size(65_525), vec![1; 65_525]].concat())]).run();

    // P2 under a table of 1,024 members: its own three, and optionals that it lacks.
    let mut spec = Spec::default();
    let (short, int, long) = (spec.basic(2), spec.basic(3), spec.basic(4));
    let members: Vec<_> = [(short, None), (long, Some(7)), (int, Some(8))]
        .into_iter()
        .chain((0..1_021).map(|i| (int, Some(9 + i))))
        .collect();
    let top = spec.owner(15, &members);
    let many_night = Case::new("P2 of 1,024", &spec, top, &p2_values);
    let p2_night = p2.clone();

    println!();
    heads("library", "independent");
    endpoints();

    let compared = [
        run_compare("compare: 256 rows, 1,024 members", 4),
        run_compare("compare: the same, each struct of the row before", 0),
        run_compare("compare: three ints and the row before", 3),
    ];
    let _ = run_bursts(1_000, None);
    run_falling(1_000);
    let plans = run_bursts(10_000, Some(PLAN));
    p2.run_report();

    println!();
    heads("long", "short");
    let ten_plans = run_plan_lengths();

    println!();
    heads("call", "icehub_read");
    let converting = record.run_conversion_call(&compact);
    let setting = record.run_setting_call();
    let old_reading = old.run_against(&new);
    let reporting = p2.run_report_call();
    bars.extend([p2, record, many].iter().map(Case::run_calls));

    // A night of 10,000 messages of P2, under its table and under one of 1,024 members.
    println!();
    heads("library", "independent");
    let nights =
        [Night::new("10,000 of P2", &p2_night, 10_000), Night::new("under 1,024 members", &many_night, 10_000)];
    let whole: Vec<_> = nights.iter().map(Night::run).collect();
    nights.iter().for_each(Night::run_sheet);
    println!();
    heads("icehub_sheet", "icehub_night");
    let sheets: Vec<_> = nights.iter().map(Night::run_sheet_against_night).collect();
    println!();
    heads("icehub_night", "read_numbers");
    let single: Vec<_> = nights.iter().map(Night::run_single).collect();

    println!();
    heads("call", "from_utf8");
    texts.iter().for_each(Case::run_text);
    bars.extend([converting, setting, old_reading, reporting]);
    bars.extend(compared.into_iter().chain(plans).chain(ten_plans).chain(whole).chain(sheets).chain(single));
    bars.into_iter().filter_map(Result::err).collect()
}
