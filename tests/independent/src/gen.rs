//! Random calls from one seed: tables of both versions and all kinds, right and damaged; messages in both encodings and all
//! formats with unknown optionals and slices in them, conforming, with wrong items in them, with strings that are no text, or damaged;
//! right and wrong rows for the writer.

mod changes;
mod compare;
mod endpoints;
mod guard;
mod message;
mod night;
mod plans;
mod sheet;
mod text;
mod types;

pub use changes::{Change, Changes};
pub use compare::compare_call;
pub use endpoints::endpoint_calls;
pub use guard::{guard_call, season};
pub use message::{message, Message, Wrong};
pub use night::night;
pub use plans::plan_calls;
pub use sheet::sheet;
pub use text::{Made, Text};
pub use types::Types;

use crate::calls::Call;
use crate::spec::Spec;
use crate::write;
use message::mend;

/// A small generator of numbers (splitmix64).
pub struct Rng(pub u64);

impl Rng {
    fn next(&mut self) -> u64 {
        self.0 = self.0.wrapping_add(0x9E37_79B9_7F4A_7C15);
        let z = (self.0 ^ (self.0 >> 30)).wrapping_mul(0xBF58_476D_1CE4_E5B9);
        let z = (z ^ (z >> 27)).wrapping_mul(0x94D0_49BB_1331_11EB);
        z ^ (z >> 31)
    }

    /// A number below `n`, which is at least 1.
    fn below(&mut self, n: usize) -> usize {
        (self.next() % n as u64) as usize
    }

    fn one_in(&mut self, n: usize) -> bool {
        self.below(n) == 0
    }

    fn pick<T: Copy>(&mut self, from: &[T]) -> T {
        from[self.below(from.len())]
    }

    /// A byte, mostly one that means something somewhere.
    fn byte(&mut self) -> u8 {
        if self.one_in(4) {
            return self.next() as u8;
        }
        self.pick(&[0, 0, 1, 1, 2, 3, 4, 5, 6, 17, 29, 30, 31, 49, 65, 127, 128, 240, 246, 254, 255, 255])
    }

    /// A number that is near some bound, or near `n`.
    fn number(&mut self, n: usize) -> u32 {
        let near = n as u32;
        let around = [near, near.wrapping_add(1), near.wrapping_sub(1), near / 2, near.wrapping_mul(2)];
        let bounds = [0, 1, 5, 254, 255, 256, 65_535, 65_536, 0x7FFF_FFFF, 0x8000_0000, u32::MAX];
        if self.one_in(3) {
            self.pick(&bounds)
        } else {
            self.pick(&around)
        }
    }

    fn tag(&mut self) -> u32 {
        match self.below(8) {
            0 => self.next() as u32 >> 1,
            1 => self.below(300) as u32,
            _ => self.pick(&[0, 1, 2, 3, 5, 7, 8, 28, 29, 30, 31, 32, 254, 255, 256, 300, 65_536, 0x7FFF_FFFF]),
        }
    }

    /// A name: text of 1 to 255 bytes.
    fn name(&mut self) -> Vec<u8> {
        let length = self.pick(&[1, 1, 2, 2, 3, 4, 6, 9, 9, 253, 254, 255]);
        let length = if length > 200 && !self.one_in(4) { 5 } else { length };
        self.text(length)
    }
}

/// Changes a few bytes, or their number.
fn damage(rng: &mut Rng, bytes: &mut Vec<u8>, from: usize) {
    for _ in 0..rng.pick(&[1, 1, 1, 2, 3]) {
        if bytes.len() <= from {
            return bytes.push(rng.byte());
        }
        let at = from + rng.below(bytes.len() - from);
        match rng.below(8) {
            0 => bytes.truncate(at),
            1 => bytes.insert(at, rng.byte()),
            2 => drop(bytes.remove(at)),
            3 => bytes.push(rng.byte()),
            4 => bytes[at] ^= 1 << rng.below(8),
            5 => bytes[at] = bytes[at].wrapping_add(rng.pick(&[1, 255])),
            _ => bytes[at] = rng.byte(),
        }
    }
}

/// Breaks a rule of the lists of enumerators, mostly.
fn spoil_lists(rng: &mut Rng, spec: &mut Spec) {
    let Some(entries) = &mut spec.entries else { return };
    let enums: Vec<usize> = (0..spec.rows.len()).filter(|&r| spec.rows[r].0 == 8).collect();
    if enums.is_empty() || rng.one_in(7) {
        let entry = entries.last().map_or(0, |last| last + 1);
        return entries.extend((entry..).take(rng.pick(&[1, 1, 2]))); // left over
    }
    let (r, other) = (rng.pick(&enums), rng.pick(&enums));
    let [a, b, first, count] = [0, 1, 2, 3].map(|field| spec.rows[r].1[field]);
    let list = first as usize..first as usize + count as usize;
    let fields = &mut spec.rows[r].1;
    match rng.below(7) {
        0 => fields[2] = rng.number(first.into()) as u16, // not the number taken before
        1 => {
            // No entries, and all else right.
            entries.drain(list);
            fields[3] = 0;
            for (kind, fields) in &mut spec.rows[r + 1..] {
                if *kind == 8 {
                    fields[2] -= count;
                }
            }
        }
        2 => {
            // Beyond all entries, into the next list or not to its end.
            let beyond = entries.len() as u16 - first + 1;
            let any = rng.number(count.into()) as u16;
            fields[3] = rng.pick(&[beyond, any]);
        }
        3 => {
            // Not rising.
            let (i, j) = (list.start + rng.below(list.len()), list.start + rng.below(list.len()));
            if rng.one_in(2) {
                entries.swap(i, j);
            } else {
                entries[i] = entries[j];
            }
        }
        4 => entries[list.end - 1] = rng.number((a as usize) | (b as usize) << 16), // the greatest is another
        5 => fields[0] = rng.number(a.into()) as u16,
        _ => {
            // Lists in another order than their rows.
            let swapped = spec.rows[other].1;
            spec.rows[other].1 = spec.rows[r].1;
            spec.rows[r].1 = swapped;
        }
    }
}

/// A table that breaks a rule or more, mostly.
fn damaged_table(rng: &mut Rng, types: &Types) -> Vec<u8> {
    let mut spec = types.spec.clone();
    let has_enum = spec.rows.iter().any(|row| row.0 == 8);
    let lists = spec.entries.is_some() && rng.one_in(if has_enum { 2 } else { 20 });
    if lists {
        spoil_lists(rng, &mut spec);
    }
    let mut bytes = spec.bytes();
    let (start, rows, members) = (spec.header(), spec.rows.len(), spec.members.len());
    for _ in 0..rng.pick(if lists { &[0, 0, 0, 1] } else { &[1, 1, 2, 3] }) {
        let (r, other) = (rng.below(rows), rng.below(rows));
        let (row, other) = (start + 12 * r, start + 12 * other);
        let records: Vec<u16> = types.records().collect();
        if !records.is_empty() && rng.one_in(12) {
            let (one, other) = (rng.pick(&records), rng.pick(&records));
            if rng.one_in(2) {
                // A name that is no text.
                let [.., from, length] = types.fields(one).map(usize::from);
                let names = start + 12 * rows + 8 * members;
                rng.spoil(&mut bytes[names + from..names + from + length]);
            } else {
                // The name of another record.
                let [one, other] = [one, other].map(|r| start + 12 * r as usize + 8);
                bytes.copy_within(other..other + 4, one);
            }
            continue;
        }
        match rng.below(14) {
            0 => bytes[rng.below(start)] = rng.byte(),
            1 | 2 => bytes.copy_within(other..other + 12, row),
            3 => bytes[row] = rng.below(18) as u8,
            4..=8 => {
                let field = row + 2 * rng.below(6);
                let old = u16::from_le_bytes([bytes[field], bytes[field + 1]]);
                let number = match rng.below(4) {
                    0 => (r + rng.below(3)) as u16,
                    1 => rng.number(types.spec.names.len()) as u16,
                    _ => rng.number(old.into()) as u16,
                };
                bytes[field..field + 2].copy_from_slice(&number.to_le_bytes());
            }
            _ if members > 0 => {
                let all = start + 12 * rows;
                let (one, other) = (all + 8 * rng.below(members), all + 8 * rng.below(members));
                match rng.below(4) {
                    0 => bytes.copy_within(other..other + 8, one),
                    1 => bytes[one + rng.below(4)] = rng.below(4) as u8,
                    2 => bytes[one + 4..one + 8].copy_from_slice(&rng.number(30).to_le_bytes()),
                    _ => bytes[one + rng.below(8)] = rng.byte(),
                }
            }
            _ => bytes[row + rng.below(12)] = rng.byte(),
        }
    }
    if rng.one_in(10) {
        damage(rng, &mut bytes, 0);
    }
    bytes
}

/// As many calls as wanted, of the reader and the writer, from one seed.
pub struct Calls {
    rng: Rng,
    types: Types,
    /// Calls still to be made under these types.
    left: usize,
    /// The strings of the message that the last call reads, unless it was damaged.
    strings: Vec<Made>,
}

impl Calls {
    pub fn new(seed: u64) -> Calls {
        let mut rng = Rng(seed);
        let types = Types::random(&mut rng);
        Calls { rng, types, left: 16, strings: vec![] }
    }

    /// What the string at a place of the last call's message is; none if it was damaged.
    pub fn string_at(&self, place: u32) -> Option<Text> {
        self.strings.iter().find(|string| string.place == place as usize).map(|string| string.what)
    }
}

impl Iterator for Calls {
    type Item = Call;

    fn next(&mut self) -> Option<Call> {
        if self.left == 0 {
            *self = Calls { types: Types::random(&mut self.rng), left: 16, rng: Rng(self.rng.next()), strings: vec![] };
        }
        self.left -= 1;
        self.strings.clear();
        let (rng, types, strings) = (&mut self.rng, &self.types, &mut self.strings);
        let top = types.top(rng);
        Some(match rng.below(1_000) {
            0 => large(rng),
            1 => large_table(rng),
            2..=29 => Call::Check { table: damaged_table(rng, types) },
            30..=79 => {
                let table = damaged_table(rng, types);
                let message = message(rng, types, top, Wrong::Nothing);
                read_call(rng, table, top.into(), message, strings)
            }
            80..=299 => {
                let message = message(rng, types, top, Wrong::Nothing);
                read_call(rng, types.spec.bytes(), top.into(), message, strings)
            }
            300..=349 => {
                let wrong = Wrong::Strings(rng.pick(&[2, 8, 30]));
                let message = message(rng, types, top, wrong);
                read_call(rng, types.spec.bytes(), top.into(), message, strings)
            }
            350..=549 => {
                let wrong = Wrong::Items(rng.pick(&[8, 20, 50]));
                let message = message(rng, types, top, wrong);
                read_call(rng, types.spec.bytes(), top.into(), message, strings)
            }
            550..=649 => {
                let mut message = message(rng, types, top, Wrong::Nothing);
                let from = rng.pick(&[0, 6]);
                damage(rng, &mut message.bytes, from);
                message.strings.clear();
                if from != 0 || !rng.one_in(4) {
                    mend(&mut message.bytes);
                }
                read_call(rng, types.spec.bytes(), top.into(), message, strings)
            }
            650..=749 => {
                let wrong = if rng.one_in(4) { Wrong::Strings(8) } else { Wrong::Nothing };
                let message = message(rng, types, top, wrong);
                let older = types.older(rng).spec.bytes();
                read_call(rng, older, top.into(), message, strings)
            }
            750..=799 => {
                let message = message(rng, types, top, Wrong::Nothing);
                let top = if rng.one_in(2) { types.top(rng).into() } else { rng.number(types.spec.rows.len()) };
                read_call(rng, types.spec.bytes(), top, message, strings)
            }
            800..=869 => rows(rng, types, top, Wrong::Nothing).call(rng),
            870..=899 => {
                let one_in = rng.pick(&[8, 20, 50]);
                let wrong = if rng.one_in(3) { Wrong::Strings(one_in) } else { Wrong::Items(one_in) };
                rows(rng, types, top, wrong).call(rng)
            }
            _ => {
                let mut rows = rows(rng, types, top, Wrong::Nothing);
                rows.spoil(rng);
                rows.call(rng)
            }
        })
    }
}

fn read_call(rng: &mut Rng, table: Vec<u8>, top: u32, message: Message, strings: &mut Vec<Made>) -> Call {
    *strings = message.strings;
    let rows = 12 * message.rows.len();
    let room = match rng.below(12) {
        0 => rows.saturating_sub(1),
        1 => rng.below(rows + 1),
        2 => rows,
        3 => rows + rng.below(12),
        _ => rows + 600,
    };
    Call::Read { table, top, message: message.bytes, room }
}

/// What the writer takes.
struct Rows {
    table: Vec<u8>,
    of: u32,
    format: u32,
    rows: Vec<[u32; 3]>,
    buffer: Vec<u8>,
}

/// The rows of a message, in it or in a buffer of their parts in another order.
fn rows(rng: &mut Rng, types: &Types, top: u16, wrong: Wrong) -> Rows {
    let Message { bytes, mut rows, reading, .. } = message(rng, types, top, wrong);
    let mut buffer = bytes;
    if rng.one_in(2) {
        let message = std::mem::take(&mut buffer);
        let mut order: Vec<usize> = (0..rows.len()).collect();
        for i in (1..order.len()).rev() {
            order.swap(i, rng.below(i + 1));
        }
        for i in order {
            let [_, place, length] = rows[i];
            for _ in 0..rng.pick(&[0, 0, 0, 1, 3]) {
                buffer.push(rng.byte());
            }
            rows[i][1] = buffer.len() as u32;
            buffer.extend(&message[place as usize..(place + length) as usize]);
        }
    }
    let format = if reading.format == 2 { 2 } else { 1 };
    Rows { table: types.spec.bytes(), of: reading.first, format, rows, buffer }
}

impl Rows {
    /// Makes them wrong, mostly.
    fn spoil(&mut self, rng: &mut Rng) {
        let rows = &mut self.rows;
        let i = rng.below(rows.len().max(1));
        match rng.below(12) {
            0 => self.format = rng.pick(&[0, 0, 1, 2, 256, u32::MAX]),
            1 => self.of = rng.number(self.of as usize),
            2 if !self.buffer.is_empty() => damage(rng, &mut self.buffer, 0),
            3 if !rows.is_empty() => drop(rows.remove(i)),
            4 if !rows.is_empty() => rows.insert(i, rows[i]),
            5 if rows.len() > 1 => rows.swap(i, rng.below(i + 1)),
            6 => rows.push([rng.number(rows.len()), 0, 1]),
            7 if !rows.is_empty() => rows[i][0] = rng.number(rows[i][0] as usize),
            8 if !rows.is_empty() => rows[i][1] = rng.number(self.buffer.len()),
            9 if !rows.is_empty() => rows[i][2] = rng.number(rows[i][2] as usize),
            _ if !rows.is_empty() => {
                let one = rng.pick(&[1, u32::MAX]);
                let number = rng.pick(&[0, 1, 2]);
                rows[i][number] = rows[i][number].wrapping_add(one);
            }
            _ => self.format ^= 1,
        }
    }

    fn call(self, rng: &mut Rng) -> Call {
        let Rows { table, of, format, rows, buffer } = self;
        let mut count = rows.len() as u32;
        let mut rows = bytes_of(&rows);
        match rng.below(40) {
            0 => count = rng.number(count as usize),
            1 => rows.truncate(rng.below(rows.len() + 1)),
            2 => rows.extend([0; 7]),
            _ => (),
        }
        let needed = match rng.below(3) {
            0 => match write(&table, of, format, count, &rows, &buffer, &mut []) {
                Err((22, needed)) => needed as usize,
                _ => 0,
            },
            _ => 0,
        };
        let room = match rng.below(4) {
            _ if needed == 0 => buffer.len() + 1_000,
            0 => needed - 1,
            1 => rng.below(needed),
            2 => needed,
            _ => needed + 5,
        };
        Call::Write { table, of, format, count, rows, buffer, room }
    }
}

/// A call at the bounds of 65,536 bytes.
fn large(rng: &mut Rng) -> Call {
    let mut spec = if rng.one_in(2) { Spec::with_lists() } else { Spec::default() };
    let (bool, short, string) = (spec.basic(0), spec.basic(2), spec.basic(7));
    let bools = spec.row(10, [bool, 0, 0, 0, 0]);
    let shorts = spec.row(10, [short, 0, 0, 0, 0]);
    let part = rng.pick(&[string, bools, shorts]);
    let one = spec.owner(15, &[(part, None)]);
    let two = spec.owner(15, &[(part, None), (part, None)]);
    let table = spec.bytes();
    let total = 65_533 + rng.below(6);
    let value = |rng: &mut Rng, bytes: usize| {
        let more = if rng.one_in(4) { rng.below(9) } else { 0 };
        let count = (bytes - 5) / if part == shorts { 2 } else { 1 } + more;
        let size = [&[255][..], &(count as u32).to_le_bytes()].concat();
        let mut content = if part == string { rng.text(bytes - 5) } else { vec![1; bytes - 5] };
        if part == string && rng.one_in(4) {
            rng.spoil(&mut content);
        }
        if part == bools && rng.one_in(2) {
            let place = rng.below(content.len());
            content[place] = rng.pick(&[0, 2, 3, 128, 255]);
        }
        [size, content].concat()
    };
    if rng.one_in(2) {
        let mut message = [&[0, 0, 0, 0, 1, 1], &value(rng, total - 6)[..]].concat();
        mend(&mut message);
        return Call::Read { table, top: one.into(), message, room: 12 };
    }
    let mut buffer = [value(rng, 40_001), value(rng, total - 40_007)].concat();
    let mut rows = [[1, 0, 40_001], [2, 40_001, total as u32 - 40_007]];
    if rng.one_in(4) {
        rows[1] = [2, 0, 40_001]; // rows may share their bytes
    }
    if rng.one_in(4) {
        buffer.resize(65_535 + rng.below(3), 0);
    }
    let room = rng.pick(&[total - 1, total, 65_535, 65_536, 65_537, 90_000]);
    Call::Write { table, of: two.into(), format: 1, count: 2, rows: bytes_of(&rows), buffer, room }
}

/// A call under a table at the bounds of its counts.
fn large_table(rng: &mut Rng) -> Call {
    let (rows, members, names) = (255 + rng.below(3), 1_023 + rng.below(3), 8_191 + rng.below(3));
    let mut spec = Spec::default();
    if rng.one_in(2) {
        let entries: Vec<u32> = (0..1_023 + rng.below(3) as u32).map(|i| 3 * i).collect();
        let (one, other) = entries.split_at(rng.pick(&[1, 300, 1_022]));
        spec.listed(one);
        spec.listed(other);
    }
    if rng.one_in(2) {
        (spec.rows.len() + 2..rows).for_each(|_| spec.rows.push((1, [0; 5])));
    }
    let byte = spec.basic(1);
    let members = if rng.one_in(2) { members } else { 3 };
    let last = (0..members).map(|m| (byte, if m < 2 { None } else { Some(m as u32) }));
    let top = spec.owner(15, &last.collect::<Vec<_>>());
    if rng.one_in(2) {
        spec.names.resize(names, 0);
    }
    let message = vec![10, 0, 0, 0, 1, 1, 7, 8, 16, 9];
    Call::Read { table: spec.bytes(), top: top.into(), message, room: 36 }
}

fn bytes_of(rows: &[[u32; 3]]) -> Vec<u8> {
    rows.iter().flatten().flat_map(|number| number.to_le_bytes()).collect()
}
