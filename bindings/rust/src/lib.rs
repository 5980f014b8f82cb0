//! Reads and writes messages of Ice encodings 1.1 and 1.0 by a lent type table: the proved library `libicehub.a`, safe to call
//! from Rust.
//!
//! Any call may be given any bytes. A call that refuses says why and where, and leaves every lent byte as it was.
//! Nothing is allocated.
//!
//! ```
//! // Rows short, long, int, and a parameter list of a short, an optional(7) long and an optional(8) int.
//! let table = b"FGT\x01\0\x04\0\x03\0\0\0\0\
//!     \x02\0\0\0\0\0\0\0\0\0\0\0\
//!     \x04\0\0\0\0\0\0\0\0\0\0\0\
//!     \x03\0\0\0\0\0\0\0\0\0\0\0\
//!     \x0F\0\0\0\x03\0\0\0\0\0\0\0\
//!     \0\0\0\0\0\0\0\0\
//!     \x01\0\x01\0\x07\0\0\0\
//!     \x02\0\x01\0\x08\0\0\0";
//! let message = b"\x16\0\0\0\x01\x01\x0C\xFE\x3B\0\0\0\0\x01\0\0\0\x42\x08\x07\0\0";
//!
//! let mut rows = [0; 3 * icehub::ROW_SIZE];
//! let reading = icehub::read(table, 3, message, &mut rows)?;
//! let tick = reading.member(1).and_then(|tick| tick.as_i64());
//! assert_eq!(tick, Some(4_294_967_296));
//!
//! let mut out = [0; 64];
//! let length = icehub::write(table, reading.first_type, reading.format, reading.list(), message, &mut out)?;
//! assert_eq!(&out[..length], message);
//! # Ok::<(), icehub::Refusal>(())
//! ```

#![no_std]
#![deny(unsafe_code)]
#![deny(missing_docs)]

mod bursts;
mod change;
mod compare;
mod convert;
mod endpoint;
#[allow(unsafe_code)]
mod ffi;
mod guard;
mod night;
mod refusal;
mod sheet;
mod table;
mod value;

pub use bursts::{check_plan, plan, PlanRefusal, BURST_BYTES};
pub use change::{remove, set};
pub use compare::{compare, Comparison, Difference, What, DIFFERENCE_SIZE};
pub use convert::convert;
pub use endpoint::{endpoint_at, open_endpoint, write_endpoint, Address, Opened};
pub use guard::{Guard, GUARD_SIZE};
pub use night::{night, Answer, Answers, Night, ANSWER_SIZE};
pub use refusal::{Reason, Refusal};
pub use sheet::{Sheet, SHEET_SIZE};
pub use table::{Allowed, Enumerators, Kind, MemberRow, Table, TypeRow};
pub use value::{Elements, Endpoint, Endpoints, Entries, Fields, Proxy, Value};

use core::iter::FusedIterator;
use core::slice;

/// The bytes of one row.
pub const ROW_SIZE: usize = 12;

/// No message has more rows.
pub const MOST_ROWS: usize = 1_024;

/// No message is longer, and no buffer of the writer.
pub const MOST_BYTES: usize = 65_536;

/// The format of a message. A parameter list of encoding 1.1 is [`Format::Sliced`].
#[derive(Clone, Copy, Debug, PartialEq, Eq, Hash)]
pub enum Format {
    /// Only the first slice has a type ID, none has a size. It is read, and not written: see [`convert`](convert()).
    Compact = 0,
    /// Each slice has a type ID and a size.
    Sliced = 1,
    /// Encoding 1.0: a parameter list or an exception, without optionals.
    Old = 2,
}

/// A row of a list: a member, and where its bytes are.
///
/// They are the value alone, without an optional's header and length field; a string, sequence or dictionary begins
/// with its own size, also where that size serves as the length field (an optional string, or sequence of bool or
/// byte).
#[derive(Clone, Copy, Debug, PartialEq, Eq, Hash)]
pub struct Row {
    /// The member row of the table.
    pub member: u32,
    /// The place of its first byte in the message; for the writer, in the buffer.
    pub place: u32,
    /// How many bytes it has.
    pub length: u32,
}

impl Row {
    /// The row of these bytes of a list: three numbers, little-endian.
    pub fn from_bytes(bytes: [u8; ROW_SIZE]) -> Row {
        let number = |at| u32::from_le_bytes([bytes[at], bytes[at + 1], bytes[at + 2], bytes[at + 3]]);
        Row { member: number(0), place: number(4), length: number(8) }
    }

    /// The bytes of the row, for a list that [`write`](write()) takes.
    pub fn to_bytes(self) -> [u8; ROW_SIZE] {
        let mut bytes = [0; ROW_SIZE];
        for (part, number) in bytes.chunks_exact_mut(4).zip([self.member, self.place, self.length]) {
            part.copy_from_slice(&number.to_le_bytes());
        }
        bytes
    }

    /// The member's bytes in a message or a buffer; none where the row reaches beyond it.
    pub fn part(self, bytes: &[u8]) -> Option<&[u8]> {
        bytes.get(self.place as usize..)?.get(..self.length as usize)
    }
}

/// A member of an accepted message: its row, its type and its value.
///
/// A getter gives none where the table gives the member another type.
#[derive(Clone, Copy, Debug, PartialEq, Eq)]
pub struct Member<'a> {
    /// Where its bytes are.
    pub row: Row,
    table: Table<'a>,
    message: &'a [u8],
    format: Format,
}

impl<'a> Member<'a> {
    /// The number of its member row.
    pub fn number(self) -> u32 {
        self.row.member
    }

    /// Its bytes in the message, as [`Row`] says.
    pub fn part(self) -> &'a [u8] {
        self.row.part(self.message).unwrap_or_default()
    }

    /// The member row that declares it.
    pub fn declared(self) -> Option<MemberRow<'a>> {
        self.table.member_row(self.row.member)
    }

    /// Its value. None is never given for an accepted message.
    pub fn value(self) -> Option<Value<'a>> {
        Value::new_in(self.format, self.declared()?.of(), self.part())
    }
}

/// Getters of a value, on the member itself.
macro_rules! getters {
    ($($(#[$doc:meta])* $name:ident -> $result:ty;)*) => {
        impl<'a> Member<'a> {
            $($(#[$doc])*
            pub fn $name(self) -> Option<$result> {
                self.value()?.$name()
            })*
        }
    };
}

getters! {
    /// A bool.
    as_bool -> bool;
    /// A byte.
    as_u8 -> u8;
    /// A short.
    as_i16 -> i16;
    /// An int or a short.
    as_i32 -> i32;
    /// A long, an int or a short.
    as_i64 -> i64;
    /// A float.
    as_f32 -> f32;
    /// A double or a float.
    as_f64 -> f64;
    /// A string.
    as_str -> &'a str;
    /// The bytes of a string or of a sequence of bytes, without its size.
    as_bytes -> &'a [u8];
    /// An enumerator's number.
    as_enumerator -> u32;
    /// The members of a struct.
    as_struct -> Fields<'a>;
    /// The elements of a sequence.
    as_sequence -> Elements<'a>;
    /// The entries of a dictionary.
    as_dictionary -> Entries<'a>;
    /// A proxy that is not nil.
    as_proxy -> Proxy<'a>;
}

/// The members of a message, in message order.
#[derive(Clone, Debug)]
pub struct Members<'a> {
    rows: slice::Iter<'a, [u8; ROW_SIZE]>,
    table: Table<'a>,
    message: &'a [u8],
    format: Format,
}

impl<'a> Iterator for Members<'a> {
    type Item = Member<'a>;

    fn next(&mut self) -> Option<Member<'a>> {
        let row = Row::from_bytes(*self.rows.next()?);
        Some(Member { row, table: self.table, message: self.message, format: self.format })
    }

    fn size_hint(&self) -> (usize, Option<usize>) {
        self.rows.size_hint()
    }
}

impl ExactSizeIterator for Members<'_> {}
impl FusedIterator for Members<'_> {}

/// What the reader gives of an accepted message, with the message itself.
#[derive(Clone, Copy, Debug, PartialEq, Eq)]
pub struct Reading<'a> {
    /// Of a record the row of its first slice that the table knows, the top or one that descends from it; of a
    /// parameter list the top.
    pub first_type: u32,
    /// The format of the message.
    pub format: Format,
    /// How many optionals were skipped, because the table does not know their tags.
    pub optionals_skipped: u32,
    /// How many slices were skipped, because the table does not know their type IDs.
    pub slices_skipped: u32,
    table: Table<'a>,
    message: &'a [u8],
    list: &'a [u8],
}

impl<'a> Reading<'a> {
    /// The members that the table knows, in message order.
    pub fn members(&self) -> Members<'a> {
        Members { rows: self.list.as_chunks().0.iter(), table: self.table, message: self.message, format: self.format }
    }

    /// The member of this member row, if the message has it.
    pub fn member(&self, number: u32) -> Option<Member<'a>> {
        self.members().find(|member| member.row.member == number)
    }

    /// The rows as bytes, [`ROW_SIZE`] each, as [`write`](write()) takes them.
    pub fn list(&self) -> &'a [u8] {
        self.list
    }

    /// The message.
    pub fn message(&self) -> &'a [u8] {
        self.message
    }

    /// The table.
    pub fn table(&self) -> Table<'a> {
        self.table
    }
}

/// Reads a message under a type table and the row of the wanted type, the top.
///
/// The rows of the members that the table knows are put at the start of `rows`, [`ROW_SIZE`] bytes each; the bytes
/// beyond them stay, and on a refusal all of them. A list of [`MOST_ROWS`] rows is always long enough.
///
/// The library reads the message once; on a refusal once more, for its place.
pub fn read<'a>(table: &'a [u8], top: u32, message: &'a [u8], rows: &'a mut [u8]) -> Result<Reading<'a>, Refusal> {
    let room = rows.len();
    let [first_type, format, count, optionals_skipped, slices_skipped] = ffi::read(table, top, message, rows)
        .map_err(|number| Refusal { number, place: ffi::read_place(table, top, message, room) })?;
    Ok(Reading {
        first_type,
        format: match format {
            0 => Format::Compact,
            2 => Format::Old,
            _ => Format::Sliced,
        },
        optionals_skipped,
        slices_skipped,
        table: Table::accepted(table),
        message,
        list: &rows[..count as usize * ROW_SIZE],
    })
}

/// The member view: the bytes of one member of a message, without a list.
///
/// They are a part of the message, as [`Row`] says; the whole `fallback` where an accepted message could have the
/// member and does not; or no bytes, where the message's type has no such member.
///
/// The library reads the message once; on a refusal once more, for its place.
pub fn member<'a>(
    table: &[u8],
    top: u32,
    message: &'a [u8],
    member: u32,
    fallback: &'a [u8],
) -> Result<&'a [u8], Refusal> {
    match ffi::member(table, top, message, member) {
        Ok([1, place, length]) => Ok(Row { member, place, length }.part(message).unwrap_or_default()),
        Ok([2, ..]) => Ok(fallback),
        Ok(_) => Ok(&[]),
        Err(number) => Err(Refusal { number, place: ffi::read_place(table, top, message, MOST_ROWS * ROW_SIZE) }),
    }
}

/// Writes the message of a type in a format, and gives its length. [`Format::Compact`] is refused, and
/// [`Format::Old`] for a class or a type with optionals.
///
/// `of` is the row of an exception, a class or a parameter list. `rows` has [`ROW_SIZE`] bytes for each row, a rest is
/// ignored; their places point into `buffer`, where they may overlap. They go through the slices of the type from
/// itself to its last base: in each the required members as declared, then those optionals that are wanted, by rising
/// tag.
///
/// The message is put at the start of `out`; the bytes beyond it stay, and on a refusal all of them. Where `out` is too
/// short, the place of the refusal is the length needed.
///
/// The library judges the rows twice: once for the message and once for its length.
pub fn write(
    table: &[u8],
    of: u32,
    format: Format,
    rows: &[u8],
    buffer: &[u8],
    out: &mut [u8],
) -> Result<usize, Refusal> {
    // No list of more than MOST_ROWS rows is right, so a count cut to 32 bits is refused as the whole one is.
    let count = u32::try_from(rows.len() / ROW_SIZE).unwrap_or(u32::MAX);
    let given = ffi::Given { table, of, format: format as u32, count, rows, buffer };
    match ffi::write(given, out) {
        0 => Ok(ffi::write_length(given, out.len()) as usize),
        number => Err(Refusal { number, place: ffi::write_place(given, out.len()) }),
    }
}
