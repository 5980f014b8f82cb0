//! A type table, to look things up in: its rows, members and names.
//!
//! The library judges a table; this module reads one that was accepted and decides nothing.

use crate::{ffi, Refusal};
use core::iter::FusedIterator;
use core::ops::Range;
use core::slice;

/// What a type is: the kinds of document 01.
#[derive(Clone, Copy, Debug, PartialEq, Eq, Hash)]
#[repr(u8)]
pub enum Kind {
    /// 0: one byte, 0 or 1.
    Bool = 0,
    /// 1: one byte.
    Byte = 1,
    /// 2: a signed number of two bytes.
    Short = 2,
    /// 3: a signed number of four bytes.
    Int = 3,
    /// 4: a signed number of eight bytes.
    Long = 4,
    /// 5: a floating-point number of four bytes.
    Float = 5,
    /// 6: a floating-point number of eight bytes.
    Double = 6,
    /// 7: a size and that many bytes of UTF-8.
    String = 7,
    /// 8: a size, one of the numbers that the enum allows.
    Enum = 8,
    /// 9: its members, one after another.
    Struct = 9,
    /// 10: a size and that many elements.
    Sequence = 10,
    /// 11: a size and that many pairs of key and value.
    Dictionary = 11,
    /// 12: a reference to an object.
    Proxy = 12,
    /// 13: a record that may have a base.
    Exception = 13,
    /// 14: a record that may have a base.
    Class = 14,
    /// 15: the members of a call.
    ParameterList = 15,
}

impl Kind {
    /// Every kind, by its number.
    pub const ALL: [Kind; 16] = [
        Kind::Bool,
        Kind::Byte,
        Kind::Short,
        Kind::Int,
        Kind::Long,
        Kind::Float,
        Kind::Double,
        Kind::String,
        Kind::Enum,
        Kind::Struct,
        Kind::Sequence,
        Kind::Dictionary,
        Kind::Proxy,
        Kind::Exception,
        Kind::Class,
        Kind::ParameterList,
    ];

    /// The kind with this number.
    pub fn from_number(number: u8) -> Option<Kind> {
        Kind::ALL.get(usize::from(number)).copied()
    }

    /// In words.
    pub const fn name(self) -> &'static str {
        match self {
            Kind::Bool => "bool",
            Kind::Byte => "byte",
            Kind::Short => "short",
            Kind::Int => "int",
            Kind::Long => "long",
            Kind::Float => "float",
            Kind::Double => "double",
            Kind::String => "string",
            Kind::Enum => "enum",
            Kind::Struct => "struct",
            Kind::Sequence => "sequence",
            Kind::Dictionary => "dictionary",
            Kind::Proxy => "proxy",
            Kind::Exception => "exception",
            Kind::Class => "class",
            Kind::ParameterList => "parameter list",
        }
    }

    /// An exception or a class.
    pub const fn is_record(self) -> bool {
        matches!(self, Kind::Exception | Kind::Class)
    }

    /// An exception, a class or a parameter list: what a message may hold.
    pub const fn can_be_top(self) -> bool {
        self.is_record() || matches!(self, Kind::ParameterList)
    }
}

const TYPE_ROW: usize = 12;
const MEMBER_ROW: usize = 8;

/// A type table that breaks no rule.
#[derive(Clone, Copy, Debug, PartialEq, Eq)]
pub struct Table<'a> {
    bytes: &'a [u8],
}

impl<'a> Table<'a> {
    /// The table of these bytes, if it breaks no rule: the library judges it.
    pub fn new(bytes: &'a [u8]) -> Result<Table<'a>, Refusal> {
        match ffi::table(bytes) {
            0 => Ok(Table { bytes }),
            number => Err(Refusal { number, place: ffi::table_place(bytes) }),
        }
    }

    /// A table that breaks a rule, to show the rows before the one at the refusal's place: only those were judged.
    pub fn broken(bytes: &'a [u8]) -> Table<'a> {
        Table { bytes }
    }

    /// A table that the library has accepted.
    pub(crate) fn accepted(bytes: &'a [u8]) -> Table<'a> {
        Table { bytes }
    }

    /// Its bytes.
    pub fn bytes(self) -> &'a [u8] {
        self.bytes
    }

    /// Its version: 1, or 2 where its enums have lists of enumerators.
    pub fn version(self) -> u16 {
        self.number(3)
    }

    /// How many type rows it has.
    pub fn types(self) -> u32 {
        self.number(5).into()
    }

    /// How many member rows it has.
    pub fn members(self) -> u32 {
        self.number(7).into()
    }

    /// Its name bytes.
    pub fn names(self) -> &'a [u8] {
        let count = usize::from(self.number(9));
        self.bytes.get(self.names_start()..).and_then(|names| names.get(..count)).unwrap_or_default()
    }

    /// How many entries its lists of enumerators have; none in version 1.
    pub fn entries(self) -> u32 {
        if self.has_lists() {
            self.number(12).into()
        } else {
            0
        }
    }

    /// Type row `number`.
    pub fn type_row(self, number: u32) -> Option<TypeRow<'a>> {
        (number < self.types()).then_some(TypeRow { table: self, number })
    }

    /// All type rows, in order.
    pub fn type_rows(self) -> impl Iterator<Item = TypeRow<'a>> {
        (0..self.types()).map(move |number| TypeRow { table: self, number })
    }

    /// Member row `number`.
    pub fn member_row(self, number: u32) -> Option<MemberRow<'a>> {
        (number < self.members()).then_some(MemberRow { table: self, number })
    }

    /// The exception or class of this name.
    pub fn named(self, name: &str) -> Option<TypeRow<'a>> {
        self.type_rows().find(|row| row.name() == Some(name))
    }

    fn byte(self, place: usize) -> u8 {
        self.bytes.get(place).copied().unwrap_or_default()
    }

    fn number(self, place: usize) -> u16 {
        u16::from_le_bytes([self.byte(place), self.byte(place + 1)])
    }

    fn has_lists(self) -> bool {
        self.version() == 2
    }

    fn types_start(self) -> usize {
        if self.has_lists() {
            14
        } else {
            12
        }
    }

    fn members_start(self) -> usize {
        self.types_start() + TYPE_ROW * self.types() as usize
    }

    fn names_start(self) -> usize {
        self.members_start() + MEMBER_ROW * self.members() as usize
    }

    /// The entries of all lists.
    fn lists(self) -> &'a [[u8; 4]] {
        let start = self.names_start() + usize::from(self.number(9));
        let entries = self.bytes.get(start..).unwrap_or_default().as_chunks().0;
        &entries[..entries.len().min(self.entries() as usize)]
    }
}

/// A type: a type row of a table.
#[derive(Clone, Copy, Debug, PartialEq, Eq)]
pub struct TypeRow<'a> {
    table: Table<'a>,
    number: u32,
}

impl<'a> TypeRow<'a> {
    /// The table that has the row.
    pub fn table(self) -> Table<'a> {
        self.table
    }

    /// Its number.
    pub fn number(self) -> u32 {
        self.number
    }

    /// The place of its first byte in the table.
    pub fn place(self) -> usize {
        self.table.types_start() + TYPE_ROW * self.number as usize
    }

    /// Its kind.
    pub fn kind(self) -> Kind {
        Kind::from_number(self.table.byte(self.place())).unwrap_or(Kind::Bool)
    }

    /// The members of a struct, an exception, a class or a parameter list: a range of member rows.
    pub fn members(self) -> Range<u32> {
        match self.kind() {
            Kind::Struct | Kind::Exception | Kind::Class | Kind::ParameterList => {
                let first = self.field(0);
                first.into()..u32::from(first) + u32::from(self.field(1))
            }
            _ => 0..0,
        }
    }

    /// The same members as rows.
    pub fn member_rows(self) -> impl Iterator<Item = MemberRow<'a>> {
        self.members().filter_map(move |number| self.table.member_row(number))
    }

    /// The base of an exception or a class.
    pub fn base(self) -> Option<TypeRow<'a>> {
        if !self.kind().is_record() {
            return None;
        }
        self.table.type_row(u32::from(self.field(2)).checked_sub(1)?)
    }

    /// The name of an exception or a class: its type ID.
    pub fn name(self) -> Option<&'a str> {
        if !self.kind().is_record() {
            return None;
        }
        let name = self.table.names().get(usize::from(self.field(3))..)?.get(..usize::from(self.field(4)))?;
        core::str::from_utf8(name).ok()
    }

    /// The greatest enumerator of an enum.
    pub fn greatest(self) -> Option<u32> {
        (self.kind() == Kind::Enum).then(|| u32::from(self.field(0)) | u32::from(self.field(1)) << 16)
    }

    /// The enumerators that an enum allows.
    pub fn allowed(self) -> Option<Allowed<'a>> {
        let greatest = self.greatest()?;
        if !self.table.has_lists() {
            return Some(Allowed::UpTo(greatest));
        }
        let (first, count) = (usize::from(self.field(2)), usize::from(self.field(3)));
        let entries = self.table.lists().get(first..).and_then(|entries| entries.get(..count)).unwrap_or_default();
        Some(Allowed::Only(Enumerators { entries: entries.iter() }))
    }

    /// The element of a sequence.
    pub fn element(self) -> Option<TypeRow<'a>> {
        self.part(Kind::Sequence, 0)
    }

    /// The key of a dictionary.
    pub fn key(self) -> Option<TypeRow<'a>> {
        self.part(Kind::Dictionary, 0)
    }

    /// The value of a dictionary.
    pub fn value(self) -> Option<TypeRow<'a>> {
        self.part(Kind::Dictionary, 1)
    }

    fn part(self, kind: Kind, field: usize) -> Option<TypeRow<'a>> {
        if self.kind() != kind {
            return None;
        }
        self.table.type_row(self.field(field).into())
    }

    /// Field a to e, by its number from 0.
    fn field(self, field: usize) -> u16 {
        self.table.number(self.place() + 2 + 2 * field)
    }
}

/// The enumerators that an enum allows.
#[derive(Clone, Debug)]
pub enum Allowed<'a> {
    /// In a table of version 1: all numbers up to the greatest.
    UpTo(u32),
    /// In a table of version 2: those of its list.
    Only(Enumerators<'a>),
}

impl Allowed<'_> {
    /// Whether a number is allowed.
    pub fn contains(&self, number: u32) -> bool {
        match self {
            Allowed::UpTo(greatest) => number <= *greatest,
            Allowed::Only(list) => list.clone().any(|entry| entry == number),
        }
    }
}

/// The entries of an enum's list, rising.
#[derive(Clone, Debug)]
pub struct Enumerators<'a> {
    entries: slice::Iter<'a, [u8; 4]>,
}

impl Iterator for Enumerators<'_> {
    type Item = u32;

    fn next(&mut self) -> Option<u32> {
        self.entries.next().map(|entry| u32::from_le_bytes(*entry))
    }

    fn size_hint(&self) -> (usize, Option<usize>) {
        self.entries.size_hint()
    }
}

impl ExactSizeIterator for Enumerators<'_> {}
impl FusedIterator for Enumerators<'_> {}

/// A member as a table declares it: a member row.
#[derive(Clone, Copy, Debug, PartialEq, Eq)]
pub struct MemberRow<'a> {
    table: Table<'a>,
    number: u32,
}

impl<'a> MemberRow<'a> {
    /// Its number.
    pub fn number(self) -> u32 {
        self.number
    }

    /// The place of its first byte in the table.
    pub fn place(self) -> usize {
        self.table.members_start() + MEMBER_ROW * self.number as usize
    }

    /// Its type.
    pub fn of(self) -> TypeRow<'a> {
        TypeRow { table: self.table, number: self.table.number(self.place()).into() }
    }

    /// The tag of an optional member; none for a required one.
    pub fn tag(self) -> Option<u32> {
        let at = self.place() + 4;
        (self.table.byte(at - 2) == 1)
            .then(|| u32::from(self.table.number(at)) | u32::from(self.table.number(at + 2)) << 16)
    }

    /// The struct, record or parameter list that has the member.
    pub fn owner(self) -> Option<TypeRow<'a>> {
        self.table.type_rows().find(|row| row.members().contains(&self.number))
    }
}
