//! The type table: its rows, its rules, and what the rules of the encoding ask of a type.

use crate::value::is_text;
use crate::{Fault, Refusal};
use std::ops::Range;

pub(crate) const BOOL: u8 = 0;
pub(crate) const BYTE: u8 = 1;
pub(crate) const SHORT: u8 = 2;
pub(crate) const INT: u8 = 3;
pub(crate) const LONG: u8 = 4;
pub(crate) const FLOAT: u8 = 5;
pub(crate) const DOUBLE: u8 = 6;
pub(crate) const STRING: u8 = 7;
pub(crate) const ENUM: u8 = 8;
pub(crate) const STRUCT: u8 = 9;
pub(crate) const SEQUENCE: u8 = 10;
pub(crate) const DICTIONARY: u8 = 11;
pub(crate) const PROXY: u8 = 12;
pub(crate) const EXCEPTION: u8 = 13;
pub(crate) const CLASS: u8 = 14;
pub(crate) const LIST: u8 = 15;

// Optional types.
pub(crate) const F1: u8 = 0;
pub(crate) const F2: u8 = 1;
pub(crate) const F4: u8 = 2;
pub(crate) const F8: u8 = 3;
pub(crate) const SIZE: u8 = 4;
pub(crate) const VSIZE: u8 = 5;
pub(crate) const FSIZE: u8 = 6;

/// The greatest enumerator or tag.
pub(crate) const GREATEST: u32 = 0x7FFF_FFFF;

/// The rules of a type table: the class of the first broken one, 31 to 39, at place 0 or the row's first byte.
pub fn check(table: &[u8]) -> Result<(), Refusal> {
    Table::with(table, |_| Ok(()))
}

/// For each row of a table that breaks no rule the optional type, and whether the value's own size is its length field.
pub fn forms(table: &[u8]) -> Vec<(u8, bool)> {
    let form = |shape: &Shape| (shape.optional(), shape.has_own_size());
    Table::with(table, |table| Ok(table.shapes.iter().map(form).collect())).unwrap_or_default()
}

/// A type row.
#[derive(Clone, Copy)]
pub(crate) struct TypeRow {
    pub kind: u8,
    zero: u8,
    pub a: usize,
    pub b: usize,
    c: usize,
    d: usize,
    e: usize,
}

impl TypeRow {
    fn of(row: &[u8; 12]) -> Self {
        let field = |i: usize| u16::from_le_bytes([row[i], row[i + 1]]) as usize;
        let (kind, zero) = (row[0], row[1]);
        TypeRow { kind, zero, a: field(2), b: field(4), c: field(6), d: field(8), e: field(10) }
    }

    /// Kinds 9, 13, 14 and 15 take member rows.
    fn owns(&self) -> bool {
        matches!(self.kind, STRUCT | EXCEPTION | CLASS | LIST)
    }

    pub fn is_record(&self) -> bool {
        matches!(self.kind, EXCEPTION | CLASS)
    }

    /// The member rows of an owner.
    pub fn members(&self) -> Range<usize> {
        self.a..self.a + self.b
    }

    /// The base of a record.
    pub fn base(&self) -> Option<usize> {
        self.c.checked_sub(1)
    }

    /// The greatest enumerator.
    pub fn greatest(&self) -> usize {
        self.a + 65_536 * self.b
    }

    /// Whether a field that the kind does not use is other than 0. With `lists`, in version 2, an enum uses c and d.
    fn unused(&self, lists: bool) -> bool {
        let bits = match self.kind {
            ENUM if lists => self.e,
            BOOL..=STRING | PROXY => self.a | self.b | self.c | self.d | self.e,
            SEQUENCE => self.b | self.c | self.d | self.e,
            ENUM | STRUCT | DICTIONARY | LIST => self.c | self.d | self.e,
            _ => 0,
        };
        bits != 0
    }
}

/// A member row.
#[derive(Clone, Copy)]
pub(crate) struct MemberRow {
    pub of: usize,
    mark: u8,
    zero: u8,
    pub tag: u32,
}

impl MemberRow {
    fn of(row: &[u8; 8]) -> Self {
        MemberRow {
            of: u16::from_le_bytes([row[0], row[1]]) as usize,
            mark: row[2],
            zero: row[3],
            tag: u32::from_le_bytes([row[4], row[5], row[6], row[7]]),
        }
    }

    pub fn required(&self) -> bool {
        self.mark == 0
    }

    pub fn has_tag(&self, tag: u32) -> bool {
        self.mark == 1 && self.tag == tag
    }
}

/// How an owner declares its optionals.
#[derive(Clone, Copy, PartialEq)]
pub(crate) enum Optionals {
    None,
    /// After all required members, by rising tag.
    Rising,
    Mixed,
}

/// A look-up of tags in the member rows of an owner, each tag greater than the one before.
pub(crate) struct Tags<'t> {
    first: usize,
    rows: &'t [[u8; 8]],
    /// Where the next one is looked for.
    next: usize,
    rising: bool,
}

impl Tags<'_> {
    /// The member row of a tag, and its type. Rising tags are passed once; others are all looked at, from where the last
    /// one was found.
    #[inline(always)]
    pub fn find(&mut self, tag: u32) -> Option<(usize, usize)> {
        // Mark, zero byte and tag as one number.
        let wanted = 1 | u64::from(tag) << 16;
        if !self.rising {
            self.next = find_mixed(self.rows, self.next, wanted)?;
        }
        while let Some(row) = self.rows.get(self.next) {
            let row = u64::from_le_bytes(*row);
            if row >> 16 == wanted {
                self.next += 1;
                return Some((self.first + self.next - 1, row as u16 as usize));
            }
            if row >> 16 > wanted {
                break;
            }
            self.next += 1;
        }
        None
    }
}

/// The row that is wanted, looked for from `next` on, then from the first.
#[inline(never)]
fn find_mixed(rows: &[[u8; 8]], next: usize, wanted: u64) -> Option<usize> {
    let (before, after) = rows.split_at(next);
    let is_wanted = |row: &[u8; 8]| u64::from_le_bytes(*row) >> 16 == wanted;
    after.iter().position(is_wanted).map(|i| next + i).or_else(|| before.iter().position(is_wanted))
}

/// What the encoding asks of a type row, known from the rows before it.
#[derive(Clone, Copy)]
pub(crate) struct Shape {
    /// The length of a plain type: fixed-size and without a bool, so that any bytes of this length are a value. 0 for any
    /// other type, and above 65,535 bytes.
    width: u16,
    /// Of a record or a parameter list: the member rows up to its last required one.
    required: u16,
    pub kind: u8,
    /// The optional type, with `OWN` if the value's own size is its length field: string, sequence of bool or byte.
    form: u8,
    fixed: bool,
    pub optionals: Optionals,
}

const OWN: u8 = 8;

impl Shape {
    pub const NONE: Shape = Shape::of(BOOL, 0);

    /// Kinds 0 to 7.
    const BASIC: [Shape; 8] = [
        Shape { fixed: true, ..Shape::of(BOOL, F1) },
        Shape::plain(BYTE, 1, F1),
        Shape::plain(SHORT, 2, F2),
        Shape::plain(INT, 4, F4),
        Shape::plain(LONG, 8, F8),
        Shape::plain(FLOAT, 4, F4),
        Shape::plain(DOUBLE, 8, F8),
        Shape::of(STRING, VSIZE | OWN),
    ];

    const fn of(kind: u8, form: u8) -> Shape {
        Shape { width: 0, required: 0, kind, form, fixed: false, optionals: Optionals::None }
    }

    const fn plain(kind: u8, width: u16, form: u8) -> Shape {
        Shape { width, fixed: true, ..Shape::of(kind, form) }
    }

    /// A type with parts: VSize where they are fixed-size, else FSize.
    fn holding(kind: u8, fixed: bool) -> Shape {
        Shape::of(kind, if fixed { VSIZE } else { FSIZE })
    }

    /// The optional type.
    pub fn optional(&self) -> u8 {
        self.form & !OWN
    }

    /// Whether an optional of this type has no length field but its own size.
    pub fn has_own_size(&self) -> bool {
        self.form & OWN != 0
    }

    /// The length of a plain type; 0 for any other.
    #[inline]
    pub fn width(&self) -> usize {
        self.width.into()
    }

    /// The length of a plain type that has this optional type, one of fixed length; 0 for any other.
    #[inline]
    pub fn width_as(&self, optional: u8) -> usize {
        if self.form == optional && optional <= F8 {
            self.width()
        } else {
            0
        }
    }
}

/// What is known of the rows before a type row: the member rows that they took, and the first that may be a record.
#[derive(Clone, Copy)]
struct Before {
    members: usize,
    record: usize,
}

/// The shape of a row of kinds 0 to 7 that is 0 elsewhere.
#[inline]
fn basic(row: &[u8; 12]) -> Option<&'static Shape> {
    let (kind, rest) = row.split_first_chunk::<8>()?;
    Shape::BASIC.get(u64::from_le_bytes(*kind) as usize).filter(|_| *rest == [0; 4])
}

/// The shape of a record or a parameter list whose members are in the usual order: required ones, then optionals by rising
/// tag. None if they are not, or if a member row breaks a rule.
#[inline]
fn usual_owner(kind: u8, rows: &[[u8; 8]], known: &[Shape]) -> Option<Shape> {
    let is_part = |of: u64| known.get(of as usize).is_some_and(|part| part.kind <= PROXY);
    let mut above = 0; // tags from here on are rising
    let is_rising = |row: &&[u8; 8]| {
        let row = u64::from_le_bytes(**row);
        let tag = (row >> 32) as u32;
        // Mark 1 and the zero byte.
        let is_rising = (row >> 16) as u16 == 1 && above <= tag && tag <= GREATEST && is_part(row & 0xFFFF);
        above = tag.wrapping_add(1);
        is_rising
    };
    // All but its type is 0 in the row of a required member.
    let required = rows.iter().take_while(|row| is_part(u64::from_le_bytes(**row))).count();
    let rising = rows[required..].iter().take_while(is_rising).count();
    let optionals = if rising == 0 { Optionals::None } else { Optionals::Rising };
    let shape = Shape { required: required as u16, optionals, ..Shape::of(kind, FSIZE) };
    (required + rising == rows.len()).then_some(shape)
}

/// The shape of a struct by those of its members; none if a member row breaks a rule.
#[inline]
fn structure(rows: &[[u8; 8]], known: &[Shape]) -> Option<Shape> {
    let (mut width, mut fixed, mut plain) = (0, true, true);
    for row in rows {
        // All but its type is 0 in the row of a required member.
        let part = known.get(u64::from_le_bytes(*row) as usize).filter(|part| part.kind <= PROXY)?;
        width += part.width();
        fixed &= part.fixed;
        plain &= part.width != 0;
    }
    let width = if plain { u16::try_from(width).unwrap_or(0) } else { 0 };
    Some(Shape { width, fixed, ..Shape::holding(STRUCT, fixed) })
}

/// An entry of a list of enumerators.
fn entry(entry: &[u8; 4]) -> usize {
    u32::from_le_bytes(*entry) as usize
}

/// A table that breaks no rule.
pub(crate) struct Table<'t> {
    types: &'t [[u8; 12]],
    members: &'t [[u8; 8]],
    names: &'t [u8],
    /// The lists of allowed enumerators; none in version 1.
    entries: Option<&'t [[u8; 4]]>,
    shapes: &'t [Shape],
}

impl<'t> Table<'t> {
    /// What `then` gives for the table, or the class and the place of the first rule broken. A small table has its shapes
    /// in a small array, which is cleared in less time.
    pub fn with<T>(bytes: &[u8], then: impl FnOnce(&Table) -> Result<T, Refusal>) -> Result<T, Refusal> {
        let (mut few, mut many);
        let shapes = match bytes.get(5..7) {
            Some(&[types, 0]) if types <= 16 => {
                few = [Shape::NONE; 16];
                &mut few[..]
            }
            _ => {
                many = [Shape::NONE; 256];
                &mut many[..]
            }
        };
        then(&Table::check(bytes, shapes)?)
    }

    /// The table, or the class and the place of the first rule broken.
    #[inline(always)]
    pub fn check(bytes: &'t [u8], shapes: &'t mut [Shape]) -> Result<Table<'t>, Refusal> {
        let Some((mut table, start)) = Table::parts(bytes) else {
            return Err((31, 0));
        };
        let shapes = &mut shapes[..table.rows()];
        if !table.fill(shapes) {
            table.rules(start)?;
        }
        table.shapes = shapes;
        Ok(table)
    }

    /// The parts of a table whose header breaks no rule, and the place of its first row.
    #[inline(always)]
    fn parts(bytes: &'t [u8]) -> Option<(Table<'t>, usize)> {
        let (header, rest) = bytes.split_first_chunk::<12>()?;
        let number = |i: usize| u16::from_le_bytes([header[i], header[i + 1]]) as usize;
        let (version, types, members, names) = (number(3), number(5), number(7), number(9));
        // In version 2 a count of entries follows the zero byte.
        let (entries, rest) = match (version, rest.split_first_chunk::<2>()) {
            (1, _) => (None, rest),
            (2, Some((&count, rest))) => (Some(u16::from_le_bytes(count) as usize), rest),
            _ => return None,
        };
        let right = header[..3] == *b"FGT"
            && (1..=256).contains(&types)
            && members <= 1_024
            && names <= 8_192
            && header[11] == 0
            && entries.is_none_or(|entries| entries <= 1_024)
            && rest.len() == 12 * types + 8 * members + names + 4 * entries.unwrap_or(0);
        if !right {
            return None;
        }
        let start = bytes.len() - rest.len();
        let (types, rest) = rest.split_at(12 * types);
        let (members, rest) = rest.split_at(8 * members);
        let (names, rest) = rest.split_at(names);
        let (types, members) = (types.as_chunks().0, members.as_chunks().0);
        let entries = entries.map(|_| rest.as_chunks().0);
        Some((Table { types, members, names, entries, shapes: &[] }, start))
    }

    /// Judges the rows and fills their shapes in one pass; false exactly if `rules` finds a broken rule.
    #[inline(never)]
    fn fill(&self, shapes: &mut [Shape]) -> bool {
        let shapes = &mut shapes[..self.types.len()];
        let mut before = Before { members: 0, record: self.types.len() };
        for (r, row) in self.types.iter().enumerate() {
            match basic(row) {
                Some(shape) => shapes[r] = *shape,
                None if self.fill_row(&TypeRow::of(row), r, shapes, &mut before) => (),
                None => return false,
            }
        }
        before.members == self.members.len() && self.entries.is_none_or(|entries| self.list_rule(entries).is_ok())
    }

    /// Fills the shape of row `r`, after those before it; false if it or a member row of it breaks a rule.
    #[inline]
    fn fill_row(&self, row: &TypeRow, r: usize, shapes: &mut [Shape], before: &mut Before) -> bool {
        let TypeRow { kind, a, b, c, d, e, .. } = *row;
        let is_part = |part: usize| part < r && shapes[part].kind <= PROXY;
        let is_right = match kind {
            ENUM => row.greatest() <= GREATEST as usize && e == 0 && (self.entries.is_some() || c | d == 0),
            STRUCT => b != 0 && c | d | e == 0,
            SEQUENCE => is_part(a) && b | c | d | e == 0,
            DICTIONARY => is_part(a) && is_part(b) && c | d | e == 0,
            PROXY => a | b | c | d | e == 0,
            EXCEPTION | CLASS => {
                before.record = before.record.min(r);
                row.base().is_none_or(|base| base < r && shapes[base].kind == kind)
                    && self.names_well(row, &self.types[before.record..r])
            }
            LIST => c | d | e == 0,
            _ => false,
        };
        if !is_right || row.zero != 0 {
            return false;
        }
        shapes[r] = match kind {
            ENUM => Shape::of(ENUM, SIZE),
            SEQUENCE if shapes[a].kind <= BYTE => Shape::of(SEQUENCE, VSIZE | OWN),
            SEQUENCE => Shape::holding(SEQUENCE, shapes[a].fixed),
            DICTIONARY => Shape::holding(DICTIONARY, shapes[a].fixed && shapes[b].fixed),
            PROXY => Shape::of(PROXY, FSIZE),
            _ => {
                let Some(rows) = self.members.get(a..a + b).filter(|_| a == before.members) else {
                    return false;
                };
                before.members += b;
                let shape = match kind {
                    STRUCT => structure(rows, &shapes[..r]),
                    _ => usual_owner(kind, rows, &shapes[..r]).or_else(|| self.mixed_owner(r, row, rows)),
                };
                match shape {
                    Some(shape) => shape,
                    None => return false,
                }
            }
        };
        true
    }

    /// The shape of a record or a parameter list whose members are in any order; none if a member row breaks a rule.
    #[cold]
    fn mixed_owner(&self, r: usize, owner: &TypeRow, rows: &[[u8; 8]]) -> Option<Shape> {
        if self.member_rule(r, owner).is_some() {
            return None;
        }
        let last = rows.iter().rposition(|row| MemberRow::of(row).required());
        let required = last.map_or(0, |last| last as u16 + 1);
        Some(Shape { required, optionals: Optionals::Mixed, ..Shape::of(owner.kind, FSIZE) })
    }

    /// The class and the place of the first rule broken, in the order of the rules: type rows, lists of enumerators, member
    /// sum, member rows. The rows begin at `start`.
    #[cold]
    fn rules(&self, start: usize) -> Result<(), Refusal> {
        let place = |r: usize| (start + 12 * r) as u32;
        let mut before = Before { members: 0, record: 0 };
        for (r, row) in self.types.iter().map(TypeRow::of).enumerate() {
            if let Some(class) = self.type_rule(r, &row, before) {
                return Err((class, place(r)));
            }
            if row.owns() {
                before.members += row.b;
            }
        }
        if let Some(entries) = self.entries {
            self.list_rule(entries).map_err(|wrong| (39, wrong.map_or(0, place)))?;
        }
        if before.members != self.members.len() {
            return Err((35, 0));
        }
        for (r, row) in self.types.iter().map(TypeRow::of).enumerate().filter(|(_, row)| row.owns()) {
            if let Some((class, m)) = self.member_rule(r, &row) {
                return Err((class, place(self.types.len()) + 8 * m as u32));
            }
        }
        Ok(())
    }

    /// The class of the first rule that type row `r` breaks with those before it.
    fn type_rule(&self, r: usize, row: &TypeRow, before: Before) -> Option<u32> {
        let smaller = |part: usize| part < r && self.kind(part) <= PROXY;
        if row.zero != 0 || row.unused(self.entries.is_some()) {
            return Some(32);
        }
        if row.kind > LIST {
            return Some(33);
        }
        let refers = match row.kind {
            SEQUENCE => smaller(row.a),
            DICTIONARY => smaller(row.a) && smaller(row.b),
            EXCEPTION | CLASS => row.base().is_none_or(|base| base < r && self.kind(base) == row.kind),
            _ => true,
        };
        if !refers {
            return Some(34);
        }
        if row.owns() && row.a != before.members {
            return Some(35);
        }
        if row.kind == STRUCT && row.b == 0 {
            return Some(36);
        }
        if row.is_record() && !self.names_well(row, &self.types[before.record..r]) {
            return Some(37);
        }
        if row.kind == ENUM && row.greatest() > GREATEST as usize {
            return Some(38);
        }
        None
    }

    /// The lists of the enums follow each other in row order, none left over. Each has at least one entry, rises strictly
    /// and ends with the greatest enumerator. The wrong one is an enum row, or none for entries left over.
    fn list_rule(&self, entries: &[[u8; 4]]) -> Result<(), Option<usize>> {
        let mut taken = 0;
        for (r, row) in self.types.iter().map(TypeRow::of).enumerate().filter(|(_, row)| row.kind == ENUM) {
            let list = entries.get(row.c..row.c + row.d).filter(|_| row.c == taken).unwrap_or_default();
            let rises = list.is_sorted_by(|one, next| entry(one) < entry(next));
            if !rises || list.last().map(entry) != Some(row.greatest()) {
                return Err(Some(r));
            }
            taken += row.d;
        }
        if taken == entries.len() {
            Ok(())
        } else {
            Err(None)
        }
    }

    /// The name has 1 to 255 bytes, lies within the name bytes, is text and differs from those of the rows before.
    fn names_well(&self, row: &TypeRow, before: &[[u8; 12]]) -> bool {
        (1..=255).contains(&row.e)
            && self.names.get(row.d..row.d + row.e).is_some_and(|name| {
                is_text(name) && !before.iter().any(|other| self.is_named(&TypeRow::of(other), name))
            })
    }

    /// The class of the first rule that a member row of owner `r` breaks with those before it, and that row.
    fn member_rule(&self, r: usize, owner: &TypeRow) -> Option<(u32, usize)> {
        let rows = &self.members[owner.members()];
        let mut above = 0; // tags from here on are free
        for (i, member) in rows.iter().map(MemberRow::of).enumerate() {
            let class = if member.zero != 0 || member.mark == 0 && member.tag != 0 {
                32
            } else if member.of >= r || self.kind(member.of) > PROXY {
                34
            } else if member.mark > 1 || member.mark == 1 && owner.kind == STRUCT {
                36
            } else if member.mark == 0 {
                continue;
            } else if member.tag > GREATEST
                || member.tag < above && rows[..i].iter().any(|row| MemberRow::of(row).has_tag(member.tag))
            {
                38
            } else {
                above = above.max(member.tag + 1);
                continue;
            };
            return Some((class, owner.a + i));
        }
        None
    }

    pub fn rows(&self) -> usize {
        self.types.len()
    }

    pub fn member_rows(&self) -> usize {
        self.members.len()
    }

    pub fn row(&self, r: usize) -> TypeRow {
        TypeRow::of(&self.types[r])
    }

    pub fn member(&self, m: usize) -> MemberRow {
        MemberRow::of(&self.members[m])
    }

    pub fn kind(&self, r: usize) -> u8 {
        self.types[r][0]
    }

    pub fn shape(&self, r: usize) -> Shape {
        self.shapes[r]
    }

    /// The member rows of a record or a parameter list up to the last required one, and the number of the first.
    #[inline]
    pub fn required(&self, owner: usize) -> (usize, &'t [[u8; 8]]) {
        let first = self.row(owner).a;
        (first, &self.members[first..first + self.shapes[owner].required as usize])
    }

    /// The type of a required member and its shape; none of an optional one. All but the type is 0 in a required row.
    #[inline]
    pub fn required_type(&self, row: &[u8; 8]) -> Option<(usize, Shape)> {
        let of = u64::from_le_bytes(*row) as usize;
        self.shapes.get(of).map(|shape| (of, *shape))
    }

    /// Whether an enum allows a number up to its greatest: in version 2 one of its list.
    pub fn lists(&self, row: &TypeRow, number: usize) -> bool {
        self.list(row).is_none_or(|list| list.binary_search_by_key(&number, entry).is_ok())
    }

    /// The list of an enum; none in version 1, where it is all numbers up to the greatest.
    fn list(&self, row: &TypeRow) -> Option<&'t [[u8; 4]]> {
        self.entries.map(|entries| &entries[row.c..row.c + row.d])
    }

    /// Whether two enums allow the same numbers: a list that rises to g has all numbers up to g if it has g + 1 entries.
    pub fn same_numbers(&self, row: &TypeRow, other: &Table, other_row: &TypeRow) -> bool {
        row.greatest() == other_row.greatest()
            && match (self.list(row), other.list(other_row)) {
                (None, None) => true,
                (Some(list), None) | (None, Some(list)) => list.len() == row.greatest() + 1,
                (Some(list), Some(other)) => list == other,
            }
    }

    pub fn name(&self, record: &TypeRow) -> &'t [u8] {
        &self.names[record.d..record.d + record.e]
    }

    /// The record of a name.
    pub fn record_named(&self, name: &[u8]) -> Option<usize> {
        self.types.iter().map(TypeRow::of).position(|row| self.is_named(&row, name))
    }

    /// Whether a row is a record of this name.
    fn is_named(&self, row: &TypeRow, name: &[u8]) -> bool {
        row.is_record() && row.e == name.len() && self.name(row) == name
    }

    /// The optionals of an owner, to look up rising tags.
    pub fn tags(&self, owner: usize) -> Tags<'t> {
        let (row, shape) = (self.row(owner), self.shapes[owner]);
        let rising = shape.optionals == Optionals::Rising;
        Tags { first: row.a, rows: &self.members[row.members()], next: shape.required as usize, rising }
    }

    /// The records with their row numbers.
    pub fn records(&self) -> impl Iterator<Item = (usize, TypeRow)> + '_ {
        self.types.iter().map(TypeRow::of).enumerate().filter(|(_, row)| row.is_record())
    }

    /// A row and its bases.
    pub fn chain(&self, r: usize) -> impl Iterator<Item = usize> + '_ {
        std::iter::successors(Some(r), |&r| self.row(r).base())
    }

    /// Whether the top, a base of it or a record that descends from it has an optional member: encoding 1.0 has none.
    pub fn has_optionals(&self, top: usize) -> bool {
        let related = |r: usize| self.chain(top).any(|base| base == r) || self.chain(r).any(|base| base == top);
        (0..self.rows()).any(|r| self.shapes[r].optionals != Optionals::None && related(r))
    }

    /// The row of a wanted type: refusal 2 if it is not in the table or below kind 13.
    pub fn wanted(&self, number: u32) -> Result<usize, Fault> {
        let r = number as usize;
        if r < self.rows() && self.kind(r) >= EXCEPTION {
            Ok(r)
        } else {
            Err(Fault::new(2, 0))
        }
    }
}

#[cfg(test)]
mod tests {
    use super::*;
    use crate::gen::{Rng, Types};

    /// The one pass and the rules agree whether a table is broken, whichever byte of it is changed.
    #[test]
    fn one_pass() {
        let (mut right, mut broken) = (0, 0);
        for seed in 0..100 {
            let bytes = Types::random(&mut Rng(seed)).spec.bytes();
            for (at, &byte) in bytes.iter().enumerate() {
                for changed in [byte, byte ^ 1, byte.wrapping_add(1), byte.wrapping_sub(1), 0, 9, 13, 255] {
                    let mut bytes = bytes.clone();
                    bytes[at] = changed;
                    let Some((table, start)) = Table::parts(&bytes) else {
                        continue;
                    };
                    let filled = table.fill(&mut [Shape::NONE; 256]);
                    assert_eq!(filled, table.rules(start).is_ok(), "seed {seed}, byte {at} is {changed}");
                    if filled {
                        right += 1;
                    } else {
                        broken += 1;
                    }
                }
            }
        }
        assert!(right > 10_000 && broken > 10_000, "{right} right, {broken} broken");
    }
}
