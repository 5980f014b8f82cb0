//! Two tables compared (document 02, M-109): every difference once, and whether the new table extends the old one and the
//! tops match. The calls and answers of this, as the recorded calls have them.

use crate::calls::{Answer, Call, LENT};
use crate::json::{hex, Json};
use crate::table::*;
use crate::Refusal;
use std::cmp::Ordering;

/// The bytes of an entry, and what a place of the new table is moved by.
pub const ENTRY: usize = 20;
const NEW: u32 = 1_000_000;

/// What is only in one table or differs: 0 record or list, 1 base, 2 required, 3 optional; then old and new owner row, old
/// and new member row, each plus 1, or 0 for none.
pub type Difference = [u32; 5];

/// Which rows of the new table agree in type with a row of the old one.
struct Agreeing {
    cells: Vec<bool>,
    columns: usize,
}

impl Agreeing {
    fn is(&self, old: usize, new: usize) -> bool {
        self.cells[old * self.columns + new]
    }

    /// Row by row: parts are rows before, whose cells are known.
    fn new(old: &Table, new: &Table) -> Agreeing {
        let mut agreeing = Agreeing { cells: vec![false; old.rows() * new.rows()], columns: new.rows() };
        for o in 0..old.rows() {
            for n in 0..new.rows() {
                let cell = agreeing.cell(old, new, o, n);
                agreeing.cells[o * new.rows() + n] = cell;
            }
        }
        agreeing
    }

    fn cell(&self, old: &Table, new: &Table, o: usize, n: usize) -> bool {
        let (row, other) = (old.row(o), new.row(n));
        row.kind == other.kind
            && match row.kind {
                BOOL..=STRING | PROXY => true,
                ENUM => old.same_numbers(&row, new, &other),
                STRUCT => {
                    row.members().len() == other.members().len()
                        && row.members().zip(other.members()).all(|(m, k)| self.is(old.member(m).of, new.member(k).of))
                }
                SEQUENCE => self.is(row.a, other.a),
                DICTIONARY => self.is(row.a, other.a) && self.is(row.b, other.b),
                _ => false,
            }
    }
}

/// The required members of an owner in order, and its optionals by rising tag.
fn members(table: &Table, owner: usize) -> (Vec<usize>, Vec<(u32, usize)>) {
    let (required, optional): (Vec<_>, Vec<_>) =
        table.row(owner).members().partition(|&member| table.member(member).required());
    let mut optional: Vec<_> = optional.into_iter().map(|member| (table.member(member).tag, member)).collect();
    optional.sort_unstable();
    (required, optional)
}

/// A row or a member, plus 1; 0 for none.
fn number(row: Option<usize>) -> u32 {
    row.map_or(0, |row| row as u32 + 1)
}

struct Comparing<'a, 'o, 'n> {
    old: &'a Table<'o>,
    new: &'a Table<'n>,
    agreeing: Agreeing,
    found: Vec<Difference>,
}

impl Comparing<'_, '_, '_> {
    fn types_agree(&self, old: usize, new: usize) -> bool {
        self.agreeing.is(self.old.member(old).of, self.new.member(new).of)
    }

    fn base_name(table: &Table, record: usize) -> Option<Vec<u8>> {
        let row = table.row(record);
        let base = if row.is_record() { row.base() } else { None };
        base.map(|base| table.name(&table.row(base)).to_vec())
    }

    /// The differences of two owners.
    fn owners(&mut self, old: usize, new: usize) {
        let owners = [number(Some(old)), number(Some(new))];
        if Self::base_name(self.old, old) != Self::base_name(self.new, new) {
            self.found.push([1, owners[0], owners[1], 0, 0]);
        }
        let ((required, optional), (required_new, optional_new)) = (members(self.old, old), members(self.new, new));
        for position in 0..required.len().max(required_new.len()) {
            let pair = (required.get(position).copied(), required_new.get(position).copied());
            if !matches!(pair, (Some(m), Some(k)) if self.types_agree(m, k)) {
                self.found.push([2, owners[0], owners[1], number(pair.0), number(pair.1)]);
            }
        }
        let (mut m, mut k) = (optional.iter().peekable(), optional_new.iter().peekable());
        loop {
            let pair = match (m.peek(), k.peek()) {
                (None, None) => break,
                (Some(_), None) => (m.next(), None),
                (None, Some(_)) => (None, k.next()),
                (Some(a), Some(b)) => match a.0.cmp(&b.0) {
                    Ordering::Less => (m.next(), None),
                    Ordering::Greater => (None, k.next()),
                    Ordering::Equal => (m.next(), k.next()),
                },
            };
            let pair = (pair.0.map(|of| of.1), pair.1.map(|of| of.1));
            if !matches!(pair, (Some(m), Some(k)) if self.types_agree(m, k)) {
                self.found.push([3, owners[0], owners[1], number(pair.0), number(pair.1)]);
            }
        }
    }

    fn pair(&mut self, old: Option<usize>, new: Option<usize>) {
        match (old, new) {
            (Some(old), Some(new)) => self.owners(old, new),
            _ => self.found.push([0, number(old), number(new), 0, 0]),
        }
    }

    /// Records by name, for one name in two kinds the old table's first; then parameter lists by their order.
    fn all(&mut self) {
        let (old, new) = (self.old, self.new);
        let mut pairs = vec![];
        for (o, row) in old.records() {
            pairs.push((old.name(&row), 0, Some(o), matching(old, new, o)));
        }
        for (n, row) in new.records() {
            if matching(new, old, n).is_none() {
                pairs.push((new.name(&row), 1, None, Some(n)));
            }
        }
        pairs.sort();
        for (_, _, o, n) in pairs {
            self.pair(o, n);
        }
        let lists = |table: &Table| (0..table.rows()).filter(|&r| table.kind(r) == LIST).collect::<Vec<_>>();
        let (lists, lists_new) = (lists(old), lists(new));
        for k in 0..lists.len().max(lists_new.len()) {
            self.pair(lists.get(k).copied(), lists_new.get(k).copied());
        }
    }

    /// Equally many required members, agreeing in order; each old optional has a new one that agrees.
    fn owners_match(&self, old: usize, new: usize) -> bool {
        let ((required, optional), (required_new, optional_new)) = (members(self.old, old), members(self.new, new));
        let agrees =
            |&(tag, m): &(u32, usize)| optional_new.iter().any(|&(other, k)| other == tag && self.types_agree(m, k));
        required.len() == required_new.len()
            && required.iter().zip(&required_new).all(|(&m, &k)| self.types_agree(m, k))
            && optional.iter().all(agrees)
    }

    /// Document 01's "extends", and the tops match.
    fn extends(&self, old_top: usize, new_top: usize) -> bool {
        let (old, new) = (self.old, self.new);
        let bases = |o: usize, n: usize| match (old.row(o).base(), new.row(n).base()) {
            (None, None) => true,
            (Some(o), Some(n)) => matching(old, new, o) == Some(n),
            _ => false,
        };
        let records =
            old.records().all(|(o, _)| matching(old, new, o).is_some_and(|n| self.owners_match(o, n) && bases(o, n)));
        let tops = match (old.kind(old_top), new.kind(new_top)) {
            (LIST, LIST) => self.owners_match(old_top, new_top),
            (LIST, _) => false,
            _ => matching(old, new, old_top) == Some(new_top),
        };
        records && tops
    }
}

/// The record of another table with this record's kind and name.
fn matching(table: &Table, other: &Table, record: usize) -> Option<usize> {
    let row = table.row(record);
    let same =
        |(_, candidate): &(usize, TypeRow)| candidate.kind == row.kind && other.name(candidate) == table.name(&row);
    other.records().find(same).map(|(n, _)| n)
}

/// The differences in the lent list of entries, their number, and whether the new table extends the old one.
pub fn compare(old: &[u8], old_top: u32, new: &[u8], new_top: u32, list: &mut [u8]) -> Result<(u32, bool), Refusal> {
    let (mut shapes, mut shapes_new) = ([Shape::NONE; 256], [Shape::NONE; 256]);
    let old = Table::check(old, &mut shapes)?;
    let new = Table::check(new, &mut shapes_new).map_err(|(rule, place)| (rule, place + NEW))?;
    let (old_top, new_top) = (old.wanted(old_top)?, new.wanted(new_top)?);
    let mut comparing = Comparing { agreeing: Agreeing::new(&old, &new), old: &old, new: &new, found: vec![] };
    comparing.all();
    let count = comparing.found.len();
    if count > list.len() / ENTRY {
        return Err((19, count as u32));
    }
    for (entry, difference) in list.chunks_exact_mut(ENTRY).zip(&comparing.found) {
        for (part, number) in entry.chunks_exact_mut(4).zip(difference) {
            part.copy_from_slice(&number.to_le_bytes());
        }
    }
    Ok((count as u32, comparing.extends(old_top, new_top)))
}

/// A comparison with a lent list of `room` bytes.
#[derive(Clone, Debug)]
pub struct CompareCall {
    pub old: Vec<u8>,
    pub old_top: u32,
    pub new: Vec<u8>,
    pub new_top: u32,
    pub room: usize,
}

#[derive(Clone, Debug, PartialEq)]
pub struct Compared {
    pub refusal: Refusal,
    pub count: u32,
    pub extends: bool,
    pub list: Vec<u8>,
}

impl CompareCall {
    /// The answer of this implementation.
    pub fn answer(&self) -> Answer {
        let mut list = vec![LENT; self.room];
        let result = compare(&self.old, self.old_top, &self.new, self.new_top, &mut list);
        let (refusal, (count, extends)) = (result.err().unwrap_or_default(), result.unwrap_or_default());
        Compared::of_list(refusal, count, extends, &list)
    }

    /// The call and its answer from a line.
    pub fn parse(line: &str) -> Option<(Call, Answer)> {
        let call = Json::parse(line)?;
        if call.text("op")? != "compare" {
            return None;
        }
        let expect = call.get("expect")?;
        let compared = Compared {
            refusal: (expect.number("no")?, expect.number("place")?),
            count: expect.number("count")?,
            extends: expect.number("extends")? == 1,
            list: expect.bytes("list")?,
        };
        let call = CompareCall {
            old: call.bytes("old")?,
            old_top: call.number("old_top")?,
            new: call.bytes("new")?,
            new_top: call.number("new_top")?,
            room: call.number("room")? as usize,
        };
        Some((Call::Compare(call), Answer::Compare(compared)))
    }

    /// Its kind, five numbers and bytes as crates/replay reads them: both tops, the length of the old table, bytes of the
    /// lent list; the bytes are both tables.
    pub fn record(&self) -> ([u32; 6], Vec<u8>) {
        let CompareCall { old, old_top, new, new_top, room } = self;
        ([11, *old_top, *new_top, old.len() as u32, *room as u32, 0], [&old[..], new].concat())
    }

    /// The call of a record; none where the old table is longer than its bytes.
    pub fn of_record([old_top, new_top, length, room]: [u32; 4], bytes: &[u8]) -> Option<CompareCall> {
        let (old, new) = bytes.split_at_checked(length as usize)?;
        Some(CompareCall { old: old.to_vec(), old_top, new: new.to_vec(), new_top, room: room as usize })
    }

    /// The fields of its line.
    pub fn json(&self) -> String {
        let CompareCall { old, old_top, new, new_top, room } = self;
        format!(
            r#""op":"compare","old":"{}","old_top":{old_top},"new":"{}","new_top":{new_top},"room":{room}"#,
            hex(old),
            hex(new)
        )
    }
}

impl Compared {
    /// From the numbers and the lent list.
    pub fn of_list(refusal: Refusal, count: u32, extends: bool, lent: &[u8]) -> Answer {
        match lent.split_at_checked(ENTRY * count as usize) {
            Some((list, beyond)) if beyond.iter().all(|&byte| byte == LENT) => {
                Answer::Compare(Compared { refusal, count, extends, list: list.to_vec() })
            }
            _ => Answer::Astray,
        }
    }

    pub fn json(&self) -> String {
        let Compared { refusal: (no, place), count, extends, list } = self;
        format!(
            r#"{{"no":{no},"place":{place},"count":{count},"extends":{},"list":"{}"}}"#,
            u8::from(*extends),
            hex(list)
        )
    }

    /// The line that crates/replay has to print: refusal, place, count, extends, then each difference's five numbers.
    pub fn line(&self) -> String {
        let (no, place) = self.refusal;
        let numbers = self.list.as_chunks().0.iter().map(|&number| u32::from_le_bytes(number));
        let numbers: Vec<_> = [no, place, self.count, self.extends.into()].into_iter().chain(numbers).collect();
        numbers.iter().map(|number| format!("{number} ")).collect()
    }
}
