//! A table that breaks a rule, for a person who has to mend it: which row breaks it, and what is wrong with that row.
//!
//! The library has found the rule and its row; this module reads the row's fields and words them.

use crate::{text, words};
use icehub::{Kind, Refusal};

const TYPE_ROW: usize = 12;
const MEMBER_ROW: usize = 8;
/// The greatest tag and enumerator.
const GREATEST: u32 = 2_147_483_647;

/// What is wrong with the table, in a sentence that begins with the row.
pub fn sentence(bytes: &[u8], refusal: Refusal) -> String {
    let table = Raw(bytes);
    let (number, place) = (refusal.number, refusal.place as usize);
    let (row, wrong) = match place {
        0 if number == 35 => ("member rows".to_string(), table.sum()),
        0 if number == 39 => ("entries".to_string(), table.left_over()),
        0 => ("header".to_string(), table.header()),
        _ if place < table.members_at() => {
            let row = (place - table.types_at()) / TYPE_ROW;
            (table.type_label(row), table.type_row(number, row))
        }
        _ => {
            let row = (place - table.members_at()) / MEMBER_ROW;
            (table.member_label(row), table.member_row(number, row))
        }
    };
    format!("{row}: {}", wrong.unwrap_or_else(|| refusal.text().to_string()))
}

/// How many type rows, and how many member rows, come before the one at the refusal's place: those were judged.
pub fn judged(bytes: &[u8], refusal: Refusal) -> (u32, u32) {
    let (table, place) = (Raw(bytes), refusal.place as usize);
    match place {
        0 if !matches!(refusal.number, 35 | 39) => (0, 0),
        0 => (table.types() as u32, 0),
        _ if place < table.members_at() => (((place - table.types_at()) / TYPE_ROW) as u32, 0),
        _ => (table.types() as u32, ((place - table.members_at()) / MEMBER_ROW) as u32),
    }
}

/// The bytes of a table that breaks a rule. Past their end is 0.
struct Raw<'a>(&'a [u8]);

impl<'a> Raw<'a> {
    fn byte(&self, at: usize) -> u8 {
        self.0.get(at).copied().unwrap_or_default()
    }

    fn short(&self, at: usize) -> usize {
        u16::from_le_bytes([self.byte(at), self.byte(at + 1)]).into()
    }

    fn types(&self) -> usize {
        self.short(5)
    }

    fn members(&self) -> usize {
        self.short(7)
    }

    fn names(&self) -> usize {
        self.short(9)
    }

    /// Version 2: enums have lists.
    fn has_lists(&self) -> bool {
        self.short(3) == 2
    }

    fn entries(&self) -> usize {
        if self.has_lists() {
            self.short(12)
        } else {
            0
        }
    }

    fn types_at(&self) -> usize {
        if self.has_lists() {
            14
        } else {
            12
        }
    }

    fn members_at(&self) -> usize {
        self.types_at() + TYPE_ROW * self.types()
    }

    fn names_at(&self) -> usize {
        self.members_at() + MEMBER_ROW * self.members()
    }

    fn entry_at(&self, entry: usize) -> usize {
        self.names_at() + self.names() + 4 * entry
    }

    fn entry(&self, entry: usize) -> usize {
        self.short(self.entry_at(entry)) + 65_536 * self.short(self.entry_at(entry) + 2)
    }

    fn kind(&self, row: usize) -> u8 {
        self.byte(self.types_at() + TYPE_ROW * row)
    }

    /// The kind of a type row in words, with its article.
    fn kind_words(&self, row: usize) -> String {
        let name = Kind::from_number(self.kind(row)).map_or("row of an unknown kind", Kind::name);
        let article = if name.starts_with(['a', 'e', 'i', 'o', 'u']) { "an" } else { "a" };
        format!("{article} {name}")
    }

    /// Field a to e of a type row, by its number from 0.
    fn field(&self, row: usize, field: usize) -> usize {
        self.short(self.types_at() + TYPE_ROW * row + 2 + 2 * field)
    }

    fn is_record(&self, row: usize) -> bool {
        matches!(self.kind(row), 13 | 14)
    }

    fn is_owner(&self, row: usize) -> bool {
        matches!(self.kind(row), 9 | 13 | 14 | 15)
    }

    fn name(&self, row: usize) -> Option<&'a [u8]> {
        if !self.is_record(row) {
            return None;
        }
        let (start, length) = (self.field(row, 3), self.field(row, 4));
        self.0.get(self.names_at()..)?.get(start..start + length).filter(|name| !name.is_empty())
    }

    fn type_label(&self, row: usize) -> String {
        match self.name(row) {
            Some(name) => format!("type row {row} ({})", words::bare(name)),
            None => format!("type row {row}"),
        }
    }

    fn member_label(&self, row: usize) -> String {
        match self.owner(row) {
            Some(owner) => format!("member row {row} of {}", self.type_label(owner)),
            None => format!("member row {row}"),
        }
    }

    fn owner(&self, member: usize) -> Option<usize> {
        let takes = |row: usize| {
            (self.field(row, 0)..self.field(row, 0) + self.field(row, 1)).contains(&member) && self.is_owner(row)
        };
        (0..self.types()).find(|&row| takes(row))
    }

    /// How many member rows the first type rows take.
    fn taken(&self, rows: usize) -> usize {
        (0..rows).filter(|&row| self.is_owner(row)).map(|row| self.field(row, 1)).sum()
    }

    /// How many entries the lists of the first type rows take.
    fn listed(&self, rows: usize) -> usize {
        (0..rows).filter(|&row| self.kind(row) == 8).map(|row| self.field(row, 3)).sum()
    }

    /// 31.
    fn header(&self) -> Option<String> {
        let (length, version) = (self.0.len(), self.short(3));
        let (types, members, names, entries) = (self.types(), self.members(), self.names(), self.entries());
        let (header, due) = (self.types_at(), self.entry_at(entries));
        Some(if length < 12 {
            format!("the table is {length} bytes long, and its header alone has 12")
        } else if !self.0.starts_with(b"FGT") {
            "the table does not begin with the mark FGT".to_string()
        } else if !matches!(version, 1 | 2) {
            format!("its version is {version}, not 1 or 2")
        } else if length < header {
            format!("the table is {length} bytes long, and the header of version {version} alone has {header}")
        } else if !(1..=256).contains(&types) {
            format!("it says {types} type rows; a table has 1 to 256")
        } else if members > 1_024 {
            format!("it says {members} member rows; a table has at most 1024")
        } else if names > 8_192 {
            format!("it says {names} name bytes; a table has at most 8192")
        } else if self.byte(11) != 0 {
            format!("its zero byte, at 11, is {}, not 0", self.byte(11))
        } else if entries > 1_024 {
            format!("it says {entries} entries of lists of enumerators; a table has at most 1024")
        } else if length != due {
            let parts = match version {
                1 => format!("{types} type rows, {members} member rows and {names} name bytes"),
                _ => format!("{types} type rows, {members} member rows, {names} name bytes and {entries} entries"),
            };
            format!("the table is {length} bytes long, and {parts} make {due}")
        } else {
            return None;
        })
    }

    /// 39 at 0.
    fn left_over(&self) -> Option<String> {
        Some(format!("the lists of the enums take {}, and the table has {}", self.listed(self.types()), self.entries()))
    }

    /// 35 at 0.
    fn sum(&self) -> Option<String> {
        Some(format!("the type rows take {}, and the table has {}", self.taken(self.types()), self.members()))
    }

    fn type_row(&self, number: u32, row: usize) -> Option<String> {
        let [a, b, c, d, e] = [0, 1, 2, 3, 4].map(|field| self.field(row, field));
        let kind = self.kind(row);
        Some(match number {
            32 => self.type_zeros(row)?,
            33 => format!("its kind is {kind}; kinds are 0 to 15"),
            34 => match kind {
                10 => self.part("element", a, row)?,
                11 => self.part("key", a, row).or_else(|| self.part("value", b, row))?,
                _ => self.base(c.checked_sub(1)?, row)?,
            },
            35 => {
                let taken = self.taken(row);
                format!(
                    "its member rows begin at {a} (a), and the rows before it take {taken}: they are to begin there"
                )
            }
            36 => "it is a struct without members; a struct has at least one (b)".to_string(),
            37 => {
                let (end, names) = (d + e, self.names());
                if !(1..=255).contains(&e) {
                    format!("its name is {e} bytes long (e); a name has 1 to 255")
                } else if end > names {
                    format!("its name ends at {end} (d + e), and there are {names} name bytes")
                } else if let Some(fault) = text::fault(self.name(row)?, self.names_at() + d) {
                    format!("its name is no UTF-8: at {}, {}", fault.place, fault.wrong)
                } else {
                    let other = (0..row).find(|&other| self.name(other) == self.name(row))?;
                    format!("type row {other} has the same name")
                }
            }
            38 => format!("its greatest enumerator is {} (a + 65536 b), over {GREATEST}", a + 65_536 * b),
            39 => self.list(row)?,
            _ => return None,
        })
    }

    /// 39, of an enum row.
    fn list(&self, row: usize) -> Option<String> {
        let [a, b, first, count] = [0, 1, 2, 3].map(|field| self.field(row, field));
        let (taken, end, entries) = (self.listed(row), first + count, self.entries());
        if first != taken {
            return Some(format!(
                "its list begins at entry {first} (c), and the rows before it take {taken}: it is to begin there"
            ));
        }
        if count == 0 {
            return Some("its list has no entry (d); a list has at least one".to_string());
        }
        if end > entries {
            return Some(format!("its list ends at entry {end} (c + d), and there are {entries} entries"));
        }
        if let Some(entry) = (first + 1..end).find(|&entry| self.entry(entry) <= self.entry(entry - 1)) {
            let (at, is, before) = (self.entry_at(entry), self.entry(entry), self.entry(entry - 1));
            return Some(format!("its list does not rise at entry {entry}, at {at}: {is} follows {before}"));
        }
        let (last, greatest) = (self.entry(end - 1), a + 65_536 * b);
        (last != greatest)
            .then(|| format!("its list ends with {last}, and its greatest enumerator is {greatest} (a + 65536 b)"))
    }

    /// 32.
    fn type_zeros(&self, row: usize) -> Option<String> {
        let zero = self.byte(self.types_at() + TYPE_ROW * row + 1);
        if zero != 0 {
            return Some(format!("its second byte is {zero}, not 0"));
        }
        let used = match self.kind(row) {
            8 if self.has_lists() => 4,
            8 | 9 | 11 | 15 => 2,
            10 => 1,
            13 | 14 => 5,
            _ => 0,
        };
        let field = (used..5).find(|&field| self.field(row, field) != 0)?;
        let letter = ["a", "b", "c", "d", "e"][field];
        Some(format!("{letter} is {}, and {} has it 0", self.field(row, field), self.kind_words(row)))
    }

    /// 34, of an element, a key or a value.
    fn part(&self, what: &str, part: usize, row: usize) -> Option<String> {
        if part >= row {
            return Some(format!("its {what}, row {part}, is not a smaller row"));
        }
        (self.kind(part) > 12)
            .then(|| format!("its {what}, row {part}, is {}: no type of a value", self.kind_words(part)))
    }

    /// 34, of a base.
    fn base(&self, base: usize, row: usize) -> Option<String> {
        if base >= row {
            return Some(format!("its base, row {base}, is not a smaller row"));
        }
        let (is, due) = (self.kind_words(base), self.kind_words(row));
        (self.kind(base) != self.kind(row)).then(|| format!("its base, row {base}, is {is}, not {due}"))
    }

    fn member_row(&self, number: u32, row: usize) -> Option<String> {
        let at = self.members_at() + MEMBER_ROW * row;
        let (of, mark, zero) = (self.short(at), self.byte(at + 2), self.byte(at + 3));
        let tag = self.tag(row);
        let owner = self.owner(row)?;
        Some(match number {
            32 if zero != 0 => format!("its fourth byte is {zero}, not 0"),
            32 => format!("it is required, and its tag is {tag}, not 0"),
            34 if of >= owner => format!("its type, row {of}, is not smaller than its owner's row, {owner}"),
            34 => format!("its type, row {of}, is {}: no type of a value", self.kind_words(of)),
            36 if mark > 1 => format!("its mark is {mark}; 0 is required, 1 optional"),
            36 => "it is optional, and the members of a struct are all required".to_string(),
            38 if tag > GREATEST => format!("its tag is {tag}, over {GREATEST}"),
            38 => {
                let is_same = |other: usize| self.is_optional(other) && self.tag(other) == tag;
                let other = (self.field(owner, 0)..row).find(|&other| is_same(other))?;
                format!("its tag is {tag}, and member row {other} of the same owner has that tag")
            }
            _ => return None,
        })
    }

    fn is_optional(&self, member: usize) -> bool {
        self.byte(self.members_at() + MEMBER_ROW * member + 2) == 1
    }

    fn tag(&self, member: usize) -> u32 {
        let at = self.members_at() + MEMBER_ROW * member + 4;
        u32::from_le_bytes([0, 1, 2, 3].map(|byte| self.byte(at + byte)))
    }
}
