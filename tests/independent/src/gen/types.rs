//! Random tables that break no rule.

use super::Rng;
use crate::spec::{Member, Spec};

/// A type is light if its least value has fewer bytes: only light ones are made more often than they must be.
pub(super) const LIGHT: usize = 300;

/// A table with what is needed to make its values.
#[derive(Clone)]
pub struct Types {
    pub spec: Spec,
    /// For each row the least bytes of a value.
    pub(super) least: Vec<usize>,
    fixed: Vec<bool>,
    /// No member is optional, so that encoding 1.0 may be used.
    bare: bool,
}

/// A list of enumerators of at most `room` entries: with holes or without, near some bound.
fn list(rng: &mut Rng, room: usize) -> Vec<u32> {
    let mut list: Vec<u32> = match rng.below(8) {
        0 | 1 => (0..=rng.pick(&[0, 1, 2, 3, 254, 255, 300])).collect(),
        2 => vec![1, 3, 4],
        3 => vec![rng.pick(&[0, 1, 126, 127, 254, 255, 32_766, 32_767, 65_536, 0x7FFF_FFFF])],
        _ => {
            let entries = if rng.one_in(8) { rng.pick(&[200, 1_000, 1_024]) } else { 1 + rng.below(9) };
            let steps = rng.pick(&[&[1, 1, 1, 2, 3][..], &[1, 2, 100], &[2], &[1, 65_536, 0x1000_0000]]);
            let start = rng.pick(&[0, 0, 1, 2, 250, 254, 255, 65_530, 0x7FFF_FFF0]);
            let rising = std::iter::successors(Some(start), |&entry| Some(entry + rng.pick(steps)));
            rising.take_while(|&entry| entry <= 0x7FFF_FFFF).take(entries).collect()
        }
    };
    if list.len() > 1 && rng.one_in(4) {
        list.remove(rng.below(list.len()));
    }
    list.truncate(room);
    list
}

impl Types {
    /// A table that breaks no rule, of version 1 or 2.
    pub fn random(rng: &mut Rng) -> Types {
        let spec = if rng.one_in(2) { Spec::with_lists() } else { Spec::default() };
        let mut types = Types { spec, least: vec![], fixed: vec![], bare: rng.one_in(4) };
        let rows = if rng.one_in(150) { 1 + rng.below(256) } else { 1 + rng.below(14) };
        let most = if rng.one_in(150) { 300 } else { 6 };
        let kinds = [0, 1, 2, 3, 4, 5, 6, 7, 7, 8, 8, 9, 9, 9, 10, 10, 10, 11, 11, 12, 13, 13, 14, 14, 15];
        for _ in 1..rows {
            let kind = rng.pick(&kinds);
            types.push(rng, kind, most);
        }
        if rows < 200 && rng.one_in(40) {
            types.push_tower(rng);
        }
        let kind = rng.pick(&[13, 14, 15]);
        types.push(rng, kind, most);
        if rng.one_in(4) {
            types.spec.names.extend([0x3A, 0, 0xFF]);
        }
        types
    }

    /// One more row of this kind, or of a basic one where there are no parts for it.
    fn push(&mut self, rng: &mut Rng, kind: u8, most: usize) {
        let parts: Vec<u16> = (0..self.spec.rows.len() as u16).filter(|&r| self.kind(r) <= 12).collect();
        let (least, fixed) = match kind {
            8 if self.spec.entries.is_none() => {
                let greatest =
                    rng.pick(&[0, 1, 3, 126, 127, 254, 255, 300, 32_766, 32_767, 65_535, 65_536, 0x7FFF_FFFF]);
                self.spec.enumeration(greatest);
                (1, false)
            }
            8 if self.entries() < 1_024 => {
                self.spec.listed(&list(rng, 1_024 - self.entries()));
                (1, false)
            }
            9 if !parts.is_empty() => self.push_struct(rng, &parts),
            10 if !parts.is_empty() => {
                self.spec.row(10, [rng.pick(&parts), 0, 0, 0, 0]);
                (1, false)
            }
            11 if !parts.is_empty() => {
                self.spec.row(11, [rng.pick(&parts), rng.pick(&parts), 0, 0, 0]);
                (1, false)
            }
            12 => {
                self.spec.basic(12);
                (2, false)
            }
            13 | 14 => self.push_record(rng, kind, most),
            15 => {
                let members = self.members(rng, most);
                self.spec.owner(15, &members);
                (0, false)
            }
            _ => {
                let kind = if kind < 8 { kind } else { rng.below(8) as u8 };
                self.spec.basic(kind);
                ([1, 1, 2, 4, 8, 4, 8, 1][kind as usize], kind != 7)
            }
        };
        self.least.push(least);
        self.fixed.push(fixed);
    }

    /// A struct, mostly a light one.
    fn push_struct(&mut self, rng: &mut Rng, parts: &[u16]) -> (usize, bool) {
        let heavy = rng.one_in(20);
        let mut members: Vec<Member> = vec![];
        let (mut least, mut fixed) = (0usize, true);
        for _ in 0..1 + rng.below(if heavy { 12 } else { 4 }) {
            let part = rng.pick(&parts[if heavy { parts.len() / 2 } else { 0 }..]);
            let more = least.saturating_add(self.least[part as usize]);
            if self.spec.members.len() + members.len() == 1_024 || more >= LIGHT && !heavy && !members.is_empty() {
                break;
            }
            (least, fixed) = (more, fixed && self.fixed[part as usize]);
            members.push((part, None));
        }
        if members.is_empty() {
            self.spec.basic(1);
            return (1, true);
        }
        self.spec.owner(9, &members);
        (least, fixed)
    }

    /// Structs of two or three structs each, up to more bytes than any message has, and containers of them.
    fn push_tower(&mut self, rng: &mut Rng) {
        let kind = rng.pick(&[0, 1, 1, 2, 4, 7]);
        self.push(rng, kind, 0);
        for _ in 0..rng.pick(&[9, 15, 16, 17, 40]) {
            let below = self.spec.rows.len() as u16 - 1;
            let members = vec![(below, None); rng.pick(&[1, 2, 2, 2, 3])];
            if self.spec.members.len() + members.len() > 1_024 {
                break;
            }
            self.spec.owner(9, &members);
            self.least.push(self.least[below as usize].saturating_mul(members.len()));
            self.fixed.push(self.fixed[below as usize]);
        }
        let top = self.spec.rows.len() as u16 - 1;
        self.spec.row(10, [top, 0, 0, 0, 0]);
        self.spec.row(11, [top, top, 0, 0, 0]);
        self.least.extend([1, 1]);
        self.fixed.extend([false, false]);
    }

    fn push_record(&mut self, rng: &mut Rng, kind: u8, most: usize) -> (usize, bool) {
        let bases: Vec<u16> = (0..self.spec.rows.len() as u16).filter(|&r| self.kind(r) == kind).collect();
        let base = if bases.is_empty() || rng.one_in(4) { None } else { Some(rng.pick(&bases)) };
        let members = self.members(rng, most);
        let known = self.spec.names.len();
        if known > 0 && rng.one_in(4) {
            let start = rng.below(known);
            let length = 1 + rng.below((known - start).min(255));
            let name = &self.spec.names[start..start + length];
            if core::str::from_utf8(name).is_ok() && !self.knows(name) {
                self.spec.record_named(kind, base, (start as u16, length as u16), &members);
                return (0, false);
            }
        }
        let name = self.unknown(rng);
        if known + name.len() > 8_000 {
            self.spec.owner(15, &members);
        } else {
            if rng.one_in(8) {
                self.spec.names.push(0xC3); // unused, and no text
            }
            self.spec.record(kind, base, &name, &members);
        }
        (0, false)
    }

    /// Members of a record or a parameter list.
    fn members(&self, rng: &mut Rng, most: usize) -> Vec<Member> {
        let parts: Vec<u16> = (0..self.spec.rows.len() as u16)
            .filter(|&r| self.kind(r) <= 12 && self.least[r as usize] < LIGHT)
            .collect();
        let count = rng.below(most + 1).min(1_024 - self.spec.members.len());
        let mut members: Vec<Member> = vec![];
        while !parts.is_empty() && members.len() < count {
            let tag = if self.bare || rng.one_in(2) { None } else { Some(rng.tag()) };
            if tag.is_some() && members.iter().any(|member| member.1 == tag) {
                continue;
            }
            members.push((rng.pick(&parts), tag));
        }
        members
    }

    fn entries(&self) -> usize {
        self.spec.entries.as_ref().map_or(0, Vec::len)
    }

    /// The list of an enum; none in version 1.
    pub fn list(&self, r: u16) -> Option<&[u32]> {
        let [_, _, first, count, _] = self.fields(r).map(usize::from);
        self.spec.entries.as_ref().map(|entries| &entries[first..first + count])
    }

    pub fn greatest(&self, r: u16) -> u32 {
        let [a, b, ..] = self.fields(r).map(u32::from);
        a | b << 16
    }

    /// Whether the top, a base of it or a record that descends from it has an optional member.
    pub fn has_optionals(&self, top: u16) -> bool {
        let related = |r: u16| self.chain(top).contains(&r) || self.chain(r).contains(&top);
        let optional = |r: u16| self.owned(r).any(|m| self.spec.members[m].1.is_some());
        (0..self.spec.rows.len() as u16).any(|r| self.kind(r) >= 13 && optional(r) && related(r))
    }

    /// The same types in the other version, if every enum allows all numbers up to its greatest and the lists fit.
    pub fn other_version(&self) -> Option<Types> {
        let enums: Vec<u16> = (0..self.spec.rows.len() as u16).filter(|&r| self.kind(r) == 8).collect();
        let mut types = self.clone();
        let mut entries = vec![];
        for r in enums {
            let [a, b, ..] = self.fields(r);
            let count = self.greatest(r) as usize + 1;
            let fields = match self.list(r) {
                None if entries.len() + count > 1_024 => return None,
                None => [a, b, entries.len() as u16, count as u16, 0],
                Some(list) if list.len() < count => return None,
                Some(_) => [a, b, 0, 0, 0],
            };
            if self.spec.entries.is_none() {
                entries.extend(0..count as u32);
            }
            types.spec.rows[r as usize].1 = fields;
        }
        types.spec.entries = if self.spec.entries.is_none() { Some(entries) } else { None };
        Some(types)
    }

    pub fn kind(&self, r: u16) -> u8 {
        self.spec.rows[r as usize].0
    }

    pub fn fields(&self, r: u16) -> [u16; 5] {
        self.spec.rows[r as usize].1
    }

    /// The member rows of an owner.
    pub fn owned(&self, r: u16) -> std::ops::Range<usize> {
        let [a, b, ..] = self.fields(r);
        a as usize..a as usize + b as usize
    }

    pub fn chain(&self, r: u16) -> Vec<u16> {
        std::iter::successors(Some(r), |&r| self.fields(r)[2].checked_sub(1)).collect()
    }

    pub fn record_name(&self, r: u16) -> &[u8] {
        let [.., start, length] = self.fields(r);
        &self.spec.names[start as usize..start as usize + length as usize]
    }

    pub fn records(&self) -> impl Iterator<Item = u16> + '_ {
        (0..self.spec.rows.len() as u16).filter(|&r| matches!(self.kind(r), 13 | 14))
    }

    fn knows(&self, name: &[u8]) -> bool {
        self.records().any(|r| self.record_name(r) == name)
    }

    /// A name that no record has.
    pub fn unknown(&self, rng: &mut Rng) -> Vec<u8> {
        loop {
            let mut name = rng.name();
            if rng.one_in(8) {
                name.extend(self.records().next().map_or(&b""[..], |r| self.record_name(r)));
                name.truncate(255);
                while core::str::from_utf8(&name).is_err() {
                    name.pop();
                }
            }
            if !self.knows(&name) {
                return name;
            }
        }
    }

    pub fn top(&self, rng: &mut Rng) -> u16 {
        let tops: Vec<u16> = (0..self.spec.rows.len() as u16).filter(|&r| self.kind(r) >= 13).collect();
        rng.pick(&tops)
    }

    pub fn has_own_size(&self, r: u16) -> bool {
        self.kind(r) == 7 || self.kind(r) == 10 && self.kind(self.fields(r)[0]) <= 1
    }

    pub fn optional_type(&self, r: u16) -> u8 {
        let [a, b, ..] = self.fields(r);
        let fixed = |r: u16| self.fixed[r as usize];
        match self.kind(r) {
            0 | 1 => 0,
            2 => 1,
            3 | 5 => 2,
            4 | 6 => 3,
            8 => 4,
            7 => 5,
            9 if fixed(r) => 5,
            10 if fixed(a) => 5,
            11 if fixed(a) && fixed(b) => 5,
            _ => 6,
        }
    }

    /// The table of an older hub: an optional less, or a record under another name; of the other version, sometimes.
    pub fn older(&self, rng: &mut Rng) -> Types {
        let other = if rng.one_in(2) { self.other_version() } else { None };
        let mut types = other.unwrap_or_else(|| self.clone());
        let optionals: Vec<usize> =
            (0..types.spec.members.len()).filter(|&m| types.spec.members[m].1.is_some()).collect();
        let records: Vec<u16> = types.records().collect();
        if !optionals.is_empty() && rng.one_in(2) {
            let gone = rng.pick(&optionals);
            types.spec.members.remove(gone);
            for (kind, [a, b, ..]) in &mut types.spec.rows {
                if matches!(kind, 9 | 13 | 14 | 15) {
                    if (*a as usize..*a as usize + *b as usize).contains(&gone) {
                        *b -= 1;
                    } else if *a as usize > gone {
                        *a -= 1;
                    }
                }
            }
        } else if !records.is_empty() {
            let record = rng.pick(&records);
            let name = types.unknown(rng);
            let start = types.spec.names.len();
            if start + name.len() <= 8_192 {
                types.spec.names.extend(&name);
                types.spec.rows[record as usize].1[3..].copy_from_slice(&[start as u16, name.len() as u16]);
            }
        }
        types
    }
}
