//! Messages: conforming ones with what the reader has to say of them, known from making them, and wrong ones.

use super::text::{Made, Text};
use super::types::{Types, LIGHT};
use super::Rng;
use crate::Reading;

/// A message and, if it conforms, what the reader has to say of it.
#[derive(Clone)]
pub struct Message {
    pub bytes: Vec<u8>,
    pub rows: Vec<[u32; 3]>,
    pub reading: Reading,
    /// The strings that are read, in message order.
    pub strings: Vec<Made>,
}

/// What is wrong with a message.
#[derive(Clone, Copy, PartialEq)]
pub enum Wrong {
    /// It conforms.
    Nothing,
    /// One item in so many, of any kind.
    Items(usize),
    /// One string in so many is no text; all else conforms.
    Strings(usize),
}

struct Maker<'m> {
    rng: &'m mut Rng,
    types: &'m Types,
    out: Vec<u8>,
    /// Bytes that may still be spent on what need not be there.
    budget: isize,
    wrong: Wrong,
    /// In encoding 1.0.
    old: bool,
    made: Message,
}

/// A message under a top of the table, in encoding 1.0 or 1.1.
pub fn message(rng: &mut Rng, types: &Types, top: u16, wrong: Wrong) -> Message {
    let budget = rng.pick(&[0, 30, 100, 100, 300, 300, 2_000]);
    let old = match wrong {
        Wrong::Items(_) if rng.one_in(10) => true,
        _ => types.kind(top) != 14 && !types.has_optionals(top) && rng.one_in(2),
    };
    let reading = Reading { format: if old { 2 } else { 1 }, ..Reading::default() };
    let made = Message { bytes: vec![], rows: vec![], reading, strings: vec![] };
    let mut maker = Maker { rng, types, out: vec![0, 0, 0, 0, 1, !old as u8], budget, wrong, old, made };
    if maker.slips() {
        maker.out[5] = maker.rng.pick(&[0, 1, 1, 2]);
    }
    if types.kind(top) == 15 {
        maker.made.reading.first = top.into();
        maker.required(top);
        if !old {
            let optionals = maker.choose(top);
            maker.optionals(&optionals);
        }
    } else if old {
        maker.pairs(top);
    } else {
        maker.record(top);
    }
    let Maker { mut out, mut made, .. } = maker;
    mend(&mut out);
    made.bytes = out;
    made.reading.rows = made.rows.len() as u32;
    made
}

/// The bytes of a value, in encoding 1.1.
pub(super) fn value(rng: &mut Rng, types: &Types, of: u16) -> Vec<u8> {
    let budget = rng.pick(&[0, 30, 100, 300]);
    let made = Message { bytes: vec![], rows: vec![], reading: Reading::default(), strings: vec![] };
    let mut maker = Maker { rng, types, out: vec![], budget, wrong: Wrong::Nothing, old: false, made };
    maker.value(of, Text::Optional);
    maker.out
}

/// Sets the encapsulation's size right.
pub(super) fn mend(bytes: &mut [u8]) {
    let length = bytes.len() as u32;
    if let Some(size) = bytes.first_chunk_mut() {
        *size = length.to_le_bytes();
    }
}

impl Maker<'_> {
    /// Whether the next item is to be wrong.
    fn slips(&mut self) -> bool {
        match self.wrong {
            Wrong::Items(one_in) => self.rng.one_in(one_in),
            _ => false,
        }
    }

    fn put(&mut self, bytes: &[u8]) {
        self.budget -= bytes.len() as isize;
        self.out.extend(bytes);
    }

    fn bytes(&mut self, count: usize) {
        for _ in 0..count {
            let byte = self.rng.byte();
            self.put(&[byte]);
        }
    }

    fn int(&mut self, int: usize) {
        let int = if self.slips() { self.rng.number(int) } else { int as u32 };
        self.put(&int.to_le_bytes());
    }

    fn size(&mut self, size: usize) {
        let (mut size, mut long) = (size as u32, size >= 255);
        if self.slips() {
            if self.rng.one_in(2) {
                long = true;
            } else {
                size = self.rng.number(size as usize);
                long |= size >= 255;
            }
        }
        if long {
            self.put(&[255]);
            self.put(&size.to_le_bytes());
        } else {
            self.put(&[size as u8]);
        }
    }

    /// How many parts of these least bytes to make.
    fn count(&mut self, least: usize) -> usize {
        if self.budget <= 0 || least >= LIGHT {
            return 0;
        }
        let count = self.rng.pick(&[0, 1, 1, 2, 2, 3, 4, 7, 253, 254, 255, 256, 300]);
        if count > 7 && ((count * least) as isize > self.budget || !self.rng.one_in(3)) {
            1
        } else {
            count
        }
    }

    fn string(&mut self, what: Text) {
        let length = self.count(1);
        let text = self.rng.text(length);
        self.text(text, what);
    }

    /// The string of this text, or with a fault in it. Faults of type IDs are rarer, for they hide those of the members.
    fn text(&mut self, mut text: Vec<u8>, what: Text) {
        let rarer = if what.is_id() { 4 } else { 1 };
        let slips = match self.wrong {
            Wrong::Nothing => false,
            Wrong::Items(one_in) | Wrong::Strings(one_in) => self.rng.one_in(rarer * one_in),
        };
        if slips {
            self.rng.spoil(&mut text);
        }
        let is_text = core::str::from_utf8(&text).is_ok();
        self.made.strings.push(Made { place: self.out.len(), what, is_text });
        self.size(text.len());
        self.put(&text);
    }

    fn bool(&mut self) {
        let byte = if self.slips() { self.rng.pick(&[2, 3, 128, 255]) } else { self.rng.below(2) as u8 };
        self.put(&[byte]);
    }

    /// A value; if it is a string, `what` says which.
    fn value(&mut self, r: u16, what: Text) {
        let types = self.types;
        let [a, b, ..] = types.fields(r);
        match types.kind(r) {
            0 => self.bool(),
            kind @ 1..=6 => self.bytes([1, 1, 2, 4, 8, 4, 8][kind as usize]),
            7 => self.string(what),
            8 => {
                let enumerator = self.enumerator(r);
                if self.old {
                    self.old_enumerator(enumerator, types.greatest(r));
                } else {
                    self.size(enumerator as usize);
                }
            }
            9 => types.owned(r).for_each(|m| self.value(types.spec.members[m].0, Text::Part)),
            10 => {
                let count = self.count(types.least[a as usize]);
                self.size(count);
                (0..count).for_each(|_| self.value(a, Text::Part));
            }
            11 => {
                let count = self.count(types.least[a as usize].saturating_add(types.least[b as usize]));
                self.size(count);
                for _ in 0..count {
                    self.value(a, Text::Key);
                    self.value(b, Text::Part);
                }
            }
            _ => self.proxy(),
        }
    }

    /// A number that an enum allows. A wrong one is above the greatest or, in a list, mostly between two entries.
    fn enumerator(&mut self, r: u16) -> u32 {
        let greatest = self.types.greatest(r);
        let any = self.rng.below(greatest as usize + 1) as u32;
        match self.types.list(r) {
            None if self.slips() => greatest + 1,
            None => self.rng.pick(&[0, greatest, any, 254.min(greatest), 255.min(greatest)]),
            Some(list) => {
                let inner = self.rng.pick(list);
                let entry = self.rng.pick(&[list[0], greatest, inner]);
                if self.slips() {
                    self.rng.pick(&[entry + 1, entry.saturating_sub(1), any, greatest + 1])
                } else {
                    entry
                }
            }
        }
    }

    /// An enumerator of encoding 1.0: a byte, short or int by the greatest. A wrong one has its sign bit set.
    fn old_enumerator(&mut self, enumerator: u32, greatest: u32) {
        let width = match greatest {
            0..=126 => 1,
            127..=32_766 => 2,
            _ => 4,
        };
        let mut bytes = enumerator.to_le_bytes();
        if self.slips() {
            bytes[width - 1] |= 128;
        }
        self.put(&bytes[..width]);
    }

    fn proxy(&mut self) {
        if self.budget <= 0 || self.rng.one_in(4) {
            let category = self.slips() as u8;
            return self.put(&[0, category, 65][..2 + category as usize]);
        }
        let name = 1 + self.rng.below(5);
        let name = self.rng.text(name);
        self.text(name, Text::Name);
        self.string(Text::Category);
        let facets = if self.slips() { 2 } else { self.rng.below(2) };
        self.size(facets);
        (0..facets).for_each(|_| self.string(Text::Facet));
        let mode = if self.slips() { self.rng.pick(&[5, 6, 255]) } else { self.rng.below(5) as u8 };
        self.put(&[mode]);
        self.bool();
        if !self.old {
            self.bytes(4);
        }
        let endpoints = self.rng.pick(&[0, 0, 1, 1, 2, 3]);
        self.size(endpoints);
        for _ in 0..endpoints {
            self.bytes(2);
            let inside = self.rng.below(6);
            self.int(6 + inside);
            self.bytes(2 + inside);
        }
        if endpoints == 0 {
            self.string(Text::Adapter);
        }
    }

    /// What is made by `make`, out of line.
    fn apart(&mut self, make: impl FnOnce(&mut Self)) -> Vec<u8> {
        let out = std::mem::take(&mut self.out);
        make(self);
        std::mem::replace(&mut self.out, out)
    }

    fn give(&mut self, member: usize, place: usize) {
        self.made.rows.push([member as u32, place as u32, (self.out.len() - place) as u32]);
    }

    fn required(&mut self, owner: u16) {
        for m in self.types.owned(owner) {
            if let (of, None) = self.types.spec.members[m] {
                let place = self.out.len();
                self.value(of, Text::Required);
                self.give(m, place);
            }
        }
    }

    /// Which optionals to make: tags, and the members that have them.
    fn choose(&mut self, owner: u16) -> Vec<(u32, Option<usize>)> {
        let members = &self.types.spec.members;
        let mut chosen = vec![];
        let few = self.rng.one_in(4);
        for m in self.types.owned(owner) {
            if let Some(tag) = members[m].1 {
                if !few && !self.rng.one_in(4) {
                    chosen.push((tag, Some(m)));
                }
            }
        }
        for _ in 0..self.rng.pick(&[0, 0, 0, 1, 1, 2, 4]) {
            let tag = self.rng.tag();
            let taken = chosen.iter().any(|&(other, _)| other == tag);
            if !taken && !self.types.owned(owner).any(|m| members[m].1 == Some(tag)) {
                chosen.push((tag, None));
            }
        }
        chosen.sort();
        if chosen.len() > 1 && self.slips() {
            let i = self.rng.below(chosen.len() - 1);
            chosen.swap(i, i + 1);
        }
        chosen
    }

    fn optionals(&mut self, chosen: &[(u32, Option<usize>)]) {
        for &(tag, known) in chosen {
            let of = known.map(|m| self.types.spec.members[m].0);
            let optional = match of {
                Some(of) => self.types.optional_type(of),
                None => self.rng.below(7) as u8,
            };
            self.header(tag, optional);
            let place = match of {
                Some(of) => {
                    let before = self.made.strings.len();
                    let value = self.apart(|maker| maker.value(of, Text::Optional));
                    self.length(optional, value.len(), self.types.has_own_size(of));
                    let place = self.out.len();
                    self.made.strings[before..].iter_mut().for_each(|string| string.place += place);
                    self.out.extend(value);
                    place
                }
                None => {
                    let length = match optional {
                        0..=3 => 1 << optional,
                        4 => {
                            let size = self.rng.pick(&[0, 1, 254, 255, 0x7FFF_FFFF]);
                            self.size(size);
                            0
                        }
                        _ => 1 + self.rng.below(12),
                    };
                    self.length(optional, length, false);
                    self.bytes(length);
                    self.made.reading.optionals_skipped += 1;
                    0
                }
            };
            if let Some(m) = known {
                self.give(m, place);
            }
        }
    }

    fn header(&mut self, tag: u32, optional: u8) {
        let (mut five, mut three) = (tag.min(30) as u8, optional);
        if self.slips() {
            match self.rng.below(4) {
                0 => five = 31,
                1 => five = 30,
                2 => three = 7,
                _ => three = self.rng.below(8) as u8,
            }
        }
        self.put(&[five << 3 | three]);
        if five == 30 {
            self.size(tag as usize);
        }
    }

    /// The length field of an optional.
    fn length(&mut self, optional: u8, length: usize, own: bool) {
        match optional {
            5 if !own => self.size(length),
            6 => self.int(length),
            _ => (),
        }
    }

    fn record(&mut self, top: u16) {
        let types = self.types;
        let below: Vec<u16> = types.records().filter(|&r| types.chain(r).contains(&top)).collect();
        let first = self.rng.pick(&below);
        if types.kind(top) == 14 {
            let marker = if self.slips() { self.rng.byte() } else { 1 };
            self.put(&[marker]);
        }
        let sliced = !self.rng.one_in(3);
        self.made.reading.first = first.into();
        self.made.reading.format = sliced as u32;
        if sliced {
            for _ in 0..self.rng.pick(&[0, 0, 0, 1, 1, 2, 5]) {
                let flags = 0x11 | (self.rng.below(2) as u8) << 2;
                let name = types.unknown(self.rng);
                self.slice(flags, Some((name, Text::UnknownId)), |maker| {
                    let data = maker.rng.below(20);
                    maker.bytes(data);
                });
                self.made.reading.slices_skipped += 1;
            }
        }
        let chain = types.chain(first);
        for (i, &r) in chain.iter().enumerate() {
            let optionals = self.choose(r);
            let has_id = sliced || i == 0;
            let last = i + 1 == chain.len();
            let flagged = !optionals.is_empty() || self.slips();
            let flags = has_id as u8 | (flagged as u8) << 2 | (sliced as u8) << 4 | (last as u8) << 5;
            let name = match self.slips() {
                true if self.rng.one_in(2) => types.unknown(self.rng),
                true => types.record_name(self.rng.pick(&types.records().collect::<Vec<_>>())).to_vec(),
                false => types.record_name(r).to_vec(),
            };
            let what = if i == 0 { Text::FirstId } else { Text::LaterId };
            self.slice(flags, has_id.then_some((name, what)), |maker| {
                maker.required(r);
                maker.optionals(&optionals);
                if flags >> 2 & 1 == 1 {
                    maker.put(&[255]);
                }
            });
        }
    }

    /// An exception of encoding 1.0: a header byte, then type ID and size in pairs.
    fn pairs(&mut self, top: u16) {
        let types = self.types;
        let below: Vec<u16> = types.records().filter(|&r| types.chain(r).contains(&top)).collect();
        let first = self.rng.pick(&below);
        self.made.reading.first = first.into();
        let header = if self.slips() { self.rng.byte() } else { 0 };
        self.put(&[header]);
        for _ in 0..self.rng.pick(&[0, 0, 0, 1, 1, 2, 5]) {
            let name = types.unknown(self.rng);
            self.pair(name, Text::UnknownId, |maker| {
                let data = maker.rng.below(20);
                maker.bytes(data);
            });
            self.made.reading.slices_skipped += 1;
        }
        for (i, r) in types.chain(first).into_iter().enumerate() {
            let name = match self.slips() {
                true if self.rng.one_in(2) => types.unknown(self.rng),
                true => types.record_name(self.rng.pick(&types.records().collect::<Vec<_>>())).to_vec(),
                false => types.record_name(r).to_vec(),
            };
            let what = if i == 0 { Text::FirstId } else { Text::LaterId };
            self.pair(name, what, |maker| maker.required(r));
        }
    }

    fn pair(&mut self, name: Vec<u8>, what: Text, data: impl FnOnce(&mut Self)) {
        self.text(name, what);
        self.sized(data);
    }

    /// An int size that counts itself, then the data.
    fn sized(&mut self, data: impl FnOnce(&mut Self)) {
        let start = self.out.len();
        self.put(&[0; 4]);
        data(self);
        let length = self.out.len() - start;
        let size = self.apart(|maker| maker.int(length));
        self.out[start..start + 4].copy_from_slice(&size);
    }

    fn slice(&mut self, flags: u8, id: Option<(Vec<u8>, Text)>, data: impl FnOnce(&mut Self)) {
        let flags = if self.slips() { flags ^ 1 << self.rng.below(8) } else { flags };
        self.put(&[flags]);
        if let Some((name, what)) = id {
            self.text(name, what);
        }
        if flags >> 4 & 1 == 1 {
            self.sized(data);
        } else {
            data(self);
        }
    }
}
