//! The reader and the member view.

use crate::table::*;
use crate::value::Part;
use crate::{Fault, Refusal, MOST};

/// What the reader gives besides the rows.
#[derive(Clone, Copy, Debug, Default, PartialEq, Eq)]
pub struct Reading {
    /// The first known type; for a parameter list the top.
    pub first: u32,
    /// 0 compact, 1 sliced or a parameter list, 2 encoding 1.0.
    pub format: u32,
    pub rows: u32,
    pub optionals_skipped: u32,
    pub slices_skipped: u32,
}

/// A row of the lent list.
pub(crate) type Row = [u8; 12];

/// Reads a message and fills the lent list with its rows (member row, place, length), given room for them.
pub fn read(table: &[u8], top: u32, message: &[u8], rows: &mut [u8]) -> Result<Reading, Refusal> {
    Table::with(table, |table| {
        let lent = rows.as_chunks_mut().0;
        // No member is in a message twice.
        let most = lent.len().min(table.member_rows());
        if most <= 8 {
            fill(table, top, message, lent, &mut [[0; 12]; 8])
        } else {
            fill_many(table, top, message, lent, most)
        }
    })
}

/// The same with a list of its own for more rows, in a function of its own, so that a short one takes little stack.
#[inline(never)]
fn fill_many(table: &Table, top: u32, message: &[u8], lent: &mut [Row], most: usize) -> Result<Reading, Refusal> {
    match most {
        0..=40 => fill(table, top, message, lent, &mut [[0; 12]; 40]),
        41..=128 => fill(table, top, message, lent, &mut [[0; 12]; 128]),
        _ => fill(table, top, message, lent, &mut [[0; 12]; 1_024]),
    }
}

/// Fills the lent list; what its rows were is kept and put back on a refusal.
#[inline(always)]
fn fill(table: &Table, top: u32, message: &[u8], lent: &mut [Row], kept: &mut [Row]) -> Result<Reading, Refusal> {
    let mut rows = Rows { lent, kept, count: 0 };
    let reading = walk(table, top, message, |m, place, length| rows.put(m, place, length));
    rows.end(reading)
}

/// The rows of one message, put into the lent list while it is read.
pub(crate) struct Rows<'l> {
    pub lent: &'l mut [Row],
    /// What the rows replace, until the message is accepted.
    pub kept: &'l mut [Row],
    pub count: usize,
}

impl Rows<'_> {
    /// Puts the next row, if there is room, and counts it.
    #[inline]
    pub fn put(&mut self, member: usize, place: usize, length: usize) {
        if let (Some(row), Some(kept)) = (self.lent.get_mut(self.count), self.kept.get_mut(self.count)) {
            *kept = *row;
            row[..8].copy_from_slice(&(member as u64 | (place as u64) << 32).to_le_bytes());
            row[8..].copy_from_slice(&(length as u32).to_le_bytes());
        }
        self.count += 1;
    }

    /// The reading with its number of rows; on a refusal, also by 19, the list is as it was.
    #[inline]
    pub fn end(&mut self, reading: Result<Reading, Fault>) -> Result<Reading, Refusal> {
        let refusal = match reading {
            Ok(reading) if self.count <= self.lent.len() => return Ok(Reading { rows: self.count as u32, ..reading }),
            Ok(_) => (19, self.count as u32),
            Err(fault) => fault.into(),
        };
        self.put_back();
        Err(refusal)
    }

    #[cold]
    fn put_back(&mut self) {
        for (row, kept) in self.lent.iter_mut().zip(&*self.kept).take(self.count) {
            *row = *kept;
        }
    }
}

/// The very bytes of the message, or the whole fallback where the accepted message lacks that member; on any
/// refusal, or a member not of the first known type's chain, an empty part of the fallback.
pub fn member<'a>(table: &[u8], top: u32, message: &'a [u8], member: u32, fallback: &'a [u8]) -> &'a [u8] {
    let view = Table::with(table, |table| {
        let mut found = None;
        let wanted = member as usize;
        let reading = walk(table, top, message, |member, place, length| {
            if member == wanted {
                found = Some(&message[place..place + length]);
            }
        })?;
        let is_of_chain = || table.chain(reading.first as usize).any(|r| table.row(r).members().contains(&wanted));
        Ok(found.or_else(|| is_of_chain().then_some(fallback)))
    });
    view.ok().flatten().unwrap_or(&fallback[..0])
}

/// Walks over a message and gives every row (member row, place, length) in message order.
#[inline(always)]
pub(crate) fn walk(
    table: &Table,
    top: u32,
    message: &[u8],
    give: impl FnMut(usize, usize, usize),
) -> Result<Reading, Fault> {
    walk_one(table, top, message, || table.has_optionals(top as usize), give)
}

/// The same for one of many messages: whether encoding 1.0 is refused by 26 is known to the caller, who is asked for a
/// message of 1.0 only.
#[inline(always)]
pub(crate) fn walk_one(
    table: &Table,
    top: u32,
    message: &[u8],
    is_old_refused: impl FnOnce() -> bool,
    give: impl FnMut(usize, usize, usize),
) -> Result<Reading, Fault> {
    let top = table.wanted(top)?;
    if message.len() > MOST {
        return Err(Fault::new(3, 0));
    }
    let Some(size) = message.first_chunk() else {
        return Err(Fault::new(4, 0));
    };
    if message.len() < 6 || u32::from_le_bytes(*size) as usize != message.len() {
        return Err(Fault::new(5, 0));
    }
    let kind = table.kind(top);
    let old = match message[4..6] {
        [1, 1] => false,
        [1, 0] if kind != CLASS => true,
        _ => return Err(Fault::new(6, 4)),
    };
    if old && is_old_refused() {
        return Err(Fault::new(26, 0));
    }
    let mut walk = Walk { table, give, message, old, reading: Reading::default() };
    let end = match kind {
        LIST => walk.list(top)?,
        _ if old => walk.old_exception(top)?,
        _ => walk.record(top)?,
    };
    if end != message.len() {
        return Err(Fault::new(18, end));
    }
    Ok(walk.reading)
}

struct Walk<'w, F> {
    table: &'w Table<'w>,
    give: F,
    message: &'w [u8],
    old: bool,
    reading: Reading,
}

impl<F: FnMut(usize, usize, usize)> Walk<'_, F> {
    /// A parameter list: required members, then optionals to the end. Like all these functions it gives the place after
    /// what it has read.
    fn list(&mut self, top: usize) -> Result<usize, Fault> {
        let format = if self.old { 2 } else { 1 };
        self.reading = Reading { first: top as u32, format, ..Reading::default() };
        let at = self.required(top, 6, self.message.len())?;
        if self.old || at == self.message.len() {
            return Ok(at);
        }
        self.optionals(top, at, self.message.len(), None)
    }

    /// An exception, or a class instance with its marker: slices from the most derived to the last.
    fn record(&mut self, top: usize) -> Result<usize, Fault> {
        let table = self.table;
        let mut part = Part { bytes: self.message, at: 6, old: false };
        if table.kind(top) == CLASS {
            let marker = part;
            if part.byte()? != 1 {
                return marker.refuse(13);
            }
        }
        let mut sliced = None; // fixed by the first slice
        let mut due = None; // after the first known slice, the base of the one before
        loop {
            let start = part;
            let flags = part.byte()?;
            let (form, has_optionals, last) = (flags & 3, flags >> 2 & 1 == 1, flags >> 5 & 1 == 1);
            let has_size = flags >> 4 & 1 == 1;
            let has_id = sliced.unwrap_or(true);
            let sliced = *sliced.get_or_insert(has_size);
            if flags >> 6 != 0 || has_size != sliced || (form != 0) != has_id {
                return start.refuse(14);
            }
            if flags >> 3 & 1 == 1 || form > 1 {
                return start.refuse(13);
            }
            let r = match due {
                Some(base) if !has_id || part.is_name(table, base)? => base,
                Some(_) => return start.refuse(17),
                None => {
                    let id_start = part;
                    let Some(r) = part.named(table, top)? else {
                        if !sliced {
                            return id_start.refuse(15);
                        }
                        if last {
                            return start.refuse(16);
                        }
                        part.at = part.declared(4, 4)?;
                        self.reading.slices_skipped += 1;
                        continue;
                    };
                    if !table.chain(r).any(|base| base == top) {
                        return start.refuse(17);
                    }
                    self.reading.first = r as u32;
                    self.reading.format = sliced as u32;
                    r
                }
            };
            let base = table.row(r).base();
            if last != base.is_none() {
                return start.refuse(17);
            }
            let size = part;
            let end = if sliced { part.declared(4, 4)? } else { part.bytes.len() };
            part.at = self.required(r, part.at, end)?;
            if has_optionals {
                part.at = self.optionals(r, part.at, end, Some(start.at))?;
            }
            if sliced && part.at != end {
                return size.refuse(11);
            }
            if last {
                return Ok(part.at);
            }
            due = base;
        }
    }

    /// An exception of encoding 1.0: a header byte, then type ID and size in pairs, most derived first. The pair
    /// without a base is last.
    fn old_exception(&mut self, top: usize) -> Result<usize, Fault> {
        let table = self.table;
        let mut part = Part { bytes: self.message, at: 6, old: true };
        let header = part;
        if part.byte()? != 0 {
            return header.refuse(25);
        }
        self.reading.format = 2;
        let mut due = None; // after the first known pair, the base of the one before
        loop {
            let id_start = part;
            let r = match due {
                Some(base) if part.is_name(table, base)? => base,
                Some(_) => return id_start.refuse(17),
                None => match part.named(table, top)? {
                    None => {
                        part.at = part.declared(4, 4)?;
                        self.reading.slices_skipped += 1;
                        continue;
                    }
                    Some(r) if table.chain(r).any(|base| base == top) => {
                        self.reading.first = r as u32;
                        r
                    }
                    Some(_) => return id_start.refuse(17),
                },
            };
            let size = part;
            let end = part.declared(4, 4)?;
            part.at = self.required(r, part.at, end)?;
            if part.at != end {
                return size.refuse(11);
            }
            match table.row(r).base() {
                None => return Ok(end),
                base => due = base,
            }
        }
    }

    /// Required members as declared, from a place on, held by what ends at `end`.
    #[inline(always)]
    fn required(&mut self, owner: usize, mut at: usize, end: usize) -> Result<usize, Fault> {
        let (table, bytes) = (self.table, &self.message[..end]);
        let (first, rows) = table.required(owner);
        for (i, row) in rows.iter().enumerate() {
            if let Some((of, shape)) = table.required_type(row) {
                let start = at;
                at = table.value_of(shape, of, bytes, at, self.old)?;
                (self.give)(first + i, start, at - start);
            }
        }
        Ok(at)
    }

    /// Optionals by rising tag: in a slice, given by the place of its flags, at least one and byte 255; in a parameter list
    /// to the end.
    #[inline(always)]
    fn optionals(&mut self, owner: usize, at: usize, end: usize, slice: Option<usize>) -> Result<usize, Fault> {
        let table = self.table;
        let mut part = Part { bytes: &self.message[..end], at, old: false };
        let mut tags = table.tags(owner);
        let mut above = 0; // tags from here on are rising
        loop {
            let start = part;
            let header = match part.byte() {
                Err(_) if slice.is_none() => return Ok(part.at),
                header => header?,
            };
            let mut tag = u32::from(header >> 3);
            if tag == 31 {
                return match slice {
                    Some(flags) if header == 255 && above == 0 => Err(Fault::new(14, flags)),
                    Some(_) if header == 255 => Ok(part.at),
                    _ => start.refuse(12),
                };
            }
            if tag == 30 {
                tag = part.size()? as u32;
                if tag < 30 {
                    return start.refuse(12);
                }
            }
            if tag < above {
                return start.refuse(12);
            }
            above = tag + 1;
            let optional = header & 7;
            let known = tags.find(tag);
            if let Some((m, of)) = known {
                // A plain value of fixed length needs no more than its bytes.
                let width = table.shape(of).width_as(optional);
                if width != 0 && width <= part.left() {
                    (self.give)(m, part.at, width);
                    part.at += width;
                    continue;
                }
            }
            if optional > FSIZE {
                return start.refuse(13);
            }
            let Some((m, of)) = known else {
                part.at = declared(part.bytes, part.at, optional)?.1;
                self.reading.optionals_skipped += 1;
                continue;
            };
            let shape = table.shape(of);
            if shape.optional() != optional {
                return start.refuse(12);
            }
            // The declared bytes first, then the value, which must use them up.
            let (value, end) = declared(part.bytes, part.at, optional)?;
            let value = if shape.has_own_size() { part.at } else { value };
            if table.value_of(shape, of, &part.bytes[..end], value, false)? != end {
                return part.refuse(11);
            }
            (self.give)(m, value, end - value);
            part.at = end;
        }
    }
}

/// The declared bytes of an optional, after a size or an int that is their length: where they begin and end.
#[inline(always)]
fn declared(bytes: &[u8], at: usize, optional: u8) -> Result<(usize, usize), Fault> {
    let mut part = Part { bytes, at, old: false };
    match optional {
        F1..=F8 => {
            part.item(1 << optional)?;
            Ok((at, part.at))
        }
        SIZE => {
            part.size()?;
            Ok((at, part.at))
        }
        VSIZE => {
            let length = part.sized()?.len();
            Ok((part.at - length, part.at))
        }
        _ => {
            let end = part.declared(1, 0)?;
            Ok((at + 4, end))
        }
    }
}

impl Part<'_> {
    /// A type ID: whether it is the name of this record. A name of the table is text.
    fn is_name(&mut self, table: &Table, record: usize) -> Result<bool, Fault> {
        let start = *self;
        let id = self.sized()?;
        if id == table.name(&table.row(record)) {
            return Ok(true);
        }
        start.text(id).map(|_| false)
    }

    /// A type ID: the record of this name, which is mostly the top.
    fn named(&mut self, table: &Table, top: usize) -> Result<Option<usize>, Fault> {
        let start = *self;
        let id = self.sized()?;
        if id == table.name(&table.row(top)) {
            return Ok(Some(top));
        }
        start.text(id).map(|id| table.record_named(id))
    }
}
