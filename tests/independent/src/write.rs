//! The writer.

use crate::table::*;
use crate::{Fault, Refusal, MOST};

/// Writes the message of these rows (member row, place, length), whose parts lie in the buffer, and gives its length.
pub fn write(
    table: &[u8],
    of: u32,
    format: u32,
    count: u32,
    rows: &[u8],
    buffer: &[u8],
    out: &mut [u8],
) -> Result<u32, Refusal> {
    Table::with(table, |table| {
        let of = table.wanted(of)?;
        let old = match format {
            1 => false,
            2 if table.kind(of) != CLASS => true,
            _ => return Err((23, 0)),
        };
        if old && table.has_optionals(of) {
            return Err((26, 0));
        }
        if buffer.len() > MOST {
            return Err((3, 0));
        }
        let Some(rows) = rows.as_chunks().0.get(..count as usize) else {
            return Err((20, count));
        };
        let writer = Writer { table, of, old, rows, buffer };
        let length = writer.length()?;
        if length > MOST || length > out.len() {
            return Err((22, length as u32));
        }
        writer.put(&mut out[..length]);
        Ok(length as u32)
    })
}

struct Writer<'w> {
    table: &'w Table<'w>,
    of: usize,
    /// In encoding 1.0.
    old: bool,
    rows: &'w [[u8; 12]],
    buffer: &'w [u8],
}

impl Writer<'_> {
    /// Judges the rows: slices in chain order, in each its required members as declared, then any of its optionals by
    /// rising tag. Gives the length of their message.
    fn length(&self) -> Result<usize, Fault> {
        let table = self.table;
        let mut length = 6 + self.marker().len();
        let mut next = 0;
        for r in table.chain(self.of) {
            let owner = table.row(r);
            length += self.frame(&owner);
            let (first, members) = table.required(r);
            for (i, member) in members.iter().enumerate() {
                if let Some((of, shape)) = table.required_type(member) {
                    let Some(row) = self.rows.get(next).filter(|row| number(row, 0) == first + i) else {
                        return Err(Fault::new(20, next));
                    };
                    length += self.part(row, next, of, shape)?;
                    next += 1;
                }
            }
            let mut above = 0; // tags from here on are rising
            while let Some(row) = self.rows.get(next).filter(|row| owner.members().contains(&number(row, 0))) {
                let member = table.member(number(row, 0));
                if member.required() || member.tag < above {
                    return Err(Fault::new(20, next));
                }
                let shape = table.shape(member.of);
                let part = self.part(row, next, member.of, shape)?;
                length += 1 + if member.tag < 30 { 0 } else { size_length(member.tag as usize) };
                length += part + length_field(shape, part);
                above = member.tag + 1;
                next += 1;
            }
            if above != 0 && owner.kind != LIST {
                length += 1;
            }
        }
        if next < self.rows.len() {
            Err(Fault::new(20, next))
        } else {
            Ok(length)
        }
    }

    /// The length of a row's bytes: refusal 20 outside the buffer, 21 if they aren't exactly that type's.
    #[inline(always)]
    fn part(&self, row: &[u8; 12], next: usize, of: usize, shape: Shape) -> Result<usize, Fault> {
        let (place, length) = (number(row, 4), number(row, 8));
        let Some(bytes) = self.buffer.get(..place + length) else {
            return Err(Fault::new(20, next));
        };
        match self.table.value_of(shape, of, bytes, place, self.old) {
            Ok(end) if end == bytes.len() => Ok(length),
            _ => Err(Fault::new(21, next)),
        }
    }

    /// Writes what `length` has judged.
    fn put(&self, out: &mut [u8]) {
        let table = self.table;
        let length = out.len() as u32;
        let mut out = Output { bytes: out, at: 0 };
        out.put(&length.to_le_bytes());
        out.put(&[1, !self.old as u8]);
        out.put(self.marker());
        let mut rows = self.rows.iter().peekable();
        for r in table.chain(self.of) {
            let owner = table.row(r);
            let members = owner.members();
            let flags = out.at;
            let mut size = None;
            if owner.kind != LIST {
                if !self.old {
                    out.put(&[1 | 1 << 4 | (owner.base().is_none() as u8) << 5]);
                }
                let name = table.name(&owner);
                out.size(name.len());
                out.put(name);
                size = Some(out.at);
                out.put(&[0; 4]);
            }
            // Required members; those that follow each other in the buffer are copied together.
            let (mut from, mut to) = (0, 0);
            let required = |m: usize| members.contains(&m) && table.member(m).required();
            while let Some(row) = rows.next_if(|row| required(number(row, 0))) {
                let (place, length) = (number(row, 4), number(row, 8));
                if place != to {
                    out.put(&self.buffer[from..to]);
                    from = place;
                }
                to = place + length;
            }
            out.put(&self.buffer[from..to]);
            let mut has_optionals = false;
            while let Some(row) = rows.next_if(|row| members.contains(&number(row, 0))) {
                let (place, length) = (number(row, 4), number(row, 8));
                self.optional_header(&table.member(number(row, 0)), length, &mut out);
                out.put(&self.buffer[place..place + length]);
                has_optionals = true;
            }
            if let Some(size) = size {
                if has_optionals {
                    out.put(&[255]);
                    out.bytes[flags] |= 4;
                }
                let length = (out.at - size) as u32;
                out.bytes[size..size + 4].copy_from_slice(&length.to_le_bytes());
            }
        }
    }

    /// Header byte, a tag from 30 on, and the length field.
    #[inline(always)]
    fn optional_header(&self, member: &MemberRow, length: usize, out: &mut Output) {
        let shape = self.table.shape(member.of);
        out.put(&[shape.optional() | (member.tag.min(30) as u8) << 3]);
        if member.tag >= 30 {
            out.size(member.tag as usize);
        }
        match shape.optional() {
            VSIZE if !shape.has_own_size() => out.size(length),
            FSIZE => out.put(&(length as u32).to_le_bytes()),
            _ => (),
        }
    }

    /// A class instance begins with marker byte 1, an exception of encoding 1.0 with header byte 0.
    fn marker(&self) -> &'static [u8] {
        match self.table.kind(self.of) {
            CLASS => &[1],
            EXCEPTION if self.old => &[0],
            _ => &[],
        }
    }

    /// The bytes of a slice's flags, type ID and size; encoding 1.0 has no flags.
    fn frame(&self, owner: &TypeRow) -> usize {
        if owner.kind == LIST {
            return 0;
        }
        let name = self.table.name(owner).len();
        !self.old as usize + size_length(name) + name + 4
    }
}

/// The length of an optional's length field.
#[inline]
fn length_field(shape: Shape, length: usize) -> usize {
    match shape.optional() {
        VSIZE if !shape.has_own_size() => size_length(length),
        FSIZE => 4,
        _ => 0,
    }
}

/// One of the three numbers of a row.
#[inline]
fn number(row: &[u8; 12], at: usize) -> usize {
    u32::from_le_bytes([row[at], row[at + 1], row[at + 2], row[at + 3]]) as usize
}

fn size_length(size: usize) -> usize {
    if size < 255 {
        1
    } else {
        5
    }
}

struct Output<'o> {
    bytes: &'o mut [u8],
    at: usize,
}

impl Output<'_> {
    /// Short parts of the usual lengths are copied by one number each.
    #[inline(always)]
    fn put(&mut self, part: &[u8]) {
        let out = &mut self.bytes[self.at..self.at + part.len()];
        match part.len() {
            1 => out[0] = part[0],
            2 => out.copy_from_slice(&part[..2]),
            4 => out.copy_from_slice(&part[..4]),
            8 => out.copy_from_slice(&part[..8]),
            _ => out.copy_from_slice(part),
        }
        self.at += part.len();
    }

    fn size(&mut self, size: usize) {
        if size < 255 {
            self.put(&[size as u8]);
        } else {
            self.put(&[255]);
            self.put(&(size as u32).to_le_bytes());
        }
    }
}
