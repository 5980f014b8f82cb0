//! Setting and removing one optional of a message; the rest is passed on.

use crate::read::walk;
use crate::table::*;
use crate::value::Part;
use crate::{Refusal, MOST};

/// Writes the accepted message with this optional set to these bytes, as the reader lists them, and gives its length.
pub fn set(table: &[u8], top: u32, message: &[u8], member: u32, bytes: &[u8], out: &mut [u8]) -> Result<u32, Refusal> {
    change(table, top, message, member, Some(bytes), out)
}

/// Writes the accepted message without this optional, and gives its length.
pub fn remove(table: &[u8], top: u32, message: &[u8], member: u32, out: &mut [u8]) -> Result<u32, Refusal> {
    change(table, top, message, member, None, out)
}

/// Refusals: the reader's own without 19, 49 not an optional of the chain, 50 nothing to remove, 51 a compact record, 3
/// and 21 for the new bytes, then 22 at the bytes needed.
fn change(
    table: &[u8],
    top: u32,
    message: &[u8],
    member: u32,
    bytes: Option<&[u8]>,
    out: &mut [u8],
) -> Result<u32, Refusal> {
    Table::with(table, |table| changed(table, top, message, member as usize, bytes, out))
}

fn changed(
    table: &Table,
    top: u32,
    message: &[u8],
    wanted: usize,
    bytes: Option<&[u8]>,
    out: &mut [u8],
) -> Result<u32, Refusal> {
    let mut is_there = false;
    let reading = walk(table, top, message, |member, _, _| is_there |= member == wanted)?;
    // In encoding 1.0 no chain has an optional.
    let owner = table.chain(reading.first as usize).find(|&r| table.row(r).members().contains(&wanted));
    let Some(owner) = owner.filter(|_| !table.member(wanted).required()) else {
        return Err((49, 0));
    };
    if bytes.is_none() && !is_there {
        return Err((50, 0));
    }
    if reading.format == 0 {
        return Err((51, 0));
    }
    let of = table.member(wanted);
    let new = match bytes {
        None => None,
        Some(bytes) if bytes.len() > MOST => return Err((3, 0)),
        Some(bytes) => {
            let mut part = Part { bytes, at: 0, old: false };
            if table.value(of.of, &mut part).is_err() || part.left() != 0 {
                return Err((21, 0));
            }
            Some((Head::of(table, &of, bytes.len()), bytes))
        }
    };
    let held = Owner::find(table, owner, message, of.tag)?;
    held.put(message, new.as_ref().map(|(head, bytes)| [head.bytes(), bytes]), out)
}

/// What comes before the value of an optional: header byte, a tag from 30 on, and the length field.
struct Head {
    held: [u8; 11],
    length: usize,
}

impl Head {
    fn of(table: &Table, member: &MemberRow, length: usize) -> Head {
        let shape = table.shape(member.of);
        let optional = shape.optional();
        let mut head = Head { held: [0; 11], length: 0 };
        head.push(&[(member.tag.min(30) as u8) << 3 | optional]);
        if member.tag >= 30 {
            head.push_size(member.tag);
        }
        match optional {
            VSIZE if !shape.has_own_size() => head.push_size(length as u32),
            FSIZE => head.push(&(length as u32).to_le_bytes()),
            _ => (),
        }
        head
    }

    fn push(&mut self, bytes: &[u8]) {
        self.held[self.length..self.length + bytes.len()].copy_from_slice(bytes);
        self.length += bytes.len();
    }

    fn push_size(&mut self, size: u32) {
        if size < 255 {
            self.push(&[size as u8]);
        } else {
            self.push(&[255]);
            self.push(&size.to_le_bytes());
        }
    }

    fn bytes(&self) -> &[u8] {
        &self.held[..self.length]
    }
}

/// A slice in the message: the places of its flags and its size.
struct Slice {
    flags: usize,
    size: usize,
}

/// The owner of an optional in the message.
struct Owner {
    /// None for a parameter list.
    slice: Option<Slice>,
    /// The optional's bytes with its header, or where it would be: before the first greater tag.
    from: usize,
    to: usize,
    /// Whether the owner has other optionals, known or not.
    others: bool,
}

impl Owner {
    /// The place of a tag in the owner's optionals. The message was accepted, so nothing is refused.
    fn find(table: &Table, owner: usize, message: &[u8], tag: u32) -> Result<Owner, Refusal> {
        let row = table.row(owner);
        let mut part = Part { bytes: message, at: 6, old: false };
        let (mut slice, mut has_optionals) = (None, true);
        if row.is_record() {
            part.at += usize::from(row.kind == CLASS); // its marker
            loop {
                let flags = part.at;
                has_optionals = part.byte()? & 4 != 0;
                let id = part.string()?;
                let size = part.at;
                let end = part.declared(4, 4)?;
                if id == table.name(&row) {
                    part = part.upto(end);
                    slice = Some(Slice { flags, size });
                    break;
                }
                part.at = end;
            }
        }
        for member in row.members().map(|m| table.member(m)).filter(MemberRow::required) {
            table.value(member.of, &mut part)?;
        }
        let (mut from, mut to, mut others) = (None, None, false);
        while has_optionals && part.left() != 0 {
            let start = part.at;
            let Some(next) = optional(&mut part)? else {
                part.at = start; // the end marker
                break;
            };
            if next >= tag {
                from.get_or_insert(start);
            }
            if next == tag {
                to = Some(part.at);
            } else {
                others = true;
            }
        }
        let from = from.unwrap_or(part.at);
        Ok(Owner { slice, from, to: to.unwrap_or(from), others })
    }

    /// Puts the message with the optional's bytes exchanged: flags, end marker and both sizes follow from that.
    fn put(&self, message: &[u8], new: Option<[&[u8]; 2]>, out: &mut [u8]) -> Result<u32, Refusal> {
        let [head, value] = new.unwrap_or_default();
        let had_optionals = self.others || self.from != self.to;
        let has_optionals = self.others || new.is_some();
        // The end marker comes right after the only optional.
        let is_slice = self.slice.is_some();
        let added: &[u8] = if is_slice && has_optionals && !had_optionals { &[255] } else { &[] };
        let after = self.to + usize::from(is_slice && had_optionals && !has_optionals);

        let parts = [&message[..self.from], head, value, added, &message[after..]];
        let length: usize = parts.iter().map(|part| part.len()).sum();
        if length > MOST || length > out.len() {
            return Err((22, length as u32));
        }
        let mut at = 0;
        for part in parts {
            out[at..at + part.len()].copy_from_slice(part);
            at += part.len();
        }
        let mut resize = |place: usize| {
            let old = u32::from_le_bytes([message[place], message[place + 1], message[place + 2], message[place + 3]]);
            let size = old as usize + length - message.len();
            out[place..place + 4].copy_from_slice(&(size as u32).to_le_bytes());
        };
        resize(0);
        if let Some(Slice { flags, size }) = self.slice {
            resize(size);
            out[flags] = message[flags] & !4 | u8::from(has_optionals) << 2;
        }
        Ok(length as u32)
    }
}

/// Passes over an optional and gives its tag; none for the end marker.
fn optional(part: &mut Part) -> Result<Option<u32>, Refusal> {
    let header = part.byte()?;
    let tag = match header >> 3 {
        31 => return Ok(None),
        30 => part.size()? as u32,
        tag => tag.into(),
    };
    match header & 7 {
        VSIZE => drop(part.sized()?),
        SIZE => drop(part.size()?),
        FSIZE => part.at = part.declared(1, 0)?,
        fixed => part.item(1 << fixed)?,
    }
    Ok(Some(tag))
}
