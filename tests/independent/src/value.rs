//! Values: a part of the message, read from front to back.

use crate::table::*;
use crate::Fault;

/// The highest bit of each byte: 0 in ASCII.
const HIGH: u64 = 0x8080_8080_8080_8080;

/// Whether bytes are well-formed UTF-8 as RFC 3629 has it. The standard library judges what is not ASCII.
#[inline]
pub(crate) fn is_text(bytes: &[u8]) -> bool {
    is_ascii(bytes) || core::str::from_utf8(bytes).is_ok()
}

/// Short strings are judged by a few numbers, which overlap; the standard library is faster on long ones.
#[inline]
fn is_ascii(bytes: &[u8]) -> bool {
    if bytes.len() > 128 {
        return bytes.is_ascii();
    }
    let long = |long: &[u8; 8]| u64::from_le_bytes(*long);
    let int = |int: &[u8; 4]| u64::from(u32::from_le_bytes(*int));
    let all = if let Some(last) = bytes.last_chunk() {
        bytes.as_chunks().0.iter().fold(long(last), |all, next| all | long(next))
    } else if let (Some(first), Some(last)) = (bytes.first_chunk(), bytes.last_chunk()) {
        int(first) | int(last)
    } else {
        bytes.iter().fold(0, |all, &byte| all | u64::from(byte))
    };
    all & HIGH == 0
}

/// What is left of something that holds items: the message up to the holder's end, the place reached in it, and whether
/// it is of encoding 1.0.
#[derive(Clone, Copy)]
pub(crate) struct Part<'m> {
    pub bytes: &'m [u8],
    pub at: usize,
    pub old: bool,
}

/// The int after the 255 at a place.
#[inline(never)]
fn long_size(bytes: &[u8], at: usize) -> Result<usize, Fault> {
    match bytes[at + 1..].first_chunk() {
        None => Err(Fault::new(4, at)),
        Some(&int) => match i32::from_le_bytes(int) {
            ..255 => Err(Fault::new(7, at)),
            int => Ok(int as usize),
        },
    }
}

/// The place after the string at a place. One of up to 7 bytes is judged together with its size, as one number.
#[inline(never)]
fn string_at(bytes: &[u8], at: usize) -> Result<usize, Fault> {
    if let Some(&long) = bytes[at..].first_chunk() {
        let long = u64::from_le_bytes(long);
        let size = long & 0xFF;
        if size < 8 && (long >> 8) & HIGH & ((1 << (8 * size)) - 1) == 0 {
            return Ok(at + 1 + size as usize);
        }
    }
    let mut part = Part { bytes, at, old: false };
    part.string()?;
    Ok(part.at)
}

impl<'m> Part<'m> {
    #[inline(always)]
    pub fn left(&self) -> usize {
        self.bytes.len() - self.at
    }

    /// The same place, held by what ends at `end`.
    #[inline]
    pub fn upto(&self, end: usize) -> Part<'m> {
        Part { bytes: &self.bytes[..end], ..*self }
    }

    #[inline]
    pub fn refuse<T, E: From<Fault>>(&self, number: u32) -> Result<T, E> {
        Err(Fault::new(number, self.at).into())
    }

    /// An item of so many bytes.
    #[inline(always)]
    pub fn item(&mut self, width: usize) -> Result<(), Fault> {
        if width > self.left() {
            return self.refuse(4);
        }
        self.at += width;
        Ok(())
    }

    #[inline(always)]
    pub fn byte(&mut self) -> Result<u8, Fault> {
        match self.bytes.get(self.at) {
            None => self.refuse(4),
            Some(&byte) => {
                self.at += 1;
                Ok(byte)
            }
        }
    }

    #[inline(always)]
    fn bool(&mut self) -> Result<(), Fault> {
        let start = *self;
        if self.byte()? > 1 {
            start.refuse(8)
        } else {
            Ok(())
        }
    }

    /// Up to so many plain values of one width: as many as there are whole ones; none of width 0.
    #[inline(always)]
    fn plain(&mut self, count: usize, width: usize) -> usize {
        let done = if count * width <= self.left() {
            if width == 0 {
                0
            } else {
                count
            }
        } else {
            self.left() / width
        };
        self.at += done * width;
        done
    }

    /// So many bools; the first that is none, or past the end, is refused.
    fn bools(&mut self, count: usize) -> Result<(), Fault> {
        let bools = &self.bytes[self.at..][..count.min(self.left())];
        if bools.iter().fold(0, |all, bool| all | bool) > 1 {
            self.at += bools.iter().take_while(|&&bool| bool <= 1).count();
            return self.refuse(8);
        }
        self.at += bools.len();
        if bools.len() < count {
            return self.refuse(4);
        }
        Ok(())
    }

    #[inline]
    fn int(&mut self) -> Result<i32, Fault> {
        match self.bytes[self.at..].first_chunk() {
            None => self.refuse(4),
            Some(&int) => {
                self.at += 4;
                Ok(i32::from_le_bytes(int))
            }
        }
    }

    /// An enumerator: a size; in encoding 1.0 a byte, short or int by the greatest.
    #[inline]
    fn enumerator(&mut self, greatest: usize) -> Result<usize, Fault> {
        if !self.old {
            return self.size();
        }
        let width = match greatest {
            0..=126 => 1,
            127..=32_766 => 2,
            _ => 4,
        };
        let mut number = [0; 8];
        let start = self.at;
        self.item(width)?;
        number[..width].copy_from_slice(&self.bytes[start..self.at]);
        Ok(usize::from_le_bytes(number))
    }

    /// A size: below 255 one byte; else 255 and an int.
    #[inline(always)]
    pub fn size(&mut self) -> Result<usize, Fault> {
        match self.byte()? {
            255 => {
                let size = long_size(self.bytes, self.at - 1)?;
                self.at += 4;
                Ok(size)
            }
            byte => Ok(byte as usize),
        }
    }

    /// A size and that many bytes, which must be text.
    #[inline(always)]
    pub fn string(&mut self) -> Result<&'m [u8], Fault> {
        let start = *self;
        let content = self.sized()?;
        start.text(content)
    }

    /// The content of a string that begins here, if it is text.
    #[inline]
    pub fn text(&self, content: &'m [u8]) -> Result<&'m [u8], Fault> {
        if is_text(content) {
            Ok(content)
        } else {
            self.refuse(24)
        }
    }

    /// A size and that many bytes, whatever they are.
    #[inline(always)]
    pub fn sized(&mut self) -> Result<&'m [u8], Fault> {
        let start = *self;
        let length = self.size()?;
        if length > self.left() {
            return start.refuse(4);
        }
        let content = &self.bytes[self.at..self.at + length];
        self.at += length;
        Ok(content)
    }

    /// A declared length as an int, of which `own` bytes are the int itself: where what it measures ends.
    #[inline]
    pub fn declared(&mut self, least: i32, own: usize) -> Result<usize, Fault> {
        let start = *self;
        let length = self.int()?;
        if length < least {
            return start.refuse(11);
        }
        let end = self.at + length as usize - own;
        if end > self.bytes.len() {
            start.refuse(4)
        } else {
            Ok(end)
        }
    }

    fn proxy(&mut self) -> Result<(), Fault> {
        self.proxy_with(|_, _| ())
    }

    /// A proxy; `seen` is given the place and the end of each endpoint.
    pub fn proxy_with(&mut self, mut seen: impl FnMut(usize, usize)) -> Result<(), Fault> {
        let identity = *self;
        let name = self.string()?;
        let category = self.string()?;
        if name.is_empty() {
            return if category.is_empty() { Ok(()) } else { identity.refuse(10) };
        }
        let facet = *self;
        match self.size()? {
            0 => (),
            1 => drop(self.string()?),
            _ => return facet.refuse(10),
        }
        let mode = *self;
        if self.byte()? > 4 {
            return mode.refuse(10);
        }
        self.bool()?;
        if !self.old {
            for _protocol_and_encoding in 0..4 {
                self.byte()?;
            }
        }
        let endpoints = self.size()?;
        if endpoints == 0 {
            self.string()?; // adapter
        }
        for _ in 0..endpoints {
            let place = self.at;
            self.item(2)?;
            self.at = self.declared(6, 4)?;
            seen(place, self.at);
        }
        Ok(())
    }
}

impl Table<'_> {
    /// A value is read by reading its parts; the type number falls at every descent. A plain value is passed by its length.
    #[inline]
    pub(crate) fn value(&self, r: usize, part: &mut Part) -> Result<(), Fault> {
        part.at = self.value_of(self.shape(r), r, part.bytes, part.at, part.old)?;
        Ok(())
    }

    /// The same of a type whose shape is known, at a place of what holds it; gives the place after it.
    #[inline(always)]
    pub(crate) fn value_of(&self, shape: Shape, r: usize, bytes: &[u8], at: usize, old: bool) -> Result<usize, Fault> {
        let width = shape.width();
        if width != 0 && width <= bytes.len() - at {
            Ok(at + width)
        } else {
            self.value_at(r, bytes, at, old)
        }
    }

    /// The same of a type that is not plain, or runs past what holds it. Places are passed in registers.
    pub(crate) fn value_at(&self, r: usize, bytes: &[u8], at: usize, old: bool) -> Result<usize, Fault> {
        match self.kind(r) {
            STRING => string_at(bytes, at),
            BOOL => {
                let mut part = Part { bytes, at, old };
                part.bool()?;
                Ok(part.at)
            }
            BYTE..=DOUBLE => Err(Fault::new(4, at)), // it would have been plain
            ENUM => self.enumerator_at(r, bytes, at, old),
            _ => self.parts_at(r, bytes, at, old),
        }
    }

    /// The same of a type with parts. The last member of a struct is read in its place, so that nested structs take no stack.
    #[inline(never)]
    fn parts_at(&self, r: usize, bytes: &[u8], at: usize, old: bool) -> Result<usize, Fault> {
        let mut part = Part { bytes, at, old };
        let mut row = self.row(r);
        while row.kind == STRUCT {
            let last = row.a + row.b - 1;
            for m in row.a..last {
                self.value(self.member(m).of, &mut part)?;
            }
            let of = self.member(last).of;
            if self.shape(of).width() != 0 || self.kind(of) < STRUCT {
                return self.value_of(self.shape(of), of, bytes, part.at, old);
            }
            row = self.row(of);
        }
        match row.kind {
            SEQUENCE => {
                let count = part.size()?;
                self.elements(row.a, count, &mut part)?;
            }
            DICTIONARY => {
                let count = part.size()?;
                self.pairs(row.a, row.b, count, &mut part)?;
            }
            _ => part.proxy()?,
        }
        Ok(part.at)
    }

    /// The same of an enum.
    #[inline(never)]
    fn enumerator_at(&self, r: usize, bytes: &[u8], at: usize, old: bool) -> Result<usize, Fault> {
        let mut part = Part { bytes, at, old };
        self.enumerators(&self.row(r), 1, &mut part)?;
        Ok(part.at)
    }

    /// So many enumerators of one type.
    #[inline(always)]
    fn enumerators(&self, row: &TypeRow, count: usize, part: &mut Part) -> Result<(), Fault> {
        let greatest = row.greatest();
        for _ in 0..count {
            let start = *part;
            let number = part.enumerator(greatest)?;
            if number > greatest || !self.lists(row, number) {
                return start.refuse(9);
            }
        }
        Ok(())
    }

    /// The elements of a sequence, plain ones together.
    #[inline(always)]
    fn elements(&self, r: usize, count: usize, part: &mut Part) -> Result<(), Fault> {
        let left = count - part.plain(count, self.shape(r).width());
        match self.kind(r) {
            _ if left == 0 => Ok(()),
            BOOL => part.bools(left),
            STRING => {
                for _ in 0..left {
                    part.at = string_at(part.bytes, part.at)?;
                }
                Ok(())
            }
            ENUM => self.enumerators(&self.row(r), left, part),
            _ => (0..left).try_for_each(|_| self.value(r, part)),
        }
    }

    /// The pairs of a dictionary, likewise.
    #[inline(always)]
    fn pairs(&self, key: usize, value: usize, count: usize, part: &mut Part) -> Result<(), Fault> {
        let (width, value_width) = (self.shape(key).width(), self.shape(value).width());
        let pair = if width == 0 || value_width == 0 { 0 } else { width + value_width };
        for _ in part.plain(count, pair)..count {
            self.value(key, part)?;
            self.value(value, part)?;
        }
        Ok(())
    }
}
