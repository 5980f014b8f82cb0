//! The season sheet: what many messages say of one short or int member.

use crate::{ffi, Refusal};

/// The bytes of a season sheet.
pub const SHEET_SIZE: usize = 52;

/// What the messages of a season say of one member: how many carry it, lack it or are refused, its smallest and largest
/// value, the exact sum and the mean.
///
/// The default is the empty sheet. [`bytes`](Sheet::bytes) and [`from_bytes`](Sheet::from_bytes) keep it from one night to
/// the next.
#[derive(Clone, Copy, Debug, PartialEq, Eq)]
pub struct Sheet {
    bytes: [u8; SHEET_SIZE],
}

impl Default for Sheet {
    fn default() -> Sheet {
        Sheet { bytes: [0; SHEET_SIZE] }
    }
}

impl Sheet {
    /// The sheet in these bytes; the library judges them when messages are added.
    pub const fn from_bytes(bytes: [u8; SHEET_SIZE]) -> Sheet {
        Sheet { bytes }
    }

    /// Its bytes, as the library wrote them.
    pub const fn bytes(&self) -> &[u8; SHEET_SIZE] {
        &self.bytes
    }

    /// Adds what the messages of a buffer, back to back, say of a member row. On a refusal the sheet stays.
    ///
    /// What stops the walk over the buffer is a refused message. A buffer may be added in parts, each ending after a
    /// message.
    pub fn add(&mut self, table: &[u8], top: u32, buffer: &[u8], member: u32) -> Result<(), Refusal> {
        let place = ffi::sheet_place(table, top, buffer, member, &self.bytes);
        match ffi::sheet(table, top, buffer, member, &mut self.bytes) {
            0 => Ok(()),
            number => Err(Refusal { number, place }),
        }
    }

    /// How many messages carry the member.
    pub fn carriers(&self) -> u64 {
        self.long(0)
    }

    /// How many accepted messages lack it.
    pub fn lacking(&self) -> u64 {
        self.long(8)
    }

    /// How many messages were refused.
    pub fn refused(&self) -> u64 {
        self.long(16)
    }

    /// The exact sum of the values.
    pub fn sum(&self) -> i64 {
        self.long(24) as i64
    }

    /// The smallest value; none with no carriers.
    pub fn smallest(&self) -> Option<i32> {
        (self.bytes[48] == 1).then(|| self.int(32))
    }

    /// The largest value; none with no carriers.
    pub fn largest(&self) -> Option<i32> {
        (self.bytes[49] == 1).then(|| self.int(36))
    }

    /// The mean as whole part and remainder: the sum is the whole part times the carriers plus the remainder, which is
    /// below the number of carriers. None with no carriers.
    pub fn mean(&self) -> Option<(i32, u32)> {
        (self.bytes[50] == 1).then(|| (self.int(40), self.int(44) as u32))
    }

    fn long(&self, at: usize) -> u64 {
        u64::from_le_bytes(core::array::from_fn(|i| self.bytes[at + i]))
    }

    fn int(&self, at: usize) -> i32 {
        i32::from_le_bytes(core::array::from_fn(|i| self.bytes[at + i]))
    }
}
