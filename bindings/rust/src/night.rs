//! Many messages in one buffer.

use crate::{ffi, Format, Reading, Refusal, Table, ROW_SIZE};
use core::iter::FusedIterator;
use core::slice;

/// The bytes of one answer of a night.
pub const ANSWER_SIZE: usize = 28;

/// Reads the messages of a buffer, back to back, each as [`read`](crate::read()) does with the room that is left.
///
/// `answers` has room for an answer in each [`ANSWER_SIZE`] bytes, `rows` for a row in each [`ROW_SIZE`]. A refused message
/// takes no room, and the walk goes on after it. It stops where a size is under 6, above
/// [`MOST_BYTES`](crate::MOST_BYTES), cut off or past the buffer's end, and what stops it gets an answer too; and where
/// `answers` is full. Bytes after the answers and after the rows stay.
///
/// The library checks the table once, whatever the number of messages.
pub fn night<'a>(table: &'a [u8], top: u32, buffer: &'a [u8], answers: &'a mut [u8], rows: &'a mut [u8]) -> Night<'a> {
    let place = ffi::night_place(table, top, buffer, answers.len(), rows.len());
    let count = ffi::night(table, top, buffer, answers, rows);
    let (answers, _) = answers.as_chunks::<ANSWER_SIZE>();
    Night { place, table, buffer, answers: &answers[..count], rows }
}

/// What a walk over the messages of a buffer gives.
#[derive(Clone, Copy, Debug)]
pub struct Night<'a> {
    /// The place of what stopped the walk, or the buffer's length.
    pub place: usize,
    table: &'a [u8],
    buffer: &'a [u8],
    answers: &'a [[u8; ANSWER_SIZE]],
    rows: &'a [u8],
}

impl<'a> Night<'a> {
    /// The answers, in the order of their messages.
    pub fn answers(&self) -> Answers<'a> {
        Answers { night: *self, answers: self.answers.iter(), at: 0, rows: self.rows }
    }

    /// How many answers there are.
    pub fn count(&self) -> usize {
        self.answers.len()
    }

    /// The bytes from the place on: none where the whole buffer was read.
    pub fn rest(&self) -> &'a [u8] {
        &self.buffer[self.place..]
    }
}

/// An answer: of a message, or of the bytes that stopped the walk.
#[derive(Clone, Copy, Debug, PartialEq, Eq)]
pub struct Answer<'a> {
    /// The place of the first byte, in the buffer. A refusal's place counts from there.
    pub place: usize,
    /// The message; of what stopped the walk, all bytes that remain.
    pub message: &'a [u8],
    /// Whether the walk stopped here.
    pub stops: bool,
    /// What the reader says of it.
    pub reading: Result<Reading<'a>, Refusal>,
}

/// The answers of a night.
#[derive(Clone, Debug)]
pub struct Answers<'a> {
    night: Night<'a>,
    answers: slice::Iter<'a, [u8; ANSWER_SIZE]>,
    at: usize,
    rows: &'a [u8],
}

impl<'a> Iterator for Answers<'a> {
    type Item = Answer<'a>;

    fn next(&mut self) -> Option<Answer<'a>> {
        let answer = self.answers.next()?;
        let number =
            |i: usize| u32::from_le_bytes([answer[4 * i], answer[4 * i + 1], answer[4 * i + 2], answer[4 * i + 3]]);
        let Night { place: end, table, buffer, .. } = self.night;
        let (place, rest) = (self.at, &buffer[self.at..]);
        let stops = place == end;
        let size = rest.first_chunk().map_or(0, |size| u32::from_le_bytes(*size) as usize);
        let message = if stops { rest } else { &rest[..size] };
        self.at += if stops { 0 } else { size };
        let reading = match number(0) {
            0 => {
                let (list, rows) = self.rows.split_at(number(4) as usize * ROW_SIZE);
                self.rows = rows;
                Ok(Reading {
                    first_type: number(2),
                    format: if number(3) == 0 { Format::Compact } else { Format::Sliced },
                    optionals_skipped: number(5),
                    slices_skipped: number(6),
                    table: Table::accepted(table),
                    message,
                    list,
                })
            }
            refusal => Err(Refusal { number: refusal, place: number(1) }),
        };
        Some(Answer { place, message, stops, reading })
    }

    fn size_hint(&self) -> (usize, Option<usize>) {
        self.answers.size_hint()
    }
}

impl ExactSizeIterator for Answers<'_> {}
impl FusedIterator for Answers<'_> {}
