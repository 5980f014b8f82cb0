//! Text and strings that are no text.

use super::Rng;

/// What a string of a message is.
#[derive(Clone, Copy, Debug, PartialEq, Eq, PartialOrd, Ord)]
pub enum Text {
    /// A required member.
    Required,
    /// An optional member.
    Optional,
    /// A part of a struct, a sequence or a dictionary.
    Part,
    /// A key of a dictionary.
    Key,
    /// The name of an identity.
    Name,
    /// The category of an identity.
    Category,
    Facet,
    Adapter,
    /// The type ID of a slice that is skipped.
    UnknownId,
    /// The first type ID that the table knows.
    FirstId,
    /// The type ID of a base.
    LaterId,
}

impl Text {
    pub const ALL: [Text; 11] = [
        Text::Required,
        Text::Optional,
        Text::Part,
        Text::Key,
        Text::Name,
        Text::Category,
        Text::Facet,
        Text::Adapter,
        Text::UnknownId,
        Text::FirstId,
        Text::LaterId,
    ];

    /// A type ID.
    pub fn is_id(self) -> bool {
        matches!(self, Text::UnknownId | Text::FirstId | Text::LaterId)
    }
}

/// A string that was made: the place of its size, what it is, and whether it is text.
#[derive(Clone, Copy, Debug)]
pub struct Made {
    pub place: usize,
    pub what: Text,
    pub is_text: bool,
}

/// Bytes that are no text wherever they are in it.
const FAULTS: [&[u8]; 20] = [
    b"\xED\xA0\x80", // surrogates
    b"\xED\xAF\xBF",
    b"\xED\xB0\x80",
    b"\xED\xBF\xBF",
    b"\xC0\x80", // overlong forms
    b"\xC1\xBF",
    b"\xE0\x80\x80",
    b"\xE0\x9F\xBF",
    b"\xF0\x80\x80\x80",
    b"\xF0\x8F\xBF\xBF",
    b"\xF4\x90\x80\x80", // above 10FFFF
    b"\xF4\xBF\xBF\xBF",
    b"\xF5\x80\x80\x80",
    b"\xF7\xBF\xBF\xBF",
    b"\xF8\x88\x80\x80", // the start of a form of five bytes
    b"\xFE",
    b"\xFF",
    b"a\x80", // a byte that goes on with nothing
    b"a\xBF",
    b"\xDF\xBF\xBF",
];

/// The start of a character: no text at the end.
const CUTS: [&[u8]; 8] = [b"\xC2", b"\xDF", b"\xE0\xA0", b"\xE2", b"\xED\x9F", b"\xF0\x90\x80", b"\xF0", b"\xF4\x8F"];

impl Rng {
    /// Text of so many bytes: ASCII alone, or characters of all widths.
    pub(super) fn text(&mut self, length: usize) -> Vec<u8> {
        let one_in = self.pick(&[0, 0, 0, 1, 2, 10, 30]);
        let mut text = String::with_capacity(length);
        while text.len() < length {
            let is_wide = one_in != 0 && self.one_in(one_in);
            let width = if is_wide { 1 + self.below(4) } else { 1 };
            text.push(self.character(width.min(length - text.len())));
        }
        text.into_bytes()
    }

    /// A character of 1 to 4 bytes, mostly at some bound.
    fn character(&mut self, width: usize) -> char {
        let (first, last) = [(0, 0x7F), (0x80, 0x7FF), (0x800, 0xFFFF), (0x1_0000, 0x10_FFFF)][width - 1];
        let any = first + self.below(last - first + 1);
        let inner: &[usize] = match width {
            1 => &[0x20, 0x3A, 0x3A, 0x41, 0x42, 0x61, 0x62],
            2 => &[0xE9, 0xF8],
            3 => &[0xFFF, 0x1000, 0xD7FF, 0xE000, 0xFEFF, 0xFFFE],
            _ => &[0x1_F600, 0x3_FFFF, 0x4_0000, 0xF_FFFF, 0x10_0000],
        };
        let inner = self.pick(inner);
        let number = self.pick(&[first, last, any, inner, inner, inner]);
        char::from_u32(number as u32).unwrap_or('\u{FFFD}') // in place of a surrogate, and as wide
    }

    /// Puts a fault into text; one without room for it stays as it is.
    pub(super) fn spoil(&mut self, text: &mut [u8]) {
        let at_the_end = self.one_in(4);
        let faults: &[&[u8]] = if at_the_end { &CUTS } else { &FAULTS };
        let fitting: Vec<_> = faults.iter().filter(|fault| fault.len() <= text.len()).collect();
        if fitting.is_empty() {
            return;
        }
        let fault = self.pick(&fitting);
        let last = text.len() - fault.len();
        let at = if at_the_end { last } else { self.below(last + 1) };
        text[at..at + fault.len()].copy_from_slice(fault);
    }
}
