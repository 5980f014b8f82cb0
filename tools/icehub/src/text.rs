//! A string that is no text: its first bad byte, and what is wrong there.
//!
//! The library has refused the string; this module only says why, for a person.

use crate::words;

/// What is wrong with bytes that are not well-formed UTF-8.
#[derive(Debug, PartialEq)]
pub struct Fault<'a> {
    /// The text before the first bad byte.
    pub before: &'a str,
    /// The place of the first bad byte.
    pub place: usize,
    /// What is wrong there.
    pub wrong: String,
}

/// The place and the bytes of the string whose size is at a place of a message.
pub fn at(message: &[u8], place: usize) -> Option<(usize, &[u8])> {
    let (length, start) = match *message.get(place)? {
        255 => (i32::from_le_bytes(message.get(place + 1..place + 5)?.try_into().ok()?).try_into().ok()?, place + 5),
        length => (usize::from(length), place + 1),
    };
    Some((start, message.get(start..)?.get(..length)?))
}

/// What is wrong with bytes from a place on; none if they are text.
pub fn fault(bytes: &[u8], start: usize) -> Option<Fault<'_>> {
    let good = std::str::from_utf8(bytes).err()?.valid_up_to();
    let (before, bad) = bytes.split_at(good);
    let before = std::str::from_utf8(before).unwrap_or_default();
    Some(Fault { before, place: start + good, wrong: wrong(bad, start + good) })
}

/// What is wrong with bytes that begin with no character, from a place on.
fn wrong(bytes: &[u8], place: usize) -> String {
    let first = bytes.first().copied().unwrap_or_default();
    let overlong = |below: &str, most: &str| format!("an overlong form: a character below {below} has {most}");
    let begins = match (first, bytes.get(1).copied().unwrap_or_default()) {
        (0x80..=0xBF, _) => return format!("{first:02X} continues a character, and none has begun"),
        (0xF8.., _) => return format!("{first:02X} is no byte of UTF-8"),
        (0xC0 | 0xC1, _) => overlong("U+0080", "one byte"),
        (0xE0, 0x80..=0x9F) => overlong("U+0800", "at most two bytes"),
        (0xF0, 0x80..=0x8F) => overlong("U+10000", "at most three bytes"),
        (0xED, 0xA0..=0xBF) => "a surrogate, U+D800 to U+DFFF, which is no character".to_string(),
        (0xF4, 0x90..=0xBF) | (0xF5..=0xF7, _) => "a character above U+10FFFF".to_string(),
        _ => {
            let width = if first < 0xE0 { 2 } else { 3 + usize::from(first >= 0xF0) };
            let there = 1 + bytes[1..].iter().take_while(|&&byte| matches!(byte, 0x80..=0xBF)).count();
            match bytes.get(there) {
                Some(next) => format!(
                    "a character of {width} bytes, and the byte at {}, {next:02X}, does not continue it",
                    place + there
                ),
                None => format!(
                    "a character of {width} bytes, and {there} of them {} there",
                    if there == 1 { "is" } else { "are" }
                ),
            }
        }
    };
    let second = if matches!(first, 0xE0 | 0xED | 0xF0 | 0xF4) && !begins.starts_with("a character of") {
        format!(" {:02X}", bytes[1])
    } else {
        String::new()
    };
    format!("{first:02X}{second} begins {begins}")
}

/// So many characters are shown on each side of a bad byte.
const SHOWN: usize = 30;

/// The end of a text, in quotes.
pub fn end(text: &str) -> String {
    let skipped = text.chars().count().saturating_sub(SHOWN);
    let shown: String = text.chars().skip(skipped).collect();
    format!("{}{}", if skipped > 0 { ".." } else { "" }, words::quoted(&shown))
}

/// What is around the first bad byte if the string was written in Latin-1, each byte a character, as it may well be if all
/// before that byte is ASCII and no byte of the string is a control character of Latin-1.
pub fn latin(bytes: &[u8], fault: &Fault) -> Option<String> {
    if !fault.before.is_ascii() || bytes.iter().any(|byte| matches!(byte, 0x80..=0x9F)) {
        return None;
    }
    let bad = fault.before.len();
    let (from, to) = (bad.saturating_sub(SHOWN), bytes.len().min(bad + SHOWN));
    let shown: String = bytes[from..to].iter().map(|&byte| char::from(byte)).collect();
    let dots = |is_cut: bool| if is_cut { ".." } else { "" };
    Some(format!("{}{}{}", dots(from > 0), words::quoted(&shown), dots(to < bytes.len())))
}

#[cfg(test)]
mod tests {
    use super::*;

    #[test]
    fn faults() {
        for (bytes, place, wrong) in [
            (&b"a\x80"[..], 11, "80 continues a character, and none has begun"),
            (b"\xC3\xA9\xBF", 12, "BF continues a character, and none has begun"),
            (b"\xC0\x80", 10, "C0 begins an overlong form: a character below U+0080 has one byte"),
            (b"\xC1\xBF", 10, "C1 begins an overlong form: a character below U+0080 has one byte"),
            (b"\xE0\x9F\xBF", 10, "E0 9F begins an overlong form: a character below U+0800 has at most two bytes"),
            (
                b"\xF0\x8F\xBF\xBF",
                10,
                "F0 8F begins an overlong form: a character below U+10000 has at most three bytes",
            ),
            (b"ab\xED\xA0\x80", 12, "ED A0 begins a surrogate, U+D800 to U+DFFF, which is no character"),
            (b"\xF4\x90\x80\x80", 10, "F4 90 begins a character above U+10FFFF"),
            (b"\xF5\x80\x80\x80", 10, "F5 begins a character above U+10FFFF"),
            (b"Bj\xF8rn", 12, "F8 is no byte of UTF-8"),
            (b"\xFF", 10, "FF is no byte of UTF-8"),
            (b"\xE2\x82", 10, "E2 begins a character of 3 bytes, and 2 of them are there"),
            (b"\xF0", 10, "F0 begins a character of 4 bytes, and 1 of them is there"),
            (b"H\xE6tta", 11, "E6 begins a character of 3 bytes, and the byte at 12, 74, does not continue it"),
            (b"\xC3A", 10, "C3 begins a character of 2 bytes, and the byte at 11, 41, does not continue it"),
            (b"\xF0\x9F\x98A", 10, "F0 begins a character of 4 bytes, and the byte at 13, 41, does not continue it"),
            (b"\xE0A", 10, "E0 begins a character of 3 bytes, and the byte at 11, 41, does not continue it"),
        ] {
            let fault = fault(bytes, 10).unwrap();
            assert_eq!((fault.place, &fault.wrong[..]), (place, wrong), "{bytes:02X?}");
        }
        assert_eq!((fault(b"", 0), fault("h\u{F8}".as_bytes(), 0)), (None, None));
    }

    /// Every string of up to three bytes that the standard library refuses has words, and no other has.
    #[test]
    fn short_strings() {
        for number in 0..1 << 16 {
            for third in [0x41, 0x80, 0xBF, 0xC3] {
                let bytes = [(number >> 8) as u8, number as u8, third];
                for length in 1..=3 {
                    let text = std::str::from_utf8(&bytes[..length]);
                    assert_eq!(fault(&bytes[..length], 0).is_none(), text.is_ok(), "{bytes:02X?}");
                }
            }
        }
    }

    #[test]
    fn places() {
        assert_eq!(at(b"\x00\x03abc", 1), Some((2, &b"abc"[..])));
        assert_eq!(at(b"\xFF\x02\0\0\0ab", 0), Some((5, &b"ab"[..])));
        assert_eq!(
            (at(b"\x03ab", 0), at(b"\xFF\xFF\xFF\xFF\xFF", 0), at(b"\xFF\x01", 0), at(b"", 0)),
            (None, None, None, None)
        );
    }

    #[test]
    fn shown() {
        let latin_of = |bytes: &[u8]| latin(bytes, &fault(bytes, 0).unwrap());
        assert_eq!(latin_of(b"Bj\xF8rn"), Some("\"Bj\u{F8}rn\"".to_string()));
        assert_eq!((latin_of(b"\xC3\xA9 \xFF"), latin_of(b"\x93quoted\x94")), (None, None));
        let long = [&[b'a'; 40][..], b"\xF8", &[b'z'; 40]].concat();
        let (before, after) = ("a".repeat(30), "z".repeat(29));
        assert_eq!(latin_of(&long), Some(format!("..\"{before}\u{F8}{after}\"..")));
        assert_eq!((end("ab"), end(&"a".repeat(31))), ("\"ab\"".to_string(), format!("..\"{before}\"")));
    }
}
