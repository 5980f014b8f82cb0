//! Which strings are text: the reader against the standard library of Rust. With the feature `library` the proved library
//! reads; without it this implementation does, which asks the standard library itself.

use independent::spec::Spec;
use independent::Refusal;

/// The refusal of a message; zeros where it is accepted.
#[cfg(feature = "library")]
fn refusal(table: &[u8], top: u32, message: &[u8]) -> Refusal {
    use independent::ffi;
    match ffi::read(table, top, message, &mut [0; 12]) {
        0 => (0, 0),
        number => (number, ffi::read_place(table, top, message, 12)),
    }
}

#[cfg(not(feature = "library"))]
fn refusal(table: &[u8], top: u32, message: &[u8]) -> Refusal {
    independent::read(table, top, message, &mut [0; 12]).err().unwrap_or_default()
}

/// The longest message.
const MOST: usize = 65_536;
/// Where the strings of a list begin: after the encapsulation's head and the count.
const STRINGS: usize = 11;

/// Judges strings: one that is no text by itself; texts by the thousand, as elements of one sequence in one message.
struct Judge {
    table: Vec<u8>,
    text: u32,
    texts: u32,
    /// A message of strings that are to be accepted.
    message: Vec<u8>,
    count: u32,
    /// How many strings were judged, and how many of them are text.
    judged: usize,
    accepted: usize,
}

impl Judge {
    fn new() -> Judge {
        let mut spec = Spec::default();
        let string = spec.basic(7);
        let strings = spec.row(10, [string, 0, 0, 0, 0]);
        let text = spec.owner(15, &[(string, None)]).into();
        let texts = spec.owner(15, &[(strings, None)]).into();
        let message = Vec::with_capacity(MOST);
        Judge { table: spec.bytes(), text, texts, message, count: 0, judged: 0, accepted: 0 }
    }

    /// A string of less than 255 bytes is to be judged as the standard library does.
    fn judge(&mut self, string: &[u8]) {
        self.judged += 1;
        if core::str::from_utf8(string).is_ok() {
            return self.accept(string);
        }
        let mut message = [0; 6 + 255];
        let length = 7 + string.len();
        message[0] = length as u8;
        message[1] = (length >> 8) as u8;
        message[4..7].copy_from_slice(&[1, 1, string.len() as u8]);
        message[7..length].copy_from_slice(string);
        assert_eq!(refusal(&self.table, self.text, &message[..length]), (24, 6), "{string:02X?}");
    }

    fn accept(&mut self, string: &[u8]) {
        self.accepted += 1;
        if self.message.len() + 1 + string.len() > MOST {
            self.finish();
        }
        if self.message.is_empty() {
            self.message.resize(STRINGS, 0);
        }
        self.message.push(string.len() as u8);
        self.message.extend(string);
        self.count += 1;
    }

    /// Reads the texts that are left.
    fn finish(&mut self) {
        if self.count == 0 {
            return;
        }
        // The count in the long form; a few empty strings if it is below 255.
        while self.count < 255 {
            self.message.push(0);
            self.count += 1;
        }
        let length = self.message.len() as u32;
        self.message[..4].copy_from_slice(&length.to_le_bytes());
        self.message[4..7].copy_from_slice(&[1, 1, 255]);
        self.message[7..STRINGS].copy_from_slice(&self.count.to_le_bytes());
        let (number, place) = refusal(&self.table, self.texts, &self.message);
        let refused = &self.message[place as usize..self.message.len().min(place as usize + 8)];
        assert_eq!((number, place), (0, 0), "{refused:02X?}");
        self.message.clear();
        self.count = 0;
    }

    /// How many strings were judged, and how many of them are text.
    fn counts(mut self) -> (usize, usize) {
        self.finish();
        (self.judged, self.accepted)
    }
}

fn scalar_values() -> impl Iterator<Item = char> {
    '\0'..=char::MAX
}

#[test]
fn every_scalar_value_is_text() {
    let mut judge = Judge::new();
    scalar_values().for_each(|c| judge.judge(c.encode_utf8(&mut [0; 4]).as_bytes()));
    assert_eq!(judge.counts(), (1_112_064, 1_112_064));
}

/// All of them in a row, in strings as long as a message can hold.
#[test]
fn long_strings_of_all_scalar_values() {
    let judge = Judge::new();
    let mut text = String::with_capacity(MOST);
    let read = |text: &str| {
        let head = [&(11 + text.len() as u32).to_le_bytes()[..], &[1, 1, 255], &(text.len() as u32).to_le_bytes()];
        refusal(&judge.table, judge.text, &[&head.concat(), text.as_bytes()].concat())
    };
    for c in scalar_values() {
        if text.len() + c.len_utf8() > MOST - STRINGS {
            assert_eq!(read(&text), (0, 0));
            text.clear();
        }
        text.push(c);
    }
    assert_eq!(read(&text), (0, 0));
}

/// A sample of the scalar values: every 499th, and those at the bounds of their forms. Each byte of its encoding is changed
/// to every other one, and left out, with ASCII of several lengths before and after.
#[test]
fn every_change_of_a_byte() {
    let bounds = [0x7F, 0x80, 0x7FF, 0x800, 0xFFF, 0x1000, 0xCFFF, 0xD000, 0xD7FF, 0xE000, 0xFFFF, 0x1_0000];
    let bounds = bounds.into_iter().chain([0x3_FFFF, 0x4_0000, 0xF_FFFF, 0x10_0000, 0x10_FFFF]);
    let mut judge = Judge::new();
    for (number, c) in scalar_values().step_by(499).chain(bounds.filter_map(char::from_u32)).enumerate() {
        let (before, after) = (number % 17, number / 17 % 17);
        let mut string = vec![b'a'; before];
        string.extend(c.encode_utf8(&mut [0; 4]).as_bytes());
        let encoded = before..string.len();
        string.resize(string.len() + after, b'z');
        for at in encoded {
            for other in (0..=255).filter(|&other| other != string[at]) {
                let mut changed = string.clone();
                changed[at] = other;
                judge.judge(&changed);
            }
            let mut shorter = string.clone();
            shorter.remove(at);
            judge.judge(&shorter);
        }
    }
    assert_eq!(judge.counts(), (2_261_760, 410_588));
}

/// All strings of one and two bytes, and those of three and four bytes whose third and fourth are at a bound of a range.
#[test]
fn short_strings() {
    let mut judge = Judge::new();
    judge.judge(&[]);
    let bounds = [0x41, 0x7F, 0x80, 0xBF, 0xC0, 0xFF];
    for first in 0..=255 {
        judge.judge(&[first]);
        for second in 0..=255 {
            judge.judge(&[first, second]);
            for third in bounds {
                judge.judge(&[first, second, third]);
                bounds.iter().for_each(|&fourth| judge.judge(&[first, second, third, fourth]));
            }
        }
    }
    assert_eq!(judge.counts(), (2_818_305, 165_761));
}
