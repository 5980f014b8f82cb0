//! Text, bytes and types in words.

use icehub::{Kind, TypeRow};

/// Characters that change how a terminal shows what follows.
fn is_unsafe(c: char) -> bool {
    c.is_control() || matches!(c, '\u{2028}'..='\u{202E}' | '\u{2066}'..='\u{2069}')
}

/// Text with escapes as JSON has them, without quotes; characters that a terminal would act on are escaped too.
fn escape(text: &str, marks: &str) -> String {
    let mut escaped = String::with_capacity(text.len());
    for c in text.chars() {
        match c {
            _ if marks.contains(c) => {
                escaped.push('\\');
                escaped.push(c);
            }
            '\n' => escaped.push_str("\\n"),
            '\r' => escaped.push_str("\\r"),
            '\t' => escaped.push_str("\\t"),
            '\u{8}' => escaped.push_str("\\b"),
            '\u{C}' => escaped.push_str("\\f"),
            _ if is_unsafe(c) => escaped.push_str(&format!("\\u{:04x}", u32::from(c))),
            _ => escaped.push(c),
        }
    }
    escaped
}

/// Text in quotes, as JSON has it.
pub fn quoted(text: &str) -> String {
    format!("\"{}\"", escape(text, "\"\\"))
}

/// Text that is safe to show, without quotes.
pub fn plain(text: &str) -> String {
    escape(text, "")
}

/// Bytes of a name: as text without quotes if they are UTF-8, else in hex.
pub fn bare(bytes: &[u8]) -> String {
    match std::str::from_utf8(bytes) {
        Ok(text) => plain(text),
        Err(_) => format!("bytes {}", hex(bytes)),
    }
}

/// Bytes that may be no text: in quotes if they are UTF-8, else in hex.
pub fn string(bytes: &[u8]) -> String {
    match std::str::from_utf8(bytes) {
        Ok(text) => quoted(text),
        Err(_) => format!("bytes {}", hex(bytes)),
    }
}

/// Bytes in hex, a space between two.
pub fn hex(bytes: &[u8]) -> String {
    let pairs: Vec<_> = bytes.iter().map(|byte| format!("{byte:02X}")).collect();
    pairs.join(" ")
}

/// A float or double in the shortest form that gives the same number again.
macro_rules! shortest {
    ($($name:ident: $number:ty;)*) => {
        $(pub fn $name(number: $number) -> String {
            if number.is_nan() {
                "NaN".to_string()
            } else if number.is_infinite() {
                if number > 0.0 { "Infinity".to_string() } else { "-Infinity".to_string() }
            } else {
                format!("{number:?}")
            }
        })*
    };
}

shortest! {
    float: f32;
    double: f64;
}

/// A count of a thing, in the singular or the plural.
pub fn count(number: usize, one: &str, more: &str) -> String {
    format!("{number} {}", if number == 1 { one } else { more })
}

/// Rising numbers: three or more that follow each other by the first and the last.
pub fn runs(numbers: impl IntoIterator<Item = u32>) -> Vec<String> {
    let mut runs: Vec<(u32, u32)> = vec![];
    for number in numbers {
        match runs.last_mut() {
            Some((_, last)) if last.checked_add(1) == Some(number) => *last = number,
            _ => runs.push((number, number)),
        }
    }
    let shown = runs.into_iter().flat_map(|(first, last)| match last - first {
        0 => vec![first.to_string()],
        1 => vec![first.to_string(), last.to_string()],
        _ => vec![format!("{first} to {last}")],
    });
    shown.collect()
}

/// A type in a few words: its kind, with the parts of a container and the name of a record.
pub fn type_words(of: TypeRow) -> String {
    nested(of, 3)
}

/// Parts are named to this depth: deeper ones by their row, for a type may have more parts than can be listed.
fn nested(of: TypeRow, depth: usize) -> String {
    let kind = of.kind().name();
    match (of.kind(), of.element(), of.key(), of.value()) {
        (Kind::Sequence, Some(element), _, _) if depth > 0 => format!("{kind} of {}", nested(element, depth - 1)),
        (Kind::Dictionary, _, Some(key), Some(value)) if depth > 0 => {
            format!("{kind} of {} to {}", nested(key, depth - 1), nested(value, depth - 1))
        }
        (Kind::Struct | Kind::Sequence | Kind::Dictionary, ..) => format!("{kind} {}", of.number()),
        (Kind::Exception | Kind::Class, ..) => format!("{kind} {}", quoted(of.name().unwrap_or_default())),
        _ => kind.to_string(),
    }
}

#[cfg(test)]
mod tests {
    use super::*;

    #[test]
    fn strings() {
        assert_eq!(quoted("a\"b\\c/"), r#""a\"b\\c/""#);
        assert_eq!(quoted("\u{8}\u{C}\n\r\t\0\u{1B}\u{7F}"), r#""\b\f\n\r\t\u0000\u001b\u007f""#);
        assert_eq!(quoted("ø \u{9B}\u{202E}"), r#""ø \u009b\u202e""#);
        assert_eq!(plain("a\"\u{1B}[2J"), r#"a"\u001b[2J"#);
        assert_eq!((string(b"hub"), string(b"\xC3")), ("\"hub\"".to_string(), "bytes C3".to_string()));
    }

    #[test]
    fn numbers() {
        assert_eq!(runs([1, 3, 4]), ["1", "3", "4"]);
        assert_eq!(runs([0, 1, 2, 7, 8, 9, 10, 255]), ["0 to 2", "7 to 10", "255"]);
        assert_eq!(runs([u32::MAX, 0, 0]), ["4294967295", "0", "0"]);
        assert!(runs([]).is_empty());
    }

    #[test]
    fn floats() {
        assert_eq!([float(-21.3), float(0.1), float(1e20), float(-0.0)], ["-21.3", "0.1", "1e20", "-0.0"]);
        assert_eq!([double(1013.25), double(1e300), double(5e-324)], ["1013.25", "1e300", "5e-324"]);
        assert_eq!([float(f32::NAN), double(f64::INFINITY), double(-f64::INFINITY)], ["NaN", "Infinity", "-Infinity"]);
    }
}
