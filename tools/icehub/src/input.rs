//! What is read: files, standard input, and hex text.

use crate::words;
use std::ffi::OsString;
use std::fs::File;
use std::io::{self, Read};
use std::path::PathBuf;

/// Where bytes come from.
#[derive(Clone, Debug, PartialEq, Eq)]
pub enum Source {
    Standard,
    File(PathBuf),
}

impl Source {
    /// The source that a word of the command line names.
    pub fn new(word: OsString) -> Source {
        if word == "-" {
            Source::Standard
        } else {
            Source::File(word.into())
        }
    }

    /// Its name, fit to be shown.
    pub fn name(&self) -> String {
        match self {
            Source::Standard => "standard input".to_string(),
            Source::File(path) => words::plain(&path.to_string_lossy()),
        }
    }

    /// Its name as it is, in JSON.
    pub fn json_name(&self) -> String {
        match self {
            Source::Standard => words::quoted("-"),
            Source::File(path) => words::quoted(&path.to_string_lossy()),
        }
    }

    /// Its bytes. No more are read than one beyond `most`: that shows that there are too many.
    pub fn bytes(&self, most: usize) -> Result<Vec<u8>, String> {
        self.read(most as u64 + 1).map_err(|error| format!("cannot read {}: {error}", self.name()))
    }

    /// All its bytes.
    pub fn all_bytes(&self) -> Result<Vec<u8>, String> {
        self.read(u64::MAX).map_err(|error| format!("cannot read {}: {error}", self.name()))
    }

    /// The bytes of its hex text.
    pub fn hex_bytes(&self) -> Result<Vec<u8>, String> {
        let text = self.all_bytes()?;
        unhex(&text).map_err(|wrong| format!("{}: {wrong}", self.name()))
    }

    fn read(&self, most: u64) -> io::Result<Vec<u8>> {
        let mut bytes = vec![];
        match self {
            Source::Standard => io::stdin().lock().take(most).read_to_end(&mut bytes)?,
            Source::File(path) => File::open(path)?.take(most).read_to_end(&mut bytes)?,
        };
        Ok(bytes)
    }
}

/// The bytes of hex text: pairs of digits, with any white space between them.
pub fn unhex(text: &[u8]) -> Result<Vec<u8>, String> {
    let mut bytes = vec![];
    let mut half = None;
    for (line, words) in text.split(|&byte| byte == b'\n').enumerate() {
        for (column, &byte) in words.iter().enumerate() {
            let digit = char::from(byte).to_digit(16).map(|digit| digit as u8);
            half = match (half, digit) {
                (None, Some(digit)) => Some(digit),
                (Some(high), Some(low)) => {
                    bytes.push(high << 4 | low);
                    None
                }
                (None, None) if byte.is_ascii_whitespace() => None,
                (Some(_), None) if byte.is_ascii_whitespace() => {
                    return Err(format!("half a byte at line {}, column {}", line + 1, column));
                }
                _ => return Err(format!("no hex at line {}, column {}", line + 1, column + 1)),
            };
        }
        if half.is_some() {
            return Err(format!("half a byte at line {}, column {}", line + 1, words.len()));
        }
    }
    Ok(bytes)
}

#[cfg(test)]
mod tests {
    use super::unhex;

    #[test]
    fn hex() {
        assert_eq!(unhex(b""), Ok(vec![]));
        assert_eq!(unhex(b"0a fF\r\n\t00FE\n"), Ok(vec![0x0A, 0xFF, 0x00, 0xFE]));
        assert_eq!(unhex(b"0A 1"), Err("half a byte at line 1, column 4".to_string()));
        assert_eq!(unhex(b"0A\n1 0"), Err("half a byte at line 2, column 1".to_string()));
        assert_eq!(unhex(b"0A\n00 0x12"), Err("no hex at line 2, column 5".to_string()));
    }
}
