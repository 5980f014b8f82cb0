//! The command `convert`: the sliced form of each compact record, in a file of the same name in another folder.

use crate::input::Source;
use crate::show::top_row;
use crate::{refused, tell, words, Status};
use icehub::{Refusal, MOST_BYTES};
use std::collections::BTreeMap;
use std::fs::{self, File};
use std::io::{self, Write};
use std::path::{Path, PathBuf};

/// What is to be converted, and where to.
#[derive(Debug, PartialEq)]
pub struct Request {
    pub hex: bool,
    pub overwrite: bool,
    pub table: Source,
    /// A row number or a record's name.
    pub top: String,
    pub files: Vec<Source>,
    pub to: PathBuf,
}

pub fn run(request: &Request, out: &mut impl Write, status: &mut Status) -> io::Result<()> {
    let found = request.table.bytes(MOST_BYTES).and_then(|table| Ok((top_row(&request.top, &table)?, table)));
    let made = found.and_then(|found| match fs::create_dir_all(&request.to) {
        Ok(()) => Ok(found),
        Err(error) => Err(format!("cannot make the folder {}: {error}", shown(&request.to))),
    });
    let (top, table) = match made {
        Ok(made) => made,
        Err(wrong) => {
            tell(&wrong);
            status.raise(Status::Failed);
            return Ok(());
        }
    };
    let mut tally = Tally::default();
    for file in &request.files {
        match convert(request, file, &table, top) {
            Ok(Ok(length)) => {
                tally.converted += 1;
                writeln!(out, "{}: converted, {}", file.name(), words::count(length, "byte", "bytes"))?;
            }
            Ok(Err(refusal)) => {
                *tally.refused.entry(refusal.number).or_default() += 1;
                status.raise(Status::Refused);
                writeln!(out, "{}: {}", file.name(), refused::head(refusal))?;
            }
            Err(wrong) => {
                tally.failed += 1;
                status.raise(Status::Failed);
                tell(&wrong);
            }
        }
    }
    writeln!(out, "{}", tally.summary())
}

/// Converts one record: the length of what was written, or the library's refusal; or what could not be done.
fn convert(request: &Request, file: &Source, table: &[u8], top: u32) -> Result<Result<usize, Refusal>, String> {
    let message = if request.hex { file.hex_bytes()? } else { file.bytes(MOST_BYTES)? };
    let mut out = [0; MOST_BYTES];
    let length = match icehub::convert(table, top, &message, &mut out) {
        Ok(length) => length,
        Err(refusal) => return Ok(Err(refusal)),
    };
    let name = match file {
        Source::File(path) => path.file_name(),
        Source::Standard => None,
    };
    let to = request.to.join(name.ok_or(format!("{} has no name for a file", file.name()))?);
    match put(&to, &out[..length], request.overwrite) {
        Ok(()) => Ok(Ok(length)),
        Err(error) if error.kind() == io::ErrorKind::AlreadyExists => {
            Err(format!("{} is there already and stays; see --overwrite", shown(&to)))
        }
        Err(error) => Err(format!("cannot write {}: {error}", shown(&to))),
    }
}

/// Writes a file; one that is there only if it may be overwritten.
pub fn put(path: &Path, bytes: &[u8], overwrite: bool) -> io::Result<()> {
    let mut options = File::options();
    options.write(true);
    if overwrite {
        options.create(true).truncate(true);
    } else {
        options.create_new(true);
    }
    options.open(path)?.write_all(bytes)
}

/// A path, fit to be shown.
pub fn shown(path: &Path) -> String {
    words::plain(&path.to_string_lossy())
}

/// What became of the records.
#[derive(Debug, Default)]
struct Tally {
    converted: usize,
    refused: BTreeMap<u32, usize>,
    failed: usize,
}

impl Tally {
    /// `5 records: 3 converted, 2 refused (1 by 47, 1 by 48)`, and of how many nothing was written for another reason.
    fn summary(&self) -> String {
        let refused: usize = self.refused.values().sum();
        let all = words::count(self.converted + refused + self.failed, "record", "records");
        let mut summary = format!("{all}: {} converted, {refused} refused", self.converted);
        if refused > 0 {
            let numbers: Vec<_> = self.refused.iter().map(|(number, count)| format!("{count} by {number}")).collect();
            summary.push_str(&format!(" ({})", numbers.join(", ")));
        }
        if self.failed > 0 {
            summary.push_str(&format!(", {} not done", self.failed));
        }
        summary
    }
}

#[cfg(test)]
mod tests {
    use super::*;

    #[test]
    fn summary() {
        let mut tally = Tally { converted: 1, ..Tally::default() };
        assert_eq!(tally.summary(), "1 record: 1 converted, 0 refused");
        tally.refused.extend([(47, 2), (48, 1)]);
        assert_eq!(tally.summary(), "4 records: 1 converted, 3 refused (2 by 47, 1 by 48)");
        tally.failed = 2;
        assert_eq!(tally.summary(), "6 records: 1 converted, 3 refused (2 by 47, 1 by 48), 2 not done");
    }
}
