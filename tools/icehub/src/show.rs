//! The command `show`: each message by the library's answer, a summary, and a progress line.

use crate::input::Source;
use crate::{accepted, json, refused, tell, words, Status};
use icehub::{Reading, Refusal, Table, MOST_BYTES, MOST_ROWS, ROW_SIZE};
use std::collections::BTreeMap;
use std::io::{self, IsTerminal, Write};
use std::time::{Duration, Instant};

/// What is to be shown, and how.
#[derive(Debug, PartialEq)]
pub struct Request {
    pub json: bool,
    pub hex: bool,
    pub table: Source,
    /// A row number or a record's name.
    pub top: String,
    pub files: Vec<Source>,
}

pub fn run(request: &Request, out: &mut impl Write, status: &mut Status) -> io::Result<()> {
    let found = request.table.bytes(MOST_BYTES).and_then(|table| Ok((top_row(&request.top, &table)?, table)));
    let (top, table) = match found {
        Ok(found) => found,
        Err(wrong) => {
            tell(&wrong);
            status.raise(Status::Failed);
            return Ok(());
        }
    };
    let all = request.files.len();
    let is_shown = all > 1 && io::stderr().is_terminal() && !io::stdout().is_terminal();
    let mut progress = Progress::new(io::stderr(), is_shown, Instant::now());
    let mut tally = Tally::default();
    let mut rows = [0; MOST_ROWS * ROW_SIZE];
    for (done, file) in request.files.iter().enumerate() {
        progress.tell(done, all, Instant::now());
        let bytes = if request.hex { file.hex_bytes() } else { file.bytes(MOST_BYTES) };
        let answer = bytes.map(|message| {
            let answer = icehub::read(&table, top, &message, &mut rows);
            tally.count(answer.as_ref().err());
            status.raise(tally.status());
            if request.json {
                write_json(out, file, &table, top, &message, answer)
            } else {
                if all > 1 {
                    write!(out, "{}{}: ", if done > 0 { "\n" } else { "" }, file.name())?;
                }
                write_text(out, &table, top, &message, answer)
            }
        });
        match answer {
            Ok(written) => written?,
            Err(wrong) => {
                tally.unread += 1;
                status.raise(tally.status());
                progress.clear();
                tell(&wrong);
                if request.json {
                    writeln!(out, "{}", json::unread(&file.json_name(), &wrong))?;
                }
            }
        }
    }
    progress.clear();
    match (all, request.json) {
        (1, _) => Ok(()),
        (_, true) => {
            tell(&tally.summary());
            Ok(())
        }
        (_, false) => writeln!(out, "\n{}", tally.summary()),
    }
}

/// What the library says of a message.
type Answer<'a> = Result<Reading<'a>, Refusal>;

fn write_json(
    out: &mut impl Write,
    file: &Source,
    table: &[u8],
    top: u32,
    message: &[u8],
    answer: Answer,
) -> io::Result<()> {
    let name = file.json_name();
    let line = match answer {
        Ok(reading) => json::accepted(&name, &reading),
        Err(refusal) => json::refused(&name, table, top, message, refusal),
    };
    writeln!(out, "{line}")
}

fn write_text(out: &mut impl Write, table: &[u8], top: u32, message: &[u8], answer: Answer) -> io::Result<()> {
    match answer {
        Ok(reading) => {
            writeln!(out, "accepted")?;
            accepted::write(out, &reading)
        }
        Err(refusal) => {
            writeln!(out, "{}", refused::head(refusal))?;
            refused::write(out, table, top, message, refusal)
        }
    }
}

/// The row that TOP names: a number, or the name of a record in the table.
pub fn top_row(top: &str, table: &[u8]) -> Result<u32, String> {
    if !top.is_empty() && top.bytes().all(|byte| byte.is_ascii_digit()) {
        return top.parse().map_err(|_| format!("TOP is no row number: {top}"));
    }
    // Under a table that breaks a rule every message is refused for that, whatever its top is.
    let Ok(table) = Table::new(table) else { return Ok(0) };
    match table.named(top) {
        Some(row) => Ok(row.number()),
        None => {
            let names: Vec<_> = table.type_rows().filter_map(|row| row.name()).map(words::quoted).collect();
            let names = if names.is_empty() { "no record".to_string() } else { names.join(", ") };
            Err(format!(
                "TOP is neither a row number nor a record of the table: {}; the table has {names}",
                words::quoted(top)
            ))
        }
    }
}

/// What became of the messages so far.
#[derive(Debug, Default)]
pub struct Tally {
    accepted: usize,
    refused: BTreeMap<u32, usize>,
    unread: usize,
}

impl Tally {
    pub fn count(&mut self, refusal: Option<&Refusal>) {
        match refusal {
            None => self.accepted += 1,
            Some(refusal) => *self.refused.entry(refusal.number).or_default() += 1,
        }
    }

    pub fn status(&self) -> Status {
        match (self.unread, self.refused.is_empty()) {
            (0, true) => Status::Accepted,
            (0, false) => Status::Refused,
            _ => Status::Failed,
        }
    }

    /// `5 messages: 3 accepted, 2 refused (1 by 4, 1 by 12)`, and how many files could not be read.
    pub fn summary(&self) -> String {
        let refused: usize = self.refused.values().sum();
        let all = words::count(self.accepted + refused + self.unread, "message", "messages");
        let mut summary = format!("{all}: {} accepted, {refused} refused", self.accepted);
        if refused > 0 {
            let numbers: Vec<_> = self.refused.iter().map(|(number, count)| format!("{count} by {number}")).collect();
            summary.push_str(&format!(" ({})", numbers.join(", ")));
        }
        if self.unread > 0 {
            summary.push_str(&format!(", {} not read", self.unread));
        }
        summary
    }
}

/// A line on the terminal that says how far the work is, after the first second.
pub struct Progress<W> {
    out: W,
    is_shown: bool,
    start: Instant,
    last: Option<Instant>,
}

impl<W: Write> Progress<W> {
    const WAIT: Duration = Duration::from_secs(1);
    const PAUSE: Duration = Duration::from_millis(200);

    pub fn new(out: W, is_shown: bool, start: Instant) -> Progress<W> {
        Progress { out, is_shown, start, last: None }
    }

    /// So many are done.
    fn tell(&mut self, done: usize, all: usize, now: Instant) {
        self.tell_text(|| format!("{done} of {all} messages"), now);
    }

    /// Shows a text, where it is due.
    pub fn tell_text(&mut self, text: impl FnOnce() -> String, now: Instant) {
        let is_due = self.last.is_none_or(|last| now - last >= Self::PAUSE);
        if self.is_shown && is_due && now - self.start >= Self::WAIT {
            self.last = Some(now);
            // If the terminal cannot be written to, the work goes on.
            let _ = write!(self.out, "\r{}", text()).and_then(|()| self.out.flush());
        }
    }

    /// Takes the line away.
    pub fn clear(&mut self) {
        if self.last.take().is_some() {
            let _ = write!(self.out, "\r\x1B[K").and_then(|()| self.out.flush());
        }
    }
}

#[cfg(test)]
mod tests {
    use super::*;

    fn told(is_shown: bool, millis: &[u64]) -> String {
        let start = Instant::now();
        let mut progress = Progress::new(vec![], is_shown, start);
        for (done, millis) in millis.iter().enumerate() {
            progress.tell(done, 9, start + Duration::from_millis(*millis));
        }
        progress.clear();
        String::from_utf8(progress.out).unwrap()
    }

    /// Nothing in the first second and on no terminal; then a line not more often than five times a second.
    #[test]
    fn progress() {
        assert_eq!(told(true, &[0, 500, 999]), "");
        assert_eq!(told(false, &[0, 1000, 2000]), "");
        assert_eq!(told(true, &[0, 1000, 1100, 1199, 1200]), "\r1 of 9 messages\r4 of 9 messages\r\x1B[K");
    }

    #[test]
    fn summary() {
        let mut tally = Tally::default();
        assert_eq!(
            (tally.summary(), tally.status()),
            ("0 messages: 0 accepted, 0 refused".to_string(), Status::Accepted)
        );
        tally.count(None);
        assert_eq!(
            (tally.summary(), tally.status()),
            ("1 message: 1 accepted, 0 refused".to_string(), Status::Accepted)
        );
        for number in [12, 4, 12] {
            tally.count(Some(&Refusal { number, place: 0 }));
        }
        assert_eq!(tally.summary(), "4 messages: 1 accepted, 3 refused (1 by 4, 2 by 12)");
        assert_eq!(tally.status(), Status::Refused);
        tally.unread = 1;
        assert_eq!(tally.summary(), "5 messages: 1 accepted, 3 refused (1 by 4, 2 by 12), 1 not read");
        assert_eq!(tally.status(), Status::Failed);
    }
}
