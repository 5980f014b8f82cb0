//! The command `night`: a file of many messages, back to back, a line for each, a summary, and a progress line.

use crate::input::Source;
use crate::show::{top_row, Progress, Tally};
use crate::words::{self, quoted};
use crate::{refused, tell, Status};
use icehub::{Answer, ANSWER_SIZE, MOST_BYTES, MOST_ROWS, ROW_SIZE};
use std::io::{self, IsTerminal, Write};
use std::time::Instant;

/// What is to be read, and how it is shown.
#[derive(Debug, PartialEq)]
pub struct Request {
    pub json: bool,
    pub table: Source,
    /// A row number or a record's name.
    pub top: String,
    pub file: Source,
}

/// So many answers by one call. Their rows have room for all members, so that no message is refused for want of it.
const ANSWERS: usize = 256;

pub fn run(request: &Request, out: &mut impl Write, status: &mut Status) -> io::Result<()> {
    let found = request.table.bytes(MOST_BYTES).and_then(|table| {
        let top = top_row(&request.top, &table)?;
        Ok((top, table, request.file.all_bytes()?))
    });
    let (top, table, buffer) = match found {
        Ok(found) => found,
        Err(wrong) => {
            tell(&wrong);
            status.raise(Status::Failed);
            return Ok(());
        }
    };
    let is_shown = io::stderr().is_terminal() && !io::stdout().is_terminal();
    let mut progress = Progress::new(io::stderr(), is_shown, Instant::now());
    let mut tally = Tally::default();
    let (mut answers, mut rows) = (vec![0; ANSWERS * ANSWER_SIZE], vec![0; ANSWERS * MOST_ROWS * ROW_SIZE]);
    let (mut at, mut number) = (0, 0);
    let mut left = None;
    while at < buffer.len() && left.is_none() {
        progress.tell_text(|| bar(at, buffer.len()), Instant::now());
        let night = icehub::night(&table, top, &buffer[at..], &mut answers, &mut rows);
        for answer in night.answers() {
            tally.count(answer.reading.as_ref().err());
            status.raise(tally.status());
            left = answer.stops.then_some(answer.message.len());
            let place = at + answer.place;
            let line = if request.json { json(number, place, &answer) } else { text(place, &answer) };
            writeln!(out, "{line}")?;
            number += 1;
        }
        at += night.place;
    }
    progress.clear();
    let mut summary = tally.summary();
    if let Some(left) = left {
        summary.push_str(&format!("; stopped at {at}, {} left", words::count(left, "byte", "bytes")));
    }
    if request.json {
        tell(&summary);
        Ok(())
    } else {
        writeln!(out, "\n{summary}")
    }
}

/// How far the walk is.
fn bar(done: usize, all: usize) -> String {
    const WIDTH: usize = 30;
    let full = (done as u128 * WIDTH as u128 / all.max(1) as u128) as usize;
    let percent = done as u128 * 100 / all.max(1) as u128;
    format!("[{}{}] {percent}% of {all} bytes", "#".repeat(full), ".".repeat(WIDTH - full))
}

/// A line for a person.
fn text(place: usize, answer: &Answer) -> String {
    let length = words::count(answer.message.len(), "byte", "bytes");
    match answer.reading {
        Ok(reading) => {
            let mut line = format!("{place}: {length}, accepted, ");
            line.push_str(&words::count(reading.members().len(), "member", "members"));
            for (count, one, many) in [
                (reading.optionals_skipped, "optional skipped", "optionals skipped"),
                (reading.slices_skipped, "slice skipped", "slices skipped"),
            ] {
                if count > 0 {
                    line.push_str(&format!(", {}", words::count(count as usize, one, many)));
                }
            }
            line
        }
        Err(refusal) if answer.stops => {
            format!("{place}: {length} left, {}; the walk stops here", refused::head(refusal))
        }
        Err(refusal) => format!("{place}: {length}, {}", refused::head(refusal)),
    }
}

/// A line of JSON.
fn json(number: usize, place: usize, answer: &Answer) -> String {
    let head =
        format!(r#"{{"number":{number},"place":{place},"length":{},"stops":{}"#, answer.message.len(), answer.stops);
    match answer.reading {
        Ok(reading) => format!(
            r#"{head},"accepted":true,"type":{},"format":{},"members":{},"optionals_skipped":{},"slices_skipped":{}}}"#,
            reading.first_type,
            reading.format as u32,
            reading.members().len(),
            reading.optionals_skipped,
            reading.slices_skipped
        ),
        Err(refusal) => format!(
            r#"{head},"accepted":false,"refusal":{},"name":{},"text":{},"at":{}}}"#,
            refusal.number,
            refusal.reason().map_or("null".to_string(), |reason| quoted(reason.name())),
            quoted(refusal.text()),
            refusal.place
        ),
    }
}

#[cfg(test)]
mod tests {
    use super::*;

    #[test]
    fn bars() {
        assert_eq!(bar(0, 0), "[..............................] 0% of 0 bytes");
        assert_eq!(bar(1, 2), "[###############...............] 50% of 2 bytes");
        assert_eq!(bar(7, 7), "[##############################] 100% of 7 bytes");
    }
}
