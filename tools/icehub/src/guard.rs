//! The command `guard`: replays a night's reports to a frost guard, and says when the timer fires.

use crate::input::Source;
use crate::{tell, words, Status};
use icehub::{Guard, Refusal};
use std::io::{self, Write};

/// What is asked for.
#[derive(Debug, PartialEq)]
pub struct Request {
    pub set_point: i16,
    pub hex: bool,
    pub file: Source,
}

pub fn run(request: &Request, out: &mut impl Write, status: &mut Status) -> io::Result<()> {
    let bytes = if request.hex { request.file.hex_bytes() } else { request.file.bytes(usize::MAX - 1) };
    match bytes {
        Ok(bytes) => replay(request.set_point, &bytes, out, status),
        Err(wrong) => {
            tell(&wrong);
            status.raise(Status::Failed);
            Ok(())
        }
    }
}

/// The first message of a buffer of messages back to back, by its size; all of the buffer if no message has that size.
fn first(buffer: &[u8]) -> usize {
    let size = buffer.first_chunk().map_or(0, |&size| i32::from_le_bytes(size) as usize);
    if (6..=buffer.len()).contains(&size) {
        size
    } else {
        buffer.len()
    }
}

/// One line a report.
fn line(guard: &Guard, told: Result<bool, Refusal>) -> String {
    match told {
        Err(refusal) => format!("refused by {} at {}: {}", refusal.number, refusal.place, refusal.text()),
        Ok(fires) => {
            let tick = guard.tick().unwrap_or_default();
            let delay = guard.delay().unwrap_or_default().as_secs();
            let freeze = match guard.start() {
                Some(start) => format!("freeze since {start} ms, {} ms of {} ms", tick - start, 1_000 * delay),
                None => "no freeze".to_string(),
            };
            format!("{tick} ms: {freeze}{}", if fires { ": the timer fires" } else { "" })
        }
    }
}

fn replay(set_point: i16, buffer: &[u8], out: &mut impl Write, status: &mut Status) -> io::Result<()> {
    let (mut guard, mut rest, mut reports, mut refused) = (Guard::new(set_point), buffer, 0, 0);
    let mut fired = vec![];
    while !rest.is_empty() {
        let (message, after) = rest.split_at(first(rest));
        rest = after;
        let told = guard.report(message);
        writeln!(out, "{reports:>6}  {}", line(&guard, told))?;
        match told {
            Ok(true) => fired.push((reports, guard.tick().unwrap_or_default())),
            Ok(false) => {}
            Err(_) => refused += 1,
        }
        reports += 1;
    }
    if refused > 0 {
        status.raise(Status::Refused);
    }
    writeln!(out, "\n{}, {refused} refused", words::count(reports, "report", "reports"))?;
    match fired.first() {
        Some((report, tick)) => {
            let times = words::count(fired.len(), "report", "reports");
            writeln!(out, "the timer fires first with report {report}, at {tick} ms; with {times} in all")
        }
        None => writeln!(out, "the timer does not fire"),
    }
}
