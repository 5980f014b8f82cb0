//! The command `sheet`: what the messages of files say of one member, as a season sheet.

use crate::input::Source;
use crate::show::top_row;
use crate::{refused, tell, Status};
use icehub::{Sheet, MOST_BYTES};
use std::io::{self, Write};

/// What is to be summed, and how it is shown.
#[derive(Debug, PartialEq)]
pub struct Request {
    pub json: bool,
    pub table: Source,
    /// A row number or a record's name.
    pub top: String,
    /// The number of the member row.
    pub member: u32,
    pub files: Vec<Source>,
}

pub fn run(request: &Request, out: &mut impl Write, status: &mut Status) -> io::Result<()> {
    let found = request.table.bytes(MOST_BYTES).and_then(|table| Ok((top_row(&request.top, &table)?, table)));
    let (top, table) = match found {
        Ok(found) => found,
        Err(wrong) => return failed(&wrong, status),
    };
    let mut sheet = Sheet::default();
    for file in &request.files {
        let buffer = match file.all_bytes() {
            Ok(buffer) => buffer,
            Err(wrong) => return failed(&wrong, status),
        };
        if let Err(refusal) = sheet.add(&table, top, &buffer, request.member) {
            tell(&format!("{}: {}", file.name(), refused::head(refusal)));
            status.raise(Status::Refused);
            return Ok(());
        }
    }
    if sheet.refused() > 0 {
        status.raise(Status::Refused);
    }
    if request.json {
        writeln!(out, "{}", json(&sheet))
    } else {
        out.write_all(text(&sheet).as_bytes())
    }
}

/// Something could not be done.
fn failed(wrong: &str, status: &mut Status) -> io::Result<()> {
    tell(wrong);
    status.raise(Status::Failed);
    Ok(())
}

/// A table for a person, a number a line; what is absent is a dash.
fn text(sheet: &Sheet) -> String {
    let number = |number: Option<i64>| number.map_or("-".to_string(), |number| number.to_string());
    let (mean, remainder) = (sheet.mean().map(|mean| mean.0.into()), sheet.mean().map(|mean| mean.1.into()));
    let lines = [
        ("messages", (sheet.carriers() + sheet.lacking() + sheet.refused()).to_string()),
        ("carry it", sheet.carriers().to_string()),
        ("lack it", sheet.lacking().to_string()),
        ("refused", sheet.refused().to_string()),
        ("smallest", number(sheet.smallest().map(i64::from))),
        ("largest", number(sheet.largest().map(i64::from))),
        ("sum", sheet.sum().to_string()),
        ("mean", number(mean)),
        ("remainder", number(remainder)),
    ];
    lines.iter().map(|(name, number)| format!("{name:<10} {number:>20}\n")).collect()
}

/// A line of JSON; what is absent is null.
fn json(sheet: &Sheet) -> String {
    let number = |number: Option<i64>| number.map_or("null".to_string(), |number| number.to_string());
    let (mean, remainder) = (sheet.mean().map(|mean| mean.0.into()), sheet.mean().map(|mean| mean.1.into()));
    format!(
        r#"{{"carriers":{},"lacking":{},"refused":{},"smallest":{},"largest":{},"sum":{},"mean":{},"remainder":{}}}"#,
        sheet.carriers(),
        sheet.lacking(),
        sheet.refused(),
        number(sheet.smallest().map(i64::from)),
        number(sheet.largest().map(i64::from)),
        sheet.sum(),
        number(mean),
        number(remainder)
    )
}
