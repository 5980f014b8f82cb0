//! A refused message for a person: the refusal in words, the slice and member that it is in, and the bytes around it.

use crate::locate::{format_of, locate, Location};
use crate::{broken, text, words};
use icehub::{Allowed, Reason, Refusal, Table, TypeRow, Value};
use std::io::{self, Write};

/// A refusal in a line, without the name of the message.
pub fn head(refusal: Refusal) -> String {
    let name = refusal.reason().map_or(String::new(), |reason| format!(" ({})", reason.name()));
    format!("refused by {}{name} at {}: {}", refusal.number, refusal.place, refusal.text())
}

/// The lines below it.
pub fn write(out: &mut dyn Write, bytes: &[u8], top: u32, message: &[u8], refusal: Refusal) -> io::Result<()> {
    match (refusal.reason(), Table::new(bytes)) {
        (_, Err(refusal)) => {
            writeln!(out, "  {}", broken::sentence(bytes, refusal))?;
            write_around(out, "table", bytes, refusal.place as usize)
        }
        (Some(Reason::BadType), Ok(table)) => write_top(out, table, top),
        (Some(Reason::InputTooLong), _) => Ok(()),
        (_, Ok(table)) => {
            let place = refusal.place as usize;
            let location = locate(table, top, message, place);
            write_location(out, &location)?;
            if let (Some(Reason::BadEnumerator), Some(of)) = (refusal.reason(), location.of) {
                write_allowed(out, of, message, place)?;
            }
            let shown = match refusal.reason() {
                Some(Reason::BadText) => write_text(out, message, place)?,
                _ => place,
            };
            write_around(out, "message", message, shown)
        }
    }
}

/// Why this row cannot be a top.
fn write_top(out: &mut dyn Write, table: Table, top: u32) -> io::Result<()> {
    match table.type_row(top) {
        Some(of) => writeln!(out, "  type {top} is {}", words::type_words(of)),
        None => writeln!(
            out,
            "  there is no type {top}: the table has {}",
            words::count(table.types() as usize, "type", "types")
        ),
    }
}

fn write_location(out: &mut dyn Write, location: &Location) -> io::Result<()> {
    if let Some(slice) = location.slice {
        write!(out, "  in slice {} from {}", slice.number, slice.place)?;
        if let Some(id) = slice.id {
            write!(out, ", type ID {}", words::string(id))?;
        }
        match slice.of {
            Some(of) => writeln!(out, ", type {}", of.number())?,
            None if slice.id.is_some() => writeln!(out, ", which the table does not know")?,
            None => writeln!(out)?,
        }
    }
    if let Some(member) = location.member {
        match (member.declared, member.tag) {
            (Some(declared), tag) => {
                let presence = tag.map_or_else(|| "required".to_string(), |tag| format!("tag {tag}"));
                let (number, of) = (declared.number(), words::type_words(declared.of()));
                writeln!(out, "  in member {number} from {}, {presence}, {of}", member.place)?;
            }
            (None, tag) => {
                let tag = tag.unwrap_or_default();
                writeln!(out, "  in an optional from {}, tag {tag}, which the table does not know", member.place)?;
            }
        }
    }
    if !location.path.is_empty() {
        let path: Vec<_> = location.path.iter().map(ToString::to_string).collect();
        writeln!(out, "  in its {}", path.join(", "))?;
    }
    match location.item {
        Some(item) => writeln!(out, "  at {item}"),
        None => Ok(()),
    }
}

/// Of a list with more runs than these, only the entries next to the number are shown.
const RUNS: usize = 16;

/// The enumerator at a place of a message, and those that its enum allows.
fn write_allowed(out: &mut dyn Write, of: TypeRow, message: &[u8], place: usize) -> io::Result<()> {
    let bytes = message.get(place..).unwrap_or_default();
    let number = Value::at_front_in(format_of(message), of, bytes).and_then(|(value, _)| value.as_enumerator());
    let (Some(number), Some(allowed)) = (number, of.allowed()) else { return Ok(()) };
    let allowed = match allowed {
        Allowed::UpTo(greatest) => format!("0 to {greatest}"),
        Allowed::Only(list) => {
            let runs = words::runs(list.clone());
            if runs.len() <= RUNS {
                runs.join(", ")
            } else {
                let below = list.clone().take_while(|&entry| entry < number).last();
                let above = list.clone().find(|&entry| entry > number);
                let next: Vec<_> = below.into_iter().chain(above).map(|entry| entry.to_string()).collect();
                format!("{} enumerators, next to it {}", list.len(), next.join(" and "))
            }
        }
    };
    writeln!(out, "  the enumerator is {number}; its enum, type {}, allows {allowed}", of.number())
}

/// The string whose size is at a place, and its first bad byte: the place of that byte.
fn write_text(out: &mut dyn Write, message: &[u8], place: usize) -> io::Result<usize> {
    let found = text::at(message, place).and_then(|(start, bytes)| Some((start, bytes, text::fault(bytes, start)?)));
    let Some((start, bytes, fault)) = found else { return Ok(place) };
    write!(out, "  the string has {} from {start}", words::count(bytes.len(), "byte", "bytes"))?;
    match fault.before {
        "" => writeln!(out)?,
        before => writeln!(out, ", and is text up to {}: {}", fault.place, text::end(before))?,
    }
    writeln!(out, "  at {}: {}", fault.place, fault.wrong)?;
    if let Some(latin) = text::latin(bytes, &fault) {
        writeln!(out, "  read as Latin-1: {latin}")?;
    }
    Ok(fault.place)
}

/// Bytes on a line.
const LINE: usize = 16;

/// The bytes around a place, which is marked: up to 16 before it, then it and up to 15 after it.
fn write_around(out: &mut dyn Write, what: &str, bytes: &[u8], place: usize) -> io::Result<()> {
    writeln!(out, "  the {what} around {place}:")?;
    let place = place.min(bytes.len());
    if place > 0 {
        let start = place.saturating_sub(LINE);
        write_line(out, start, &bytes[start..place])?;
    }
    if place == bytes.len() {
        writeln!(out, "{place:>8}  the end")?;
    } else {
        write_line(out, place, &bytes[place..bytes.len().min(place + LINE)])?;
    }
    writeln!(out, "{:>8}  ^^", "")
}

/// A line of bytes, in hex and as ASCII.
fn write_line(out: &mut dyn Write, start: usize, bytes: &[u8]) -> io::Result<()> {
    let ascii: String = bytes
        .iter()
        .map(|&byte| if byte.is_ascii_graphic() || byte == b' ' { char::from(byte) } else { '.' })
        .collect();
    writeln!(out, "{start:>8}  {:<47}  {ascii}", words::hex(bytes))
}
