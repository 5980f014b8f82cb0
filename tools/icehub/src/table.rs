//! The command `table`: a type table for a person, or the rule that it breaks and the rows up to the broken one.

use crate::input::Source;
use crate::{broken, refused, tell, words, Status};
use icehub::{Allowed, Kind, Table, TypeRow, MOST_BYTES};
use std::io::{self, Write};

pub fn run(source: &Source, out: &mut impl Write, status: &mut Status) -> io::Result<()> {
    let bytes = match source.bytes(MOST_BYTES) {
        Ok(bytes) => bytes,
        Err(wrong) => {
            tell(&wrong);
            status.raise(Status::Failed);
            return Ok(());
        }
    };
    match Table::new(&bytes) {
        Ok(table) => write_table(out, table, (table.types(), table.members())),
        Err(refusal) => {
            status.raise(Status::Refused);
            writeln!(out, "{}", refused::head(refusal))?;
            refused::write(out, &bytes, 0, &[], refusal)?;
            match broken::judged(&bytes, refusal) {
                (0, _) => Ok(()),
                judged => {
                    writeln!(out, "\nThe rows before it:")?;
                    write_table(out, Table::broken(&bytes), judged)
                }
            }
        }
    }
}

/// The first of a table's rows: so many type rows, and so many member rows.
fn write_table(out: &mut dyn Write, table: Table, shown: (u32, u32)) -> io::Result<()> {
    let types = words::count(table.types() as usize, "type", "types");
    let members = words::count(table.members() as usize, "member", "members");
    let names = words::count(table.names().len(), "name byte", "name bytes");
    let entries = match table.version() {
        2 => format!(", {}", words::count(table.entries() as usize, "entry", "entries")),
        _ => String::new(),
    };
    writeln!(out, "version {}, {types}, {members}, {names}{entries}\n", table.version())?;
    writeln!(out, "  type  what")?;
    for row in table.type_rows().take(shown.0 as usize) {
        writeln!(out, "{:>6}  {}", row.number(), row_words(row))?;
        for member in row.member_rows().take_while(|member| member.number() < shown.1) {
            let presence = member.tag().map_or_else(|| "required".to_string(), |tag| format!("tag {tag}"));
            let (number, of) = (member.number(), member.of());
            writeln!(out, "          member {number}: {presence}, {}, type {}", words::type_words(of), of.number())?;
        }
    }
    Ok(())
}

/// A type row: what it is, its parts or base by their rows, and whether it can be a top.
fn row_words(row: TypeRow) -> String {
    let mut text = match row.kind() {
        Kind::Enum => enum_words(row),
        Kind::Struct => "struct".to_string(),
        _ => words::type_words(row),
    };
    if let Some(element) = row.element() {
        text.push_str(&format!(": type {}", element.number()));
    }
    if let (Some(key), Some(value)) = (row.key(), row.value()) {
        text.push_str(&format!(": types {} and {}", key.number(), value.number()));
    }
    if let Some(base) = row.base() {
        text.push_str(&format!(", base {} {}", base.number(), words::quoted(base.name().unwrap_or_default())));
    }
    if row.kind().can_be_top() {
        text.push_str(", can be a top");
    }
    text
}

/// Enumerators are put on lines of about this length.
const WIDTH: usize = 80;

/// An enum: its greatest enumerator, or its list.
fn enum_words(row: TypeRow) -> String {
    let list = match row.allowed() {
        Some(Allowed::Only(list)) => list,
        _ => return format!("enum, at most {}", row.greatest().unwrap_or_default()),
    };
    let mut text = format!("enum of {}: ", words::count(list.len(), "enumerator", "enumerators"));
    let mut line = text.len();
    for (number, run) in words::runs(list).iter().enumerate() {
        if number > 0 {
            let is_full = line >= WIDTH;
            text.push_str(if is_full { ",\n          " } else { ", " });
            line = if is_full { 0 } else { line + 2 };
        }
        text.push_str(run);
        line += run.len();
    }
    text
}
