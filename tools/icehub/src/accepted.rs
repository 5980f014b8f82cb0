//! An accepted message for a person: what the reader found, and each member.

use crate::{values, words};
use icehub::{Format, Kind, Member, MemberRow, Reading, TypeRow};
use std::io::{self, Write};

/// How far the parts of a member's value are indented.
const PARTS: usize = 12;

pub fn write(out: &mut dyn Write, reading: &Reading) -> io::Result<()> {
    let of = reading.table().type_row(reading.first_type);
    let shown = of.map_or_else(String::new, |of| format!(", {}", words::type_words(of)));
    writeln!(out, "  first known type: {}{shown}", reading.first_type)?;
    writeln!(out, "  encoding:         {}", encoding(reading))?;
    writeln!(out, "  format:           {}", format(reading, of))?;
    writeln!(out, "  skipped:          {}", skipped(reading))?;
    if reading.members().len() == 0 {
        return writeln!(out, "  no members");
    }
    writeln!(out, "\n  member  required or tag  type        place  length  value")?;
    let mut owner = None;
    for member in reading.members() {
        let Some(declared) = member.declared() else { continue };
        let shown = record(declared);
        if shown != owner {
            owner = shown;
            if let Some(owner) = owner {
                writeln!(out, "  slice of type {}, {}", owner.number(), words::type_words(owner))?;
            }
        }
        write_member(out, member, declared)?;
    }
    Ok(())
}

/// The record that has a member; none for a member of a parameter list.
fn record(declared: MemberRow) -> Option<TypeRow> {
    declared.owner().filter(|owner| owner.kind().is_record())
}

fn write_member(out: &mut dyn Write, member: Member, declared: MemberRow) -> io::Result<()> {
    let presence = declared.tag().map_or_else(|| "required".to_string(), |tag| format!("tag {tag}"));
    let (number, kind) = (member.number(), declared.of().kind().name());
    let (place, length) = (member.row.place, member.row.length);
    write!(out, "{number:>8}  {presence:<15}  {kind:<10}{place:>7}{length:>8}  ")?;
    match member.value() {
        Some(value) => values::write(out, &value, PARTS),
        None => writeln!(out, "bytes {}", words::hex(member.part())),
    }
}

/// The version of the encoding.
pub fn encoding(reading: &Reading) -> &'static str {
    match reading.format {
        Format::Old => "1.0",
        Format::Compact | Format::Sliced => "1.1",
    }
}

/// The format in a word. A parameter list has no slices, so no format; a record of 1.0 has its type IDs and sizes in pairs.
pub fn format(reading: &Reading, of: Option<TypeRow>) -> &'static str {
    match (of.map(TypeRow::kind), reading.format) {
        (Some(Kind::ParameterList), _) => "parameter list",
        (_, Format::Compact) => "compact",
        (_, Format::Sliced) => "sliced",
        (_, Format::Old) => "pairs",
    }
}

fn skipped(reading: &Reading) -> String {
    match (reading.optionals_skipped as usize, reading.slices_skipped as usize) {
        (0, 0) => "nothing".to_string(),
        (optionals, slices) => {
            let optionals = words::count(optionals, "optional", "optionals");
            format!("{optionals}, {}", words::count(slices, "slice", "slices"))
        }
    }
}
