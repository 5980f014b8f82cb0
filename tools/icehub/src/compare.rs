//! The command `compare`: what differs between an old table and a new one, and whether the new one may be shipped.

use crate::input::Source;
use crate::show::top_row;
use crate::{refused, tell, words, Status};
use icehub::{compare, Difference, Kind, MemberRow, Table, TypeRow, What, DIFFERENCE_SIZE, MOST_BYTES};
use std::io::{self, Write};

/// What is asked for: the old table and its top, the new table and its top.
#[derive(Debug, PartialEq)]
pub struct Request {
    pub old: Source,
    pub old_top: String,
    pub new: Source,
    pub new_top: String,
}

/// No two tables have more differences: each type row gives at most one (its owner is in one table only, or has another
/// base), each member row at most one, and a table has at most 256 type rows and 1,024 member rows.
const MOST: usize = 2 * (256 + 1_024);

pub fn run(request: &Request, out: &mut impl Write, status: &mut Status) -> io::Result<()> {
    let tables = request.old.bytes(MOST_BYTES).and_then(|old| Ok((old, request.new.bytes(MOST_BYTES)?)));
    let (old, new) = match tables {
        Ok(tables) => tables,
        Err(wrong) => return failed(&wrong, status),
    };
    for (source, bytes) in [(&request.old, &old), (&request.new, &new)] {
        if let Err(refusal) = Table::new(bytes) {
            return failed(&format!("{}: {}; see icehub table", source.name(), refused::head(refusal)), status);
        }
    }
    let (table, table_new) = (Table::broken(&old), Table::broken(&new));
    let tops = top_row(&request.old_top, &old).and_then(|top| Ok((top, top_row(&request.new_top, &new)?)));
    let (top, top_new) = match tops {
        Ok(tops) => tops,
        Err(wrong) => return failed(&wrong, status),
    };
    let mut list = vec![0; MOST * DIFFERENCE_SIZE];
    let comparison = match compare(&old, top, &new, top_new, &mut list) {
        Ok(comparison) => comparison,
        Err(refusal) => return failed(&refused::head(refusal), status),
    };
    for difference in comparison.differences() {
        writeln!(out, "{}", difference_words(table, table_new, difference))?;
    }
    let count = words::count(comparison.len(), "difference", "differences");
    if comparison.extends {
        writeln!(out, "{count}; an old hub reads everything a new sender writes")
    } else {
        status.raise(Status::Refused);
        writeln!(
            out,
            "{count}; an old hub does not read everything a new sender writes: {}",
            why(table, table_new, top, top_new)
        )
    }
}

fn failed(wrong: &str, status: &mut Status) -> io::Result<()> {
    tell(wrong);
    status.raise(Status::Failed);
    Ok(())
}

/// What kind of owner a row is, with its name or number.
fn owner_words(row: TypeRow) -> String {
    match row.kind() {
        Kind::Exception => format!("exception {}", words::quoted(row.name().unwrap_or_default())),
        Kind::Class => format!("class {}", words::quoted(row.name().unwrap_or_default())),
        _ => format!("parameter list, type {}", row.number()),
    }
}

/// A base, if there is one.
fn base_words(row: TypeRow) -> String {
    row.base().map_or_else(
        || "no base".to_string(),
        |base| format!("base {}", words::quoted(base.name().unwrap_or_default())),
    )
}

/// A member: its row and type.
fn member_words(member: MemberRow) -> String {
    format!("{} (member {})", words::type_words(member.of()), member.number())
}

/// What one table has and the other not, or that the two are not alike.
fn sides(old: Option<String>, new: Option<String>) -> String {
    match (old, new) {
        (Some(old), Some(new)) => format!("{old} in the old table, {new} in the new one"),
        (Some(old), None) => format!("{old} only in the old table"),
        (None, Some(new)) => format!("{new} only in the new table"),
        (None, None) => String::new(),
    }
}

fn difference_words(old: Table, new: Table, difference: Difference) -> String {
    let [o, n] = difference.owners;
    let (owner, owner_new) = (o.and_then(|row| old.type_row(row)), n.and_then(|row| new.type_row(row)));
    let (member, member_new) = (
        difference.members[0].and_then(|row| old.member_row(row)),
        difference.members[1].and_then(|row| new.member_row(row)),
    );
    let name = owner.or(owner_new).map(owner_words).unwrap_or_default();
    let members = sides(member.map(member_words), member_new.map(member_words));
    match difference.what {
        What::Owner => {
            let side = if owner.is_some() { "old" } else { "new" };
            format!("{name}: only in the {side} table")
        }
        What::Base => format!("{name}: {}", sides(owner.map(base_words), owner_new.map(base_words))),
        What::Required => format!("{name}: required member, {members}"),
        What::Optional => {
            let tag = member.or(member_new).and_then(MemberRow::tag).unwrap_or_default();
            format!("{name}: optional with tag {tag}, {members}")
        }
    }
}

/// Why the answer is no: the tops, or the records.
fn why(old: Table, new: Table, top: u32, top_new: u32) -> &'static str {
    let (row, row_new) = (old.type_row(top), new.type_row(top_new));
    let kinds = (row.map(TypeRow::kind), row_new.map(TypeRow::kind));
    let names = (row.and_then(TypeRow::name), row_new.and_then(TypeRow::name));
    if kinds.0 != kinds.1 || names.0 != names.1 {
        "the two tops do not match"
    } else {
        "a record or the top lacks something that the old table has, or has other required members or another base"
    }
}
