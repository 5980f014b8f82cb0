//! The commands `set` and `remove`: a message with one optional changed, in another file.

use crate::convert::{put, shown};
use crate::input::{unhex, Source};
use crate::show::top_row;
use crate::{refused, tell, words, Status};
use icehub::{Kind, Table, TypeRow, MOST_BYTES};
use std::io::{self, Write};
use std::path::PathBuf;

/// What is to be changed, and where the result goes.
#[derive(Debug, PartialEq)]
pub struct Request {
    pub hex: bool,
    pub overwrite: bool,
    pub table: Source,
    /// A row number or a record's name.
    pub top: String,
    pub message: Source,
    pub member: u32,
    /// The value to set; none to remove the member.
    pub value: Option<String>,
    /// None is standard output.
    pub to: Option<PathBuf>,
}

pub fn run(request: &Request, out: &mut impl Write, status: &mut Status) -> io::Result<()> {
    let Request { table, member, value, to, .. } = request;
    let given = table.bytes(MOST_BYTES).and_then(|table| {
        let message = if request.hex { request.message.hex_bytes()? } else { request.message.bytes(MOST_BYTES)? };
        let bytes = value.as_ref().map(|value| new_bytes(&table, *member, value)).transpose()?;
        Ok((top_row(&request.top, &table)?, table, message, bytes))
    });
    let (top, table, message, bytes) = match given {
        Ok(given) => given,
        Err(wrong) => return fail(&wrong, status),
    };
    let mut result = [0; MOST_BYTES];
    let changed = match &bytes {
        Some(bytes) => icehub::set(&table, top, &message, *member, bytes, &mut result),
        None => icehub::remove(&table, top, &message, *member, &mut result),
    };
    let length = match changed {
        Ok(length) => length,
        Err(refusal) => {
            status.raise(Status::Refused);
            let line = format!("{}: {}", request.message.name(), refused::head(refusal));
            // Standard output is for the result.
            return if to.is_none() { Ok(tell(&line)) } else { writeln!(out, "{line}") };
        }
    };
    let Some(to) = to else { return out.write_all(&result[..length]) };
    match put(to, &result[..length], request.overwrite) {
        Ok(()) => {
            let done = if bytes.is_some() { "set" } else { "removed" };
            let length = words::count(length, "byte", "bytes");
            writeln!(out, "{}: member {member} {done}, {length}", shown(to))
        }
        Err(error) if error.kind() == io::ErrorKind::AlreadyExists => {
            fail(&format!("{} is there already and stays; see --overwrite", shown(to)), status)
        }
        Err(error) => fail(&format!("cannot write {}: {error}", shown(to)), status),
    }
}

fn fail(wrong: &str, status: &mut Status) -> io::Result<()> {
    tell(wrong);
    status.raise(Status::Failed);
    Ok(())
}

/// The bytes of a value in the member's type; no bytes where the table lacks the member or breaks a rule: the library then
/// refuses the call.
fn new_bytes(table: &[u8], member: u32, value: &str) -> Result<Vec<u8>, String> {
    let found = Table::new(table).ok().and_then(|table| table.member_row(member));
    match found {
        Some(member) => encoded(member.of(), value),
        None => Ok(vec![]),
    }
}

/// A value: numbers and enumerators in decimal, a bool as true or false, a string as its text, all else in hex, as a message
/// has it.
fn encoded(of: TypeRow, value: &str) -> Result<Vec<u8>, String> {
    macro_rules! number {
        ($number:ty) => {
            value.parse::<$number>().map(|number| number.to_le_bytes().to_vec()).ok()
        };
    }
    let bytes = match of.kind() {
        Kind::Bool => ["false", "true"].iter().position(|&word| word == value).map(|bool| vec![bool as u8]),
        Kind::Byte => number!(u8),
        Kind::Short => number!(i16),
        Kind::Int => number!(i32),
        Kind::Long => number!(i64),
        Kind::Float => number!(f32),
        Kind::Double => number!(f64),
        Kind::String => Some([size(value.len()), value.as_bytes().to_vec()].concat()),
        Kind::Enum => value.parse::<u32>().ok().map(|enumerator| size(enumerator as usize)),
        _ => return unhex(value.as_bytes()).map_err(|wrong| format!("VALUE: {wrong}")),
    };
    bytes.ok_or_else(|| format!("VALUE is no {}: {}", words::type_words(of), words::quoted(value)))
}

/// A size: below 255 one byte, else 255 and four.
fn size(size: usize) -> Vec<u8> {
    match u8::try_from(size) {
        Ok(byte @ 0..=254) => vec![byte],
        _ => [&[255][..], &(size as u32).to_le_bytes()].concat(),
    }
}
