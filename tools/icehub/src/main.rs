//! icehub: shows messages and type tables, converts compact records, changes single members, sums up a season, replays a
//! frost guard, compares tables and plans bursts, for the depot and the office.
//!
//! What is accepted or refused comes from the library's calls; this program only shows it.
//!
//! - `arguments`: the command line and the help
//! - `input`: files, standard input, hex text
//! - `show`: the command `show`, with its summary and progress line
//! - `convert`: the command `convert`
//! - `change`: the commands `set` and `remove`
//! - `guard`: the command `guard`
//! - `night`: the command `night`, for a file of many messages
//! - `sheet`: the command `sheet`, for the season sheet
//! - `table`: the command `table`; `broken`: what is wrong with a table that breaks a rule
//! - `accepted`, `refused`: a message for a person; `json`: a message as a line of JSON
//! - `locate`: the slice and the member at a place of a refused message; `text`: the first bad byte of a string
//! - `plan`: the command `plan`
//! - `compare`: the command `compare`
//! - `values`: values for a person; `endpoints`: the addresses in a proxy; `words`: text, bytes and types in words

mod accepted;
mod arguments;
mod broken;
mod change;
mod compare;
mod convert;
mod endpoints;
mod guard;
mod input;
mod json;
mod locate;
mod night;
mod plan;
mod refused;
mod sheet;
mod show;
mod table;
mod text;
mod values;
mod words;

use arguments::Command;
use std::io::{self, BufWriter, ErrorKind, Write};
use std::process::ExitCode;

/// The exit status: the worst that happened.
#[derive(Clone, Copy, Debug, PartialEq, Eq, PartialOrd, Ord)]
pub enum Status {
    /// Everything was accepted.
    Accepted = 0,
    /// Something was refused.
    Refused = 1,
    /// Something could not be done: wrong arguments, a file that cannot be read.
    Failed = 2,
}

impl Status {
    /// Keeps the worse of the two.
    pub fn raise(&mut self, other: Status) {
        *self = (*self).max(other);
    }
}

/// Prints a line on standard error. If nobody reads it, the program goes on.
pub fn tell(text: &str) {
    let _ = writeln!(io::stderr(), "icehub: {text}");
}

fn main() -> ExitCode {
    let mut status = Status::Accepted;
    let mut out = BufWriter::with_capacity(1 << 16, io::stdout().lock());
    let written = run(&mut out, &mut status).and_then(|()| out.flush());
    match written {
        // Whoever reads the output has closed it.
        Err(error) if error.kind() == ErrorKind::BrokenPipe => {}
        Err(error) => {
            tell(&format!("cannot write the output: {error}"));
            status = Status::Failed;
        }
        Ok(()) => {}
    }
    // What is left in the buffer is dropped: it could not be written.
    let _ = out.into_parts();
    ExitCode::from(status as u8)
}

fn run(out: &mut impl Write, status: &mut Status) -> io::Result<()> {
    match arguments::parse(std::env::args_os().skip(1)) {
        Ok(Command::Help(text)) => out.write_all(text.as_bytes()),
        Ok(Command::Version) => writeln!(out, "icehub {}", env!("CARGO_PKG_VERSION")),
        Ok(Command::Show(request)) => show::run(&request, out, status),
        Ok(Command::Table(source)) => table::run(&source, out, status),
        Ok(Command::Convert(request)) => convert::run(&request, out, status),
        Ok(Command::Change(request)) => change::run(&request, out, status),
        Ok(Command::Night(request)) => night::run(&request, out, status),
        Ok(Command::Sheet(request)) => sheet::run(&request, out, status),
        Ok(Command::Plan(request)) => plan::run(&request, out, status),
        Ok(Command::Guard(request)) => guard::run(&request, out, status),
        Ok(Command::Compare(request)) => compare::run(&request, out, status),
        Err(wrong) => {
            tell(&wrong);
            status.raise(Status::Failed);
            Ok(())
        }
    }
}
