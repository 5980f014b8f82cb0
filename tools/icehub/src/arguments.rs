//! The command line, and the help.

use crate::input::Source;
use crate::{change, compare, convert, guard, night, plan, sheet, show};
use std::ffi::OsString;

/// What is to be done.
#[derive(Debug, PartialEq)]
pub enum Command {
    Help(&'static str),
    Version,
    Show(show::Request),
    Table(Source),
    Convert(convert::Request),
    Change(change::Request),
    Night(night::Request),
    Sheet(sheet::Request),
    Plan(plan::Request),
    Guard(guard::Request),
    Compare(compare::Request),
}

const HELP: &str = "\
icehub: shows messages of Ice encodings 1.1 and 1.0 by their type table

  icehub show [--json] [--hex] TABLE TOP FILE..   show messages, or why they are refused
  icehub table TABLE                              show a type table, or where it breaks a rule
  icehub convert TABLE TOP FILE.. --to DIR        convert compact records to sliced ones
  icehub set TABLE TOP IN MEMBER VALUE OUT        set one optional member, and pass on the rest
  icehub remove TABLE TOP IN MEMBER OUT           remove one optional member, and pass on the rest
  icehub night [--json] TABLE TOP FILE            read a file of many messages, a line for each
  icehub sheet [--json] TABLE TOP MEMBER FILE..   sum up one member over files of many messages
  icehub plan FILE                                plan the satellite bursts of waiting messages
  icehub plan --check FILE PLAN                   check a plan, and say what is wrong with it
  icehub guard [--hex] SETPOINT FILE              replay the reports of a frost guard
  icehub compare OLD TOP NEW TOP                  compare two type tables before the new one is shipped
  icehub --version                                print the version
  icehub --help, icehub COMMAND --help            print help

Exit status: 0 everything accepted, 1 something refused, 2 something could not be done (arguments, files).
";

const SHOW_HELP: &str = "\
icehub show [--json] [--hex] TABLE TOP FILE..

Shows each message: its members with their places and values, or its refusal in words with the bytes around its place.

  TABLE    the type table, a file
  TOP      the wanted type: the number of its row, counted from 0, or the name of an exception or class
  FILE..   the messages, one in each file; - is standard input
  --json   one JSON object a line for each message; the summary goes to standard error
  --hex    the FILEs are hex text: pairs of digits, with any white space between them
  --       what follows is no option

With several FILEs each message has its file's name, and a summary comes at the end. If that takes more than a second, a
line on standard error says how far it is, where that is a terminal and standard output is not.

In JSON, a struct is a list of its members' values, a dictionary a list of objects with key and value (jq's
from_entries), an enumerator its number, a nil proxy null, and a float that is no number one of the strings NaN,
Infinity and -Infinity. An endpoint of TCP, SSL or UDP has host, port, timeout and compress, or the number and the place
by which it cannot be opened. A long is a number with all its digits; jq before 1.7 rounds those beyond 2^53. A message that is
refused for a string that is no text has that string's place, its length, its first bad byte and what is wrong there.

  icehub show --json report.table 3 *.message | jq -c 'select(.accepted | not) | [.file, .refusal, .place]'

Exit status: 0 all messages accepted, 1 some refused, 2 something could not be done (arguments, files).
";

const TABLE_HELP: &str = "\
icehub table TABLE

Shows a type table: its version, its types with their members, names, bases and lists of enumerators, and
which of them can be a top. If the table breaks a rule it says which row breaks it and what is wrong with that row, and
shows the rows before it.

  TABLE    the type table, a file; - is standard input

Exit status: 0 no rule is broken, 1 a rule is broken, 2 something could not be done (arguments, files).
";

const CONVERT_HELP: &str = "\
icehub convert [--hex] [--overwrite] TABLE TOP FILE.. --to DIR

Converts each compact record to the sliced one with the same members and bytes, which hubs with older tables can read. It
is put into DIR, in a file of the same name. Says for each FILE how many bytes were written, or why it was refused: 47 is
no compact record (a sliced one, or a parameter list), 48 one of which TABLE does not know everything. Only what is
converted is written. A summary comes at the end.

  TABLE        the type table, a file
  TOP          the wanted type: the number of its row, counted from 0, or the name of an exception or class
  FILE..       the records, one in each file
  --to DIR     the folder for the converted records; it is made if it is not there
  --overwrite  a file that is in DIR already may be overwritten; without this it stays, and the tool says so
  --hex        the FILEs are hex text: pairs of digits, with any white space between them
  --           what follows is no option

Exit status: 0 all records converted, 1 some refused, 2 something could not be done (arguments, files).
";

const CHANGE_HELP: &str = "\
icehub set [--hex] [--overwrite] TABLE TOP IN MEMBER VALUE OUT
icehub remove [--hex] [--overwrite] TABLE TOP IN MEMBER OUT

Sets or removes one optional member of a message: a parameter list or a sliced record, also of a newer sender. Setting adds
the member or replaces its value. Everything else keeps its bytes and order, also what TABLE does not know. Says how many
bytes were written, or why the change was refused: 49 MEMBER is no optional of the message's type, 50 there is nothing to
remove, 51 a compact record (see icehub convert), 21 a VALUE that the type does not allow.

  TABLE        the type table, a file
  TOP          the wanted type: the number of its row, counted from 0, or the name of an exception or class
  IN           the message, a file; - is standard input
  MEMBER       the number of the member, as icehub table and icehub show have it
  VALUE        in the member's type: a number or an enumerator's number in decimal, true or false, the text of a string; of
               a struct, sequence, dictionary or proxy its bytes in hex, as a message has them, with their own size
  OUT          the file for the result; - is standard output
  --overwrite  OUT may be overwritten; without this a file that is there already stays, and the tool says so
  --hex        IN is hex text: pairs of digits, with any white space between them
  --           what follows is no option, as for a text that begins with -

  icehub set fault.table ::Guard::Fault fault.message 1 3600 fault.changed

Exit status: 0 changed, 1 refused, 2 something could not be done (arguments, files).
";

const NIGHT_HELP: &str = "\
icehub night [--json] TABLE TOP FILE

Reads a file of many messages, back to back, as one call of the library reads a whole night. Each message has a line: its
place in the file and its length, then that it is accepted with so many members, or its refusal. The walk goes on after a
refused message. It stops where a size is under 6, above 65,536, cut off or past the end of the file; that has the last
line. A summary comes at the end.

  TABLE    the type table, a file
  TOP      the wanted type: the number of its row, counted from 0, or the name of an exception or class
  FILE     the messages; - is standard input
  --json   one JSON object a line for each message; the summary goes to standard error
  --       what follows is no option

If it takes more than a second, a bar on standard error says how far it is, where that is a terminal and standard output is
not.

In JSON, place is the place of the message in the file, and at the place of its refusal, which counts from the message's
own first byte.

  icehub night --json report.table 3 night.bin | jq -c 'select(.accepted | not) | [.place, .refusal, .at]'

Exit status: 0 all messages accepted, 1 some refused, 2 something could not be done (arguments, files).
";

const SHEET_HELP: &str = "\
icehub sheet [--json] TABLE TOP MEMBER FILE..

Sums up one short or int member over files of many messages, back to back, as a season sheet: how many messages carry it,
lack it or are refused, its smallest and largest value, the exact sum, and the mean as whole part and remainder, the
remainder never negative.

  TABLE    the type table, a file
  TOP      the wanted type: the number of its row, counted from 0, or the name of an exception or class
  MEMBER   the number of the member row, counted from 0; icehub table shows it
  FILE..   the messages; - is standard input
  --json   one JSON object; what is absent is null
  --       what follows is no option

What stops the walk over a file (a size under 6, above 65,536, cut off or past its end) is a refused message. A season has
at most 1,000,000 messages.

Exit status: 0 all messages accepted, 1 some refused, or the member or the season, 2 something could not be done (arguments,
files).
";

const PLAN_HELP: &str = "\
icehub plan FILE
icehub plan --check FILE PLAN

Plans satellite bursts of at most 340 bytes: takes the messages in turn and opens a new burst only where the next message
does not fit. With --check it checks a plan of any make, and says which line breaks which rule.

  FILE     the waiting messages, two numbers a line: length in bytes, and cabin. Messages are counted from 0
  PLAN     the plan, two numbers a line: a message's number and its burst's; what icehub plan prints
  --       what follows is no option

Either may be -, standard input. What comes after a # is a comment, and empty lines are passed over.

A plan is right if burst numbers start at 0 and each is the one before or one more, each message is in exactly one entry,
each burst has at most 340 bytes, and the messages of one cabin are in their waiting order.

Exit status: 0 planned or accepted, 1 refused, 2 something could not be done (arguments, files).
";

const GUARD_HELP: &str = "\
icehub guard [--hex] SETPOINT FILE

Replays the reports of a frost guard, one after another from the start, and says after each what the guard keeps and
whether the timer fires. A reading at or below the set point starts a freeze, one above ends it; the timer fires where the
freeze has lasted for the report's delay. A refused report changes nothing.

  SETPOINT  the set point, -32768 to 32767, in the units of the readings; write -- before a negative one
  FILE      the reports, messages one after another; - is standard input
  --hex     FILE is hex text: pairs of digits, with any white space between them
  --        what follows is no option

Reports are parameter lists of a short (the reading), an optional(7) long (the tick in milliseconds) and an optional(8) int
(the delay in seconds).

Exit status: 0 all reports accepted, 1 some refused, 2 something could not be done (arguments, files).
";

const COMPARE_HELP: &str = "\
icehub compare OLD TOP NEW TOP

Compares an old type table and a new one: a line for each difference, with names, tags and types, then whether an old hub
reads everything a new sender writes. Records come by their names, then parameter lists by their order; of each the base,
required members by position, optional members by tag. Members of a record that only one table has are not listed.

  OLD, NEW  the type tables, files
  TOP       the type that is sent: the number of its row, counted from 0, or the name of an exception or class
  --        what follows is no option

Exit status: 0 the new table may be shipped, 1 it may not, 2 something could not be done (arguments, files, a table that
breaks a rule).
";

/// The command of these words, or what is wrong with them.
pub fn parse(words: impl IntoIterator<Item = OsString>) -> Result<Command, String> {
    let mut words = words.into_iter();
    let Some(first) = words.next() else {
        return Err("a command is missing; see icehub --help".to_string());
    };
    match first.to_str() {
        Some("--help" | "-h" | "help") => Ok(Command::Help(HELP)),
        Some("--version" | "-V") => Ok(Command::Version),
        Some("show") => parse_show(words),
        Some("table") => parse_table(words),
        Some("convert") => parse_convert(words),
        Some("set") => parse_change(words, "set"),
        Some("remove") => parse_change(words, "remove"),
        Some("night") => parse_night(words),
        Some("sheet") => parse_sheet(words),
        Some("plan") => parse_plan(words),
        Some("guard") => parse_guard(words),
        Some("compare") => parse_compare(words),
        _ => Err(format!("{} is no command; see icehub --help", first.to_string_lossy())),
    }
}

/// The words after a command.
#[derive(Default)]
struct Words {
    options: Vec<&'static str>,
    /// What follows `--to`.
    to: Option<OsString>,
    operands: Vec<OsString>,
}

/// The options and the other words, in order; `--to` takes the word after it. None where help is asked for.
fn split(
    words: impl Iterator<Item = OsString>,
    known: &[&'static str],
    command: &str,
) -> Result<Option<Words>, String> {
    let (mut found, mut ended) = (Words::default(), false);
    let mut words = words;
    while let Some(word) = words.next() {
        let text = word.to_str().unwrap_or_default();
        // A VALUE may be a negative number.
        let is_number = command == "set" && text.strip_prefix('-').is_some_and(|rest| rest.parse::<f64>().is_ok());
        if ended || !text.starts_with('-') || text == "-" || is_number {
            found.operands.push(word);
        } else if text == "--" {
            ended = true;
        } else if text == "--help" || text == "-h" {
            return Ok(None);
        } else if text == "--to" && known.contains(&"--to") {
            match (words.next(), &found.to) {
                (Some(to), None) => found.to = Some(to),
                (Some(_), Some(_)) => return Err("--to is named twice".to_string()),
                (None, _) => return Err("DIR is missing after --to".to_string()),
            }
        } else if let Some(option) = known.iter().find(|&&option| option == text) {
            found.options.push(*option);
        } else {
            return Err(format!("{text} is no option of {command}; see icehub {command} --help"));
        }
    }
    Ok(Some(found))
}

fn parse_show(words: impl Iterator<Item = OsString>) -> Result<Command, String> {
    let Some(Words { options, operands, .. }) = split(words, &["--json", "--hex"], "show")? else {
        return Ok(Command::Help(SHOW_HELP));
    };
    let (table, top, files) = messages(operands, "show")?;
    let is = |option| options.contains(&option);
    Ok(Command::Show(show::Request { json: is("--json"), hex: is("--hex"), table, top, files }))
}

/// TABLE, TOP and the FILEs of a command.
fn messages(operands: Vec<OsString>, command: &str) -> Result<(Source, String, Vec<Source>), String> {
    let mut operands = operands.into_iter();
    let (Some(table), Some(top)) = (operands.next(), operands.next()) else {
        return Err(format!("TABLE or TOP is missing; see icehub {command} --help"));
    };
    let files: Vec<_> = operands.map(Source::new).collect();
    if files.is_empty() {
        return Err(format!("a FILE is missing; see icehub {command} --help"));
    }
    let table = Source::new(table);
    if files.iter().chain([&table]).filter(|&source| *source == Source::Standard).count() > 1 {
        return Err("- is named twice: standard input can be read only once".to_string());
    }
    match top.into_string() {
        Ok(top) => Ok((table, top, files)),
        Err(top) => Err(format!("TOP is no text: {}", top.to_string_lossy())),
    }
}

fn parse_convert(words: impl Iterator<Item = OsString>) -> Result<Command, String> {
    let Some(Words { options, to, operands }) = split(words, &["--to", "--hex", "--overwrite"], "convert")? else {
        return Ok(Command::Help(CONVERT_HELP));
    };
    let (table, top, files) = messages(operands, "convert")?;
    if files.contains(&Source::Standard) {
        return Err("standard input has no name in DIR: name FILEs".to_string());
    }
    let Some(to) = to else { return Err("--to DIR is missing; see icehub convert --help".to_string()) };
    let is = |option| options.contains(&option);
    let (hex, overwrite) = (is("--hex"), is("--overwrite"));
    Ok(Command::Convert(convert::Request { hex, overwrite, table, top, files, to: to.into() }))
}

/// `set` with its VALUE, or `remove`.
fn parse_change(words: impl Iterator<Item = OsString>, command: &str) -> Result<Command, String> {
    let Some(Words { options, operands, .. }) = split(words, &["--hex", "--overwrite"], command)? else {
        return Ok(Command::Help(CHANGE_HELP));
    };
    let is_set = command == "set";
    let takes = if is_set { "TABLE TOP IN MEMBER VALUE OUT" } else { "TABLE TOP IN MEMBER OUT" };
    let wrong = || format!("{command} takes {takes}; see icehub {command} --help");
    if operands.len() != takes.split(' ').count() {
        return Err(wrong());
    }
    let mut operands = operands.into_iter();
    let mut next = || operands.next().ok_or_else(wrong);
    let text = |word: OsString, what: &str| {
        word.into_string().map_err(|word| format!("{what} is no text: {}", word.to_string_lossy()))
    };
    let (table, top, message) = (Source::new(next()?), text(next()?, "TOP")?, Source::new(next()?));
    let member = text(next()?, "MEMBER")?;
    let member = member.parse().map_err(|_| format!("MEMBER is no number of a member: {member}"))?;
    let value = if is_set { Some(text(next()?, "VALUE")?) } else { None };
    let to = next()?;
    if table == Source::Standard && message == Source::Standard {
        return Err("- is named twice: standard input can be read only once".to_string());
    }
    let is = |option| options.contains(&option);
    let (hex, overwrite) = (is("--hex"), is("--overwrite"));
    let to = if to == "-" { None } else { Some(to.into()) };
    Ok(Command::Change(change::Request { hex, overwrite, table, top, message, member, value, to }))
}

fn parse_table(words: impl Iterator<Item = OsString>) -> Result<Command, String> {
    let Some(Words { operands, .. }) = split(words, &[], "table")? else {
        return Ok(Command::Help(TABLE_HELP));
    };
    match <[OsString; 1]>::try_from(operands) {
        Ok([table]) => Ok(Command::Table(Source::new(table))),
        Err(_) => Err("table takes one TABLE; see icehub table --help".to_string()),
    }
}

fn parse_night(words: impl Iterator<Item = OsString>) -> Result<Command, String> {
    let Some(Words { options, operands, .. }) = split(words, &["--json"], "night")? else {
        return Ok(Command::Help(NIGHT_HELP));
    };
    let Ok([table, top, file]) = <[OsString; 3]>::try_from(operands) else {
        return Err("night takes TABLE, TOP and one FILE; see icehub night --help".to_string());
    };
    let (table, file) = (Source::new(table), Source::new(file));
    if table == Source::Standard && file == Source::Standard {
        return Err("- is named twice: standard input can be read only once".to_string());
    }
    let top = match top.into_string() {
        Ok(top) => top,
        Err(top) => return Err(format!("TOP is no text: {}", top.to_string_lossy())),
    };
    Ok(Command::Night(night::Request { json: options.contains(&"--json"), table, top, file }))
}

fn parse_sheet(words: impl Iterator<Item = OsString>) -> Result<Command, String> {
    let Some(Words { options, mut operands, .. }) = split(words, &["--json"], "sheet")? else {
        return Ok(Command::Help(SHEET_HELP));
    };
    if operands.len() < 3 {
        return Err("TABLE, TOP or MEMBER is missing; see icehub sheet --help".to_string());
    }
    let member = operands.remove(2);
    let Some(member) = member.to_str().and_then(|member| member.parse().ok()) else {
        return Err(format!("MEMBER is no row number: {}", member.to_string_lossy()));
    };
    let (table, top, files) = messages(operands, "sheet")?;
    Ok(Command::Sheet(sheet::Request { json: options.contains(&"--json"), table, top, member, files }))
}

fn parse_plan(words: impl Iterator<Item = OsString>) -> Result<Command, String> {
    let Some(Words { options, operands, .. }) = split(words, &["--check"], "plan")? else {
        return Ok(Command::Help(PLAN_HELP));
    };
    let mut sources = operands.into_iter().map(Source::new);
    let (messages, plan, more) = (sources.next(), sources.next(), sources.next());
    match (messages, plan, more, options.is_empty()) {
        (Some(messages), None, None, true) => Ok(Command::Plan(plan::Request { messages, plan: None })),
        (Some(Source::Standard), Some(Source::Standard), None, false) => {
            Err("- is named twice: standard input can be read only once".to_string())
        }
        (Some(messages), plan @ Some(_), None, false) => Ok(Command::Plan(plan::Request { messages, plan })),
        _ => Err("plan takes one FILE, plan --check a FILE and a PLAN; see icehub plan --help".to_string()),
    }
}

fn parse_guard(words: impl Iterator<Item = OsString>) -> Result<Command, String> {
    let Some(Words { options, operands, .. }) = split(words, &["--hex"], "guard")? else {
        return Ok(Command::Help(GUARD_HELP));
    };
    let Ok([set_point, file]) = <[OsString; 2]>::try_from(operands) else {
        return Err("guard takes a SETPOINT and a FILE; see icehub guard --help".to_string());
    };
    match set_point.to_str().and_then(|text| text.parse().ok()) {
        Some(set_point) => {
            Ok(Command::Guard(guard::Request { set_point, hex: !options.is_empty(), file: Source::new(file) }))
        }
        None => Err(format!("{} is no set point, -32768 to 32767", set_point.to_string_lossy())),
    }
}

fn parse_compare(words: impl Iterator<Item = OsString>) -> Result<Command, String> {
    let Some(Words { operands, .. }) = split(words, &[], "compare")? else {
        return Ok(Command::Help(COMPARE_HELP));
    };
    let Ok([old, old_top, new, new_top]) = <[OsString; 4]>::try_from(operands) else {
        return Err("compare takes OLD, TOP, NEW and TOP; see icehub compare --help".to_string());
    };
    let (old, new) = (Source::new(old), Source::new(new));
    if old == Source::Standard && new == Source::Standard {
        return Err("- is named twice: standard input can be read only once".to_string());
    }
    let top = |word: OsString| word.into_string().map_err(|word| format!("TOP is no text: {}", word.to_string_lossy()));
    Ok(Command::Compare(compare::Request { old, old_top: top(old_top)?, new, new_top: top(new_top)? }))
}
