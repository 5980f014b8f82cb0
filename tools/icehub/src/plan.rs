//! The command `plan`: plans the bursts of waiting messages, or checks a plan and says what is wrong with it.
//!
//! Lists are plain text, two numbers a line: length and cabin of a message, message and burst of an entry. What comes after
//! a # is a comment.

use crate::input::Source;
use crate::{tell, words, Status};
use icehub::{check_plan, plan, PlanRefusal, BURST_BYTES};
use std::io::{self, Write};

/// What is asked for.
#[derive(Debug, PartialEq)]
pub struct Request {
    pub messages: Source,
    /// The plan to check; none is to be made.
    pub plan: Option<Source>,
}

/// A list and the line of each of its pairs.
struct List {
    pairs: Vec<[u64; 2]>,
    lines: Vec<usize>,
}

pub fn run(request: &Request, out: &mut impl Write, status: &mut Status) -> io::Result<()> {
    let lists = list(&request.messages).and_then(|messages| {
        let plan = request.plan.as_ref().map(list).transpose()?;
        Ok((messages, plan))
    });
    match lists {
        Ok((messages, None)) => make(&messages, out, status),
        Ok((messages, Some(plan))) => check(&messages, &plan, out, status),
        Err(wrong) => {
            tell(&wrong);
            status.raise(Status::Failed);
            Ok(())
        }
    }
}

/// The list in a text.
fn list(source: &Source) -> Result<List, String> {
    let text = source.bytes(usize::MAX - 1)?;
    parse(&String::from_utf8_lossy(&text)).map_err(|wrong| format!("{}: {wrong}", source.name()))
}

fn parse(text: &str) -> Result<List, String> {
    let mut list = List { pairs: vec![], lines: vec![] };
    for (line, content) in (1..).zip(text.lines()) {
        let content = content.split('#').next().unwrap_or_default();
        let numbers: Vec<_> = content.split_whitespace().collect();
        if numbers.is_empty() {
            continue;
        }
        let [first, second] = numbers[..] else {
            return Err(format!(
                "line {line} has {} where two numbers are due",
                words::count(numbers.len(), "word", "words")
            ));
        };
        let number = |word: &str| {
            word.parse().map_err(|_| format!("line {line}: {} is no number of 64 bits", words::quoted(word)))
        };
        list.pairs.push([number(first)?, number(second)?]);
        list.lines.push(line);
    }
    Ok(list)
}

/// How many messages and bursts a plan has.
fn summary(plan: &[[u64; 2]]) -> String {
    let bursts = plan.last().map_or(0, |entry| entry[1] as usize + 1);
    format!("{} in {}", words::count(plan.len(), "message", "messages"), words::count(bursts, "burst", "bursts"))
}

fn make(messages: &List, out: &mut impl Write, status: &mut Status) -> io::Result<()> {
    let mut entries = vec![[0; 2]; messages.pairs.len()];
    match plan(&messages.pairs, &mut entries) {
        Ok(plan) => {
            for [message, burst] in plan {
                writeln!(out, "{message} {burst}")?;
            }
            writeln!(out, "# {}", summary(plan))
        }
        Err(refusal) => {
            status.raise(Status::Refused);
            writeln!(out, "{refusal}")?;
            let at = refusal.place as usize;
            match (refusal.number, messages.pairs.get(at)) {
                (45, Some([length, cabin])) => {
                    writeln!(out, "line {}: message {at} of cabin {cabin} has {length} bytes", messages.lines[at])
                }
                _ => Ok(()),
            }
        }
    }
}

fn check(messages: &List, plan: &List, out: &mut impl Write, status: &mut Status) -> io::Result<()> {
    match check_plan(&messages.pairs, &plan.pairs) {
        Ok(()) => writeln!(out, "accepted: {}", summary(&plan.pairs)),
        Err(refusal) => {
            status.raise(Status::Refused);
            writeln!(out, "{refusal}")?;
            writeln!(out, "{}", reason(&messages.pairs, plan, refusal))
        }
    }
}

/// What is wrong with a plan, in words.
fn reason(messages: &[[u64; 2]], plan: &List, refusal: PlanRefusal) -> String {
    let entries = &plan.pairs;
    let at = refusal.place as usize;
    let Some(&[message, burst]) = entries.get(at) else {
        let missing = (0..messages.len() as u64).filter(|&message| entries.iter().all(|entry| entry[0] != message));
        let missing: Vec<_> = missing.collect();
        let shown: Vec<_> = missing.iter().take(8).map(u64::to_string).collect();
        let more = if missing.len() > shown.len() { ", .." } else { "" };
        return format!(
            "{} in no entry: {}{more}",
            words::count(missing.len(), "message is", "messages are"),
            shown.join(", ")
        );
    };
    let (line, before) = (plan.lines[at], &entries[..at]);
    let waiting = |message: u64| messages.get(message as usize).copied();
    let Some([_, cabin]) = waiting(message) else {
        let count = words::count(messages.len(), "message waits", "messages wait");
        return format!("line {line}: there is no message {message}: {count}, counted from 0");
    };
    if let Some(entry) = before.iter().position(|entry| entry[0] == message) {
        return format!("line {line}: message {message} is in line {} already", plan.lines[entry]);
    }
    match before.last() {
        None if burst != 0 => return format!("line {line}: the first burst is 0, not {burst}"),
        Some(&[_, last]) if burst.wrapping_sub(last) > 1 => {
            let next = last.saturating_add(1);
            return format!("line {line}: burst {burst} where {last} or {next} is due");
        }
        _ => {}
    }
    let inside = before.iter().filter(|entry| entry[1] == burst).map(|entry| entry[0]).chain([message]);
    let bytes: u128 = inside.filter_map(waiting).map(|[length, _]| u128::from(length)).sum();
    if bytes > BURST_BYTES.into() {
        return format!("line {line}: burst {burst} has {bytes} bytes with message {message}, {BURST_BYTES} at most");
    }
    let overtaken =
        before.iter().position(|entry| entry[0] > message && waiting(entry[0]).is_some_and(|x| x[1] == cabin));
    match overtaken {
        Some(entry) => {
            let (later, at) = (entries[entry][0], plan.lines[entry]);
            format!("line {line}: message {message} of cabin {cabin} comes after message {later} of that cabin, in line {at}")
        }
        None => format!("line {line}"),
    }
}

#[cfg(test)]
mod tests {
    use super::*;

    #[test]
    fn texts() {
        let list = parse("# length cabin\n\n100 7 # the first\r\n 18446744073709551615\t0").unwrap();
        assert_eq!((list.pairs, list.lines), (vec![[100, 7], [u64::MAX, 0]], vec![3, 4]));
        let wrong = |text| parse(text).err().unwrap();
        assert_eq!(wrong("1 2\n3"), "line 2 has 1 word where two numbers are due");
        assert_eq!(wrong("1 2 3"), "line 1 has 3 words where two numbers are due");
        assert_eq!(wrong("1 -2"), "line 1: \"-2\" is no number of 64 bits");
        assert_eq!(wrong("18446744073709551616 2"), "line 1: \"18446744073709551616\" is no number of 64 bits");
    }
}
