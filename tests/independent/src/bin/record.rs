//! record DIRECTORY MORE.. REPLAY: puts recorded calls into the gate: the files `stdin` and `stdout` of REPLAY, which is
//! crates/replay. First come the checks, the readings, some of these once more with row records, the views, the conversions
//! and the writings of DIRECTORY's *.jsonl; then, as they are now, the cases of document 01 and the largest tables, which
//! REPLAY has after its last writing; then the calls of each MORE, a directory of a request that adds calls. Left out are
//! calls with longer lists than the program lends. Stops where this implementation answers otherwise than recorded.

use independent::calls::{Answer, Call};
use independent::replay::{self, Recorded};
use std::path::Path;
use std::{env, fs, process};

/// One reading in so many is made with row records too, of those accepted and of those refused.
const ACCEPTED: usize = 4;
const REFUSED: usize = 40;

fn main() {
    let words: Vec<String> = env::args().skip(1).collect();
    let [directory, more @ .., replay] = &words[..] else { stop("record DIRECTORY MORE.. REPLAY") };
    let (directory, replay) = (Path::new(directory), Path::new(replay));

    let mut calls = vec![];
    for name in ["check", "read", "view", "convert", "write"] {
        let made = recorded(&directory.join(name).with_extension("jsonl"));
        println!("{name}: {}", made.len());
        calls.extend(made.iter().map(|(call, answer)| (Recorded::from(call.clone()), answer.clone())));
        let readings = made.into_iter().filter(|(call, _)| matches!(call, Call::Read { .. }));
        let (accepted, refused): (Vec<_>, Vec<_>) = readings.partition(|(_, answer)| answer.refusal() == 0);
        let some = accepted.into_iter().step_by(ACCEPTED).chain(refused.into_iter().step_by(REFUSED));
        calls.extend(some.map(|(call, _)| with_records(call)));
    }
    let stdin = read(&replay.join("stdin"));
    let Some(mut old) = replay::calls(&stdin) else { stop("REPLAY has no recorded calls") };
    old.retain(|old| !is_more(&old.call));
    let last = old.iter().rposition(|old| matches!(old.call, Call::Write { .. })).map_or(0, |last| last + 1);
    // Readings with row records are kept if they are one of these cases too.
    let is_case =
        |kept: &Recorded| old[last..].iter().any(|case| !case.is_of_records && case.call.table() == kept.call.table());
    let kept: Vec<_> = old[last..].iter().filter(|call| is_case(call)).collect();
    println!("kept: {}", kept.len());
    calls.extend(kept.iter().map(|&kept| (kept.clone(), kept.call.answer())));
    let added = more.iter().flat_map(|directory| all(Path::new(directory)));
    calls.extend(added.map(|(call, answer)| (Recorded::from(call), answer)));

    let lines: String = calls.iter().map(|(recorded, answer)| recorded.line(answer) + "\n").collect();
    let calls: Vec<_> = calls.into_iter().map(|(recorded, _)| recorded).collect();
    println!(
        "{} calls in all, {} with row records",
        calls.len(),
        calls.iter().filter(|call| call.is_of_records).count()
    );
    write(&replay.join("stdin"), &replay::stdin(&calls));
    write(&replay.join("stdout"), lines.as_bytes());
}

/// Whether a call is of a request that adds calls; these are after all others.
fn is_more(call: &Call) -> bool {
    matches!(
        call,
        Call::Night(_)
            | Call::Sheet(_)
            | Call::Endpoint(_)
            | Call::Plan(_)
            | Call::Set { .. }
            | Call::Remove { .. }
            | Call::Guard(_)
            | Call::Compare(_)
    )
}

/// Whether the program lends lists as long as this call's.
fn is_lent(call: &Call) -> bool {
    match call {
        Call::Night(night) => night.answers.max(night.rows) <= replay::MOST_LENT,
        Call::Compare(call) => call.room <= replay::MOST_LENT,
        _ => true,
    }
}

/// The recorded calls of a directory, file by file, of those that the program can make.
fn all(directory: &Path) -> Vec<(Call, Answer)> {
    let entries = fs::read_dir(directory).unwrap_or_else(|error| stop(&format!("{}: {error}", directory.display())));
    let mut files: Vec<_> = entries.flatten().map(|entry| entry.path()).collect();
    files.retain(|file| file.extension().is_some_and(|extension| extension == "jsonl"));
    files.sort();
    let (made, left_out): (Vec<_>, Vec<_>) =
        files.iter().flat_map(|file| recorded(file)).partition(|(call, _)| is_lent(call));
    println!("{}: {}, left out {}", directory.display(), made.len(), left_out.len());
    made
}

/// The recorded calls of a file with their answers.
fn recorded(file: &Path) -> Vec<(Call, Answer)> {
    let text = String::from_utf8_lossy(&read(file)).into_owned();
    let lines = text.lines().map(|line| match Call::parse(line) {
        Some((call, answer)) if call.answer() == answer => (call, answer),
        Some((call, _)) => stop(&format!("{}: {} is not {line}", file.display(), call.answer().json())),
        None => stop(&format!("{}: no recorded call: {line}", file.display())),
    });
    lines.collect()
}

/// The same reading with eight row records.
fn with_records(call: Call) -> (Recorded, Answer) {
    let Call::Read { table, top, message, .. } = call else { unreachable!() };
    let call = Call::Read { table, top, message, room: replay::RECORDS };
    let answer = call.answer();
    (Recorded { call, is_of_records: true }, answer)
}

fn read(file: &Path) -> Vec<u8> {
    fs::read(file).unwrap_or_else(|error| stop(&format!("{}: {error}", file.display())))
}

fn write(file: &Path, bytes: &[u8]) {
    fs::write(file, bytes).unwrap_or_else(|error| stop(&format!("{}: {error}", file.display())));
}

fn stop(why: &str) -> ! {
    eprintln!("{why}");
    process::exit(2)
}
