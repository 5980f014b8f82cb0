//! vectors PATH...: runs all recorded calls of these directories (their *.jsonl) and files, and says how many agree.
//! With the feature `library` the proved library has to agree as well, in the calls that C has.

use independent::calls::{Answer, Call};
use std::path::{Path, PathBuf};
use std::{env, fs, process};

fn main() {
    let paths: Vec<String> = env::args().skip(1).collect();
    if paths.is_empty() {
        eprintln!("vectors PATH...");
        process::exit(2);
    }
    let (mut agree, mut all) = (0, 0);
    for file in paths.iter().flat_map(|path| files(Path::new(path))) {
        let text = fs::read_to_string(&file).unwrap_or_else(|error| {
            eprintln!("{}: {error}", file.display());
            process::exit(2)
        });
        let (mut here, mut lines) = (0, 0);
        for (line, call) in text.lines().enumerate().filter(|(_, call)| call.starts_with('{')) {
            lines += 1;
            match run(call) {
                Ok(()) => here += 1,
                Err(difference) => println!("{}:{}: {difference}", file.display(), line + 1),
            }
        }
        println!("{}: {here} of {lines} agree", file.display());
        agree += here;
        all += lines;
    }
    println!("{agree} of {all} agree");
    process::exit(i32::from(agree != all || all == 0));
}

fn run(line: &str) -> Result<(), String> {
    let (call, expected) = Call::parse(line).ok_or("no recorded call")?;
    for (who, answer) in answers(&call) {
        if answer != expected {
            return Err(format!("{who}: {} is not {}", answer.json(), expected.json()));
        }
    }
    Ok(())
}

fn answers(call: &Call) -> Vec<(&'static str, Answer)> {
    let own = ("independent", call.answer());
    #[cfg(feature = "library")]
    let library = independent::ffi::answer(call);
    #[cfg(not(feature = "library"))]
    let library = None;
    std::iter::once(own).chain(library.map(|answer| ("library", answer))).collect()
}

/// The recorded calls of a directory, or the file itself.
fn files(path: &Path) -> Vec<PathBuf> {
    let Ok(entries) = fs::read_dir(path) else {
        return vec![path.to_path_buf()];
    };
    let recorded = |path: &PathBuf| path.extension().is_some_and(|extension| extension == "jsonl");
    let mut files: Vec<_> = entries.flatten().map(|entry| entry.path()).filter(recorded).collect();
    files.sort();
    files
}
