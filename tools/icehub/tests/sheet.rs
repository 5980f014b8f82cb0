//! The command `sheet` as it is run.

use std::fs;
use std::path::PathBuf;
use std::process::{Command, Output};

fn samples() -> PathBuf {
    PathBuf::from(concat!(env!("CARGO_MANIFEST_DIR"), "/../../samples"))
}

fn run(words: &[&str]) -> Output {
    Command::new(env!("CARGO_BIN_EXE_icehub")).args(words).current_dir(samples()).output().unwrap()
}

/// A file of messages: two reports, and one that is refused.
fn season(name: &str) -> String {
    let report = fs::read(samples().join("report.message")).unwrap();
    let mut wrong = report.clone();
    wrong[5] = 9;
    let mut warmer = report.clone();
    warmer[6..8].copy_from_slice(&3_i16.to_le_bytes());
    let file = PathBuf::from(env!("CARGO_TARGET_TMPDIR")).join(name);
    fs::write(&file, [report, wrong, warmer].concat()).unwrap();
    file.to_str().unwrap().to_string()
}

#[test]
fn text() {
    let file = season("text.season");
    let run = run(&["sheet", "report.table", "3", "0", &file, "report.message"]);
    assert_eq!(String::from_utf8(run.stdout).unwrap(), include_str!("shown/sheet"));
    assert_eq!((&run.stderr[..], run.status.code()), (&b""[..], Some(1)));
}

#[test]
fn json() {
    let file = season("json.season");
    let run = run(&["sheet", "--json", "report.table", "3", "0", &file, "report.message"]);
    assert_eq!(String::from_utf8(run.stdout).unwrap(), include_str!("shown/sheet-json"));
    assert_eq!(run.status.code(), Some(1));
}

/// A member that is neither a short nor an int, and one that is no number.
#[test]
fn refused() {
    let run_refused = run(&["sheet", "report.table", "3", "1", "report.message"]);
    assert!(String::from_utf8(run_refused.stderr).unwrap().contains("refused by 43 (BAD_MEMBER)"));
    assert_eq!((run_refused.stdout.len(), run_refused.status.code()), (0, Some(1)));
    let no_number = run(&["sheet", "report.table", "3", "setPoint", "report.message"]);
    assert_eq!(no_number.status.code(), Some(2));
}
