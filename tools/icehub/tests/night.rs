//! The command `night` as it is run.

mod json;

use json::Json;
use std::fs;
use std::path::PathBuf;
use std::process::{Command, Output};

fn samples() -> PathBuf {
    PathBuf::from(concat!(env!("CARGO_MANIFEST_DIR"), "/../../samples"))
}

fn run(words: &[&str]) -> Output {
    Command::new(env!("CARGO_BIN_EXE_icehub")).args(words).current_dir(samples()).output().unwrap()
}

/// A file of messages: two reports, one that is refused, and what is given.
fn night(name: &str, end: &[u8]) -> String {
    let report = fs::read(samples().join("report.message")).unwrap();
    let mut wrong = report.clone();
    wrong[5] = 9;
    let file = PathBuf::from(env!("CARGO_TARGET_TMPDIR")).join(name);
    fs::write(&file, [&report[..], &wrong, &report, end].concat()).unwrap();
    file.to_str().unwrap().to_string()
}

#[test]
fn text() {
    let file = night("text.night", &[9, 0, 0]);
    let run = run(&["night", "report.table", "3", &file]);
    assert_eq!(String::from_utf8(run.stdout).unwrap(), include_str!("shown/night"));
    assert_eq!((&run.stderr[..], run.status.code()), (&b""[..], Some(1)));
}

#[test]
fn json() {
    let file = night("json.night", &[]);
    let run = run(&["night", "--json", "report.table", "3", &file]);
    let out = String::from_utf8(run.stdout).unwrap();
    let lines: Vec<_> = out.lines().map(|line| Json::parse(line).unwrap()).collect();
    assert_eq!(lines.len(), 3, "{out}");
    assert_eq!((lines[1].get("refusal").text(), lines[1].get("at").text()), ("6", "4"));
    assert_eq!(out.lines().nth(1), Some(include_str!("shown/night-json").trim_end()));
    assert_eq!(String::from_utf8(run.stderr).unwrap(), "icehub: 3 messages: 2 accepted, 1 refused (1 by 6)\n");
    assert_eq!(run.status.code(), Some(1));
}

/// More messages than one call of the tool takes.
#[test]
fn long() {
    let report = fs::read(samples().join("report.message")).unwrap();
    let file = PathBuf::from(env!("CARGO_TARGET_TMPDIR")).join("long.night");
    fs::write(&file, report.repeat(1_000)).unwrap();
    let run = run(&["night", "report.table", "3", file.to_str().unwrap()]);
    let out = String::from_utf8(run.stdout).unwrap();
    assert_eq!(out.lines().count(), 1_002);
    assert!(out.ends_with("\n1000 messages: 1000 accepted, 0 refused\n"), "{}", out.lines().last().unwrap());
    assert_eq!(run.status.code(), Some(0));
}

#[test]
fn arguments() {
    for words in [&["night"][..], &["night", "report.table", "3"], &["night", "report.table", "3", "a", "b"]] {
        let run = run(words);
        assert_eq!(run.status.code(), Some(2));
        assert!(String::from_utf8(run.stderr).unwrap().contains("see icehub night --help"));
    }
    let help = run(&["night", "--help"]);
    assert!(String::from_utf8(help.stdout).unwrap().starts_with("icehub night [--json] TABLE TOP FILE\n"));
    assert_eq!(run(&["night", "-", "3", "-"]).status.code(), Some(2));
}
