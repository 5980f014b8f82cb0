//! The command `guard` as it is run: a night across day 49, a refused report, and wrong arguments.

use std::fs;
use std::path::PathBuf;
use std::process::Command;

/// A report of three fields.
fn message(reading: i16, tick: i64, delay: i32) -> Vec<u8> {
    let mut bytes = vec![22, 0, 0, 0, 1, 1];
    bytes.extend(reading.to_le_bytes());
    bytes.extend([&[0x3B][..], &tick.to_le_bytes(), &[0x42], &delay.to_le_bytes()].concat());
    bytes
}

fn file(name: &str, bytes: &[u8]) -> String {
    let folder = PathBuf::from(env!("CARGO_TARGET_TMPDIR")).join("guard");
    fs::create_dir_all(&folder).unwrap();
    let path = folder.join(name);
    fs::write(&path, bytes).unwrap();
    path.to_str().unwrap().to_string()
}

/// Exit status, standard output and standard error.
fn run(words: &[&str]) -> (i32, String, String) {
    let output = Command::new(env!("CARGO_BIN_EXE_icehub")).args(words).output().unwrap();
    let text = |bytes| String::from_utf8(bytes).unwrap();
    (output.status.code().unwrap(), text(output.stdout), text(output.stderr))
}

#[test]
fn a_night_across_day_49() {
    let night = [
        message(12, 4_293_000_000, 1_800),
        message(-500, (1 << 32) - 1_800_000, 1_800),
        message(-500, (1 << 32) - 1, 1_800),
        message(-500, 1 << 32, 1_800),
        message(-500, (1 << 32) + 1, 3_600),
    ];
    let expected = "     0  4293000000 ms: no freeze
     1  4293167296 ms: freeze since 4293167296 ms, 0 ms of 1800000 ms
     2  4294967295 ms: freeze since 4293167296 ms, 1799999 ms of 1800000 ms
     3  4294967296 ms: freeze since 4293167296 ms, 1800000 ms of 1800000 ms: the timer fires
     4  4294967297 ms: freeze since 4293167296 ms, 1800001 ms of 3600000 ms

5 reports, 0 refused
the timer fires first with report 3, at 4294967296 ms; with 1 report in all
";
    let (status, out, err) = run(&["guard", "0", &file("night", &night.concat())]);
    assert_eq!((status, out.as_str(), err.as_str()), (0, expected, ""));
    let hex: String = night.concat().iter().map(|byte| format!("{byte:02x}\n")).collect();
    assert_eq!(run(&["guard", "--hex", "0", &file("night.hex", hex.as_bytes())]).1, expected);
    let (_, out, _) = run(&["guard", "--", "-501", &file("night", &night.concat())]);
    assert!(out.ends_with("5 reports, 0 refused\nthe timer does not fire\n"));
}

#[test]
fn a_refused_report_changes_nothing() {
    let night = [message(0, 1_000, 1), message(0, 999, 1), message(0, 2_000, 1), vec![22, 0, 0, 0]];
    let expected = "     0  1000 ms: freeze since 1000 ms, 0 ms of 1000 ms
     1  refused by 40 at 0: frost guard: the tick is negative or lower than the last
     2  2000 ms: freeze since 1000 ms, 1000 ms of 1000 ms: the timer fires
     3  refused by 5 at 0: the encapsulation's size is under 6 or not the message's length

4 reports, 2 refused
the timer fires first with report 2, at 2000 ms; with 1 report in all
";
    let (status, out, err) = run(&["guard", "0", &file("refused", &night.concat())]);
    assert_eq!((status, out.as_str(), err.as_str()), (1, expected, ""));
    let (status, out, _) = run(&["guard", "0", &file("empty", b"")]);
    assert_eq!((status, out.as_str()), (0, "\n0 reports, 0 refused\nthe timer does not fire\n"));
}

#[test]
fn wrong_arguments() {
    let good = file("good", b"");
    for words in [
        &["guard"][..],
        &["guard", "0"],
        &["guard", "32768", &good],
        &["guard", "x", &good],
        &["guard", "0", &good, &good],
    ] {
        let (status, out, err) = run(words);
        assert_eq!((status, out.as_str(), err.is_empty()), (2, "", false), "{words:?}");
    }
    assert!(run(&["guard", "--help"]).1.starts_with("icehub guard"));
}
