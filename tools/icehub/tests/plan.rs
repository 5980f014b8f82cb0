//! The command `plan` as it is run: plans that are made and checked, every way in which a plan is wrong, and wrong input.

use std::fs;
use std::path::PathBuf;
use std::process::Command;

const MESSAGES: &str = "# length cabin\n100 7\n140 8\n100 7\n1 8\n";

/// A file with this text.
fn file(name: &str, text: &str) -> String {
    let folder = PathBuf::from(env!("CARGO_TARGET_TMPDIR")).join("plan");
    fs::create_dir_all(&folder).unwrap();
    let path = folder.join(name);
    fs::write(&path, text).unwrap();
    path.to_str().unwrap().to_string()
}

/// Exit status, standard output and standard error.
fn run(words: &[&str]) -> (i32, String, String) {
    let output = Command::new(env!("CARGO_BIN_EXE_icehub")).args(words).output().unwrap();
    let text = |bytes| String::from_utf8(bytes).unwrap();
    (output.status.code().unwrap(), text(output.stdout), text(output.stderr))
}

/// Checks a plan of the messages above: status, and the last line.
fn check(name: &str, plan: &str) -> (i32, String) {
    let messages = file(&format!("{name}.messages"), MESSAGES);
    let (status, out, err) = run(&["plan", "--check", &messages, &file(name, plan)]);
    assert_eq!(err, "");
    (status, out.lines().last().unwrap().to_string())
}

#[test]
fn a_plan_is_made_and_accepted() {
    let messages = file("made.messages", MESSAGES);
    let (status, plan, err) = run(&["plan", &messages]);
    assert_eq!((status, plan.as_str(), err.as_str()), (0, "0 0\n1 0\n2 0\n3 1\n# 4 messages in 2 bursts\n", ""));
    assert_eq!(check("made", &plan), (0, "accepted: 4 messages in 2 bursts".to_string()));
}

#[test]
fn a_message_that_no_burst_holds() {
    let (status, out, _) = run(&["plan", &file("long.messages", "340 1\n\n341 2\n")]);
    let expected =
        "refusal 45 at 1 (the message's number): planner: a message is longer than a burst, over 340 bytes\n\
                    line 3: message 1 of cabin 2 has 341 bytes\n";
    assert_eq!((status, out.as_str()), (1, expected));
}

#[test]
fn what_is_wrong_with_a_plan() {
    for (name, plan, why) in [
        ("unknown", "0 0\n4 0\n", "line 2: there is no message 4: 4 messages wait, counted from 0"),
        ("twice", "0 0\n1 0\n0 1\n", "line 3: message 0 is in line 1 already"),
        ("first", "0 1\n", "line 1: the first burst is 0, not 1"),
        ("gap", "0 0\n1 2\n", "line 2: burst 2 where 0 or 1 is due"),
        ("back", "0 0\n1 1\n2 0\n", "line 3: burst 0 where 1 or 2 is due"),
        ("full", "0 0\n1 0\n2 0\n3 0\n", "line 4: burst 0 has 341 bytes with message 3, 340 at most"),
        ("order", "# mine\n2 0\n0 1\n", "line 3: message 0 of cabin 7 comes after message 2 of that cabin, in line 2"),
        ("missing", "0 0\n2 0\n", "2 messages are in no entry: 1, 3"),
        ("empty", "", "4 messages are in no entry: 0, 1, 2, 3"),
    ] {
        assert_eq!(check(name, plan), (1, why.to_string()));
    }
}

#[test]
fn wrong_input() {
    let good = file("input.messages", MESSAGES);
    let wrong = file("wrong.messages", "1 2\nx 3\n");
    let (status, out, err) = run(&["plan", &wrong]);
    assert_eq!((status, out.as_str(), err.contains("line 2: \"x\" is no number of 64 bits")), (2, "", true));
    for words in [&["plan"][..], &["plan", &good, &good], &["plan", "--check", &good], &["plan", "-", "-", "--check"]] {
        let (status, out, err) = run(words);
        assert_eq!((status, out.as_str(), err.is_empty()), (2, "", false), "{words:?}");
    }
    assert!(run(&["plan", "--help"]).1.starts_with("icehub plan FILE"));
}
