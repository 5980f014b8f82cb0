//! The command `compare`: each difference in words, and the exit status that a release script goes by.

use std::fs;
use std::path::PathBuf;
use std::process::{Command, Stdio};

/// A byte, and class B with a required byte.
const OLD: &[u8] = b"FGT\x01\0\x02\0\x01\0\x01\0\0\
    \x01\0\0\0\0\0\0\0\0\0\0\0\
    \x0E\0\0\0\x01\0\0\0\0\0\x01\0\
    \0\0\0\0\0\0\0\0B";

/// The same, an optional(1) byte in B, and class D over B.
const NEW: &[u8] = b"FGT\x01\0\x03\0\x02\0\x02\0\0\
    \x01\0\0\0\0\0\0\0\0\0\0\0\
    \x0E\0\0\0\x02\0\0\0\0\0\x01\0\
    \x0E\0\x02\0\0\0\x02\0\x01\0\x01\0\
    \0\0\0\0\0\0\0\0\
    \0\0\x01\0\x01\0\0\0BD";

/// Exit status, standard output, standard error, in a folder of its own with both tables.
fn run(name: &str, words: &[&str]) -> (i32, String, String) {
    let folder = PathBuf::from(env!("CARGO_TARGET_TMPDIR")).join(format!("compare_{name}"));
    fs::create_dir_all(&folder).unwrap();
    fs::write(folder.join("old"), OLD).unwrap();
    fs::write(folder.join("new"), NEW).unwrap();
    fs::write(folder.join("broken"), &NEW[..40]).unwrap();
    let mut command = Command::new(env!("CARGO_BIN_EXE_icehub"));
    let output = command.arg("compare").args(words).current_dir(folder).stdin(Stdio::null()).output().unwrap();
    let text = |bytes| String::from_utf8(bytes).unwrap();
    (output.status.code().unwrap(), text(output.stdout), text(output.stderr))
}

#[test]
fn to_be_shipped() {
    let (status, out, err) = run("shipped", &["old", "B", "new", "B"]);
    let said = "class \"B\": optional with tag 1, byte (member 1) only in the new table\n\
        class \"D\": only in the new table\n\
        2 differences; an old hub reads everything a new sender writes\n";
    assert_eq!((status, &out[..], &err[..]), (0, said, ""));
}

#[test]
fn not_to_be_shipped() {
    let (status, out, _) = run("not_shipped", &["new", "B", "old", "1"]);
    assert_eq!(status, 1);
    assert!(out.contains("2 differences; an old hub does not read everything a new sender writes"), "{out}");
    let (status, out, _) = run("tops", &["new", "B", "new", "D"]);
    assert_eq!(status, 1);
    assert!(
        out.contains(
            "0 differences; an old hub does not read everything a new sender writes: the two tops do not match"
        ),
        "{out}"
    );
}

#[test]
fn could_not_run() {
    for words in
        [&["old", "B", "new"][..], &["old", "B", "gone", "B"], &["old", "B", "broken", "B"], &["old", "X", "new", "B"]]
    {
        let (status, out, err) = run("failed", words);
        assert_eq!((status, &out[..]), (2, ""), "{words:?}");
        assert!(err.starts_with("icehub: "), "{err}");
    }
}
