//! The commands `set` and `remove`: what they write, and what they say.

use std::fs;
use std::path::{Path, PathBuf};
use std::process::{Command, Stdio};

/// A new folder with the samples of the fault and a table of all kinds of values.
fn folder(name: &str) -> PathBuf {
    let folder = PathBuf::from(env!("CARGO_TARGET_TMPDIR")).join(name);
    let _ = fs::remove_dir_all(&folder);
    fs::create_dir_all(&folder).unwrap();
    for name in ["fault.table", "fault-newer.table", "fault.message"] {
        let samples = Path::new(env!("CARGO_MANIFEST_DIR")).join("../../samples");
        fs::copy(samples.join(name), folder.join(name)).unwrap();
    }
    fs::write(folder.join("kinds"), kinds()).unwrap();
    fs::write(folder.join("empty"), b"\x06\0\0\0\x01\x01").unwrap();
    folder
}

/// Kinds 0 to 7, an enum up to 300, a sequence of shorts; a parameter list (10) of an optional of each, tag and member as its
/// row.
fn kinds() -> Vec<u8> {
    let mut rows: Vec<[u16; 6]> = (0..8).map(|kind| [kind, 0, 0, 0, 0, 0]).collect();
    rows.extend([[8, 300, 0, 0, 0, 0], [10, 2, 0, 0, 0, 0], [15, 0, 10, 0, 0, 0]]);
    let members = (0..10u8).flat_map(|row| [row, 0, 1, 0, row, 0, 0, 0]);
    let rows = rows.into_iter().flatten().flat_map(u16::to_le_bytes);
    b"FGT\x01\0\x0B\0\x0A\0\0\0\0".iter().copied().chain(rows).chain(members).collect()
}

/// Exit status, standard output, standard error.
fn run(folder: &Path, words: &[&str]) -> (i32, String, String) {
    let mut command = Command::new(env!("CARGO_BIN_EXE_icehub"));
    let output = command.args(words).current_dir(folder).stdin(Stdio::null()).output().unwrap();
    let text = |bytes: Vec<u8>| String::from_utf8_lossy(&bytes).into_owned();
    (output.status.code().unwrap(), text(output.stdout), text(output.stderr))
}

fn said(status: i32, out: &str, err: &str) -> (i32, String, String) {
    (status, out.to_string(), err.to_string())
}

#[test]
fn the_delay_of_a_newer_fault() {
    let folder = folder("the_delay_of_a_newer_fault");
    let file = |name: &str| fs::read(folder.join(name)).unwrap();
    let words = ["set", "fault.table", "::Guard::Fault", "fault.message", "1", "3600", "hour"];
    assert_eq!(run(&folder, &words), said(0, "hour: member 1 set, 75 bytes\n", ""));
    let mut expected = file("fault.message");
    expected[61..65].copy_from_slice(&3_600u32.to_le_bytes());
    assert_eq!(file("hour"), expected);
    // The sender's table reads it.
    let (status, out, _) = run(&folder, &["show", "fault-newer.table", "::Guard::Fault", "hour"]);
    assert!(status == 0 && out.contains("3600"), "{out}");

    let words = ["remove", "fault.table", "2", "hour", "1", "none"];
    assert_eq!(run(&folder, &words), said(0, "none: member 1 removed, 70 bytes\n", ""));
    let words = ["set", "fault.table", "2", "none", "1", "1800", "again"];
    assert_eq!(run(&folder, &words), said(0, "again: member 1 set, 75 bytes\n", ""));
    assert_eq!(file("again"), file("fault.message"));
}

/// The bytes after the encapsulation's head that a value becomes.
#[test]
fn values() {
    let folder = folder("values");
    let long = "a".repeat(300);
    let long_bytes = [&[0x3D, 255, 44, 1, 0, 0], long.as_bytes()].concat();
    for (member, value, expected) in [
        ("0", "true", &[0x00, 1][..]),
        ("1", "255", &[0x08, 255]),
        ("2", "-2", &[0x11, 0xFE, 0xFF]),
        ("3", "-2147483648", &[0x1A, 0, 0, 0, 128]),
        ("4", "4294967296", &[0x23, 0, 0, 0, 0, 1, 0, 0, 0]),
        ("5", "-0.5", &[0x2A, 0, 0, 0, 0xBF]),
        ("6", "1e3", &[0x33, 0, 0, 0, 0, 0, 0x40, 0x8F, 0x40]),
        ("7", "", &[0x3D, 0]),
        ("7", "hütte", &[0x3D, 6, b'h', 0xC3, 0xBC, b't', b't', b'e']),
        ("7", &long, &long_bytes),
        ("8", "300", &[0x44, 255, 44, 1, 0, 0]),
        ("9", "01 0700", &[0x4D, 3, 1, 7, 0]),
    ] {
        let (status, out, err) = run(&folder, &["set", "--overwrite", "kinds", "10", "empty", member, value, "made"]);
        let length = 6 + expected.len();
        assert_eq!((status, out, err), said(0, &format!("made: member {member} set, {length} bytes\n"), ""));
        assert_eq!(fs::read(folder.join("made")).unwrap()[6..], *expected, "{member} {value}");
    }
    for (member, value, wrong) in [
        ("0", "1", "VALUE is no bool: \"1\""),
        ("1", "256", "VALUE is no byte: \"256\""),
        ("2", "32768", "VALUE is no short: \"32768\""),
        ("3", "1.5", "VALUE is no int: \"1.5\""),
        ("4", "0x10", "VALUE is no long: \"0x10\""),
        ("6", "warm", "VALUE is no double: \"warm\""),
        ("8", "-1", "VALUE is no enum: \"-1\""),
        ("9", "01 07 0", "VALUE: half a byte at line 1, column 7"),
    ] {
        let given = run(&folder, &["set", "kinds", "10", "empty", member, value, "other"]);
        assert_eq!(given, said(2, "", &format!("icehub: {wrong}\n")));
    }
    // What the type does not allow is refused by the library.
    for (member, value) in [("8", "301"), ("9", "02 0700")] {
        let (status, out, _) = run(&folder, &["set", "kinds", "10", "empty", member, value, "other"]);
        assert!(status == 1 && out.starts_with("empty: refused by 21 (BAD_ROW_BYTES) at 0: "), "{out}");
    }
    assert!(!folder.join("other").exists());
}

#[test]
fn refused() {
    let folder = folder("refused");
    let wrong = "set, remove: the member is not an optional of the message's type or of a base of it";
    let line = format!("fault.message: refused by 49 (NOT_OPTIONAL) at 0: {wrong}\n");
    for member in ["0", "9"] {
        let words = ["remove", "fault.table", "2", "fault.message", member, "made"];
        assert_eq!(run(&folder, &words), said(1, &line, ""));
    }
    let line = "empty: refused by 50 (NOT_THERE) at 0: remove: the message does not have the member\n";
    assert_eq!(run(&folder, &["remove", "kinds", "10", "empty", "3", "made"]), said(1, line, ""));
    // With the result on standard output the refusal goes to standard error.
    let (status, out, err) = run(&folder, &["remove", "kinds", "10", "empty", "3", "-"]);
    assert_eq!((status, out, err), said(1, "", &format!("icehub: {line}")));
    assert!(!folder.join("made").exists());
}

#[test]
fn files() {
    let folder = folder("files");
    let words = ["set", "kinds", "10", "empty", "1", "7", "-"];
    assert_eq!(run(&folder, &words), said(0, "\u{8}\0\0\0\u{1}\u{1}\u{8}\u{7}", ""));
    let words = ["set", "kinds", "10", "empty", "1", "7", "empty"];
    let stays = "icehub: empty is there already and stays; see --overwrite\n";
    assert_eq!(run(&folder, &words), said(2, "", stays));
    assert_eq!(fs::read(folder.join("empty")).unwrap().len(), 6);
    fs::write(folder.join("text"), "06 00 00 00\n01 01").unwrap();
    let words = ["set", "--hex", "kinds", "10", "text", "1", "7", "made"];
    assert_eq!(run(&folder, &words), said(0, "made: member 1 set, 8 bytes\n", ""));
    for (words, wrong) in [
        (
            &["set", "kinds", "10", "empty", "1", "made"][..],
            "set takes TABLE TOP IN MEMBER VALUE OUT; see icehub set --help",
        ),
        (
            &["remove", "kinds", "10", "empty", "1", "7", "made"],
            "remove takes TABLE TOP IN MEMBER OUT; see icehub remove --help",
        ),
        (&["set", "kinds", "10", "empty", "x", "7", "other"], "MEMBER is no number of a member: x"),
        (&["set", "-", "10", "-", "1", "7", "other"], "- is named twice: standard input can be read only once"),
        (&["remove", "-5", "10", "empty", "1", "other"], "-5 is no option of remove; see icehub remove --help"),
    ] {
        assert_eq!(run(&folder, words), said(2, "", &format!("icehub: {wrong}\n")), "{words:?}");
    }
    let (status, out, _) = run(&folder, &["set", "--help"]);
    assert!(status == 0 && out.starts_with("icehub set "));
}
