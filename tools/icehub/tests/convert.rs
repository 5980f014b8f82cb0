//! The command `convert`: what it writes, what it leaves alone, and what it says of each file.

use std::fs;
use std::path::{Path, PathBuf};
use std::process::{Command, Stdio};

/// A byte; class B with a required byte; class D over it with an optional(1) byte; a parameter list of a byte.
const TABLE: &[u8] = b"FGT\x01\0\x04\0\x03\0\x02\0\0\
    \x01\0\0\0\0\0\0\0\0\0\0\0\
    \x0E\0\0\0\x01\0\0\0\0\0\x01\0\
    \x0E\0\x01\0\x01\0\x02\0\x01\0\x01\0\
    \x0F\0\x02\0\x01\0\0\0\0\0\0\0\
    \0\0\0\0\0\0\0\0\
    \0\0\x01\0\x01\0\0\0\
    \0\0\0\0\0\0\0\0BD";
const COMPACT: &[u8] = b"\x0F\0\0\0\x01\x01\x01\x05\x01D\x08\x09\xFF\x20\x07";
const SLICED: &[u8] = b"\x19\0\0\0\x01\x01\x01\x15\x01D\x07\0\0\0\x08\x09\xFF\x31\x01B\x05\0\0\0\x07";
const UNKNOWN: &[u8] = b"\x0E\0\0\0\x01\x01\x01\x25\x01B\x07\x10\x09\xFF";

/// A new folder with the table and an archive of three records.
fn folder(name: &str) -> PathBuf {
    let folder = PathBuf::from(env!("CARGO_TARGET_TMPDIR")).join(name);
    let _ = fs::remove_dir_all(&folder);
    fs::create_dir_all(&folder).unwrap();
    for (name, bytes) in [("table", TABLE), ("old", COMPACT), ("new", SLICED), ("unknown", UNKNOWN)] {
        fs::write(folder.join(name), bytes).unwrap();
    }
    folder
}

/// Exit status, standard output, standard error.
fn run(folder: &Path, words: &[&str]) -> (i32, String, String) {
    let mut command = Command::new(env!("CARGO_BIN_EXE_icehub"));
    let output = command.arg("convert").args(words).current_dir(folder).stdin(Stdio::null()).output().unwrap();
    let text = |bytes| String::from_utf8(bytes).unwrap();
    (output.status.code().unwrap(), text(output.stdout), text(output.stderr))
}

/// The names of the files in a folder.
fn names(folder: &Path) -> Vec<String> {
    let mut names: Vec<_> =
        fs::read_dir(folder).unwrap().map(|entry| entry.unwrap().file_name().into_string().unwrap()).collect();
    names.sort();
    names
}

#[test]
fn an_archive() {
    let folder = folder("an_archive");
    let (status, out, err) = run(&folder, &["table", "B", "old", "new", "unknown", "--to", "made/here"]);
    let said = "old: converted, 25 bytes\n\
        new: refused by 47 (NOT_COMPACT) at 0: converter: the message is no compact record\n\
        unknown: refused by 48 (SKIPPED) at 0: converter: something in the message is skipped, as the table does not know it\n\
        3 records: 1 converted, 2 refused (1 by 47, 1 by 48)\n";
    assert_eq!((status, &out[..], &err[..]), (1, said, ""));
    assert_eq!(names(&folder.join("made/here")), ["old"]);
    assert_eq!(fs::read(folder.join("made/here/old")).unwrap(), SLICED);
    assert_eq!(fs::read(folder.join("old")).unwrap(), COMPACT);
}

#[test]
fn overwritten_only_if_asked() {
    let folder = folder("overwritten_only_if_asked");
    // The folder of the record itself: it would be overwritten.
    let (status, out, err) = run(&folder, &["table", "1", "old", "--to", "."]);
    assert_eq!((status, &out[..]), (2, "1 record: 0 converted, 0 refused, 1 not done\n"));
    assert_eq!(err, "icehub: ./old is there already and stays; see --overwrite\n");
    assert_eq!(fs::read(folder.join("old")).unwrap(), COMPACT);
    // Two records of one name.
    fs::create_dir(folder.join("other")).unwrap();
    fs::write(folder.join("other/old"), COMPACT).unwrap();
    let (status, out, _) = run(&folder, &["table", "1", "old", "other/old", "--to", "made"]);
    assert_eq!(status, 2);
    assert!(out.ends_with("2 records: 1 converted, 0 refused, 1 not done\n"), "{out}");

    let (status, out, err) = run(&folder, &["--overwrite", "table", "1", "old", "--to", "."]);
    assert_eq!((status, &err[..]), (0, ""));
    assert_eq!(out, "old: converted, 25 bytes\n1 record: 1 converted, 0 refused\n");
    assert_eq!(fs::read(folder.join("old")).unwrap(), SLICED);
}

#[test]
fn hex() {
    let folder = folder("hex");
    let text: String = COMPACT.iter().map(|byte| format!("{byte:02x} ")).collect();
    fs::write(folder.join("text"), text).unwrap();
    let (status, ..) = run(&folder, &["--hex", "table", "D", "text", "--to", "made"]);
    assert_eq!((status, fs::read(folder.join("made/text")).unwrap()), (0, SLICED.to_vec()));
}

#[test]
fn not_done() {
    let folder = folder("not_done");
    let (status, out, err) = run(&folder, &["table", "1", "missing", "old", "--to", "made"]);
    assert_eq!((status, out.lines().last()), (2, Some("2 records: 1 converted, 0 refused, 1 not done")));
    assert!(err.starts_with("icehub: cannot read missing: "), "{err}");
    // DIR is a file.
    let (status, out, err) = run(&folder, &["table", "1", "old", "--to", "table"]);
    assert_eq!((status, &out[..]), (2, ""));
    assert!(err.starts_with("icehub: cannot make the folder table: "), "{err}");
    for (words, wrong) in [
        (&["table", "1", "old"][..], "--to DIR is missing; see icehub convert --help"),
        (&["table", "1", "old", "--to"], "DIR is missing after --to"),
        (&["table", "1", "old", "--to", "a", "--to", "b"], "--to is named twice"),
        (&["table", "1", "--to", "made"], "a FILE is missing; see icehub convert --help"),
        (&["table", "1", "-", "--to", "made"], "standard input has no name in DIR: name FILEs"),
        (
            &["table", "X", "old", "--to", "made"],
            "TOP is neither a row number nor a record of the table: \"X\"; the table has \"B\", \"D\"",
        ),
        (&["--json", "table", "1", "old", "--to", "made"], "--json is no option of convert; see icehub convert --help"),
    ] {
        let (status, out, err) = run(&folder, words);
        assert_eq!((status, &out[..], err), (2, "", format!("icehub: {wrong}\n")), "{words:?}");
    }
    // A table that breaks a rule: every record is refused.
    fs::write(folder.join("broken"), &TABLE[..20]).unwrap();
    let (status, out, _) = run(&folder, &["broken", "B", "old", "--to", "made"]);
    assert_eq!((status, out.lines().last()), (1, Some("1 record: 0 converted, 1 refused (1 by 31)")));
    assert_eq!(names(&folder.join("made")), ["old"]);
}
