//! The endpoints of a proxy in a message, shown as addresses.

use std::path::PathBuf;
use std::process::Command;
use std::{env, fs};

/// A table of a proxy (row 0) and a list of one (row 1).
const TABLE: &[u8] = b"FGT\x01\0\x02\0\x01\0\0\0\0\
    \x0C\0\0\0\0\0\0\0\0\0\0\0\
    \x0F\0\0\0\x01\0\0\0\0\0\0\0\
    \0\0\0\0\0\0\0\0";

fn file(name: &str, bytes: &[u8]) -> PathBuf {
    let path = env::temp_dir().join(format!("icehub-endpoint-{}-{name}", std::process::id()));
    fs::write(&path, bytes).unwrap();
    path
}

/// An endpoint of a type around what it holds.
fn endpoint(of: u8, inside: &[u8]) -> Vec<u8> {
    [&[of, 0, 6 + inside.len() as u8, 0, 0, 0, 1, 1], inside].concat()
}

fn show(words: &[&str], name: &str) -> String {
    let endpoints = [
        endpoint(1, b"\x03hub\xDD\x0F\0\0\x60\xEA\0\0\0"),
        endpoint(2, b"\x05::1 x\x01\0\0\0\xFF\xFF\xFF\xFF\x01"),
        endpoint(3, b"\x03hub\xDD\x0F\0\0\0"),
        endpoint(1, b"\x03hub\0\0\0\0\x60\xEA\0\0\0"),
        endpoint(9, b"\xAB"),
    ];
    let proxy = [&b"\x05guard\0\0\0\0\x01\0\x01\x01\x05"[..], &endpoints.concat()].concat();
    let message = [&(6 + proxy.len() as u32).to_le_bytes()[..], &[1, 1], &proxy].concat();
    let (table, message) = (file(&format!("{name}.table"), TABLE), file(&format!("{name}.message"), &message));
    let mut command = Command::new(env!("CARGO_BIN_EXE_icehub"));
    let run = command.arg("show").args(words).arg(&table).arg("1").arg(&message).output().unwrap();
    assert_eq!(run.status.code(), Some(0), "{}", String::from_utf8_lossy(&run.stderr));
    fs::remove_file(table).unwrap();
    fs::remove_file(message).unwrap();
    String::from_utf8(run.stdout).unwrap()
}

#[test]
fn as_ice_users_write_them() {
    let shown = show(&[], "shown");
    for line in [
        "endpoint 0: tcp -h hub -p 4061 -t 60000\n",
        "endpoint 1: ssl -h \"::1 x\" -p 1 -t -1 -z\n",
        "endpoint 2: udp -h hub -p 4061\n",
        "endpoint 3: TCP, encoding 1.1, bytes 03 68 75 62 00 00 00 00 60 EA 00 00 00; not opened: refusal 27 at 12 (the \
         port; 0 for the writer of an endpoint): an endpoint's port is not 1 to 65,535\n",
        "endpoint 4: type 9, encoding 1.1, bytes AB\n",
    ] {
        assert!(shown.contains(line), "{line} is not in {shown}");
    }
}

#[test]
fn as_json() {
    let shown = show(&["--json"], "json");
    for part in [
        r#""host":"hub","port":4061,"timeout":60000,"compress":false}"#,
        r#""host":"::1 x","port":1,"timeout":-1,"compress":true}"#,
        r#""host":"hub","port":4061,"timeout":null,"compress":false}"#,
        r#""refusal":27,"place":12}"#,
        r#"{"type":"type 9","encoding":"1.1","bytes":"AB"}"#,
    ] {
        assert!(shown.contains(part), "{part} is not in {shown}");
    }
}
