//! Messages of encoding 1.0: shown with their version, and located where they are refused.

use std::process::Command;
use std::{env, fs};

/// A table with an enum, a proxy, a base and a record below it, whose members are required.
const TABLE: &[u8] = &[
    b'F', b'G', b'T', 1, 0, 6, 0, 5, 0, 6, 0, 0, // header: 6 types, 5 members, 6 name bytes
    3, 0, 0, 0, 0, 0, 0, 0, 0, 0, 0, 0, // 0 int
    8, 0, 200, 0, 0, 0, 0, 0, 0, 0, 0, 0, // 1 enum up to 200
    12, 0, 0, 0, 0, 0, 0, 0, 0, 0, 0, 0, // 2 proxy
    13, 0, 0, 0, 1, 0, 0, 0, 0, 0, 3, 0, // 3 exception ::A: member 0
    13, 0, 1, 0, 2, 0, 4, 0, 3, 0, 3, 0, // 4 exception ::B: members 1 and 2, base ::A
    15, 0, 3, 0, 2, 0, 0, 0, 0, 0, 0, 0, // 5 parameter list: members 3 and 4
    0, 0, 0, 0, 0, 0, 0, 0, // member 0: int
    1, 0, 0, 0, 0, 0, 0, 0, // member 1: enum
    2, 0, 0, 0, 0, 0, 0, 0, // member 2: proxy
    1, 0, 0, 0, 0, 0, 0, 0, // member 3: enum
    2, 0, 0, 0, 0, 0, 0, 0, // member 4: proxy
    b':', b':', b'A', b':', b':', b'B',
];

/// What `icehub show` prints of a message in an encapsulation of version 1.0, and its exit status.
fn shown(name: &str, top: &str, json: bool, body: &[u8]) -> (String, i32) {
    let folder = env::temp_dir().join(format!("icehub-old-{name}-{}", std::process::id()));
    fs::create_dir_all(&folder).unwrap();
    let message = [&(body.len() as u32 + 6).to_le_bytes()[..], &[1, 0], body].concat();
    fs::write(folder.join("table"), TABLE).unwrap();
    fs::write(folder.join("message"), message).unwrap();
    let mut tool = Command::new(env!("CARGO_BIN_EXE_icehub"));
    tool.current_dir(&folder).arg("show");
    if json {
        tool.arg("--json");
    }
    let output = tool.args(["table", top, "message"]).output().unwrap();
    fs::remove_dir_all(folder).unwrap();
    (String::from_utf8(output.stdout).unwrap(), output.status.code().unwrap())
}

/// An enumerator of 200 in a short, and a proxy without protocol and encoding.
const MEMBERS: &[u8] = b"\xC8\x00\x01n\0\0\x02\x01\0\x01a";

/// A record of two pairs after one that the table does not know.
fn exception() -> Vec<u8> {
    [b"\0\x03::C\x06\0\0\0xy", &b"\x03::B\x0F\0\0\0"[..], MEMBERS, b"\x03::A\x08\0\0\0\x2A\0\0\0"].concat()
}

#[test]
fn accepted() {
    let (text, status) = shown("record", "3", false, &exception());
    assert_eq!(status, 0, "{text}");
    for line in [
        "  first known type: 4, exception \"::B\"\n",
        "  encoding:         1.0\n  format:           pairs\n  skipped:          0 optionals, 1 slice\n",
        "       1  required         enum           25       2  200\n",
        "            batch oneway, secure\n            adapter \"a\"\n",
        "       0  required         int            44       4  42\n",
    ] {
        assert!(text.contains(line), "{line}{text}");
    }
    let (line, _) = shown("json", "3", true, &exception());
    assert!(line.contains(r#""encoding":"1.0","format":"pairs""#), "{line}");
    assert!(line.contains(r#""secure":true,"protocol":null,"encoding":null"#), "{line}");
    let (text, status) = shown("list", "5", false, MEMBERS);
    assert_eq!(status, 0, "{text}");
    assert!(text.contains("  encoding:         1.0\n  format:           parameter list\n"), "{text}");
}

#[test]
fn refused() {
    let changed = |at: usize, byte: u8| {
        let mut body = exception();
        body[at] = byte;
        shown(&format!("changed-{at}"), "3", false, &body).0
    };
    let cut = |length: usize| shown(&format!("cut-{length}"), "3", false, &exception()[..length]).0;
    let more = shown("more", "3", false, &[&exception()[..], &[0]].concat()).0;
    let left = shown("left", "5", false, &[MEMBERS, &[0]].concat()).0;
    for (text, head, place) in [
        (changed(0, 1), "refused by 25 (BAD_OLD_HEADER) at 6", "at the header byte"),
        (
            changed(15, 3),
            "refused by 11 (BAD_LENGTH) at 21",
            "in slice 2 from 17, type ID \"::B\", type 4\n  at the slice's size",
        ),
        (
            changed(19, 201),
            "refused by 9 (BAD_ENUMERATOR) at 25",
            "the enumerator is 201; its enum, type 1, allows 0 to 200",
        ),
        (changed(25, 5), "refused by 10 (BAD_PROXY) at 31", "in member 2 from 27, required, proxy\n  at the mode"),
        (changed(33, b'B'), "refused by 17 (BAD_CHAIN) at 36", "in slice 3 from 36, type ID \"::B\""),
        (changed(31, 255), "refused by 24 (BAD_TEXT) at 36", "at the slice's type ID"),
        (cut(26), "refused by 4 (CUT_OFF) at 21", "at the slice's size"),
        (more, "refused by 18 (LEFT_OVER) at 48", "at what follows the record"),
        (left, "refused by 18 (LEFT_OVER) at 17", "at what follows the parameter list"),
    ] {
        assert!(text.contains(head) && text.contains(place), "{head}, {place}: {text}");
    }
}
