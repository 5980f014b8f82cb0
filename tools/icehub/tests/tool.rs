//! The tool as it is run: what it shows of the samples, its JSON, its exit status, and what it does with its input.

mod json;

use json::Json;
use std::fs;
use std::io::{Read, Write};
use std::path::PathBuf;
use std::process::{Command, Stdio};

/// What a run gave.
struct Run {
    status: i32,
    out: String,
    err: String,
}

fn command(words: &[&str]) -> Command {
    let mut command = Command::new(env!("CARGO_BIN_EXE_icehub"));
    command.args(words).current_dir(concat!(env!("CARGO_MANIFEST_DIR"), "/../../samples")).stdin(Stdio::null());
    command
}

fn run(words: &[&str]) -> Run {
    let output = command(words).output().unwrap();
    Run {
        status: output.status.code().unwrap(),
        out: String::from_utf8(output.stdout).unwrap(),
        err: String::from_utf8(output.stderr).unwrap(),
    }
}

/// Runs it with these bytes as standard input.
fn run_with(words: &[&str], input: &[u8]) -> Run {
    let mut command = command(words);
    command.stdin(Stdio::piped()).stdout(Stdio::piped()).stderr(Stdio::piped());
    let mut child = command.spawn().unwrap();
    child.stdin.take().unwrap().write_all(input).unwrap();
    let output = child.wait_with_output().unwrap();
    Run {
        status: output.status.code().unwrap(),
        out: String::from_utf8(output.stdout).unwrap(),
        err: String::from_utf8(output.stderr).unwrap(),
    }
}

fn sample(name: &str) -> Vec<u8> {
    fs::read(PathBuf::from(concat!(env!("CARGO_MANIFEST_DIR"), "/../../samples")).join(name)).unwrap()
}

/// A new folder for a test's files.
fn folder(name: &str) -> PathBuf {
    let folder = PathBuf::from(env!("CARGO_TARGET_TMPDIR")).join(name);
    let _ = fs::remove_dir_all(&folder);
    fs::create_dir_all(&folder).unwrap();
    folder
}

/// A file with these bytes in a new folder.
fn file(name: &str, bytes: &[u8]) -> String {
    let file = folder(name).join(name);
    fs::write(&file, bytes).unwrap();
    file.to_str().unwrap().to_string()
}

/// What is shown of each sample is the file of its name.
#[test]
fn samples() {
    for (words, status, shown) in [
        (&["show", "report.table", "3", "report.message"][..], 0, include_str!("shown/report")),
        (&["show", "fault.table", "2", "fault.message"], 0, include_str!("shown/fault")),
        (&["show", "fault-newer.table", "4", "fault.message"], 0, include_str!("shown/fault-newer")),
        (&["show", "fault.table", "2", "fault-damaged.message"], 1, include_str!("shown/fault-damaged")),
        (&["show", "kinds.table", "14", "kinds.message"], 0, include_str!("shown/kinds")),
        (&["show", "fault.table", "2", "fault.message", "fault-damaged.message"], 1, include_str!("shown/both")),
        (&["table", "kinds.table"], 0, include_str!("shown/kinds-table")),
        (&["table", "fault-newer.table"], 0, include_str!("shown/fault-newer-table")),
        (&["show", "valve.table", "3", "valve-between.message"], 1, include_str!("shown/valve-between")),
        (&["table", "valve.table"], 0, include_str!("shown/valve-table")),
        (&["show", "owner.table", "1", "owner.message"], 0, include_str!("shown/owner")),
        (&["show", "owner.table", "1", "owner-latin.message"], 1, include_str!("shown/owner-latin")),
        (&["table", "kinds.message"], 1, include_str!("shown/no-table")),
    ] {
        let run = run(words);
        assert_eq!((&run.out[..], &run.err[..], run.status), (shown, "", status), "{words:?}");
    }
}

/// Structs in sequences, long lists, strings with wide characters, endpoints, floats that are no numbers: each kind opened.
#[test]
fn opened() {
    let table = Table::new(
        &[
            (2, [0; 5]),           // 0: short
            (7, [0; 5]),           // 1: string
            (9, [0, 2, 0, 0, 0]),  // 2: struct of a short and a string
            (10, [2, 0, 0, 0, 0]), // 3: sequence of that struct
            (11, [2, 3, 0, 0, 0]), // 4: dictionary of that struct to that sequence
            (5, [0; 5]),           // 5: float
            (10, [5, 0, 0, 0, 0]), // 6: sequence of float
            (12, [0; 5]),          // 7: proxy
            (10, [1, 0, 0, 0, 0]), // 8: sequence of string
            (15, [2, 5, 0, 0, 0]), // 9: the list
        ],
        &[(0, None), (1, None), (4, None), (6, None), (7, None), (7, Some(1)), (8, None)],
    );
    let mut body = vec![1, 3, 0, 1, b'k', 2, 4, 0, 0, 5, 0, 2, 0xC3, 0xB8];
    body.push(30);
    for number in 0..27 {
        body.extend((number as f32 / 8.0).to_le_bytes());
    }
    for number in [f32::NAN, f32::INFINITY, -f32::INFINITY] {
        body.extend(number.to_le_bytes());
    }
    body.extend(b"\x01n\x01c\x01\x01f\x04\x01\x01\x00\x01\x01\x02\x01\x00\x07\x00\x00\x00\x01\x01\xAA\x09\x00\x06\x00\x00\x00\x01\x00");
    body.extend(b"\x02\x01a\x01\"");
    body.extend(b"\x0E\x02\x00\x00\x00\x00\x00");
    let (table, message) = (file("opened.table", &table), file("opened.message", &wrapped(&body)));
    let run = run(&["show", &table, "9", &message]);
    assert_eq!((&run.out[..], run.status), (include_str!("shown/opened"), 0), "{}", run.err);
    let run = self::run(&["show", "--json", &table, "9", &message]);
    let json = Json::parse(&run.out).unwrap();
    let value = |number: usize| json.get("members").list()[number].get("value").clone();
    let entry = value(0).list()[0].clone();
    assert_eq!(entry.get("key"), &Json::parse(r#"[3,"k"]"#).unwrap());
    assert_eq!(entry.get("value"), &Json::parse(r#"[[4,""],[5,"ø"]]"#).unwrap());
    assert_eq!(value(1).list()[27..], Json::parse(r#"["NaN","Infinity","-Infinity"]"#).unwrap().list()[..]);
    assert_eq!(
        value(2).get("endpoints").list()[0],
        Json::parse(r#"{"type":"TCP","encoding":"1.1","bytes":"AA","refusal":4,"place":8}"#).unwrap()
    );
    assert_eq!((value(2).get("mode").text(), value(2).get("adapter")), ("batch datagram", &Json::Null));
    assert_eq!((value(3), value(4)), (Json::parse(r#"["a","\""]"#).unwrap(), Json::Null));
}

/// A type table of type rows (kind and fields a to e) and members (type, tag).
struct Table;

impl Table {
    #[allow(clippy::new_ret_no_self)]
    fn new(types: &[(u8, [u16; 5])], members: &[(u16, Option<u32>)]) -> Vec<u8> {
        let mut table = b"FGT\x01\0".to_vec();
        for number in [types.len(), members.len(), 0] {
            table.extend((number as u16).to_le_bytes());
        }
        table.push(0);
        for (kind, fields) in types {
            table.extend([*kind, 0]);
            table.extend(fields.iter().flat_map(|field| field.to_le_bytes()));
        }
        for (of, tag) in members {
            table.extend(of.to_le_bytes());
            table.extend([tag.is_some().into(), 0]);
            table.extend(tag.unwrap_or(0).to_le_bytes());
        }
        table
    }
}

fn wrapped(body: &[u8]) -> Vec<u8> {
    [&(body.len() as u32 + 6).to_le_bytes()[..], &[1, 1], body].concat()
}

#[test]
fn exit_status() {
    let status = |words: &[&str]| run(words).status;
    assert_eq!(status(&["show", "report.table", "3", "report.message"]), 0);
    assert_eq!(status(&["show", "fault.table", "2", "fault-damaged.message", "fault.message"]), 1);
    assert_eq!(status(&["show", "fault.table", "2", "fault.message", "none.message"]), 2);
    assert_eq!(status(&["show", "fault.table", "2", "none.message", "fault-damaged.message"]), 2);
    assert_eq!(status(&["show", "none.table", "2", "fault.message"]), 2);
    assert_eq!(status(&["show", "fault.table", "2", "."]), 2);
    assert_eq!(status(&["table", "fault.table"]), 0);
    assert_eq!(status(&["table", "fault.message"]), 1);
    assert_eq!(status(&["table", "none.table"]), 2);
    for words in [
        &[][..],
        &["shew"],
        &["show"],
        &["show", "fault.table"],
        &["show", "fault.table", "2"],
        &["show", "--jsn", "fault.table", "2", "fault.message"],
        &["show", "fault.table", "4294967296", "fault.message"],
        &["show", "fault.table", "::Guard::None", "fault.message"],
        &["show", "-", "2", "-"],
        &["table"],
        &["table", "fault.table", "fault.table"],
        &["table", "--json", "fault.table"],
    ] {
        let run = run(words);
        assert_eq!((run.status, &run.out[..]), (2, ""), "{words:?}");
        assert!(run.err.starts_with("icehub: ") && run.err.lines().count() == 1, "{}", run.err);
    }
}

#[test]
fn help() {
    for (words, has) in [
        (&["--help"][..], "icehub show [--json] [--hex] TABLE TOP FILE.."),
        (&["-h"], "icehub table TABLE"),
        (&["show", "--help"], "--hex    the FILEs are hex text"),
        (&["show", "report.table", "-h"], "Exit status: 0 all messages accepted"),
        (&["table", "--help"], "which of them can be a top"),
        (&["--version"], concat!("icehub ", env!("CARGO_PKG_VERSION"), "\n")),
    ] {
        let run = run(words);
        assert!(run.status == 0 && run.err.is_empty() && run.out.contains(has), "{words:?}: {}", run.out);
    }
}

/// TOP by name is TOP by number.
#[test]
fn top_by_name() {
    let by_number = run(&["show", "fault-newer.table", "4", "fault.message"]);
    let by_name = run(&["show", "fault-newer.table", "::Guard::Fault", "fault.message"]);
    assert_eq!((by_name.status, by_name.out), (0, by_number.out));
    let run = run(&["show", "fault-newer.table", "::Guard::Frost", "fault.message"]);
    assert!(run.err.contains("the table has \"::Guard::Fault\", \"::Guard::PipeFault\""), "{}", run.err);
}

#[test]
fn standard_input_and_hex() {
    let shown = include_str!("shown/report");
    let message = sample("report.message");
    let run_in = |words: &[&str], input: &[u8]| run_with(words, input);
    let run = run_in(&["show", "report.table", "3", "-"], &message);
    assert_eq!((&run.out[..], run.status), (shown, 0));
    let hex = b"16 00 00 00 0101\n0cFE 3b 00000000\r\n01000000 42 08070000\n";
    let run = run_in(&["show", "report.table", "3", "--hex", "-"], hex);
    assert_eq!((&run.out[..], run.status), (shown, 0));
    let run = run_in(&["show", "--hex", "report.table", "3", "-"], b"16 00 0");
    assert_eq!((run.status, &run.err[..]), (2, "icehub: standard input: half a byte at line 1, column 7\n"));
    let run = run_in(&["show", "-", "3", "report.message"], &sample("report.table"));
    assert_eq!((&run.out[..], run.status), (shown, 0));
    let hex = file("hex", hex);
    let run = run_in(&["show", "--hex", "report.table", "3", "--", &hex], b"");
    assert_eq!((&run.out[..], run.status), (shown, 0));
    let run = run_in(&["show", "--json", "report.table", "3", "-"], &message);
    assert_eq!(Json::parse(&run.out).unwrap().get("file").text(), "-");
}

/// Messages that are cut or changed at random, each a file.
fn damaged(name: &str, count: usize) -> Vec<String> {
    let (folder, message) = (folder(name), sample("kinds.message"));
    let mut seed = 20_260_101_u64;
    let mut random = |below: usize| {
        seed = seed.wrapping_mul(6_364_136_223_846_793_005).wrapping_add(1_442_695_040_888_963_407);
        (seed >> 33) as usize % below
    };
    (0..count)
        .map(|number| {
            let mut bytes = message.clone();
            for _ in 0..number % 3 {
                let at = random(bytes.len());
                bytes[at] = [0, 1, 255, random(256) as u8][random(4)];
            }
            if number % 7 == 6 {
                bytes.truncate(random(bytes.len()));
                if let Some(size) = bytes.get_mut(..4) {
                    let length = (message.len() as u32).to_le_bytes();
                    size.copy_from_slice(&length);
                }
            }
            if number % 5 == 4 && bytes.len() > 4 {
                let length = (bytes.len() as u32).to_le_bytes();
                bytes[..4].copy_from_slice(&length);
            }
            let file = folder.join(number.to_string());
            fs::write(&file, bytes).unwrap();
            file.to_str().unwrap().to_string()
        })
        .collect()
}

/// Every line is JSON and says what the library says, whatever was done to the message.
#[test]
fn json_lines() {
    let (files, table) = (damaged("json_lines", 2_000), sample("kinds.table"));
    let mut words = vec!["show", "--json", "kinds.table", "14"];
    words.extend(files.iter().map(|file| &file[..]));
    let run = run(&words);
    assert_eq!(run.out.lines().count(), files.len());
    let (mut accepted, mut numbers) = (0, std::collections::BTreeSet::new());
    for (file, line) in files.iter().zip(run.out.lines()) {
        let json = Json::parse(line).unwrap_or_else(|wrong| panic!("{wrong}: {line}"));
        assert_eq!(json.get("file").text(), file);
        let (message, mut rows) = (fs::read(file).unwrap(), [0; icehub::MOST_ROWS * icehub::ROW_SIZE]);
        match icehub::read(&table, 14, &message, &mut rows) {
            Ok(reading) => {
                accepted += 1;
                assert_eq!(json.get("accepted"), &Json::Bool(true));
                assert_eq!(json.get("type").text(), reading.first_type.to_string());
                assert_eq!(json.get("optionals_skipped").text(), reading.optionals_skipped.to_string());
                assert_eq!(json.get("slices_skipped").text(), reading.slices_skipped.to_string());
                assert_eq!(json.get("members").list().len(), reading.members().len());
                for (shown, member) in json.get("members").list().iter().zip(reading.members()) {
                    assert_eq!(shown.get("member").text(), member.number().to_string());
                    assert_eq!(shown.get("place").text(), member.row.place.to_string());
                    assert_eq!(shown.get("length").text(), member.row.length.to_string());
                    if let Some(number) = member.as_i64() {
                        assert_eq!(shown.get("value").text(), number.to_string());
                    }
                    if let Some(text) = member.as_str() {
                        assert_eq!(shown.get("value").text(), text);
                    }
                }
            }
            Err(refusal) => {
                numbers.insert(refusal.number);
                assert_eq!(json.get("accepted"), &Json::Bool(false));
                assert_eq!(json.get("refusal").text(), refusal.number.to_string());
                assert_eq!(json.get("place").text(), refusal.place.to_string());
                assert_eq!(json.get("text").text(), refusal.text());
            }
        }
    }
    // The files are of many kinds, or nothing was tested.
    assert!(accepted > 500 && numbers.len() > 10, "{accepted} {numbers:?}");
    let refused = files.len() - accepted;
    assert!(
        run.err.starts_with(&format!("icehub: 2000 messages: {accepted} accepted, {refused} refused (")),
        "{}",
        run.err
    );
    assert_eq!(run.status, 1);
}

/// The same files for a person: each has its name, and the summary is the last line.
#[test]
fn several_files() {
    let files = damaged("several_files", 500);
    let mut words = vec!["show", "kinds.table", "14"];
    words.extend(files.iter().map(|file| &file[..]));
    let run = run(&words);
    for file in &files {
        assert!(run.out.contains(&format!("{file}: ")), "{file}");
    }
    assert!(run.out.lines().last().unwrap().starts_with("500 messages: "), "{}", run.out);
    assert_eq!((&run.err[..], run.status), ("", 1));
}

/// Whoever reads the output may stop: the tool prints nothing and ends as usual.
#[test]
fn closed_pipe() {
    let files = damaged("closed_pipe", 1);
    let mut words = vec!["show", "kinds.table", "14"];
    words.extend((0..3_000).map(|_| &files[0][..]));
    let mut child = command(&words).stdout(Stdio::piped()).stderr(Stdio::piped()).spawn().unwrap();
    let mut first = [0; 8];
    child.stdout.as_mut().unwrap().read_exact(&mut first).unwrap();
    drop(child.stdout.take());
    let output = child.wait_with_output().unwrap();
    assert_eq!((output.status.code(), &output.stderr[..]), (Some(0), &b""[..]));
}

/// If nobody reads standard error, the tool goes on.
#[test]
fn closed_error_pipe() {
    let words = ["show", "--json", "fault.table", "2", "none.message", "fault.message"];
    let mut child = command(&words).stdout(Stdio::piped()).stderr(Stdio::piped()).spawn().unwrap();
    drop(child.stderr.take());
    assert_eq!(child.wait().unwrap().code(), Some(2));
}

/// A refusal names the slice, the member, the way into its value, or what else is at its place.
#[test]
fn located() {
    let table = Table::new(
        &[
            (0, [0; 5]),           // 0: bool
            (9, [0, 2, 0, 0, 0]),  // 1: struct of two bools
            (10, [1, 0, 0, 0, 0]), // 2: sequence of that struct
            (11, [0, 2, 0, 0, 0]), // 3: dictionary of bool to that sequence
            (7, [0; 5]),           // 4: string
            (10, [4, 0, 0, 0, 0]), // 5: sequence of string
            (15, [2, 4, 0, 0, 0]), // 6: the list
        ],
        &[(0, None), (0, None), (3, None), (4, Some(1)), (5, Some(2)), (2, Some(40))],
    );
    let table = file("located.table", &table);
    let located = |body: &[u8]| {
        let run = run_with(&["show", &table, "6", "-"], &wrapped(body));
        assert_eq!(run.status, 1);
        let (head, rest) = run.out.split_once('\n').unwrap();
        let end = rest.find("  the message around").unwrap();
        format!("{}\n{}", &head[..head.find(':').unwrap()], &rest[..end])
    };
    // The dictionary is member 2: an entry of true, then two structs.
    assert_eq!(
        located(&[1, 1, 2, 0, 1, 0, 7]),
        "refused by 8 (BAD_BOOL) at 12\n  in member 2 from 6, required, dictionary of bool to sequence of struct 1\n  \
        in its value 0, element 1, member 1\n"
    );
    assert_eq!(
        located(&[2, 1, 0, 9]),
        "refused by 8 (BAD_BOOL) at 9\n  in member 2 from 6, required, dictionary of bool to sequence of struct 1\n  in its key 1\n"
    );
    assert_eq!(
        located(&[]),
        "refused by 4 (CUT_OFF) at 6\n  in member 2 from 6, required, dictionary of bool to sequence of struct 1\n"
    );
    // The optionals follow: a string of tag 1, strings of tag 2, structs of tag 40.
    assert_eq!(located(&[0, 0x0D, 9, b'a']), "refused by 4 (CUT_OFF) at 8\n  in member 3 from 7, tag 1, string\n");
    assert_eq!(
        located(&[0, 0x0D, 1, b'a', 0x16, 4, 0, 0, 0, 2, 1, b'b', 7]),
        "refused by 4 (CUT_OFF) at 18\n  in member 4 from 10, tag 2, sequence of string\n  in its element 1\n"
    );
    assert_eq!(
        located(&[0, 0x16, 0, 0, 0, 0]),
        "refused by 11 (BAD_LENGTH) at 8\n  in member 4 from 7, tag 2, sequence of string\n  at the length of the optional\n"
    );
    assert_eq!(
        located(&[0, 0xF5, 40, 3, 1, 1, 2]),
        "refused by 8 (BAD_BOOL) at 12\n  in member 5 from 7, tag 40, sequence of struct 1\n  in its element 0, member 1\n"
    );
    assert_eq!(
        located(&[0, 0x28, 5, 0x20, 5]),
        "refused by 12 (BAD_HEADER) at 9\n  in an optional from 9, tag 4, which the table does not know\n  \
        at the header of the optional\n"
    );
    assert_eq!(located(&[0, 0xFF]), "refused by 12 (BAD_HEADER) at 7\n  at the header of an optional\n");
}

/// The same for the parts of a slice, by changes of one byte in the sample.
#[test]
fn located_in_slices() {
    let located = |at: usize, byte: u8| {
        let mut message = sample("fault.message");
        message[at] = byte;
        let run = run_with(&["show", "fault-newer.table", "4", "-"], &message);
        let lines: Vec<_> = run.out.lines().take_while(|line| !line.starts_with("  the message")).collect();
        let heads: Vec<_> = lines.iter().map(|line| line.split(": ").next().unwrap().trim()).collect();
        heads.join("; ")
    };
    let first = "in slice 1 from 6, type ID \"::Guard::PipeFault\", type 5";
    let second = "in slice 2 from 32, type ID \"::Guard::Fault\", type 4";
    assert_eq!(located(0, 9), "refused by 5 (BAD_OUTER_SIZE) at 0; at the encapsulation's size");
    assert_eq!(located(5, 9), "refused by 6 (BAD_VERSION) at 4; at the encoding's version");
    assert_eq!(located(6, 0x51), format!("refused by 14 (BAD_FLAGS) at 6; {first}; at the slice's flags"));
    assert_eq!(located(7, 200), "refused by 4 (CUT_OFF) at 7; in slice 1 from 6; at the slice's type ID");
    assert_eq!(located(26, 3), format!("refused by 11 (BAD_LENGTH) at 26; {first}; at the slice's size"));
    assert_eq!(located(26, 5), format!("refused by 4 (CUT_OFF) at 30; {first}; in member 3 from 30, required, short"));
    assert_eq!(located(32, 0x15), format!("refused by 17 (BAD_CHAIN) at 32; {second}; at the slice's flags"));
    assert_eq!(located(60, 0x0B), format!("refused by 12 (BAD_HEADER) at 60; {second}; in member 1 from 60, tag 1, int; at the header of the optional"));
    assert_eq!(located(74, 0xFE), format!("refused by 12 (BAD_HEADER) at 74; {second}; at the header of an optional"));
    assert_eq!(
        located(48, 26),
        format!("refused by 4 (CUT_OFF) at 74; {second}; at the end, where an optional or the end marker is due")
    );
}

/// A proxy's items, and on a 24 the string and its first bad byte, in every kind of string.
#[test]
fn located_strings() {
    let table = Table::new(
        &[
            (7, [0; 5]),           // 0: string
            (12, [0; 5]),          // 1: proxy
            (11, [0, 0, 0, 0, 0]), // 2: dictionary of string to string
            (15, [0, 3, 0, 0, 0]), // 3: the list
        ],
        &[(1, None), (2, Some(1)), (0, Some(2))],
    );
    let table = file("located_strings.table", &table);
    let located = |body: &[u8]| {
        let run = run_with(&["show", &table, "3", "-"], &wrapped(body));
        assert_eq!(run.status, 1);
        let (head, rest) = run.out.split_once('\n').unwrap();
        let lines: Vec<_> = rest.lines().map(str::trim).take_while(|line| !line.starts_with("the message")).collect();
        format!("{}; {}", &head[..head.find(':').unwrap()], lines[1..].join("; "))
    };
    let bad =
        |place: usize| format!("the string has 2 bytes from {}, and is text up to {}: \"a\"", place + 1, place + 2);
    let is = |place: usize| {
        format!("{}; at {}: FF is no byte of UTF-8; read as Latin-1: \"a\u{FF}\"", bad(place), place + 2)
    };
    let refused = |place: usize| format!("refused by 24 (BAD_TEXT) at {place}");
    let string = [2, b'a', 0xFF];
    let proxy = |before: &[u8]| located(&[before, &string].concat());
    let proxy_item = |place: usize, item: &str| format!("{}; at {item}; {}", refused(place), is(place));
    assert_eq!(proxy(&[]), proxy_item(6, "the name of the identity"));
    assert_eq!(proxy(b"\x01n"), proxy_item(8, "the category of the identity"));
    assert_eq!(proxy(b"\x01n\0\x01"), proxy_item(10, "the facet"));
    assert_eq!(proxy(b"\x01n\0\0\0\0\x01\0\x01\x01\0"), proxy_item(17, "the adapter"));
    let entries = |before: &[u8]| {
        let entries = [before, &string].concat();
        located(&[&[0, 0, 0x0E, entries.len() as u8, 0, 0, 0][..], &entries].concat())
    };
    assert_eq!(entries(&[1]), format!("{}; in its key 0; {}", refused(14), is(14)));
    assert_eq!(entries(b"\x02\x01k\x01v\x01l"), format!("{}; in its value 1; {}", refused(20), is(20)));
    assert_eq!(located(&[0, 0, 0x15, 2, b'a', 0xFF]), format!("{}; {}", refused(9), is(9)));

    // Other refusals of a proxy.
    assert_eq!(located(b"\0\x01c"), "refused by 10 (BAD_PROXY) at 6; at the name of the identity");
    assert_eq!(located(b"\x01n\0\x02"), "refused by 10 (BAD_PROXY) at 9; at the facet count");
    assert_eq!(located(b"\x01n\0\0\x05"), "refused by 10 (BAD_PROXY) at 10; at the mode");
    assert_eq!(located(b"\x01n\0\0\0\x02"), "refused by 8 (BAD_BOOL) at 11; at the secure byte");
    assert_eq!(located(b"\x01n\0\0\0\0\x01"), "refused by 4 (CUT_OFF) at 13; at the protocol's version");
    assert_eq!(located(b"\x01n\0\0\0\0\x01\0\x01"), "refused by 4 (CUT_OFF) at 15; at the encoding's version");
    assert_eq!(located(b"\x01n\0\0\0\0\x01\0\x01\x01"), "refused by 4 (CUT_OFF) at 16; at the endpoint count");
    let endpoint = b"\x01n\0\0\0\0\x01\0\x01\x01\x02\x01\0\x06\0\0\0\x01\x01\x01\0\x05\0\0\0";
    assert_eq!(located(endpoint), "refused by 11 (BAD_LENGTH) at 27; at the length of an endpoint");
    assert_eq!(located(&endpoint[..20]), "refused by 4 (CUT_OFF) at 25; at the type of an endpoint");
}

/// A type ID that is no text, first and later, for a person and in JSON.
#[test]
fn type_ids_that_are_no_text() {
    for (at, slice, place) in [(10, 1, 7), (36, 2, 33)] {
        let mut message = sample("fault.message");
        message[at] = 0xC0;
        let run = run_with(&["show", "fault-newer.table", "4", "-"], &message);
        let lines: Vec<_> = run.out.lines().collect();
        assert!(lines[0].starts_with(&format!("refused by 24 (BAD_TEXT) at {place}: ")), "{}", run.out);
        assert!(lines[1].starts_with(&format!("  in slice {slice} from {}, type ID bytes 3A 3A C0 ", place - 1)));
        let wrong = "C0 begins an overlong form: a character below U+0080 has one byte";
        assert_eq!((lines[2], lines[4]), ("  at the slice's type ID", &format!("  at {at}: {wrong}")[..]));
        assert_eq!((lines[lines.len() - 2].trim_start().split(' ').next(), run.status), (Some(&at.to_string()[..]), 1));
        let run = run_with(&["show", "--json", "fault-newer.table", "4", "-"], &message);
        let json = Json::parse(&run.out).unwrap();
        assert!(json.get("slice").get("id").get("bytes").text().starts_with("3A3AC0"));
        let string = json.get("string");
        assert_eq!((string.get("bad").text(), string.get("wrong").text()), (&at.to_string()[..], wrong));
        assert_eq!(string.get("place").text(), (place + 1).to_string());
    }
}

/// What is wrong with a table, for each rule: a byte of the sample table is changed.
#[test]
fn broken_tables() {
    let (base, derived) = ("type row 4 (::Guard::Fault)", "type row 5 (::Guard::PipeFault)");
    for (place, to, number, wrong) in [
        (0, b'X', 31, "header: the table does not begin with the mark FGT".to_string()),
        (3, 3, 31, "header: its version is 3, not 1 or 2".to_string()),
        (
            3,
            2,
            31,
            "header: the table is 148 bytes long, and 6 type rows, 4 member rows, 32 name bytes and 7 entries make 178"
                .to_string(),
        ),
        (5, 0, 31, "header: it says 0 type rows; a table has 1 to 256".to_string()),
        (8, 16, 31, "header: it says 4100 member rows; a table has at most 1024".to_string()),
        (10, 64, 31, "header: it says 16416 name bytes; a table has at most 8192".to_string()),
        (11, 1, 31, "header: its zero byte, at 11, is 1, not 0".to_string()),
        (
            9,
            33,
            31,
            "header: the table is 148 bytes long, and 6 type rows, 4 member rows and 33 name bytes make 149"
                .to_string(),
        ),
        (13, 1, 32, "type row 0: its second byte is 1, not 0".to_string()),
        (14, 1, 32, "type row 0: a is 1, and a string has it 0".to_string()),
        (87, 1, 32, format!("member row 0 of {base}: its fourth byte is 1, not 0")),
        (88, 5, 32, format!("member row 0 of {base}: it is required, and its tag is 5, not 0")),
        (12, 16, 33, "type row 0: its kind is 16; kinds are 0 to 15".to_string()),
        (78, 7, 34, format!("{derived}: its base, row 6, is not a smaller row")),
        (78, 4, 34, format!("{derived}: its base, row 3, is a short, not an exception")),
        (36, 10, 34, "type row 2: its element, row 5, is not a smaller row".to_string()),
        (84, 4, 34, format!("member row 0 of {base}: its type, row 4, is not smaller than its owner's row, 4")),
        (108, 4, 34, format!("member row 3 of {derived}: its type, row 4, is an exception: no type of a value")),
        (
            74,
            2,
            35,
            format!(
                "{derived}: its member rows begin at 2 (a), and the rows before it take 3: they are to begin there"
            ),
        ),
        (76, 2, 35, "member rows: the type rows take 5, and the table has 4".to_string()),
        (48, 9, 36, "type row 3: it is a struct without members; a struct has at least one (b)".to_string()),
        (94, 2, 36, format!("member row 1 of {base}: its mark is 2; 0 is required, 1 optional")),
        (82, 0, 37, "type row 5: its name is 0 bytes long (e); a name has 1 to 255".to_string()),
        (80, 15, 37, "type row 5: its name ends at 33 (d + e), and there are 32 name bytes".to_string()),
        (
            132,
            0xE6,
            37,
            "type row 5 (bytes 3A 3A E6 75 61 72 64 3A 3A 50 69 70 65 46 61 75 6C 74): its name is no UTF-8: at 132, E6 \
            begins a character of 3 bytes, and the byte at 133, 75, does not continue it"
                .to_string(),
        ),
        (99, 128, 38, format!("member row 1 of {base}: its tag is 2147483649, over 2147483647")),
        (104, 1, 38, format!("member row 2 of {base}: its tag is 1, and member row 1 of the same owner has that tag")),
    ] {
        let mut table = sample("fault-newer.table");
        table[place] = to;
        if to == 10 {
            table[38] = 5;
        }
        let run = run(&["table", &file(&format!("broken-{place}-{to}.table"), &table)]);
        let mut lines = run.out.lines();
        assert!(run.status == 1 && lines.next().unwrap().starts_with(&format!("refused by {number} (BAD_TABLE_")));
        assert_eq!(lines.next().unwrap().trim_start(), wrong);
    }
}

/// The same for the lists of a table of version 2: a few bytes of the sample are changed.
#[test]
fn broken_lists() {
    for (number, (changes, wrong)) in [
        (
            &[(12, 7)][..],
            "header: the table is 110 bytes long, and 4 type rows, 3 member rows, 0 name bytes and 7 entries make 114",
        ),
        (&[(13, 5)], "header: it says 1286 entries of lists of enumerators; a table has at most 1024"),
        (&[(24, 1)], "type row 0: e is 1, and an enum has it 0"),
        (&[(32, 2)], "type row 1: its list begins at entry 2 (c), and the rows before it take 3: it is to begin there"),
        (&[(34, 0)], "type row 1: its list has no entry (d); a list has at least one"),
        (&[(34, 4)], "type row 1: its list ends at entry 7 (c + d), and there are 6 entries"),
        (&[(90, 1)], "type row 0: its list does not rise at entry 1, at 90: 1 follows 1"),
        (&[(102, 3)], "type row 1: its list does not rise at entry 5, at 106: 2 follows 3"),
        (&[(16, 5)], "type row 0: its list ends with 4, and its greatest enumerator is 5 (a + 65536 b)"),
        (&[(28, 1), (34, 2)], "entries: the lists of the enums take 5, and the table has 6"),
        (
            &[(52, 1)],
            "type row 3: its member rows begin at 1 (a), and the rows before it take 0: they are to begin there",
        ),
        (&[(85, 128)], "member row 2 of type row 3: its tag is 2147483649, over 2147483647"),
    ]
    .into_iter()
    .enumerate()
    {
        let mut table = sample("valve.table");
        for &(place, to) in changes {
            table[place] = to;
        }
        let run = run(&["table", &file(&format!("broken-list-{number}.table"), &table)]);
        assert_eq!((run.status, run.out.lines().nth(1).unwrap().trim_start()), (1, wrong));
        let shown = run.out.lines().skip_while(|line| !line.starts_with("  type  what")).skip(1).count();
        let rows = match wrong.split(':').next().unwrap() {
            "header" | "type row 0" => 0,
            "type row 1" => 1,
            "type row 3" => 3,
            "entries" => 4,
            _ => 6, // two of the members as well
        };
        assert_eq!(shown, rows, "{}", run.out);
    }
    let run = run(&["table", &file("cut.table", &sample("valve.table")[..13])]);
    let wrong = "  header: the table is 13 bytes long, and the header of version 2 alone has 14";
    assert_eq!((run.status, run.out.lines().nth(1)), (1, Some(wrong)));
}

/// The enumerators that an enum allows: all lines of a long list, and on a 9 those next to the number.
#[test]
fn allowed_enumerators() {
    let table = |fields: [u16; 5], list: &[u32]| {
        let mut table = Table::new(&[(8, fields), (10, [0; 5]), (15, [0, 1, 0, 0, 0])], &[(1, None)]);
        if !list.is_empty() {
            table[3] = 2;
            table.splice(12..12, (list.len() as u16).to_le_bytes());
            table.extend(list.iter().flat_map(|entry| entry.to_le_bytes()));
        }
        file(&format!("allowed-{}.table", list.len()), &table)
    };
    let allowed = |table: &str, body: &[u8]| {
        let run = run_with(&["show", table, "2", "-"], &wrapped(body));
        assert_eq!(run.status, 1);
        run.out.lines().nth(3).unwrap().trim_start().to_string()
    };
    let plain = table([3, 0, 0, 0, 0], &[]);
    assert_eq!(allowed(&plain, &[2, 0, 4]), "the enumerator is 4; its enum, type 0, allows 0 to 3");
    let few = table([300, 0, 0, 5, 0], &[1, 3, 4, 5, 300]);
    assert_eq!(allowed(&few, &[1, 2]), "the enumerator is 2; its enum, type 0, allows 1, 3 to 5, 300");
    let many = table([2_047, 0, 0, 1_024, 0], &(0..1_024).map(|i| 2 * i + 1).collect::<Vec<_>>());
    assert_eq!(
        allowed(&many, &[1, 100]),
        "the enumerator is 100; its enum, type 0, allows 1024 enumerators, next to it 99 and 101"
    );
    assert_eq!(
        allowed(&many, &[1, 255, 0, 8, 0, 0]),
        "the enumerator is 2048; its enum, type 0, allows 1024 enumerators, next to it 2047"
    );
    let run = run(&["table", &many]);
    assert!(run.out.starts_with("version 2, 3 types, 1 member, 0 name bytes, 1024 entries\n"), "{}", run.out);
    let lines: Vec<_> = run.out.lines().skip(3).take_while(|line| !line.starts_with("     1")).collect();
    assert!(lines.len() > 50 && lines.iter().all(|line| line.len() < 100), "{}", run.out);
    assert!(lines[0].starts_with("     0  enum of 1024 enumerators: 1, 3, 5, "), "{}", lines[0]);
    assert!(lines[1].starts_with("          ") && lines.last().unwrap().ends_with("2045, 2047"), "{}", run.out);
}

/// Refusals that are not in the message: a table that breaks a rule, a top that is none, a message that is too long.
#[test]
fn other_refusals() {
    let mut table = sample("fault-newer.table");
    table[72 + 2] = 2;
    let broken = file("broken.table", &table);
    let by_table = run(&["table", &broken]);
    let by_show = run(&["show", &broken, "::Guard::Fault", "fault.message"]);
    assert_eq!((by_table.status, by_show.status), (1, 1));
    let rows = by_table.out.strip_prefix(&by_show.out).expect("the same, and the rows");
    assert!(rows.starts_with("\nThe rows before it:\nversion 1, 6 types, 4 members, 32 name bytes\n"), "{rows}");
    assert!(rows.ends_with("     3  short\n     4  exception \"::Guard::Fault\", can be a top\n"), "{rows}");
    let run_of = |words: &[&str]| run(words);
    let run = run_of(&["show", "fault.table", "1", "fault.message"]);
    assert!(
        run.out.starts_with("refused by 2 (BAD_TYPE) at 0: ") && run.out.ends_with("\n  type 1 is int\n"),
        "{}",
        run.out
    );
    let run = run_of(&["show", "fault.table", "9", "fault.message"]);
    assert!(run.out.ends_with("\n  there is no type 9: the table has 3 types\n"), "{}", run.out);
    let run = run_of(&["show", "fault.table", "2", &file("long", &[0; 65_537])]);
    assert_eq!((run.status, run.out.lines().count(), &run.out[..14]), (1, 1, "refused by 3 ("));
}
