//! Setting and removing one optional, as document 02 (M-112) has it: each rule by name, and generated changes.

use independent::calls::{Answer, Call};
use independent::gen::Changes;
use independent::spec::{Member, Spec};
use independent::{read, remove, set, Reading, Refusal};

/// A body in an encapsulation of version 1.1.
fn wrapped(body: &[u8]) -> Vec<u8> {
    [&(body.len() as u32 + 6).to_le_bytes()[..], &[1, 1], body].concat()
}

/// A slice of the sliced format: flags, type ID, size and data.
fn slice(flags: u8, id: &str, data: &[u8]) -> Vec<u8> {
    let size = (data.len() as u32 + 4).to_le_bytes();
    [&[flags, id.len() as u8], id.as_bytes(), &size, data].concat()
}

fn set_to(table: &[u8], top: u32, message: &[u8], member: u32, bytes: &[u8]) -> Result<Vec<u8>, Refusal> {
    let mut out = vec![0xA5; 65_536];
    let length = set(table, top, message, member, bytes, &mut out)? as usize;
    assert!(out[length..].iter().all(|&byte| byte == 0xA5));
    out.truncate(length);
    Ok(out)
}

fn removed(table: &[u8], top: u32, message: &[u8], member: u32) -> Result<Vec<u8>, Refusal> {
    let mut out = vec![0xA5; 65_536];
    let length = remove(table, top, message, member, &mut out)? as usize;
    assert!(out[length..].iter().all(|&byte| byte == 0xA5));
    out.truncate(length);
    Ok(out)
}

/// A parameter list of optional bytes with these tags, row 1.
fn bytes_of(tags: &[u32]) -> Vec<u8> {
    let mut spec = Spec::default();
    let byte = spec.basic(1);
    let members: Vec<Member> = tags.iter().map(|&tag| (byte, Some(tag))).collect();
    spec.owner(15, &members);
    spec.bytes()
}

/// An optional byte: header, a tag from 30 on, value.
fn byte(tag: u32, value: u8) -> Vec<u8> {
    match tag {
        0..=29 => vec![(tag as u8) << 3, value],
        30..=254 => vec![30 << 3, tag as u8, value],
        _ => [&[30 << 3, 255], &tag.to_le_bytes()[..], &[value]].concat(),
    }
}

/// Exceptions ::Base with a required byte and an optional(3) string, ::Derived over it with an optional(1) byte:
/// rows 2 and 3, members 0 and 1, and 2.
fn exceptions() -> Vec<u8> {
    let mut spec = Spec::default();
    let [byte, text] = [1, 7].map(|kind| spec.basic(kind));
    let base = spec.record(13, None, b"::Base", &[(byte, None), (text, Some(3))]);
    spec.record(13, Some(base), b"::Derived", &[(byte, Some(1))]);
    spec.bytes()
}

const BASE: u32 = 2;

#[test]
fn tag_order_counts_unknown_tags() {
    let tags = [0, 5, 12, 31, 299, 0x7FFF_FFFF];
    let unknown = [3, 10, 30, 300].map(|tag| byte(tag, 9));
    let message = wrapped(&unknown.concat());
    let table = bytes_of(&tags);
    for (member, before) in [(0, 0), (1, 1), (2, 2), (3, 3), (4, 3), (5, 4)] {
        let new = byte(tags[member], 7);
        let expected = [&unknown[..before], &[new], &unknown[before..]].concat().concat();
        assert_eq!(set_to(&table, 1, &message, member as u32, &[7]), Ok(wrapped(&expected)));
    }
    // The same tag is replaced where it stands, known ones around it too.
    let all = [byte(0, 1), byte(3, 9), byte(5, 2), byte(10, 9), byte(12, 3)];
    let expected = [byte(0, 1), byte(3, 9), byte(5, 8), byte(10, 9), byte(12, 3)];
    assert_eq!(set_to(&table, 1, &wrapped(&all.concat()), 1, &[8]), Ok(wrapped(&expected.concat())));
    let expected = [byte(0, 1), byte(3, 9), byte(10, 9), byte(12, 3)];
    assert_eq!(removed(&table, 1, &wrapped(&all.concat()), 1), Ok(wrapped(&expected.concat())));
}

#[test]
fn lists_have_no_end_marker() {
    let table = bytes_of(&[4]);
    assert_eq!(set_to(&table, 1, &wrapped(&[]), 0, &[1]), Ok(wrapped(&byte(4, 1))));
    assert_eq!(removed(&table, 1, &wrapped(&byte(4, 1)), 0), Ok(wrapped(&[])));
}

#[test]
fn bit_2_and_end_marker() {
    let table = exceptions();
    let bare = wrapped(&slice(0x31, "::Base", &[6]));
    let with = wrapped(&slice(0x35, "::Base", &[6, 3 << 3 | 5, 2, b'h', b'i', 255]));
    assert_eq!(set_to(&table, BASE, &bare, 1, b"\x02hi"), Ok(with.clone()));
    assert_eq!(removed(&table, BASE, &with, 1), Ok(bare));
    // While an unknown optional remains, so do both.
    let unknown = wrapped(&slice(0x35, "::Base", &[6, 4 << 3, 1, 255]));
    let both = wrapped(&slice(0x35, "::Base", &[6, 3 << 3 | 5, 2, b'h', b'i', 4 << 3, 1, 255]));
    assert_eq!(set_to(&table, BASE, &unknown, 1, b"\x02hi"), Ok(both.clone()));
    assert_eq!(removed(&table, BASE, &both, 1), Ok(unknown));
}

#[test]
fn both_sizes() {
    let table = exceptions();
    let derived = slice(0x15, "::Derived", &[1 << 3, 5, 255]);
    let message = wrapped(&[derived.clone(), slice(0x35, "::Base", &[6, 3 << 3 | 5, 0, 255])].concat());
    let long = [&[255, 44, 1, 0, 0][..], &[b'x'; 300]].concat();
    let data = [&[6, 3 << 3 | 5], &long[..], &[255]].concat();
    let expected = wrapped(&[derived, slice(0x35, "::Base", &data)].concat());
    assert_eq!(set_to(&table, BASE, &message, 1, &long), Ok(expected.clone()));
    assert_eq!(set_to(&table, BASE, &expected, 1, &[0]), Ok(message));
}

#[test]
fn length_fields() {
    let mut spec = Spec::default();
    let [short, text] = [2, 7].map(|kind| spec.basic(kind));
    let shorts = spec.row(10, [short, 0, 0, 0, 0]);
    let texts = spec.row(10, [text, 0, 0, 0, 0]);
    let state = spec.enumeration(300);
    let members = [(text, 1), (shorts, 2), (texts, 3), (state, 4)].map(|(of, tag)| (of, Some(tag)));
    let top = spec.owner(15, &members).into();
    let many = [&[255, 200, 0, 0, 0], &[0; 400][..]].concat();
    assert_eq!(set_to(&spec.bytes(), top, &wrapped(&[]), 1, &many), Err((21, 0)));
    let many = [&[200], &[0; 400][..]].concat();
    let expected = |member, bytes: &[u8], optional: &[u8]| {
        assert_eq!(set_to(&spec.bytes(), top, &wrapped(&[]), member, bytes), Ok(wrapped(optional)));
    };
    expected(0, b"\x01a", b"\x0D\x01a");
    expected(1, &[1, 7, 0], &[2 << 3 | 5, 3, 1, 7, 0]);
    expected(1, &many, &[&[2 << 3 | 5, 255, 145, 1, 0, 0], &many[..]].concat());
    expected(2, b"\x01\x01a", b"\x1E\x03\0\0\0\x01\x01a");
    expected(3, &[255, 44, 1, 0, 0], &[4 << 3 | 4, 255, 44, 1, 0, 0]);
}

#[test]
fn skipped_slices_and_optionals_are_kept() {
    let table = exceptions();
    let newer = slice(0x15, "::Newer", b"what it is");
    let derived = |data: &[u8]| slice(if data.is_empty() { 0x11 } else { 0x15 }, "::Derived", data);
    let base = slice(0x35, "::Base", &[6, 2 << 3, 8, 3 << 3 | 5, 0, 30 << 3 | 6, 40, 1, 0, 0, 0, 9, 255]);
    let of = |data: &[u8]| wrapped(&[newer.clone(), derived(data), base.clone()].concat());
    assert_eq!(set_to(&table, BASE, &of(&[]), 2, &[5]), Ok(of(&[1 << 3, 5, 255])));
    assert_eq!(set_to(&table, BASE, &of(&[0, 4, 2 << 3, 6, 255]), 2, &[5]), Ok(of(&[0, 4, 1 << 3, 5, 2 << 3, 6, 255])));
    assert_eq!(removed(&table, BASE, &of(&[1 << 3, 5, 255]), 2), Ok(of(&[])));
    let reading = read(&table, BASE, &of(&[1 << 3, 5, 255]), &mut [0; 99]);
    assert_eq!(reading, Ok(Reading { first: 3, format: 1, rows: 3, optionals_skipped: 2, slices_skipped: 1 }));
}

#[test]
fn classes() {
    let mut spec = Spec::default();
    let byte = spec.basic(1);
    let class = spec.record(14, None, b"::C", &[(byte, Some(1))]).into();
    let bare = wrapped(&[&[1], &slice(0x31, "::C", &[])[..]].concat());
    let with = wrapped(&[&[1], &slice(0x35, "::C", &[1 << 3, 5, 255])[..]].concat());
    assert_eq!(set_to(&spec.bytes(), class, &bare, 0, &[5]), Ok(with.clone()));
    assert_eq!(removed(&spec.bytes(), class, &with, 0), Ok(bare));
}

/// The frost delay in a report of a newer thermostat, which has a battery reading (9) and a mode (3) besides.
#[test]
fn an_older_table_s_change_read_under_the_newer() {
    let table = |more: &[(u32, u16)]| {
        let mut spec = Spec::default();
        let [short, long, int] = [2, 4, 3].map(|kind| spec.basic(kind));
        let optionals = [&[(7, long), (8, int)], more].concat().into_iter().map(|(tag, of)| (of, Some(tag)));
        let members: Vec<Member> = [(short, None)].into_iter().chain(optionals).collect();
        spec.owner(15, &members);
        spec.bytes()
    };
    let (hub, sender) = (table(&[]), table(&[(3, 0), (9, 2)]));
    let report = |delay: &[u8]| {
        let tick = [7 << 3 | 3, 0, 0, 0, 0, 1, 0, 0, 0];
        wrapped(&[&[0x0C, 0xFE, 3 << 3 | 1, 2, 0][..], &tick, delay, &[9 << 3 | 2, 80, 0, 0, 0]].concat())
    };
    let (old, new) = (report(&[8 << 3 | 2, 8, 7, 0, 0]), report(&[8 << 3 | 2, 0x10, 0x0E, 0, 0]));
    assert_eq!(set_to(&hub, 3, &old, 2, &[0x10, 0x0E, 0, 0]), Ok(new.clone()));
    assert_eq!(set_to(&hub, 3, &report(&[]), 2, &[0x10, 0x0E, 0, 0]), Ok(new.clone()));
    assert_eq!(removed(&hub, 3, &new, 2), Ok(report(&[])));
    let view = |member| independent::member(&sender, 3, &new, member, b"none").to_vec();
    assert_eq!([view(3), view(2), view(4)], [vec![2, 0], vec![0x10, 0x0E, 0, 0], vec![80, 0, 0, 0]]);
}

#[test]
fn refusals_in_order() {
    let table = exceptions();
    let sliced = wrapped(&slice(0x31, "::Base", &[6]));
    let compact = wrapped(&[&[0x21, 6], &b"::Base"[..], &[6]].concat());
    let big = vec![0; 65_537];
    // The reader's own come first.
    assert_eq!(set_to(&table, BASE, &sliced[..9], 9, &big), Err((5, 0)));
    assert_eq!(set_to(&table, 0, &sliced, 9, &big), Err((2, 0)));
    assert_eq!(set_to(&table[1..], BASE, &sliced, 9, &big), Err((31, 0)));
    // 49: outside the table, required, of another type than those of the chain; before 50 and 51.
    for member in [0, 2, 3, 65_537, u32::MAX] {
        for message in [&sliced, &compact] {
            assert_eq!(set_to(&table, BASE, message, member, &big), Err((49, 0)));
            assert_eq!(removed(&table, BASE, message, member), Err((49, 0)));
        }
    }
    // 50 before 51, 51 before 3, 3 before 21, 21 before 22.
    assert_eq!(removed(&table, BASE, &compact, 1), Err((50, 0)));
    assert_eq!(removed(&table, BASE, &sliced, 1), Err((50, 0)));
    assert_eq!(set_to(&table, BASE, &compact, 1, &big), Err((51, 0)));
    let compact = wrapped(&[&[0x25, 6], &b"::Base"[..], &[6, 3 << 3 | 5, 0, 255]].concat());
    assert_eq!(removed(&table, BASE, &compact, 1), Err((51, 0)));
    assert_eq!(set_to(&table, BASE, &sliced, 1, &big), Err((3, 0)));
    assert_eq!(set(&table, BASE, &sliced, 1, &big[..65_536], &mut []), Err((21, 0)));
    for wrong in [&b""[..], b"\x02a", b"\x01ab", b"\x01\xFF", b"\xFF\x01\0\0\0a"] {
        assert_eq!(set(&table, BASE, &sliced, 1, wrong, &mut []), Err((21, 0)));
    }
    let needed = sliced.len() as u32 + 4;
    assert_eq!(set(&table, BASE, &sliced, 1, b"\x01a", &mut vec![0; needed as usize - 1]), Err((22, needed)));
    assert_eq!(set(&table, BASE, &sliced, 1, b"\x01a", &mut vec![0; needed as usize]), Ok(needed));
}

#[test]
fn at_65_536_bytes() {
    let table = exceptions();
    let sliced = wrapped(&slice(0x31, "::Base", &[6]));
    let text = |length: usize| [&[255][..], &(length as u32).to_le_bytes(), &vec![b'a'; length]].concat();
    let most = 65_536 - sliced.len() - 2 - 5;
    assert_eq!(set_to(&table, BASE, &sliced, 1, &text(most)).map(|out| out.len()), Ok(65_536));
    let mut out = vec![0; 70_000];
    assert_eq!(set(&table, BASE, &sliced, 1, &text(most + 1), &mut out), Err((22, 65_537)));
    // 65,536 new bytes pass 3.
    assert_eq!(set(&table, BASE, &sliced, 1, &text(65_531), &mut out), Err((22, 65_536 + sliced.len() as u32 + 2)));
    assert!(out.iter().all(|&byte| byte == 0));
}

/// In encoding 1.0 no chain has an optional, so every member is 49.
#[test]
fn encoding_1_0() {
    let mut spec = Spec::default();
    let byte = spec.basic(1);
    let top = spec.owner(15, &[(byte, None)]).into();
    spec.owner(15, &[(byte, Some(1))]);
    for member in 0..3 {
        assert_eq!(set_to(&spec.bytes(), top, &[7, 0, 0, 0, 1, 0, 9], member, &[1]), Err((49, 0)));
        assert_eq!(removed(&spec.bytes(), top, &[7, 0, 0, 0, 1, 0, 9], member), Err((49, 0)));
    }
}

/// Changes under older tables of newer messages: both tables read the result, equal bytes give the same message, and what
/// was set where nothing was before is removed again.
#[test]
fn generated_changes() {
    let (mut reached, mut added, mut equal, mut passed_on) = ([0; 52], 0, 0, 0);
    for change in Changes::new(112).take(60_000) {
        let answer = change.call.answer();
        let Answer::Write { refusal: (number, _), out } = answer.clone() else {
            panic!("{}", change.call.json(&answer));
        };
        reached[number as usize] += 1;
        if number != 0 {
            continue;
        }
        passed_on += usize::from(change.in_newer.is_some());
        assert!(change.is_passed_on(&out, Call::answer), "{}", change.call.json(&answer));
        let (Call::Set { table, top, message, member, .. } | Call::Remove { table, top, message, member, .. }) =
            &change.call
        else {
            panic!()
        };
        let before = independent::member(table, *top, message, *member, &[]).to_vec();
        let after = independent::member(table, *top, &out, *member, &[]).to_vec();
        if before == after {
            equal += 1;
            assert_eq!(out, *message);
        }
        if before.is_empty() {
            added += 1;
            assert_eq!(removed(table, *top, &out, *member), Ok(message.clone()));
        } else {
            assert_eq!(set_to(table, *top, &out, *member, &before), Ok(message.clone()));
        }
    }
    println!("{reached:?} added {added} equal {equal} passed on {passed_on}");
    assert!([0, 3, 21, 22, 49, 50, 51].iter().all(|&number| reached[number] >= 10), "{reached:?}");
    assert!(added >= 1_000 && equal >= 1_000 && passed_on >= 5_000, "{added} {equal} {passed_on}");
}
