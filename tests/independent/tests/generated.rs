//! Generated calls: what was made conforming is accepted, and what was read is written again.

use independent::calls::{Answer, Call};
use independent::gen::{message, Calls, Message, Rng, Text, Types, Wrong};
use independent::{check, member, Reading};

/// Tables, each with a conforming message under some of its tops.
fn conforming(seed: u64, tables: usize, mut with: impl FnMut(&Types, u32, Message)) {
    let mut rng = Rng(seed);
    for _ in 0..tables {
        let types = Types::random(&mut rng);
        assert_eq!(check(&types.spec.bytes()), Ok(()));
        let tops = (0..types.spec.rows.len() as u16).filter(|&r| types.kind(r) >= 13);
        for top in tops.take(6) {
            let made = message(&mut rng, &types, top, Wrong::Nothing);
            with(&types, top.into(), made);
        }
    }
}

#[test]
fn conforming_messages_are_read_as_made() {
    conforming(1, 8_000, |types, top, made| {
        let room = 12 * made.rows.len() + 7;
        let call = Call::Read { table: types.spec.bytes(), top, message: made.bytes, room };
        let expected = Answer::Read { refusal: (0, 0), reading: made.reading, rows: made.rows };
        assert_eq!(call.answer(), expected, "{}", call.json(&expected));
    });
}

#[test]
fn what_is_read_with_nothing_skipped_is_written_again() {
    let (mut whole, mut converted, mut old) = (0, 0, 0);
    conforming(2, 10_000, |types, top, made| {
        let Message { bytes: buffer, rows, reading, .. } = made;
        let format = reading.format.max(1);
        let call = Call::Write {
            table: types.spec.bytes(),
            of: reading.first,
            format,
            count: reading.rows,
            rows: rows.iter().flatten().flat_map(|number| number.to_le_bytes()).collect(),
            buffer: buffer.clone(),
            room: 65_536,
        };
        let Answer::Write { refusal: (0, 0), out } = call.answer() else {
            panic!("{}", call.json(&call.answer()));
        };
        // A compact record comes back converted.
        let (table, message) = (types.spec.bytes(), buffer.clone());
        let conversion = Call::Convert { table, top, message, room: out.len() }.answer();
        let is_whole = (reading.optionals_skipped, reading.slices_skipped) == (0, 0);
        let refusal = if reading.format == 0 { 48 } else { 47 };
        if is_whole && reading.format != 0 {
            *if reading.format == 1 { &mut whole } else { &mut old } += 1;
            assert_eq!(out, buffer);
        }
        if is_whole && reading.format == 0 {
            converted += 1;
            assert_eq!(conversion, Answer::Write { refusal: (0, 0), out: out.clone() });
        } else {
            assert_eq!(conversion, Answer::Write { refusal: (refusal, 0), out: vec![] });
        }
        // In any case the same members and bytes, with nothing to be skipped any more.
        let (message, room) = (out.clone(), 12 * rows.len());
        let again = Call::Read { table: types.spec.bytes(), top: reading.first, message, room };
        let Answer::Read { refusal: (0, 0), reading: second, rows: second_rows } = again.answer() else {
            panic!("{}", again.json(&again.answer()));
        };
        assert_eq!(second, Reading { format, optionals_skipped: 0, slices_skipped: 0, ..reading });
        let part = |bytes: &[u8], row: &[u32; 3]| bytes[row[1] as usize..(row[1] + row[2]) as usize].to_vec();
        for (row, second) in rows.iter().zip(&second_rows) {
            assert_eq!((row[0], part(&buffer, row)), (second[0], part(&out, second)));
        }
    });
    assert!(whole > 3_000 && converted > 1_500 && old > 1_000, "{whole} {converted} {old}");
}

#[test]
fn the_view_gives_the_rows_of_the_reader() {
    conforming(3, 1_000, |types, top, made| {
        let fallback = [1, 2, 3];
        let table = types.spec.bytes();
        let first = made.reading.first as u16;
        let owners = if types.kind(first) == 15 { vec![first] } else { types.chain(first) };
        for wanted in 0..types.spec.members.len().min(60) + 2 {
            let bytes = member(&table, top, &made.bytes, wanted as u32, &fallback);
            match made.rows.iter().find(|row| row[0] as usize == wanted) {
                Some(row) => assert_eq!(bytes, &made.bytes[row[1] as usize..(row[1] + row[2]) as usize]),
                None if owners.iter().any(|&r| types.owned(r).contains(&wanted)) => assert_eq!(bytes, fallback),
                None => assert_eq!(bytes, []),
            }
        }
    });
}

/// A message that conforms but for strings that are no text is refused by 24 at the first of them, and the rows by 21 at
/// the first that holds one.
#[test]
fn strings_that_are_no_text_are_refused() {
    let (mut rng, mut read, mut written) = (Rng(8), [0; Text::ALL.len()], [0; Text::ALL.len()]);
    for _ in 0..20_000 {
        let types = Types::random(&mut rng);
        let (table, top) = (types.spec.bytes(), types.top(&mut rng));
        let Message { bytes, rows, reading, strings } = message(&mut rng, &types, top, Wrong::Strings(6));
        let mut wrong = strings.iter().filter(|string| !string.is_text);
        let refusal = wrong.clone().next().map_or((0, 0), |first| (24, first.place as u32));
        let call = Call::Read { table: table.clone(), top: top.into(), message: bytes.clone(), room: 12 * 1_024 };
        let Answer::Read { refusal: given, .. } = call.answer() else { panic!() };
        assert_eq!(given, refusal, "{}", call.json(&call.answer()));

        let row = |place: usize| rows.iter().position(|row| (row[1]..row[1] + row[2]).contains(&(place as u32)));
        let inside = wrong.clone().find_map(|string| Some((string.what, row(string.place)?)));
        let refusal = inside.map_or((0, 0), |(_, row)| (21, row as u32));
        let (of, format, count) = (reading.first, reading.format.max(1), reading.rows);
        let list = rows.iter().flatten().flat_map(|number| number.to_le_bytes()).collect();
        let call = Call::Write { table, of, format, count, rows: list, room: 2 * bytes.len() + 65_536, buffer: bytes };
        let Answer::Write { refusal: given, .. } = call.answer() else { panic!() };
        assert_eq!(given, refusal, "{}", call.json(&call.answer()));

        wrong.next().into_iter().for_each(|first| read[first.what as usize] += 1);
        inside.into_iter().for_each(|(what, _)| written[what as usize] += 1);
    }
    println!("{:?}\n{read:?}\n{written:?}", Text::ALL);
    assert!(read.iter().all(|&messages| messages >= 20), "{read:?}");
    let enough = |what: &Text| what.is_id() || written[*what as usize] >= 20;
    assert!(Text::ALL.iter().all(enough), "{written:?}");
}

/// Which rule of names the record row at a place breaks: its length, its end, text, a name as before.
fn name_fault(table: &[u8], place: u32) -> usize {
    let number = |at: usize| u16::from_le_bytes([table[at], table[at + 1]]) as usize;
    let (types, members, names) = (number(5), number(7), number(9));
    let start = if number(3) == 2 { 14 } else { 12 };
    let place = place as usize;
    let (from, length) = (number(place + 8), number(place + 10));
    let name = start + 12 * types + 8 * members + from;
    if !(1..=255).contains(&length) {
        0
    } else if from + length > names {
        1
    } else if core::str::from_utf8(&table[name..name + length]).is_err() {
        2
    } else {
        3
    }
}

/// Which rule of the lists a table breaks at a place, by its number in document 02's order; 5 for entries left over.
fn list_fault(table: &[u8], place: u32) -> usize {
    let number = |at: usize| u16::from_le_bytes([table[at], table[at + 1]]) as usize;
    let (types, members, names, entries) = (number(5), number(7), number(9), number(12));
    let row = place as usize;
    if row == 0 {
        return 5;
    }
    let before = (14..row).step_by(12).filter(|&row| table[row] == 8).map(|row| number(row + 8)).sum::<usize>();
    let (first, count) = (number(row + 6), number(row + 8));
    let list = 14 + 12 * types + 8 * members + names + 4 * first;
    let entry = |i: usize| number(list + 4 * i) + 65_536 * number(list + 4 * i + 2);
    if first != before {
        0
    } else if count == 0 {
        1
    } else if first + count > entries {
        2
    } else if (1..count).any(|i| entry(i - 1) >= entry(i)) {
        3
    } else {
        assert_ne!(entry(count - 1), number(row + 2) + 65_536 * number(row + 4));
        4
    }
}

/// Every refusal under tables of both versions, 24 in every string of a message, and every rule of names (37) and lists
/// (39).
#[test]
fn generated_calls_reach_every_refusal() {
    let mut reached = [[0; 40]; 2];
    let (mut strings, mut names, mut lists) = ([0; Text::ALL.len()], [0; 4], [0; 6]);
    let mut calls = Calls::new(4);
    for _ in 0..200_000 {
        let call = calls.next().unwrap();
        let answer = call.answer();
        assert_ne!(answer, Answer::Astray, "{}", call.json(&answer));
        reached[usize::from(call.is_of_version_2())][answer.refusal() as usize] += 1;
        match (&call, answer) {
            (_, Answer::Read { refusal: (24, place), .. }) => {
                calls.string_at(place).into_iter().for_each(|what| strings[what as usize] += 1);
            }
            (Call::Check { table }, Answer::Check { refusal: (37, place) }) => names[name_fault(table, place)] += 1,
            (Call::Check { table }, Answer::Check { refusal: (39, place) }) => lists[list_fault(table, place)] += 1,
            _ => (),
        }
    }
    println!("{reached:?}\n24 by {:?}: {strings:?}\n37: {names:?}\n39: {lists:?}", Text::ALL);
    // 39 is of version 2 only.
    let is_number = |version: usize, number: usize| !matches!((version, number), (_, 1 | 27..=30) | (1, 39));
    for version in [1, 2] {
        let reached = reached[version - 1];
        assert!((0..40).all(|number| reached[number] >= 10 || !is_number(version, number)), "{version}: {reached:?}");
    }
    assert!(strings.iter().chain(&names).chain(&lists).all(|&calls| calls >= 20));
}

/// Enums that allow all numbers up to a greatest one: the two versions of such a table give the same answers, and places
/// in the table two bytes apart.
#[test]
fn both_versions_answer_alike() {
    let (mut rng, mut tables) = (Rng(7), 0);
    while tables < 3_000 {
        let types = Types::random(&mut rng);
        let Some(other) = types.other_version() else { continue };
        tables += 1;
        for (types, other) in [(&types, &other), (&other, &types)] {
            let top = types.top(&mut rng);
            let wrong = if tables % 2 == 0 { Wrong::Nothing } else { Wrong::Items(10) };
            let made = message(&mut rng, types, top, wrong);
            let answers = [types, other].map(|types| {
                let (table, message) = (types.spec.bytes(), made.bytes.clone());
                Call::Read { table, top: top.into(), message, room: 12 * 1_024 }.answer()
            });
            assert_eq!(answers[0], answers[1]);
        }
    }
}

#[test]
fn a_line_is_the_call() {
    for call in Calls::new(5).take(500) {
        let answer = call.answer();
        let (again, expected) = Call::parse(&call.json(&answer)).unwrap();
        assert_eq!((again.json(&expected), again.answer()), (call.json(&answer), answer));
    }
}
