//! Many messages in one buffer: each rule by name.

use independent::json::unhex;
use independent::night::{night, ANSWER};
use independent::spec::Spec;

/// P2's table and top.
fn p2_table() -> (Vec<u8>, u32) {
    let mut spec = Spec::default();
    let (short, long, int) = (spec.basic(2), spec.basic(4), spec.basic(3));
    let top = spec.owner(15, &[(short, None), (long, Some(7)), (int, Some(8))]);
    (spec.bytes(), top.into())
}

fn p2() -> Vec<u8> {
    unhex("160000000101 0CFE 3B0000000001000000 4208070000".replace(' ', "").as_str()).unwrap()
}

/// P2, P2 of a wrong version, P2.
fn three() -> Vec<u8> {
    let mut wrong = p2();
    wrong[5] = 9;
    [p2(), wrong, p2()].concat()
}

/// Refusal, place and rows of each answer, the place, and the places of the rows.
type Told = (Vec<[u32; 3]>, usize, Vec<u32>);

fn told(top: u32, buffer: &[u8], answers: usize, rows: usize) -> Told {
    let table = p2_table().0;
    told_under(&table, top, buffer, answers, rows)
}

fn told_under(table: &[u8], top: u32, buffer: &[u8], answers: usize, rows: usize) -> Told {
    let (mut answers, mut rows) = (vec![0xEE; answers], vec![0xEE; rows]);
    let (count, place) = night(table, top, buffer, &mut answers, &mut rows);
    let number = |bytes: &[u8], i: usize| u32::from_le_bytes(bytes[4 * i..4 * i + 4].try_into().unwrap());
    let (given, beyond) = answers.split_at(ANSWER * count);
    assert!(beyond.iter().all(|&byte| byte == 0xEE));
    let given: Vec<_> = given.chunks(ANSWER).map(|answer| [0, 1, 4].map(|i| number(answer, i))).collect();
    let (list, beyond) = rows.split_at(12 * given.iter().map(|answer| answer[2] as usize).sum::<usize>());
    assert!(beyond.iter().all(|&byte| byte == 0xEE));
    (given, place, list.chunks(12).map(|row| number(row, 1)).collect())
}

const TOP: u32 = 3;
const ROOM: usize = 1_000;

/// Places count from each message's own first byte, and a refused message takes no room.
#[test]
fn night_answers() {
    let all = (vec![[0, 0, 3], [6, 4, 0], [0, 0, 3]], 66, vec![6, 9, 18, 6, 9, 18]);
    assert_eq!(told(TOP, &three(), ROOM, ROOM), all);
    assert_eq!(told(TOP, &three(), 3 * ANSWER, 72), all);
    assert_eq!(told(TOP, &[], ROOM, ROOM), (vec![], 0, vec![]));
}

/// 19 is a message's own answer, with the room then left.
#[test]
fn night_room() {
    let short = (vec![[0, 0, 3], [6, 4, 0], [19, 3, 0]], 66, vec![6, 9, 18]);
    assert_eq!(told(TOP, &three(), ROOM, 71), short);
    assert_eq!(told(TOP, &three(), ROOM, 36), short);
    assert_eq!(told(TOP, &three(), ROOM, 35).0, [[19, 3, 0], [6, 4, 0], [19, 3, 0]]);
}

/// A full list of answers stops the walk before the next message, whatever its size is.
#[test]
fn night_full() {
    let buffer = [&three()[..], &[1]].concat();
    for (room, count, place) in [(27, 0, 0), (28, 1, 22), (83, 2, 44), (84, 3, 66), (111, 3, 66), (112, 4, 66)] {
        let (given, at, _) = told(TOP, &buffer, room, ROOM);
        assert_eq!((given.len(), at), (count, place), "{room}");
    }
    assert_eq!(told(TOP, &three(), 84, ROOM).1, 66);
}

/// What stops the walk: its answer is that of all bytes that remain, or 3 for a size above the limit.
#[test]
fn night_stops() {
    let sized = |size: u32, left: usize| [&size.to_le_bytes()[..], &vec![1; left]].concat();
    for (stop, refusal) in [
        (vec![22], 4),
        (vec![22, 0, 0], 4),
        (sized(5, 2), 5),
        (sized(0, 0), 5),
        (sized(0x8000_0000, 9), 5),
        (sized(u32::MAX, 9), 5),
        (sized(8, 3), 5),
        (sized(65_536, 65_531), 5),
        (sized(65_537, 9), 3),
        (sized(65_537, 65_533), 3),
        (sized(0x7FFF_FFFF, 0), 3),
        (sized(5, 65_533), 3),
        (sized(0x8000_0000, 65_533), 3),
    ] {
        let (given, place, _) = told(TOP, &[&p2()[..], &stop].concat(), ROOM, ROOM);
        assert_eq!((&given[1..], place), (&[[refusal, 0, 0]][..], 22), "{} bytes", stop.len());
    }
    let (given, place, _) = told(TOP, &[&p2()[..], &sized(65_536, 65_532)].concat(), ROOM, ROOM);
    assert_eq!((given.len(), given[1][0], place), (2, 12, 22 + 65_536), "exactly 65,536 bytes pass");
}

/// The table's number and 2 come before everything else, 3 for a size above the limit among it.
#[test]
fn night_table_and_top() {
    let buffer = [&three()[..], &65_537_u32.to_le_bytes()].concat();
    assert_eq!(told(0, &buffer, ROOM, ROOM), (vec![[2, 0, 0]; 4], 66, vec![]));
    assert_eq!(told(u32::MAX, &buffer, ROOM, ROOM), (vec![[2, 0, 0]; 4], 66, vec![]));
    let mut table = p2_table().0;
    table[13] = 1;
    assert_eq!(told_under(&table, TOP, &buffer, ROOM, ROOM), (vec![[32, 12, 0]; 4], 66, vec![]));
}

/// A buffer cut where the walk begins a message gives the same in two calls, with the room left.
#[test]
fn night_split() {
    let buffer = [&three()[..], &[9, 0]].concat();
    for cut in [0, 22, 44, 66] {
        for (answers, rows) in [(ROOM, ROOM), (60, ROOM), (ROOM, 50), (90, 40)] {
            let all = told(TOP, &buffer, answers, rows);
            let first = told(TOP, &buffer[..cut], answers, rows);
            let left = (answers - ANSWER * first.0.len(), rows - 12 * first.2.len());
            let second = told(TOP, &buffer[cut..], left.0, left.1);
            let joined = ([first.0, second.0].concat(), first.1 + second.1, [first.2, second.2].concat());
            assert_eq!(all, joined, "{cut} {answers} {rows}");
        }
    }
}
