//! Many messages in one buffer.

mod tables;

use icehub::{night, read, Refusal, ANSWER_SIZE, ROW_SIZE};
use tables::*;

/// P2, P2 with a wrong version, P2, and what stops the walk.
fn buffer(stop: &[u8]) -> Vec<u8> {
    let p2 = bytes(P2);
    let mut wrong = p2.clone();
    wrong[5] = 9;
    [&p2[..], &wrong, &p2, stop].concat()
}

/// Number and place of each refusal, (0, 0) where a message is accepted.
fn refusals(buffer: &[u8], answers: usize, rows: usize) -> (Vec<(u32, u32)>, usize) {
    let (table, mut answers, mut rows) = (p2_table(), vec![0; answers * ANSWER_SIZE], vec![0; rows * ROW_SIZE]);
    let night = night(&table, LIST, buffer, &mut answers, &mut rows);
    assert_eq!(night.answers().len(), night.count());
    let refusals =
        night.answers().map(|answer| answer.reading.err().map_or((0, 0), |wrong| (wrong.number, wrong.place)));
    (refusals.collect(), night.place)
}

/// Each accepted message is read as by itself, and a refused one takes no room.
#[test]
fn each_as_by_itself() {
    let (table, buffer) = (p2_table(), buffer(&[]));
    let (mut answers, mut rows) = ([0; 4 * ANSWER_SIZE], [0; 6 * ROW_SIZE]);
    let night = night(&table, LIST, &buffer, &mut answers, &mut rows);
    assert_eq!((night.count(), night.place, night.rest()), (3, 66, &[][..]));
    for (answer, place) in night.answers().zip([0, 22, 44]) {
        let mut lent = [0; 3 * ROW_SIZE];
        let alone = read(&table, LIST, &buffer[place..place + 22], &mut lent);
        assert_eq!((answer.place, answer.message, answer.stops), (place, &buffer[place..place + 22], false));
        assert_eq!(answer.reading, alone);
    }
    let last = night.answers().last().unwrap().reading.unwrap();
    assert_eq!(last.member(1).unwrap().as_i64(), Some(4_294_967_296));
}

/// Each kind of stop, its answer and its place.
#[test]
fn stops() {
    let read = [(0, 0), (6, 4), (0, 0)];
    for (stop, refusal) in [
        (&[][..], None),
        (&[22, 0, 0], Some((4, 0))),
        (&[5, 0, 0, 0, 1, 1], Some((5, 0))),
        (&[0, 0, 0, 128, 1, 1], Some((5, 0))),
        (&[22, 0, 0, 0, 1, 1], Some((5, 0))),
        (&[1, 0, 1, 0, 1, 1], Some((3, 0))),
        (&[0, 0, 1, 0, 1, 1], Some((5, 0))),
    ] {
        let expected: Vec<_> = read.into_iter().chain(refusal).collect();
        assert_eq!(refusals(&buffer(stop), 9, 99), (expected, 66), "{stop:?}");
    }
    let long = [&[7, 0, 0, 0][..], &[0; 65_533]].concat();
    assert_eq!(refusals(&buffer(&long)[..], 9, 99).0[3], (6, 4));
    let long = [&[5, 0, 0, 0][..], &[0; 65_533]].concat();
    assert_eq!(refusals(&buffer(&long), 9, 99), (vec![(0, 0), (6, 4), (0, 0), (3, 0)], 66));
}

/// Where a list is full.
#[test]
fn full_lists() {
    let buffer = buffer(&[1]);
    assert_eq!(refusals(&buffer, 0, 99), (vec![], 0));
    assert_eq!(refusals(&buffer, 2, 99), (vec![(0, 0), (6, 4)], 44));
    assert_eq!(refusals(&buffer, 3, 99), (vec![(0, 0), (6, 4), (0, 0)], 66));
    assert_eq!(refusals(&buffer, 9, 5).0, [(0, 0), (6, 4), (19, 3), (4, 0)]);
    assert_eq!(refusals(&buffer, 9, 2).0, [(19, 3), (6, 4), (19, 3), (4, 0)]);
    assert_eq!(refusals(&[], 9, 9), (vec![], 0));
}

/// Bytes after the answers and the rows stay.
#[test]
fn bytes_beyond_stay() {
    let (table, buffer) = (p2_table(), buffer(&[1]));
    let (mut answers, mut rows) = ([7; 5 * ANSWER_SIZE], [7; 8 * ROW_SIZE]);
    night(&table, LIST, &buffer, &mut answers, &mut rows);
    assert_eq!(answers[4 * ANSWER_SIZE..], [7; ANSWER_SIZE]);
    assert_eq!(rows[6 * ROW_SIZE..], [7; 2 * ROW_SIZE]);
}

/// A broken table or a wrong top answers every message, and what stops the walk.
#[test]
fn table_and_top() {
    let (mut table, buffer) = (p2_table(), buffer(&[1, 0, 1, 0]));
    let each = |table: &[u8], top| -> Vec<Refusal> {
        let (mut answers, mut rows) = ([0; 9 * ANSWER_SIZE], [0; 99 * ROW_SIZE]);
        night(table, top, &buffer, &mut answers, &mut rows)
            .answers()
            .filter_map(|answer| answer.reading.err())
            .collect()
    };
    assert_eq!(each(&table, 0), [Refusal { number: 2, place: 0 }; 4]);
    table[11] = 1;
    assert_eq!(each(&table, 0), [Refusal { number: 31, place: 0 }; 4]);
}
