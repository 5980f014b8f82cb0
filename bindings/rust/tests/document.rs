//! Document 01's bench cases, and the sample messages.

mod tables;

use icehub::{member, read, write, Format, Reading, Row, ROW_SIZE};
use tables::*;

/// Reads a message with nothing skipped and writes it again: the same bytes.
fn there_and_back(table: &[u8], top: u32, message: &[u8], expected: &[(u32, u32, u32)]) {
    let mut lent = [0; ROOM];
    let reading = read(table, top, message, &mut lent).unwrap();
    assert_eq!(rows(&reading), expected.iter().copied().map(row).collect::<Vec<_>>());
    assert_eq!((reading.optionals_skipped, reading.slices_skipped), (0, 0));
    let mut out = vec![0; message.len()];
    let length = write(table, reading.first_type, reading.format, reading.list(), message, &mut out);
    assert_eq!((length, &out[..]), (Ok(message.len()), message));
}

#[test]
fn p1() {
    let table = table(&[(BYTE, None), (STRING, Some(2)), (SHORT, None), (LONG, Some(1))]);
    there_and_back(&table, LIST, &bytes(P1), &[(0, 6, 1), (2, 7, 2), (3, 10, 8), (1, 19, 4)]);
}

#[test]
fn p2() {
    there_and_back(&p2_table(), LIST, &bytes(P2), &[(0, 6, 2), (1, 9, 8), (2, 18, 4)]);
}

#[test]
fn p3() {
    let table = table(&[(SHORT, None), (INT, Some(8))]);
    let (mut lent, message) = ([0; ROOM], bytes(P2));
    let reading = read(&table, LIST, &message, &mut lent).unwrap();
    assert_eq!(rows(&reading), [row((0, 6, 2)), row((1, 18, 4))]);
    assert_eq!((reading.first_type, reading.format), (LIST, Format::Sliced));
    assert_eq!((reading.optionals_skipped, reading.slices_skipped), (1, 0));
}

#[test]
fn p4() {
    there_and_back(&table(&[]), LIST, &bytes("06 00 00 00 01 01"), &[]);
}

/// The number and place of a refusal of the reader.
fn refused(table: &[u8], message: &[u8]) -> (u32, u32) {
    let refusal = read(table, LIST, message, &mut [0; ROOM]).unwrap_err();
    (refusal.number, refusal.place)
}

#[test]
fn p5_p8_p9_p10() {
    assert_eq!(refused(&table(&[]), &[]), (4, 0));
    assert_eq!(refused(&table(&[]), &bytes("06 00 00 00 01 02")), (6, 4));
    assert_eq!(refused(&table(&[(BYTE, Some(1))]), &bytes("0A 00 00 00 01 01 08 05 08 05")), (12, 8));
    let mut message = bytes(P2);
    message[0] = 0x17;
    assert_eq!(refused(&p2_table(), &message), (5, 0));
}

/// A file of samples/.
macro_rules! sample {
    ($name:literal) => {
        include_bytes!(concat!("../samples/", $name))
    };
}

#[test]
fn report() {
    assert_eq!(sample!("report.message")[..], bytes(P2));
    there_and_back(sample!("report.table"), 3, sample!("report.message"), &[(0, 6, 2), (1, 9, 8), (2, 18, 4)]);
}

/// The sender's table and the hub's older one on the same message.
#[test]
fn fault_from_a_newer_sender() {
    let message = sample!("fault.message");
    there_and_back(sample!("fault-newer.table"), 4, message, &[(3, 30, 2), (0, 52, 8), (1, 61, 4), (2, 66, 8)]);
    let mut lent = [0; ROOM];
    let reading = read(sample!("fault.table"), 2, message, &mut lent).unwrap();
    assert_eq!(rows(&reading), [row((0, 52, 8)), row((1, 61, 4))]);
    assert_eq!((reading.first_type, reading.format), (2, Format::Sliced));
    assert_eq!((reading.optionals_skipped, reading.slices_skipped), (1, 1));
    assert_eq!(reading.member(0).unwrap().part(), b"\x07no heat");
}

#[test]
fn damaged_fault() {
    let refusal = read(sample!("fault.table"), 2, sample!("fault-damaged.message"), &mut [0; ROW_SIZE]).unwrap_err();
    assert_eq!((refusal.number, refusal.place), (4, 52));
}

/// The members of an exception with nothing skipped, written again: the same message. Not in compact format.
#[test]
fn sliced_again() {
    let (table, message) = (sample!("fault-newer.table"), sample!("fault.message"));
    let members = |reading: &Reading| {
        reading.members().map(|member| (member.number(), member.part().to_vec())).collect::<Vec<_>>()
    };
    let (mut lent, mut out) = ([0; ROOM], [0; 256]);
    let reading = read(table, 4, message, &mut lent).unwrap();
    let refusal = write(table, reading.first_type, Format::Compact, reading.list(), message, &mut out).unwrap_err();
    assert_eq!((refusal.number, refusal.place), (23, 0));
    let length = write(table, reading.first_type, reading.format, reading.list(), message, &mut out).unwrap();
    let before = members(&reading);
    let reading = read(table, 4, &out[..length], &mut lent).unwrap();
    assert_eq!((reading.first_type, reading.format, reading.message()), (5, Format::Sliced, &message[..]));
    assert_eq!(members(&reading), before);
}

/// A list made by hand, its parts out of order in the buffer.
#[test]
fn rows_by_hand() {
    let given = [row((0, 12, 2)), row((1, 4, 8)), row((2, 0, 4))];
    let list = given.map(Row::to_bytes).concat();
    assert_eq!(given[0], Row::from_bytes(list[..ROW_SIZE].try_into().unwrap()));
    let buffer = bytes("08 07 00 00 00 00 00 00 01 00 00 00 0C FE");
    let mut out = [0xA5; 24];
    assert_eq!(write(&p2_table(), LIST, Format::Sliced, &list, &buffer, &mut out), Ok(22));
    assert_eq!((&out[..22], &out[22..]), (&bytes(P2)[..], &[0xA5; 2][..]));
}

/// Bytes beyond the rows stay; a row beyond the message has no part.
#[test]
fn rows_and_parts() {
    let mut lent = [0xA5; ROOM];
    let (table, message) = (p2_table(), bytes(P2));
    let reading = read(&table, LIST, &message, &mut lent).unwrap();
    assert_eq!((reading.members().len(), reading.list().len()), (3, 3 * ROW_SIZE));
    assert_eq!((reading.message(), reading.table().bytes()), (&message[..], &table[..]));
    let tick = reading.member(1).unwrap();
    assert_eq!((tick.part(), tick.row.part(&message[..16])), (&message[9..17], None));
    assert_eq!(row((0, u32::MAX, u32::MAX)).part(&message), None);
    assert_eq!(reading.member(3), None);
    assert_eq!(lent[3 * ROW_SIZE..], [0xA5; 13 * ROW_SIZE]);
}

/// The member view: a part of the message, the fallback, no bytes, or the reader's refusal.
#[test]
fn member_view() {
    let (table, message) = (p2_table(), bytes(P2));
    let seen = |message, number| member(&table, LIST, message, number, b"other");
    assert_eq!(seen(&message, 1), Ok(&message[9..17]));
    assert_eq!(seen(&message, 3), Ok(&b""[..]));
    // The required short alone: optional 1 is missing.
    let short = bytes("08 00 00 00 01 01 0C FE");
    assert_eq!(seen(&short, 0), Ok(&short[6..8]));
    assert_eq!(seen(&short, 1), Ok(&b"other"[..]));
    let refused = seen(&message[..21], 1).unwrap_err();
    assert_eq!((refused.number, refused.place), (5, 0));
}
