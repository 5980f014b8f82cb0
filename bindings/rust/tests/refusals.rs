//! Every refusal: a call that gets it, with its number and its place, and every lent byte stays.

mod tables;

use icehub::{read, write, Format, Reason, Refusal, Row, ROW_SIZE};
use tables::*;

/// The reason and the place.
type Refused = (Reason, u32);

fn told(refusal: Refusal) -> Refused {
    (refusal.reason().unwrap(), refusal.place)
}

/// Reads with room for three rows.
fn reader(table: &[u8], top: u32, message: &[u8]) -> Refused {
    let mut lent = [0xA5; 3 * ROW_SIZE];
    let refusal = read(table, top, message, &mut lent).unwrap_err();
    assert_eq!(lent, [0xA5; 3 * ROW_SIZE]);
    told(refusal)
}

/// Reads a list of one member from a body.
fn one(member: Member, body: &str) -> Refused {
    reader(&table(&[member]), LIST, &wrapped(body))
}

/// Reads an exception from a body.
fn exception(body: &str) -> Refused {
    reader(&table(&[]), E, &wrapped(body))
}

/// Writes P2's rows, with the length of the first as given, from P2's message into so many bytes.
fn writer(format: Format, rows: usize, length: u32, room: usize) -> Refused {
    let list = [row((0, 6, length)), row((1, 9, 8)), row((2, 18, 4))].map(Row::to_bytes).concat();
    let mut out = vec![0xA5; room];
    let refusal = write(&p2_table(), LIST, format, &list[..rows * ROW_SIZE], &bytes(P2), &mut out).unwrap_err();
    assert_eq!(out, vec![0xA5; room]);
    told(refusal)
}

#[test]
fn table_and_arguments() {
    assert_eq!(reader(&[], 0, &[]), (Reason::BadTableHeader, 0));
    let mut table = p2_table();
    table[14] = 1;
    assert_eq!(reader(&table, LIST, &bytes(P2)), (Reason::BadTableZeros, 12));
    assert_eq!(reader(&p2_table(), INT.into(), &bytes(P2)), (Reason::BadType, 0));
    assert_eq!(reader(&p2_table(), LIST + 65_536, &bytes(P2)), (Reason::BadType, 0));
    assert_eq!(reader(&p2_table(), LIST, &[0; 65_537]), (Reason::InputTooLong, 0));
    let refusal = write(&p2_table(), LIST, Format::Sliced, &[], &[0; 65_537], &mut []).unwrap_err();
    assert_eq!(told(refusal), (Reason::InputTooLong, 0));
}

/// A list of enumerators: a number between two entries, a list that does not rise, entries left over.
#[test]
fn lists() {
    let sample = include_bytes!("../samples/valve.table");
    assert_eq!(reader(sample, 3, include_bytes!("../samples/valve-between.message")), (Reason::BadEnumerator, 6));
    let row = row((0, 0, 1)).to_bytes();
    let refusal = write(sample, 3, Format::Sliced, &row, &[2], &mut [0; 16]).unwrap_err();
    assert_eq!(told(refusal), (Reason::BadRowBytes, 0));
    let mut table = sample.to_vec();
    table[90] = 1;
    assert_eq!(reader(&table, 3, &[]), (Reason::BadTableEnumerators, 14));
    let mut table = sample.to_vec();
    table[12] = 7;
    table.extend([0; 4]);
    assert_eq!(reader(&table, 3, &[]), (Reason::BadTableEnumerators, 0));
}

#[test]
fn encapsulation() {
    assert_eq!(reader(&p2_table(), LIST, &[]), (Reason::CutOff, 0));
    assert_eq!(reader(&p2_table(), LIST, &bytes(P2)[..21]), (Reason::BadOuterSize, 0));
    assert_eq!(reader(&p2_table(), LIST, &bytes("06 00 00 00 01 02")), (Reason::BadVersion, 4));
    assert_eq!(reader(&p2_table(), LIST, &bytes("06 00 00 00 01 00")), (Reason::OldOptionals, 0));
}

#[test]
fn values() {
    assert_eq!(one((INT, None), "01 02 03"), (Reason::CutOff, 6));
    assert_eq!(one((STRING, None), "FF 01 00 00 00 41"), (Reason::BadSize, 6));
    assert_eq!(one((BOOL, None), "02"), (Reason::BadBool, 6));
    assert_eq!(one((STATE, None), "03"), (Reason::BadEnumerator, 6));
    assert_eq!(one((PROXY, None), "00 01 41"), (Reason::BadProxy, 6));
}

/// A string that is no text: at its size; 21 in the writer.
#[test]
fn text() {
    assert_eq!(one((STRING, None), "03 ED A0 80"), (Reason::BadText, 6));
    assert_eq!(one((STRING, Some(1)), "0D 01 FF"), (Reason::BadText, 7));
    assert_eq!(one((STRINGS, None), "02 00 02 C0 80"), (Reason::BadText, 8));
    assert_eq!(one((PROXY, None), "00 01 FF"), (Reason::BadText, 7));
    assert_eq!(exception("31 01 FF 04 00 00 00"), (Reason::BadText, 7));
    let row = row((0, 0, 2)).to_bytes();
    let refusal = write(&table(&[(STRING, None)]), LIST, Format::Sliced, &row, &[1, 0xFF], &mut [0; 16]).unwrap_err();
    assert_eq!(told(refusal), (Reason::BadRowBytes, 0));
}

#[test]
fn optionals() {
    assert_eq!(one((STRINGS, Some(1)), "0E 00 00 00 00"), (Reason::BadLength, 7));
    assert_eq!(one((BYTE, Some(1)), "08 05 08 05"), (Reason::BadHeader, 8));
    assert_eq!(one((BYTE, Some(1)), "0F"), (Reason::NotCovered, 6));
}

#[test]
fn slices() {
    assert_eq!(exception("40"), (Reason::BadFlags, 6));
    assert_eq!(exception("21 01 46"), (Reason::UnknownCompact, 7));
    assert_eq!(exception("31 01 46 04 00 00 00"), (Reason::UnknownSliced, 6));
    assert_eq!(exception("01 01 45"), (Reason::BadChain, 6));
    assert_eq!(exception("21 01 45 00"), (Reason::LeftOver, 9));
}

#[test]
fn lent_bytes() {
    let mut lent = [0xA5; 3 * ROW_SIZE - 1];
    let refusal = read(&p2_table(), LIST, &bytes(P2), &mut lent).unwrap_err();
    assert_eq!(told(refusal), (Reason::ListTooShort, 3));
    assert_eq!(lent, [0xA5; 3 * ROW_SIZE - 1]);
}

#[test]
fn rows_of_the_writer() {
    assert_eq!(writer(Format::Sliced, 0, 2, 64), (Reason::BadRow, 0));
    assert_eq!(writer(Format::Sliced, 3, 17, 64), (Reason::BadRow, 0));
    assert_eq!(writer(Format::Sliced, 3, 3, 64), (Reason::BadRowBytes, 0));
    assert_eq!(writer(Format::Sliced, 3, 2, 21), (Reason::OutputTooLong, 22));
    assert_eq!(writer(Format::Sliced, 3, 2, 0), (Reason::OutputTooLong, 22));
    assert_eq!(writer(Format::Compact, 3, 2, 64), (Reason::BadFormat, 0));
}
