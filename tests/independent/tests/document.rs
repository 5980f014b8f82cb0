//! Document 01's bench cases, its rules and those of document 02, each by name, and the bounds that they name.

use independent::json::unhex;
use independent::spec::{Member, Spec};
use independent::{check, convert, member, read, write, Reading, Refusal};

type Row = [u32; 3];

/// A table of one parameter list over rows of kinds 0 to 7, and its top.
fn list(members: &[Member]) -> (Vec<u8>, u32) {
    let mut spec = Spec::default();
    for kind in 0..8 {
        spec.basic(kind);
    }
    let top = spec.owner(15, members);
    (spec.bytes(), top.into())
}

const BYTE: u16 = 1;
const SHORT: u16 = 2;
const INT: u16 = 3;
const LONG: u16 = 4;
const STRING: u16 = 7;

fn bytes(hex: &str) -> Vec<u8> {
    unhex(&hex.replace(' ', "")).unwrap()
}

/// A body in an encapsulation.
fn wrapped(body: &[u8]) -> Vec<u8> {
    [&(body.len() as u32 + 6).to_le_bytes()[..], &[1, 1], body].concat()
}

fn rows_of(table: &[u8], top: u32, message: &[u8]) -> Result<(Vec<Row>, Reading), Refusal> {
    let mut lent = vec![0; 12 * 64];
    let reading = read(table, top, message, &mut lent)?;
    let number = |bytes: &[u8]| u32::from_le_bytes(bytes.try_into().unwrap());
    let rows = lent.chunks(12).map(|row| [number(&row[..4]), number(&row[4..8]), number(&row[8..])]);
    Ok((rows.take(reading.rows as usize).collect(), reading))
}

/// Reads a message with nothing skipped, and writes it again.
fn there_and_back(table: &[u8], top: u32, message: &[u8], expected: &[Row]) -> Reading {
    let (rows, reading) = rows_of(table, top, message).unwrap();
    assert_eq!(rows, expected);
    assert_eq!((reading.optionals_skipped, reading.slices_skipped), (0, 0));
    let rows: Vec<u8> = rows.iter().flatten().flat_map(|number| number.to_le_bytes()).collect();
    let mut out = vec![0; message.len()];
    let length = write(table, reading.first, reading.format, reading.rows, &rows, message, &mut out);
    assert_eq!((length, &out[..]), (Ok(message.len() as u32), message));
    reading
}

const P1: &str = "17 00 00 00 01 01 4D 63 00 0B 58 00 00 00 00 00 00 00 15 03 6A 6F 65";
const P2: &str = "16 00 00 00 01 01 0C FE 3B 00 00 00 00 01 00 00 00 42 08 07 00 00";

#[test]
fn p1() {
    let (table, top) = list(&[(BYTE, None), (STRING, Some(2)), (SHORT, None), (LONG, Some(1))]);
    there_and_back(&table, top, &bytes(P1), &[[0, 6, 1], [2, 7, 2], [3, 10, 8], [1, 19, 4]]);
}

fn p2_table() -> (Vec<u8>, u32) {
    list(&[(SHORT, None), (LONG, Some(7)), (INT, Some(8))])
}

#[test]
fn p2() {
    let (table, top) = p2_table();
    there_and_back(&table, top, &bytes(P2), &[[0, 6, 2], [1, 9, 8], [2, 18, 4]]);
}

#[test]
fn p3() {
    let (table, top) = list(&[(SHORT, None), (INT, Some(8))]);
    let (rows, reading) = rows_of(&table, top, &bytes(P2)).unwrap();
    assert_eq!(rows, [[0, 6, 2], [1, 18, 4]]);
    assert_eq!((reading.optionals_skipped, reading.slices_skipped), (1, 0));
}

#[test]
fn p4_p5_p8() {
    let (table, top) = list(&[]);
    there_and_back(&table, top, &bytes("06 00 00 00 01 01"), &[]);
    assert_eq!(rows_of(&table, top, &[]), Err((4, 0)));
    let reading = there_and_back(&table, top, &bytes("06 00 00 00 01 00"), &[]);
    assert_eq!(reading.format, 2);
    assert_eq!(rows_of(&table, top, &bytes("06 00 00 00 01 02")), Err((6, 4)));
}

#[test]
fn p6_sizes() {
    let (table, top) = list(&[(STRING, None)]);
    let of = |size: &str, length: usize| wrapped(&[bytes(size), vec![65; length]].concat());
    there_and_back(&table, top, &of("FE", 254), &[[0, 6, 255]]);
    there_and_back(&table, top, &of("FF FF 00 00 00", 255), &[[0, 6, 260]]);
    assert_eq!(rows_of(&table, top, &of("FF FE 00 00 00", 254)), Err((7, 6)));
    assert_eq!(rows_of(&table, top, &of("FF FF FF FF FF", 0)), Err((7, 6)));
    assert_eq!(rows_of(&table, top, &of("FF FF 00 00", 0)), Err((4, 6)));
}

#[test]
fn p7_enumerators() {
    let mut spec = Spec::default();
    let fruit = spec.enumeration(300);
    let top = spec.owner(15, &[(fruit, None)]).into();
    let table = spec.bytes();
    there_and_back(&table, top, &wrapped(&bytes("FF 2C 01 00 00")), &[[0, 6, 5]]);
    assert_eq!(rows_of(&table, top, &wrapped(&bytes("FF 2D 01 00 00"))), Err((9, 6)));
}

#[test]
fn p9() {
    let (table, top) = list(&[(BYTE, Some(1))]);
    assert_eq!(rows_of(&table, top, &bytes("0A 00 00 00 01 01 08 05 08 05")), Err((12, 8)));
    assert_eq!(rows_of(&table, top, &wrapped(&[8, 5, 255])), Err((12, 8)));
}

#[test]
fn p10() {
    let (table, top) = p2_table();
    let mut message = bytes(P2);
    message[0] = 0x17;
    assert_eq!(rows_of(&table, top, &message), Err((5, 0)));
}

/// 000's Rectangle by its layout.
#[test]
fn rectangle() {
    let mut spec = Spec::default();
    let (short, int, float, string) = (spec.basic(2), spec.basic(3), spec.basic(5), spec.basic(7));
    let color = spec.owner(9, &[(short, None); 3]);
    let shape = spec.record(14, None, b"::Shape", &[(string, Some(1))]);
    let members = [(int, None), (int, None), (color, Some(10)), (color, Some(9)), (float, Some(11))];
    let rectangle = spec.record(14, Some(shape), b"::Rectangle", &members);
    let body = [
        bytes("01 15 0B"),
        b"::Rectangle".to_vec(),
        bytes("22 00 00 00 29 00 00 00 10 00 00 00"),
        bytes("4D 06 00 00 00 00 00 00 55 06 FF 00 FF 00 FF 00 5A 00 00 00 40 FF"),
        bytes("35 07"),
        b"::Shape".to_vec(),
        bytes("09 00 00 00 0D 02 72 31 FF"),
    ];
    let message = wrapped(&body.concat());
    let table = spec.bytes();
    let rows = [[4, 24, 4], [5, 28, 4], [7, 34, 6], [6, 42, 6], [8, 49, 4], [3, 68, 3]];
    for top in [rectangle, shape] {
        let reading = there_and_back(&table, top.into(), &message, &rows);
        assert_eq!((reading.first, reading.format), (rectangle.into(), 1));
    }
    // A hub that knows the Shape only.
    spec.rows.pop();
    spec.members.truncate(4);
    let (rows, reading) = rows_of(&spec.bytes(), shape.into(), &message).unwrap();
    assert_eq!(rows, [[3, 68, 3]]);
    assert_eq!((reading.first, reading.slices_skipped, reading.optionals_skipped), (shape.into(), 1, 0));
}

/// 002's 1.1 exceptions, with the string form of 001's table.
#[test]
fn exceptions() {
    let mut spec = Spec::default();
    let (bool, int, double, string) = (spec.basic(0), spec.basic(3), spec.basic(6), spec.basic(7));
    let base = spec.record(13, None, b"::Base", &[(int, None), (string, None)]);
    let members = [(bool, None), (string, None), (double, None)];
    let derived = spec.record(13, Some(base), b"::Derived", &members);
    let table = spec.bytes();
    let [mut own, mut bases] = [vec![1, 6], vec![99, 0, 0, 0, 5]];
    own.extend(b"World!");
    own.extend(bytes("1F 85 EB 51 B8 1E 09 40"));
    bases.extend(b"Hello");

    let sliced = |flags: [u8; 2]| {
        let first = [&[flags[0], 9][..], b"::Derived", &[20, 0, 0, 0], &own].concat();
        let second = [&[flags[1], 6][..], b"::Base", &[14, 0, 0, 0], &bases].concat();
        wrapped(&[first, second].concat())
    };
    let rows = [[2, 21, 1], [3, 22, 7], [4, 29, 8], [0, 49, 4], [1, 53, 6]];
    let reading = there_and_back(&table, base.into(), &sliced([17, 49]), &rows);
    assert_eq!((reading.first, reading.format), (derived.into(), 1));
    assert_eq!(rows_of(&table, base.into(), &sliced([18, 50])), Err((13, 6)));

    let compact = wrapped(&[&[1, 9][..], b"::Derived", &own, &[32], &bases].concat());
    let (rows, reading) = rows_of(&table, derived.into(), &compact).unwrap();
    assert_eq!(rows, [[2, 17, 1], [3, 18, 7], [4, 25, 8], [0, 34, 4], [1, 38, 6]]);
    assert_eq!((reading.first, reading.format), (derived.into(), 0));

    // Format 0 is refused in writing; the record is converted to the sliced one.
    let list: Vec<u8> = rows.iter().flatten().flat_map(|number| number.to_le_bytes()).collect();
    assert_eq!(write(&table, derived.into(), 0, 5, &list, &compact, &mut [0; 100]), Err((23, 0)));
    let expected = sliced([17, 49]);
    let mut out = vec![0xA5; expected.len() + 1];
    assert_eq!(convert(&table, derived.into(), &compact, &mut out), Ok(expected.len() as u32));
    assert_eq!(out, [&expected[..], &[0xA5]].concat());
}

/// The converter's refusals, after the reader's own: 47, 48, 22, each before the output is touched.
#[test]
fn conversions_refused() {
    let mut spec = Spec::default();
    let byte = spec.basic(1);
    let base = spec.record(14, None, b"B", &[(byte, None)]);
    let derived = spec.record(14, Some(base), b"D", &[(byte, Some(1))]);
    let list = spec.owner(15, &[(byte, None)]);
    let table = spec.bytes();
    let of = |top: u16, body: &str, room: usize| {
        let mut out = vec![0xA5; room];
        let length = convert(&table, top.into(), &wrapped(&bytes(body)), &mut out);
        assert!(length.is_ok() || out.iter().all(|&byte| byte == 0xA5));
        length.map(|length| out[..length as usize].to_vec())
    };
    let sliced = wrapped(&bytes("01 15 01 44 07 00 00 00 08 09 FF 31 01 42 05 00 00 00 07"));
    let compact = "01 05 01 44 08 09 FF 20 07";
    assert_eq!(of(base, compact, 100), Ok(sliced.clone()));
    assert_eq!((of(base, compact, 25), of(base, compact, 24)), (Ok(sliced), Err((22, 25))));
    assert_eq!(of(base, "01 15 01 44 07 00 00 00 08 09 FF 31 01 42 05 00 00 00 07", 100), Err((47, 0)));
    assert_eq!(of(list, "07", 100), Err((47, 0)));
    // An unknown optional, which is skipped; 48 comes before 22.
    assert_eq!(of(base, "01 05 01 44 08 09 10 09 FF 20 07", 0), Err((48, 0)));
    assert_eq!(of(base, "01 25 01 42 07 10 09 FF", 100), Err((48, 0)));
    // The reader's own: an unknown type, bytes after the record, a top that is none.
    assert_eq!(of(base, "01 21 01 58", 0), Err((15, 8)));
    assert_eq!(of(base, "01 21 01 42 07 07", 0), Err((18, 11)));
    assert_eq!(of(9, compact, 0), Err((2, 0)));
    assert_eq!(of(derived, "01 21 01 42 07", 100), Err((17, 7)));
}

/// 000's reply: a nil proxy with tag 300, an FSize that does not count itself.
#[test]
fn reply() {
    let mut spec = Spec::default();
    let (bool, double, proxy) = (spec.basic(0), spec.basic(6), spec.basic(12));
    let top = spec.owner(15, &[(double, None), (bool, None), (proxy, Some(300))]).into();
    let message = wrapped(&bytes("1F 85 EB 51 B8 1E 09 40 01 F6 FF 2C 01 00 00 02 00 00 00 00 00"));
    there_and_back(&spec.bytes(), top, &message, &[[0, 6, 8], [1, 14, 1], [2, 25, 2]]);
}

/// A table of one member of kind 0 to 7, or of the type that `of` adds, and its top.
fn one(tag: Option<u32>, of: impl Fn(&mut Spec) -> u16) -> (Vec<u8>, u32) {
    let mut spec = Spec::default();
    let row = of(&mut spec);
    let top = spec.owner(15, &[(row, tag)]);
    (spec.bytes(), top.into())
}

/// The refusal of a body, or the length of its one row.
fn length_or_refusal((table, top): &(Vec<u8>, u32), body: &str) -> Result<u32, Refusal> {
    rows_of(table, *top, &wrapped(&bytes(body))).map(|(rows, _)| rows[0][2])
}

#[test]
fn bools_and_enumerators() {
    let flag = one(None, |spec| spec.basic(0));
    assert_eq!((length_or_refusal(&flag, "00"), length_or_refusal(&flag, "01")), (Ok(1), Ok(1)));
    assert_eq!((length_or_refusal(&flag, "02"), length_or_refusal(&flag, "")), (Err((8, 6)), Err((4, 6))));
    let state = one(None, |spec| spec.enumeration(2));
    assert_eq!((length_or_refusal(&state, "02"), length_or_refusal(&state, "03")), (Ok(1), Err((9, 6))));
}

/// A count promises nothing: 4 is at the first item that does not fit. Order and equal keys are kept.
#[test]
fn containers() {
    let shorts = one(None, |spec| {
        let short = spec.basic(2);
        spec.row(10, [short, 0, 0, 0, 0])
    });
    assert_eq!(length_or_refusal(&shorts, "02 01 00 02 00"), Ok(5));
    assert_eq!(length_or_refusal(&shorts, "02 01 00 02"), Err((4, 9)));
    let flags = one(None, |spec| {
        let (byte, flag) = (spec.basic(1), spec.basic(0));
        spec.row(11, [byte, flag, 0, 0, 0])
    });
    assert_eq!(length_or_refusal(&flags, "02 07 01 07 00"), Ok(5));
    assert_eq!(length_or_refusal(&flags, "02 07 01 07 02"), Err((8, 10)));
}

/// Identity, facet, mode, secure, protocol and encoding, endpoints or adapter.
#[test]
fn proxies() {
    let proxy = one(None, |spec| spec.basic(12));
    let of = |body: &str| length_or_refusal(&proxy, body);
    assert_eq!(of("00 00"), Ok(2));
    assert_eq!(of("01 41 00 00 00 00 01 00 01 01 00 00"), Ok(12));
    assert_eq!(of("01 41 00 01 01 66 04 01 01 00 01 01 00 01 61"), Ok(15));
    assert_eq!(of("00 01 41"), Err((10, 6)));
    assert_eq!(of("01 41 00 02"), Err((10, 9)));
    assert_eq!(of("01 41 00 00 00 02"), Err((8, 11)));
    assert_eq!(of("01 41 00 00 00 00 01 00 01 01 01 01 00 06 00 00 00 01 01"), Ok(19));
    assert_eq!(of("01 41 00 00 00 00 01 00 01 01 01 01 00 05 00 00 00 01"), Err((11, 19)));
    assert_eq!(of("01 41 00 00 00 00 01 00 01 01 01 01 00 07 00 00 00 01 01"), Err((4, 19)));
}

#[test]
fn proxy_mode_five() {
    let proxy = one(None, |spec| spec.basic(12));
    let with_mode = |mode: &str| length_or_refusal(&proxy, &format!("01 41 00 00 {mode} 00 01 00 01 01 00 00"));
    assert_eq!((with_mode("04"), with_mode("05")), (Ok(12), Err((10, 10))));
}

/// A header: five bits 31, the long tag's size, form, order, Class, type.
#[test]
fn optional_headers() {
    let byte = one(Some(30), |spec| spec.basic(1));
    let of = |body: &str| length_or_refusal(&byte, body);
    assert_eq!(of("F0 1E 05"), Ok(1));
    assert_eq!((of("F8 05"), of("FF")), (Err((12, 6)), Err((12, 6))));
    assert_eq!((of("F0 FF 1E 00 00 00"), of("F0")), (Err((7, 7)), Err((4, 7))));
    assert_eq!((of("F0 1D 05"), of("F7 1D")), (Err((12, 6)), Err((12, 6))));
    assert_eq!((of("F0 1E 05 08 05"), of("F0 1E 05 F0 1E 05")), (Err((12, 9)), Err((12, 9))));
    assert_eq!((of("F7 1E"), of("0F")), (Err((13, 6)), Err((13, 6))));
    assert_eq!(of("F1 1E 05 05"), Err((12, 6)));
}

/// An unknown tag is skipped by its declared bytes, whatever they hold: F1, F2, F4, F8, Size, VSize, FSize.
#[test]
fn unknown_tags() {
    let (table, top) = list(&[]);
    let skipped = |body: &str| {
        let (rows, reading) = rows_of(&table, top, &wrapped(&bytes(body)))?;
        Ok((rows.len(), reading.optionals_skipped))
    };
    for body in ["00 09", "01 09 09", "02 09 09 09 09", "03 09 09 09 09 09 09 09 09"] {
        assert_eq!((skipped(body), skipped(&body[..body.len() - 3])), (Ok((0, 1)), Err((4, 7))), "{body}");
    }
    for body in ["04 FF 2C 01 00 00", "05 00", "05 02 09 09", "06 01 00 00 00 09", "00 09 08 09 10 09"] {
        assert_eq!(skipped(body).map(|(rows, _)| rows), Ok(0), "{body}");
    }
    assert_eq!((skipped("05 02 09"), skipped("07 01 09")), (Err((4, 7)), Err((13, 6))));
}

#[test]
fn fsize_of_no_bytes() {
    let strings = |tag| {
        one(tag, |spec| {
            let string = spec.basic(7);
            spec.row(10, [string, 0, 0, 0, 0])
        })
    };
    for table in [strings(Some(1)), strings(Some(2))] {
        assert_eq!(length_or_refusal(&table, "0E 00 00 00 00"), Err((11, 7)));
        assert_eq!(length_or_refusal(&table, "0E FF FF FF FF"), Err((11, 7)));
        assert_eq!(length_or_refusal(&table, "0E 02 00 00 00 00"), Err((4, 7)));
    }
    assert_eq!(length_or_refusal(&strings(Some(1)), "0E 01 00 00 00 00"), Ok(1));
}

/// The declared bytes come first, then the value in them: 4 at the inner item, 11 at the length where bytes are left.
#[test]
fn known_values_use_up_their_bytes() {
    let strings = one(Some(1), |spec| {
        let string = spec.basic(7);
        spec.row(10, [string, 0, 0, 0, 0])
    });
    assert_eq!(length_or_refusal(&strings, "0E 03 00 00 00 01 01 41"), Ok(3));
    assert_eq!(length_or_refusal(&strings, "0E 04 00 00 00 01 01 41 00"), Err((11, 7)));
    assert_eq!(length_or_refusal(&strings, "0E 02 00 00 00 01 01"), Err((4, 12)));
}

/// A table of the exception E, an int and an optional byte of tag 1, with the base B, which has no members; E's row.
fn records() -> (Vec<u8>, u32) {
    let mut spec = Spec::default();
    let (byte, int) = (spec.basic(1), spec.basic(3));
    let base = spec.record(13, None, b"B", &[]);
    let top = spec.record(13, Some(base), b"E", &[(int, None), (byte, Some(1))]);
    spec.record(13, None, b"O", &[]);
    (spec.bytes(), top.into())
}

fn record(body: &str) -> Result<Reading, Refusal> {
    let (table, top) = records();
    rows_of(&table, top, &wrapped(&bytes(body))).map(|(_, reading)| reading)
}

#[test]
fn bit_2_without_an_optional() {
    assert_eq!(record("05 01 45 07 00 00 00 08 05 FF 20").map(|reading| reading.rows), Ok(2));
    assert_eq!(record("05 01 45 07 00 00 00 FF 20"), Err((14, 6)));
    assert_eq!(record("15 01 45 09 00 00 00 07 00 00 00 FF 31 01 42 04 00 00 00"), Err((14, 6)));
    assert_eq!(record("05 01 45 07 00 00 00"), Err((4, 13)));
    assert_eq!(record("05 01 45 07 00 00 00 08 05"), Err((4, 15)));
}

/// At one flags byte: 14, 13, then the ID, then 15 to 17.
#[test]
fn slice_flags() {
    assert_eq!(record("01 01 45 07 00 00 00 20").map(|reading| reading.rows), Ok(1));
    assert_eq!((record("41"), record("C9"), record("00")), (Err((14, 6)), Err((14, 6)), Err((14, 6))));
    assert_eq!((record("09"), record("02"), record("13")), (Err((13, 6)), Err((13, 6)), Err((13, 6))));
    // After a compact slice: another format, any ID bits. After a sliced one: another format, no ID.
    for flags in ["31", "21", "22"] {
        assert_eq!(record(&format!("01 01 45 07 00 00 00 {flags}")), Err((14, 13)), "{flags}");
    }
    for flags in ["21", "30"] {
        assert_eq!(record(&format!("11 01 45 08 00 00 00 07 00 00 00 {flags}")), Err((14, 17)), "{flags}");
    }
}

/// A slice size: 4, 11 for its least, 4 for its reach; bytes left over are 11 at the size.
#[test]
fn slice_sizes() {
    let sized = |size: &str| record(&format!("11 01 45 {size} 07 00 00 00 31 01 42 04 00 00 00"));
    assert_eq!(sized("08 00 00 00").map(|reading| reading.format), Ok(1));
    assert_eq!((sized("03 00 00 00"), sized("FF FF FF FF")), (Err((11, 9)), Err((11, 9))));
    assert_eq!((sized("17 00 00 00"), sized("09 00 00 00")), (Err((4, 9)), Err((11, 9))));
    assert_eq!(record("11 01 45 04 00"), Err((4, 9)));
}

/// Unknown slices are skipped by their size: flags, ID and size are judged, bit 2 and data are not.
#[test]
fn skipped_slices() {
    let rest = "11 01 45 08 00 00 00 07 00 00 00 31 01 42 04 00 00 00";
    let reading = record(&format!("15 01 4E 06 00 00 00 FF FF {rest}")).unwrap();
    assert_eq!((reading.first, reading.rows, reading.slices_skipped, reading.optionals_skipped), (3, 1, 1, 0));
    assert_eq!(record(&format!("19 01 4E 04 00 00 00 {rest}")), Err((13, 6)));
    assert_eq!(record(&format!("11 01 4E 03 00 00 00 {rest}")), Err((11, 9)));
}

/// 15 at the ID, 16 and 17 at the flags, 18 at the first byte after the record.
#[test]
fn chains() {
    assert_eq!(record("01 01 4E"), Err((15, 7)));
    assert_eq!(record("31 01 4E 04 00 00 00"), Err((16, 6)));
    assert_eq!((record("31 01 4F 04 00 00 00"), record("21 01 45")), (Err((17, 6)), Err((17, 6))));
    assert_eq!(record("11 01 45 08 00 00 00 07 00 00 00 31 01 4F 04 00 00 00"), Err((17, 17)));
    assert_eq!(record("11 01 45 08 00 00 00 07 00 00 00 31 01 4E 04 00 00 00"), Err((17, 17)));
    assert_eq!(record("01 01 45 07 00 00 00 00"), Err((17, 13)));
    assert_eq!(record("01 01 45 07 00 00 00 20 00"), Err((18, 14)));
}

#[test]
fn class_markers() {
    let mut spec = Spec::default();
    let top = spec.record(14, None, b"C", &[]).into();
    let of = |body: &str| rows_of(&spec.bytes(), top, &wrapped(&bytes(body))).map(|(_, reading)| reading.first);
    assert_eq!(of("01 21 01 43"), Ok(0));
    assert_eq!((of("02 21 01 43"), of("00"), of("")), (Err((13, 6)), Err((13, 6)), Err((4, 6))));
}

/// Each row 20 then 21: row 0's bytes are judged before row 1 is.
#[test]
fn rows_of_the_writer() {
    let (table, top) = p2_table();
    let of = |rows: &[Row]| {
        let list: Vec<u8> = rows.iter().flatten().flat_map(|number| number.to_le_bytes()).collect();
        write(&table, top, 1, rows.len() as u32, &list, &bytes(P2), &mut [0; 64])
    };
    assert_eq!(of(&[[0, 6, 2], [1, 9, 8], [2, 18, 4]]), Ok(22));
    assert_eq!(of(&[[0, 6, 3], [0, 6, 2]]), Err((21, 0)));
    assert_eq!(of(&[[0, 6, 2], [0, 6, 2]]), Err((20, 1)));
    assert_eq!(of(&[[0, 6, 2], [2, 18, 4], [1, 9, 8]]), Err((20, 2)));
    assert_eq!(of(&[[1, 9, 8]]), Err((20, 0)));
    assert_eq!((of(&[[0, 21, 2]]), of(&[[0, 22, 0]]), of(&[[0, 23, 0]])), (Err((20, 0)), Err((21, 0)), Err((20, 0))));
}

#[test]
fn rows_and_room() {
    let (table, top) = p2_table();
    let mut lent = [0xA5; 35];
    assert_eq!(read(&table, top, &bytes(P2), &mut lent), Err((19, 3)));
    assert_eq!(lent, [0xA5; 35]);
    let rows: Vec<u8> = [[0, 6, 2], [1, 9, 8], [2, 18, 4u32]].iter().flatten().flat_map(|n| n.to_le_bytes()).collect();
    let mut out = [0xA5; 23];
    assert_eq!(write(&table, top, 1, 3, &rows, &bytes(P2), &mut out[..21]), Err((22, 22)));
    assert_eq!(out, [0xA5; 23]);
    assert_eq!(write(&table, top, 1, 3, &rows, &bytes(P2), &mut out), Ok(22));
    assert_eq!((&out[..22], out[22]), (&bytes(P2)[..], 0xA5));
    assert_eq!(write(&table, top, 0, 3, &rows, &bytes(P2), &mut out), Err((23, 0)));
    assert_eq!(write(&table, top, 1, 4, &rows, &bytes(P2), &mut out), Err((20, 4)));
    assert_eq!(write(&table, top, 1, u32::MAX, &rows, &bytes(P2), &mut out), Err((20, u32::MAX)));
    assert_eq!(write(&table, top, 1, 0, &rows, &bytes(P2), &mut out), Err((20, 0)));
}

#[test]
fn limits() {
    let (table, top) = list(&[(STRING, None)]);
    let long =
        |total: u32| wrapped(&[&[255][..], &(total - 11).to_le_bytes(), &vec![65; total as usize - 11]].concat());
    there_and_back(&table, top, &long(65_536), &[[0, 6, 65_530]]);
    assert_eq!(rows_of(&table, top, &long(65_537)), Err((3, 0)));
    assert_eq!(write(&table, top, 1, 0, &[], &[0; 65_537], &mut []), Err((3, 0)));
    assert_eq!(rows_of(&table, top + 65_536, &long(65_537)), Err((2, 0)));
    assert_eq!(rows_of(&table, 0, &[]), Err((2, 0)));
}

#[test]
fn view() {
    let (table, top) = p2_table();
    let (message, fallback) = (bytes(P2), [0xAA, 0xBB]);
    let of = |wanted| member(&table, top, &message, wanted, &fallback);
    assert_eq!((of(0), of(1), of(2)), (&message[6..8], &message[9..17], &message[18..22]));
    assert_eq!((of(3), of(u32::MAX)), (&[][..], &[][..]));
    let short = wrapped(&[1, 0]);
    assert_eq!(member(&table, top, &short, 1, &fallback), fallback);
    assert_eq!(member(&table, top, &short[1..], 1, &fallback), []);
}

/// A byte, an enum, a struct and an exception, with type rows at 12, 24, 36 and 48 and member rows at 60, 68, 76 and 84.
fn sample() -> Spec {
    let mut table = Spec::default();
    table.basic(1);
    table.enumeration(5);
    table.owner(9, &[(0, None)]);
    table.record(13, None, b"A", &[(0, Some(1)), (0, Some(2)), (1, None)]);
    table
}

/// The rule class and the place of a table's first fault; zeros if it has none.
fn fault(table: &[u8]) -> Refusal {
    check(table).err().unwrap_or_default()
}

/// The fault of the sample table with another byte at a place.
fn fault_with(at: usize, byte: u8) -> (u32, u32) {
    let mut table = sample().bytes();
    table[at] = byte;
    fault(&table)
}

#[test]
fn table_headers() {
    for (at, byte) in [(0, b'f'), (2, b'G'), (3, 2), (4, 1), (5, 5), (7, 3), (9, 2), (11, 1)] {
        assert_eq!(fault_with(at, byte), (31, 0), "{at}");
    }
    let table = sample().bytes();
    assert_eq!((fault(&table), fault(&table[..92]), fault(&table[..11])), ((0, 0), (31, 0), (31, 0)));
    assert_eq!(fault(&[&table[..], &[0]].concat()), (31, 0));
}

/// The zero byte, the mark, the tag of a required member, a tag that is too great.
#[test]
fn table_member_rows() {
    assert_eq!((fault_with(63, 1), fault_with(62, 2)), ((32, 60), (36, 60)));
    assert_eq!((fault_with(64, 1), fault_with(75, 0x80)), ((32, 60), (38, 68)));
}

/// Each rule class by one table that breaks it, with its place.
#[test]
fn table_rules() {
    let broken = |spec: &dyn Fn(&mut Spec), byte: Option<(usize, u8)>| {
        let mut table = sample();
        spec(&mut table);
        let mut bytes = table.bytes();
        if let Some((at, byte)) = byte {
            bytes[at] = byte;
        }
        fault(&bytes)
    };
    let same = |_: &mut Spec| ();
    assert_eq!(broken(&same, None), (0, 0));
    assert_eq!(broken(&same, Some((11, 1))), (31, 0));
    assert_eq!(broken(&same, Some((14, 1))), (32, 12));
    assert_eq!(broken(&same, Some((12, 16))), (33, 12));
    assert_eq!(broken(&|table| table.rows.push((10, [4, 0, 0, 0, 0])), None), (34, 60));
    assert_eq!(broken(&|table| table.rows[3].1[0] = 0, None), (35, 48));
    assert_eq!(broken(&|table| table.members.push((0, None)), None), (35, 0));
    assert_eq!(broken(&|table| table.rows[2].1[1] = 0, None), (36, 36));
    assert_eq!(broken(&|table| table.members[0].1 = Some(1), None), (36, 60));
    assert_eq!(broken(&|table| table.rows.push((14, [4, 0, 0, 0, 1])), None), (37, 60));
    assert_eq!(broken(&|table| table.rows[1].1[1] = 0x8000, None), (38, 24));
    assert_eq!(broken(&|table| table.members[2].1 = Some(1), None), (38, 76));
    assert_eq!(fault(&[]), (31, 0));
    // A base of the other record kind; a record as element, as key and as member; tags that neither rise nor fall.
    assert_eq!(broken(&|table| table.rows.push((14, [4, 0, 4, 0, 1])), None), (34, 60));
    assert_eq!(broken(&|table| table.rows.push((10, [3, 0, 0, 0, 0])), None), (34, 60));
    assert_eq!(broken(&|table| table.rows.push((11, [3, 0, 0, 0, 0])), None), (34, 60));
    assert_eq!(broken(&|table| _ = table.owner(15, &[(3, None)]), None), (34, 104));
    let tags = [(0, Some(9)), (0, Some(1)), (0, Some(9))];
    assert_eq!(broken(&|table| _ = table.owner(15, &tags), None), (38, 120));
}

#[test]
fn table_bounds() {
    let bounds = |rows: usize, members: usize, names: usize| {
        let mut table = Spec { rows: vec![(1, [0; 5]); rows - 1], names: vec![0; names], ..Spec::default() };
        table.owner(15, &vec![(0, None); members]);
        fault(&table.bytes()).0
    };
    assert_eq!((bounds(256, 1_024, 8_192), bounds(1, 0, 0)), (0, 0));
    assert_eq!((bounds(257, 0, 0), bounds(2, 1_025, 0), bounds(1, 0, 8_193)), (31, 31, 31));
    let name = |length: u16| {
        let mut table = Spec { names: vec![0; 300], ..Spec::default() };
        table.record_named(13, None, (300 - length, length), &[]);
        fault(&table.bytes()).0
    };
    assert_eq!((name(0), name(1), name(255), name(256)), (37, 0, 0, 37));
}

/// A byte, the valve states 1, 3 and 4, a second enum of 0 and 7, and a list of both: version 2, with type rows at 14,
/// 26, 38 and 50, member rows at 62 and 70, and entries at 78, 82, 86, 90 and 94.
fn valves() -> Spec {
    let mut table = Spec::default();
    table.basic(1);
    let valve = table.listed(&[1, 3, 4]);
    let other = table.listed(&[0, 7]);
    table.owner(15, &[(valve, None), (other, Some(2))]);
    table
}

/// The fault of the table of valves after a change of its parts.
fn valves_with(change: impl Fn(&mut Spec)) -> Refusal {
    let mut table = valves();
    change(&mut table);
    fault(&table.bytes())
}

#[test]
fn enumerators_with_holes() {
    let (table, top) = (valves().bytes(), 3);
    for valve in [1, 3, 4] {
        there_and_back(&table, top, &wrapped(&[valve, 0x14, 7]), &[[0, 6, 1], [1, 8, 1]]);
    }
    for valve in [0, 2, 5, 7, 254] {
        assert_eq!(rows_of(&table, top, &wrapped(&[valve])), Err((9, 6)), "{valve}");
        assert_eq!(member(&table, top, &wrapped(&[valve]), 1, &[9]), [], "{valve}");
        let row: Vec<u8> = [0u32, 0, 1].iter().flat_map(|number| number.to_le_bytes()).collect();
        assert_eq!(write(&table, top, 1, 1, &row, &[valve], &mut [0; 9]), Err((21, 0)), "{valve}");
    }
    assert_eq!(rows_of(&table, top, &wrapped(&[1, 0x14, 1])), Err((9, 8)));
    assert_eq!(rows_of(&table, top, &wrapped(&[255, 2, 0, 0, 0])), Err((7, 6)));
}

/// Every second number, in 1,024 entries. A list of all numbers up to the greatest answers as version 1 does.
#[test]
fn long_lists() {
    let of = |list: &[u32]| one(None, |spec| spec.listed(list));
    let every_second = of(&(0..1_024).map(|i| 2 * i).collect::<Vec<_>>());
    for number in 0..2_050u32 {
        let body = if number < 255 { vec![number as u8] } else { [&[255][..], &number.to_le_bytes()].concat() };
        let answer = rows_of(&every_second.0, every_second.1, &wrapped(&body)).map(|(rows, _)| rows[0][2]);
        let allowed = number % 2 == 0 && number <= 2_046;
        assert_eq!(answer, if allowed { Ok(body.len() as u32) } else { Err((9, 6)) }, "{number}");
    }
    let (full, plain) = (of(&[0, 1, 2]), one(None, |spec| spec.enumeration(2)));
    for body in ["00", "01", "02", "03", "FF FF 00 00 00", "FF 02 00 00 00", ""] {
        assert_eq!(length_or_refusal(&full, body), length_or_refusal(&plain, body), "{body}");
    }
    assert_eq!(length_or_refusal(&of(&[0x7FFF_FFFF]), "FF FF FF FF 7F"), Ok(5));
    assert_eq!(length_or_refusal(&of(&[0x7FFF_FFFF]), "FF FE FF FF 7F"), Err((9, 6)));
}

#[test]
fn version_2_headers() {
    let table = valves().bytes();
    assert_eq!((fault(&table), table.len()), ((0, 0), 98));
    assert_eq!((fault(&table[..97]), fault(&[&table[..], &[0; 4]].concat())), ((31, 0), (31, 0)));
    assert_eq!((fault(&table[..13]), fault(&table[..12]), fault(&table[..14])), ((31, 0), (31, 0), (31, 0)));
    for (at, byte) in [(3, 0), (3, 1), (3, 3), (4, 1), (11, 1), (12, 4), (12, 6), (13, 1)] {
        let mut table = table.clone();
        table[at] = byte;
        assert_eq!(fault(&table), (31, 0), "{at}");
    }
    let entries = |count: u32| {
        let mut table = Spec::default();
        table.listed(&(0..count).collect::<Vec<_>>());
        fault(&table.bytes())
    };
    assert_eq!((entries(1), entries(1_024), entries(1_025)), ((0, 0), (0, 0), (31, 0)));
    assert_eq!(fault(&{ Spec { rows: vec![(1, [0; 5])], ..Spec::with_lists() } }.bytes()), (0, 0));
}

/// Each fault of a list, at its enum row: the first entry, no entries, too many, not rising, another greatest. Entries
/// left over are judged at 0.
#[test]
fn list_faults() {
    assert_eq!(valves_with(|_| ()), (0, 0));
    assert_eq!(valves_with(|table| table.rows[1].1[2] = 1), (39, 26));
    assert_eq!(valves_with(|table| table.rows[2].1[2] = 2), (39, 38));
    assert_eq!(valves_with(|table| table.rows[2].1[3] = 0), (39, 38));
    assert_eq!(valves_with(|table| table.rows[1].1 = [0; 5]), (39, 26));
    assert_eq!(valves_with(|table| table.rows[2].1[3] = 3), (39, 38));
    assert_eq!(valves_with(|table| table.rows[2].1[3] = 0xFFFF), (39, 38));
    let entry = |i: usize, entry: u32| valves_with(|table| table.entries.as_mut().unwrap()[i] = entry);
    assert_eq!((entry(1, 1), entry(1, 0), entry(1, 4), entry(1, 5)), ((39, 26), (39, 26), (39, 26), (39, 26)));
    assert_eq!((entry(1, 2), entry(0, 0), entry(3, 6), entry(3, 7)), ((0, 0), (0, 0), (0, 0), (39, 38)));
    assert_eq!((entry(2, 5), entry(4, 8), entry(4, 0x8000_0007)), ((39, 26), (39, 38), (39, 38)));
    assert_eq!(valves_with(|table| table.rows[1].1[0] = 3), (39, 26));
    assert_eq!(valves_with(|table| table.rows[1].1[1] = 1), (39, 26));
    assert_eq!(valves_with(|table| table.entries.as_mut().unwrap().push(8)), (39, 0));
    let unlisted = Spec { rows: vec![(1, [0; 5])], entries: Some(vec![0]), ..Spec::default() };
    assert_eq!(fault(&unlisted.bytes()), (39, 0));
}

/// Lists are judged after all type rows and before the member sum, enum rows in order, entries left over last.
#[test]
fn order_of_list_faults() {
    let list = |table: &mut Spec| table.rows[1].1[2] = 1;
    let both = |other: &dyn Fn(&mut Spec)| {
        valves_with(|table| {
            list(table);
            other(table);
        })
    };
    assert_eq!(both(&|table| table.rows.push((10, [4, 0, 0, 0, 0]))), (34, 62));
    assert_eq!(both(&|table| table.rows[2].1[1] = 0x8000), (38, 38));
    assert_eq!(both(&|table| table.rows[1].1[4] = 1), (32, 26));
    assert_eq!(both(&|table| table.rows[2].1[3] = 0), (39, 26));
    assert_eq!(both(&|table| table.members.push((0, None))), (39, 26));
    assert_eq!(both(&|table| table.members[0].1 = Some(0x8000_0000)), (39, 26));
    let left = |table: &mut Spec| table.entries.as_mut().unwrap().push(8);
    assert_eq!(both(&left), (39, 26));
    let leaves = |other: &dyn Fn(&mut Spec)| {
        valves_with(|table| {
            left(table);
            other(table);
        })
    };
    assert_eq!(leaves(&|table| table.members.push((0, None))), (39, 0));
    assert_eq!(leaves(&|table| table.members[0].1 = Some(0x8000_0000)), (39, 0));
    // Without list faults: the member sum, and a member row of a table of version 2.
    assert_eq!(valves_with(|table| table.members.push((0, None))), (35, 0));
    assert_eq!(valves_with(|table| table.members[1].1 = Some(0x8000_0000)), (38, 70));
}

/// An enum row uses a and b, in version 2 c and d too.
#[test]
fn fields_of_an_enum() {
    for (field, fault) in [(2, (32, 24)), (3, (32, 24)), (4, (32, 24))] {
        let mut table = sample();
        table.rows[1].1[field] = 1;
        assert_eq!(check(&table.bytes()), Err(fault));
    }
    assert_eq!(valves_with(|table| table.rows[2].1[4] = 1), (32, 38));
    assert_eq!(valves_with(|table| table.rows[0].1[2] = 1), (32, 14));
}

/// Text at the bounds of RFC 3629's ranges: U+0000, a byte order mark and noncharacters are text.
const TEXT: [&str; 14] = [
    "",
    "00",
    "7F",
    "C2 80",
    "DF BF",
    "E0 A0 80",
    "ED 9F BF",
    "EE 80 80",
    "EF BB BF",
    "EF BF BE",
    "EF BF BF",
    "F0 90 80 80",
    "F4 8F BF BF",
    "43 61 62 C3 A9 6E",
];

/// No text: a byte that goes on with nothing, overlong forms, surrogates, above 10FFFF, cut ends, bytes of no form.
const NO_TEXT: [&str; 26] = [
    "80",
    "BF",
    "C3 A9 A9",
    "C0 80",
    "C1 BF",
    "E0 80 80",
    "E0 9F BF",
    "F0 80 80 80",
    "F0 8F BF BF",
    "ED A0 80",
    "ED BF BF",
    "F4 90 80 80",
    "F5 80 80 80",
    "F8 88 80 80 80",
    "FC 84 80 80 80 80",
    "C3",
    "C3 41",
    "C3 C3",
    "E2 82",
    "E2 41 82",
    "E2 82 41",
    "F0 9F 98",
    "F0 41 98 80",
    "F0 9F 98 C0",
    "FE",
    "FF",
];

/// The string of this content.
fn string(content: &str) -> Vec<u8> {
    let content = bytes(content);
    [&[content.len() as u8], &content[..]].concat()
}

/// A table and its top.
type Under = (Vec<u8>, u32);

/// Every string of a value: what it is, its table, the bytes before it and those after it.
fn strings_of_values() -> Vec<(&'static str, Under, &'static str, &'static str)> {
    let text = |tag| one(tag, |spec| spec.basic(7));
    let texts = |tag| {
        one(tag, |spec| {
            let string = spec.basic(7);
            spec.row(10, [string, 0, 0, 0, 0])
        })
    };
    let structs = |tag| {
        one(tag, |spec| {
            let (byte, string) = (spec.basic(1), spec.basic(7));
            spec.owner(9, &[(byte, None), (string, None)])
        })
    };
    let lookups = |key: u8, value: u8| {
        one(None, |spec| {
            let (key, value) = (spec.basic(key), spec.basic(value));
            spec.row(11, [key, value, 0, 0, 0])
        })
    };
    let proxy = || one(None, |spec| spec.basic(12));
    vec![
        ("required", text(None), "", ""),
        ("optional", text(Some(1)), "0D", ""),
        ("element", texts(None), "03 01 41", "00"),
        ("member of a struct", structs(None), "09", ""),
        ("key", lookups(7, 1), "01", "09"),
        ("value", lookups(1, 7), "02 05", "05 00"),
        ("name", proxy(), "", "00 00 00 00 01 00 01 01 00 00"),
        ("category", proxy(), "01 41", "00 00 00 01 00 01 01 00 00"),
        ("facet", proxy(), "01 41 00 01", "00 00 01 00 01 01 00 00"),
        ("adapter", proxy(), "01 41 00 00 00 00 01 00 01 01 00", ""),
    ]
}

/// Strings at any depth, keys, identities, facets and adapters: text, or 24 at the size; in the writer 21.
#[test]
fn strings_are_text() {
    for (what, (table, top), before, after) in strings_of_values() {
        let (before, after) = (bytes(before), bytes(after));
        let wanted = u32::from(table[7]) - 1; // the last member row
        let of = |content: &str| {
            let body = [&before[..], &string(content), &after].concat();
            let read = rows_of(&table, top, &wrapped(&body)).map(|(rows, _)| rows[0][2] as usize);
            let value = &body[(what == "optional") as usize..];
            let row = [wanted, 0, value.len() as u32].map(u32::to_le_bytes).concat();
            let written = write(&table, top, 1, 1, &row, value, &mut [0; 64]);
            assert_eq!(written.err(), read.err().map(|_| (21, 0)), "{what}: {content}");
            assert_eq!(member(&table, top, &wrapped(&body), wanted, &[9]).is_empty(), read.is_err());
            read.err()
        };
        for content in TEXT {
            // An empty name is of a nil proxy only.
            if !(what == "name" && content.is_empty()) {
                assert_eq!(of(content), None, "{what}: {content}");
            }
        }
        for content in NO_TEXT {
            assert_eq!(of(content), Some((24, 6 + before.len() as u32)), "{what}: {content}");
        }
    }
}

/// 24 comes after 4 and 7 for its string. Of an identity the name is judged, then the category, then 10.
#[test]
fn order_of_text() {
    let text = one(None, |spec| spec.basic(7));
    assert_eq!(length_or_refusal(&text, "02 FF"), Err((4, 6)));
    assert_eq!(length_or_refusal(&text, "FF 02 00 00 00 FF FF"), Err((7, 6)));
    let optional = one(Some(1), |spec| spec.basic(7));
    assert_eq!(length_or_refusal(&optional, "0D 02 FF"), Err((4, 7)));
    assert_eq!(length_or_refusal(&optional, "0D 01 FF 0D 00"), Err((24, 7)));
    assert_eq!(length_or_refusal(&optional, "0D 01 FF FF"), Err((24, 7)));
    let texts = one(Some(1), |spec| {
        let string = spec.basic(7);
        spec.row(10, [string, 0, 0, 0, 0])
    });
    // The declared bytes, then the strings in them, then what is left over.
    assert_eq!(length_or_refusal(&texts, "0E 04 00 00 00 01 01 FF"), Err((4, 7)));
    assert_eq!(length_or_refusal(&texts, "0E 04 00 00 00 01 01 FF 00"), Err((24, 12)));
    assert_eq!(length_or_refusal(&texts, "0E 04 00 00 00 02 01 FF 02"), Err((24, 12)));
    let proxy = one(None, |spec| spec.basic(12));
    let of = |body: &str| length_or_refusal(&proxy, body);
    assert_eq!((of("01 FF"), of("01 FF 02 41"), of("01 FF 01 FF")), (Err((24, 6)), Err((24, 6)), Err((24, 6))));
    assert_eq!((of("01 41 02 FF"), of("01 41 01 FF")), (Err((4, 8)), Err((24, 8))));
    assert_eq!((of("00 01 FF"), of("00 01 41")), (Err((24, 7)), Err((10, 6))));
    assert_eq!((of("01 41 00 02 01 FF"), of("01 41 00 01 01 FF 05")), (Err((10, 9)), Err((24, 10))));
    assert_eq!(of("01 41 00 00 05 00 01 00 01 01 00 01 FF"), Err((10, 10)));
}

/// A type ID, known or not, first or later: 14 and 13 of the flags, its 4, 7 and 24, then 15 to 17.
#[test]
fn type_ids_are_text() {
    for content in NO_TEXT {
        let id: Vec<String> = string(content).iter().map(|byte| format!("{byte:02X}")).collect();
        let (id, length) = (id.join(" "), id.len() as u32);
        // Compact, in place of 15; sliced and skipped; sliced and last, in place of 16.
        assert_eq!(record(&format!("01 {id} 07 00 00 00 20")), Err((24, 7)), "{content}");
        let known = "11 01 45 08 00 00 00 07 00 00 00";
        let rest = format!("{known} 31 01 42 04 00 00 00");
        assert_eq!(record(&format!("11 {id} 04 00 00 00 {rest}")), Err((24, 7)), "{content}");
        assert_eq!(record(&format!("31 {id} 04 00 00 00")), Err((24, 7)), "{content}");
        // After a skipped slice; after a known one, in place of 17.
        assert_eq!(record(&format!("11 01 4E 04 00 00 00 11 {id} 04 00 00 00 {rest}")), Err((24, 14)), "{content}");
        assert_eq!(record(&format!("{known} 31 {id} 04 00 00 00")), Err((24, 18)), "{content}");
        // Flags first, then the ID's own reach.
        assert_eq!((record(&format!("41 {id}")), record(&format!("09 {id}"))), (Err((14, 6)), Err((13, 6))));
        assert_eq!(record(&format!("11 {:02X} {}", length, &id[3..])), Err((4, 7)), "{content}");
    }
    assert_eq!(record("11 FF 01 00 00 00 FF"), Err((7, 7)));
    let skipped = record("11 03 E2 82 AC 04 00 00 00 11 01 45 08 00 00 00 07 00 00 00 31 01 42 04 00 00 00");
    assert_eq!(skipped.map(|reading| reading.slices_skipped), Ok(1));
}

/// What is skipped or kept unopened is unread: unknown optionals, the data of unknown slices, endpoints. A sequence of
/// bytes is no string.
#[test]
fn unread_bytes_are_no_text() {
    let (table, top) = list(&[]);
    let skipped =
        |body: &str| rows_of(&table, top, &wrapped(&bytes(body))).map(|(_, reading)| reading.optionals_skipped);
    assert_eq!((skipped("0D 02 ED A0"), skipped("0E 02 00 00 00 01 FF")), (Ok(1), Ok(1)));
    let rest = "15 01 45 0C 00 00 00 07 00 00 00 15 01 FF FF 31 01 42 04 00 00 00";
    assert_eq!(record(rest).map(|reading| (reading.rows, reading.optionals_skipped)), Ok((1, 1)));
    let data = "11 01 4E 06 00 00 00 01 FF 11 01 45 08 00 00 00 07 00 00 00 31 01 42 04 00 00 00";
    assert_eq!(record(data).map(|reading| reading.slices_skipped), Ok(1));
    let proxy = one(None, |spec| spec.basic(12));
    let endpoint = "01 41 00 00 00 00 01 00 01 01 01 01 00 08 00 00 00 01 01 01 FF";
    assert_eq!(length_or_refusal(&proxy, endpoint), Ok(21));
    for tag in [None, Some(1)] {
        let octets = one(tag, |spec| {
            let byte = spec.basic(1);
            spec.row(10, [byte, 0, 0, 0, 0])
        });
        let body = if tag.is_some() { "0D 02 C0 80" } else { "02 C0 80" };
        assert_eq!(length_or_refusal(&octets, body), Ok(3));
    }
}

/// A record's own name is text, whatever the bytes around it are; else 37 at its row, with the other rules of names.
#[test]
fn names_are_text() {
    let of = |name: &[u8]| {
        let mut table = Spec { names: vec![0xC3], ..Spec::default() };
        table.basic(1);
        table.record(13, None, name, &[]);
        table.names.push(0xA9);
        fault(&table.bytes())
    };
    for content in TEXT.iter().filter(|content| !content.is_empty()) {
        assert_eq!(of(&bytes(content)), (0, 0), "{content}");
    }
    for content in NO_TEXT {
        assert_eq!(of(&bytes(content)), (37, 24), "{content}");
    }
    // Two bytes of one character: a name may have both or none of them.
    let within = |first: (u16, u16), second: (u16, u16)| {
        let mut table = Spec { names: "aéb".into(), ..Spec::default() };
        table.record_named(13, None, first, &[]);
        table.record_named(14, None, second, &[]);
        fault(&table.bytes())
    };
    assert_eq!((within((0, 1), (0, 4)), within((1, 2), (3, 1))), ((0, 0), (0, 0)));
    assert_eq!((within((0, 1), (0, 2)), within((2, 2), (0, 1))), ((37, 24), (37, 12)));
    // Unused fields, references and members come first; the sum and member rows after.
    let with = |change: &dyn Fn(&mut Spec)| {
        let mut table = sample();
        table.names = vec![0xFF];
        change(&mut table);
        fault(&table.bytes())
    };
    assert_eq!((with(&|_| ()), with(&|table| table.rows[3].1[0] = 0)), ((37, 48), (35, 48)));
    assert_eq!(
        (with(&|table| table.rows[3].1[2] = 9), with(&|table| table.rows[1].1[1] = 0x8000)),
        ((34, 48), (38, 24))
    );
    assert_eq!(with(&|table| table.members.push((0, None))), (37, 48));
}
