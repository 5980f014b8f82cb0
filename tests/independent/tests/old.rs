//! Encoding 1.0, as document 02 (M-104) has it: each rule by name, and document 002's exception.

use independent::spec::{Member, Spec};
use independent::{member, read, write, Reading, Refusal};

type Row = [u32; 3];

/// A body in an encapsulation of version 1.0.
fn wrapped(body: &[u8]) -> Vec<u8> {
    [&(body.len() as u32 + 6).to_le_bytes()[..], &[1, 0], body].concat()
}

fn string(text: &str) -> Vec<u8> {
    [&[text.len() as u8], text.as_bytes()].concat()
}

/// Type ID, size and data.
fn pair(id: &str, data: &[u8]) -> Vec<u8> {
    [string(id), (data.len() as u32 + 4).to_le_bytes().to_vec(), data.to_vec()].concat()
}

fn rows_of(table: &[u8], top: u32, message: &[u8]) -> Result<(Vec<Row>, Reading), Refusal> {
    let mut lent = vec![0; 12 * 64];
    let reading = read(table, top, message, &mut lent)?;
    let number = |bytes: &[u8]| u32::from_le_bytes(bytes.try_into().unwrap());
    let rows = lent.chunks(12).map(|row| [number(&row[..4]), number(&row[4..8]), number(&row[8..])]);
    Ok((rows.take(reading.rows as usize).collect(), reading))
}

/// Reads a message with nothing skipped, format 2, and writes it again.
fn there_and_back(table: &[u8], top: u32, message: &[u8], expected: &[Row]) {
    let (rows, reading) = rows_of(table, top, message).unwrap();
    assert_eq!(rows, expected);
    assert_eq!((reading.format, reading.optionals_skipped, reading.slices_skipped), (2, 0, 0));
    let rows: Vec<u8> = rows.iter().flatten().flat_map(|number| number.to_le_bytes()).collect();
    let mut out = vec![0; message.len()];
    let length = write(table, reading.first, 2, reading.rows, &rows, message, &mut out);
    assert_eq!((length, &out[..]), (Ok(message.len() as u32), message));
}

/// A parameter list of one member, and its top.
fn one(of: impl Fn(&mut Spec) -> u16) -> (Vec<u8>, u32) {
    let mut spec = Spec::default();
    let of = of(&mut spec);
    let top = spec.owner(15, &[(of, None)]);
    (spec.bytes(), top.into())
}

/// The length of the one member, or the refusal.
fn length_or_refusal((table, top): &(Vec<u8>, u32), body: &[u8]) -> Result<u32, Refusal> {
    rows_of(table, *top, &wrapped(body)).map(|(rows, _)| rows[0][2])
}

/// Document 002's exceptions, with the rows of their types: int, string, bool, double, ::Base and ::Derived.
fn exceptions(more: &[Member]) -> Spec {
    let mut spec = Spec::default();
    let [int, text, truth, double] = [3, 7, 0, 6].map(|kind| spec.basic(kind));
    let base = spec.record(13, None, b"::Base", &[(int, None), (text, None)]);
    spec.record(13, Some(base), b"::Derived", &[&[(truth, None), (text, None), (double, None)], more].concat());
    spec
}

const BASE: u32 = 4;
const DERIVED: u32 = 5;

fn base_data() -> Vec<u8> {
    [vec![99, 0, 0, 0], string("Hello")].concat()
}

#[allow(clippy::approx_constant)] // document 002 has 3.14
fn derived_data() -> Vec<u8> {
    [vec![1], string("World!"), 3.14f64.to_le_bytes().to_vec()].concat()
}

/// Document 002's exception, as it prints it, in an encapsulation.
fn exception() -> Vec<u8> {
    wrapped(&[vec![0], pair("::Derived", &derived_data()), pair("::Base", &base_data())].concat())
}

#[test]
fn document_002() {
    let table = exceptions(&[]).bytes();
    let message = exception();
    assert_eq!(message.len(), 6 + 52);
    let rows = [[2, 21, 1], [3, 22, 7], [4, 29, 8], [0, 48, 4], [1, 52, 6]];
    there_and_back(&table, DERIVED, &message, &rows);
    there_and_back(&table, BASE, &message, &rows);
    assert_eq!(member(&table, BASE, &message, 1, b"none"), &string("Hello")[..]);
    // A hub that does not know ::Derived skips it by its size.
    let mut old = Spec::default();
    let [int, text] = [3, 7].map(|kind| old.basic(kind));
    let top = old.record(13, None, b"::Base", &[(int, None), (text, None)]);
    let (rows, reading) = rows_of(&old.bytes(), top.into(), &message).unwrap();
    assert_eq!(rows, [[0, 48, 4], [1, 52, 6]]);
    assert_eq!(reading, Reading { first: 2, format: 2, rows: 2, optionals_skipped: 0, slices_skipped: 1 });
}

#[test]
fn versions() {
    let (table, top) = (exceptions(&[]).bytes(), DERIVED);
    for (version, refusal) in [([1, 2], (6, 4)), ([0, 0], (6, 4)), ([2, 0], (6, 4))] {
        let mut message = exception();
        message[4..6].copy_from_slice(&version);
        assert_eq!(rows_of(&table, top, &message), Err(refusal));
    }
    // A class as top is 6 at 4 in 1.0, and 23 in the writer.
    let mut spec = Spec::default();
    let class = spec.record(14, None, b"::C", &[]).into();
    assert_eq!(rows_of(&spec.bytes(), class, &wrapped(&[0])), Err((6, 4)));
    assert_eq!(write(&spec.bytes(), class, 2, 0, &[], &[], &mut [0; 99]), Err((23, 0)));
}

#[test]
fn lists_have_no_optionals() {
    let list = one(|spec| spec.basic(2));
    assert_eq!(length_or_refusal(&list, &[1, 2]), Ok(2));
    assert_eq!(length_or_refusal(&list, &[1, 2, 3]), Err((18, 8)));
    assert_eq!(length_or_refusal(&list, &[1]), Err((4, 6)));
}

#[test]
fn enumerators_by_the_greatest() {
    let of = |greatest: u32| one(move |spec| spec.enumeration(greatest));
    for (greatest, width) in [(0, 1), (126, 1), (127, 2), (254, 2), (32_766, 2), (32_767, 4), (0x7FFF_FFFF, 4)] {
        let (table, top) = of(greatest);
        let bytes = &greatest.to_le_bytes()[..width];
        there_and_back(&table, top, &wrapped(bytes), &[[0, 6, width as u32]]);
        let above = &(greatest + 1).to_le_bytes()[..width];
        assert_eq!(length_or_refusal(&(table.clone(), top), above), Err((9, 6)));
        // A set sign bit is no negative number.
        let mut negative = [0; 4];
        negative[width - 1] = 128;
        assert_eq!(length_or_refusal(&(table.clone(), top), &negative[..width]), Err((9, 6)));
        assert_eq!(length_or_refusal(&(table, top), &bytes[1..]), Err((4, 6)));
    }
    // Of a list the last entry decides, and only its entries are allowed.
    let mut spec = Spec::with_lists();
    let valve = spec.listed(&[1, 3, 200]);
    let top = spec.owner(15, &[(valve, None)]).into();
    assert_eq!(length_or_refusal(&(spec.bytes(), top), &[3, 0]), Ok(2));
    assert_eq!(length_or_refusal(&(spec.bytes(), top), &[2, 0]), Err((9, 6)));
}

#[test]
fn proxies_without_versions() {
    let proxy = one(|spec| spec.basic(12));
    let direct = [string("a"), string(""), vec![0, 2, 0, 1, 1, 0, 6, 0, 0, 0, 1, 1]].concat();
    assert_eq!(length_or_refusal(&proxy, &direct), Ok(direct.len() as u32));
    assert_eq!(length_or_refusal(&proxy, &[0, 0]), Ok(2));
    // The four bytes of 1.1 are taken for what follows.
    let newer = [string("a"), string(""), vec![0, 2, 0, 1, 0, 1, 1, 0, 0]].concat();
    assert_eq!(length_or_refusal(&proxy, &newer), Err((4, 15)));
}

#[test]
fn headers_and_ends() {
    let (table, top) = (exceptions(&[]).bytes(), BASE);
    let of = |body: &[u8]| rows_of(&table, top, &wrapped(body)).map(|(_, reading)| reading.first);
    assert_eq!(of(&[]), Err((4, 6)));
    assert_eq!(of(&[1]), Err((25, 6)));
    assert_eq!(of(&[0]), Err((4, 7)));
    let base = pair("::Base", &base_data());
    assert_eq!(of(&[vec![0], base.clone()].concat()), Ok(BASE));
    assert_eq!(of(&[vec![0], base.clone(), vec![0]].concat()), Err((18, 7 + base.len() as u32)));
    // The bytes end before a pair that is due, or before any known one.
    let derived = pair("::Derived", &derived_data());
    assert_eq!(of(&[vec![0], derived.clone()].concat()), Err((4, 7 + derived.len() as u32)));
    let unknown = pair("::Newer", &[7; 9]);
    assert_eq!(of(&[vec![0], unknown.clone()].concat()), Err((4, 7 + unknown.len() as u32)));
    assert_eq!(of(&[vec![0], unknown, base].concat()), Ok(BASE));
}

#[test]
fn pairs() {
    let mut spec = exceptions(&[]);
    let other = spec.record(13, None, b"::Other", &[]);
    spec.record(14, None, b"::Class", &[]);
    let table = spec.bytes();
    let of = |top: u32, body: &[Vec<u8>]| rows_of(&table, top, &wrapped(&[&[0], &body.concat()[..]].concat())).err();
    let [derived, base] = [pair("::Derived", &derived_data()), pair("::Base", &base_data())];
    // 17 at the type ID: neither the top nor below it, a class, another record than the base, an unknown one after it.
    assert_eq!(of(DERIVED, std::slice::from_ref(&base)), Some((17, 7)));
    assert_eq!(of(BASE, &[pair("::Other", &[])]), Some((17, 7)));
    assert_eq!(of(other.into(), &[pair("::Class", &[])]), Some((17, 7)));
    let second = 7 + derived.len() as u32;
    assert_eq!(of(BASE, &[derived.clone(), pair("::Other", &[])]), Some((17, second)));
    assert_eq!(of(BASE, &[derived.clone(), pair("::Newer", &[])]), Some((17, second)));
    // A type ID is judged before its meaning, and that before the size.
    assert_eq!(of(BASE, &[vec![1, 255, 0]]), Some((24, 7)));
    assert_eq!(of(BASE, &[string("::Other")]), Some((17, 7)));
    // The size counts itself.
    let at = 7 + 7;
    let sized = |size: u32| of(BASE, &[string("::Base"), size.to_le_bytes().to_vec(), base_data()]);
    assert_eq!(sized(14), None);
    assert_eq!(sized(3), Some((11, at)));
    assert_eq!(sized(u32::MAX), Some((11, at)));
    assert_eq!(sized(15), Some((4, at)));
    assert_eq!(sized(13), Some((4, at + 8)));
    assert_eq!(of(BASE, &[pair("::Base", &[base_data(), vec![0]].concat())]), Some((11, at)));
    assert_eq!(of(BASE, &[derived, base]), None);
}

#[test]
fn optionals_of_the_line() {
    // Row 2, a byte, comes before the records: an optional of ::Derived counts for its base too.
    let table = exceptions(&[(0, Some(3))]).bytes();
    for top in [BASE, DERIVED] {
        assert_eq!(rows_of(&table, top, &exception()), Err((26, 0)));
        assert_eq!(write(&table, top, 2, 0, &[], &[], &mut [0; 99]), Err((26, 0)));
    }
    // After 5 and 6, before the body; 23 before 26, and 26 before 3.
    let mut cut = exception();
    cut.pop();
    assert_eq!(rows_of(&table, BASE, &cut), Err((5, 0)));
    assert_eq!(rows_of(&table, BASE, &wrapped(&[9])), Err((26, 0)));
    assert_eq!(write(&table, BASE, 3, 0, &[], &[], &mut []), Err((23, 0)));
    assert_eq!(write(&table, BASE, 2, 0, &[], &vec![0; 65_537], &mut []), Err((26, 0)));
    // Another record, or a parameter list, is of another line.
    let mut spec = exceptions(&[(0, Some(3))]);
    let other = spec.record(13, None, b"::Other", &[]).into();
    let list = spec.owner(15, &[]).into();
    there_and_back(&spec.bytes(), other, &wrapped(&[vec![0], pair("::Other", &[])].concat()), &[]);
    there_and_back(&spec.bytes(), list, &wrapped(&[]), &[]);
}
