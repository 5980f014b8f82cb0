//! The values of members by their types: every kind in the sample `kinds`, and a table's own rows.

use icehub::{read, Allowed, Kind, Reason, Table, Value, MOST_ROWS, ROW_SIZE};

const TABLE: &[u8] = include_bytes!("../samples/kinds.table");
const MESSAGE: &[u8] = include_bytes!("../samples/kinds.message");

#[test]
fn every_kind() {
    let mut rows = [0; MOST_ROWS * ROW_SIZE];
    let reading = read(TABLE, 14, MESSAGE, &mut rows).unwrap();
    let member = |number| reading.member(number).unwrap();
    assert_eq!(member(2).as_bool(), Some(true));
    assert_eq!(member(3).as_u8(), Some(200));
    assert_eq!(member(4).as_i16(), Some(-500));
    assert_eq!(member(5).as_i32(), Some(i32::MIN));
    assert_eq!(member(6).as_i64(), Some(-2));
    assert_eq!(member(7).as_str(), Some(""));
    assert_eq!(member(8).as_enumerator(), Some(3));
    assert_eq!(member(10).as_str(), Some("Kjøkken, 21 °C"));
    assert_eq!(member(13).as_f32(), Some(-21.3));
    assert_eq!(member(14).as_f64(), Some(1013.25));
    assert_eq!((member(15).as_str(), member(15).as_bytes()), (Some("\0\x1B[2J"), Some(&b"\0\x1B[2J"[..])));
    assert_eq!(member(17).as_bytes(), Some(&(0..20).collect::<Vec<u8>>()[..]));

    let fields: Vec<_> = member(11).as_struct().unwrap().collect();
    assert!(matches!(fields[..], [Value::Short(-3), Value::Bool(true)]));
    let elements = member(16).as_sequence().unwrap();
    assert_eq!((elements.len(), elements.of().kind()), (3, Kind::Short));
    assert_eq!(elements.map(|element| element.as_i16().unwrap()).collect::<Vec<_>>(), [1, -1, 300]);
    let entries = member(12).as_dictionary().unwrap();
    let entries: Vec<_> = entries.map(|(key, value)| (key.as_str().unwrap(), value.as_i32().unwrap())).collect();
    assert_eq!(entries, [("pipe", -500), ("room", 1800)]);
    let proxy = member(9).as_proxy().unwrap();
    assert_eq!((proxy.name, proxy.category, proxy.facet), ("guard", "", None));
    assert_eq!((proxy.mode, proxy.secure, proxy.protocol, proxy.encoding), (0, false, Some((1, 0)), Some((1, 1))));
    assert_eq!((proxy.endpoints.len(), proxy.adapter), (0, Some("hub")));
}

/// A getter of another type gives none: no long is taken for an int. A wider number takes a narrower one.
#[test]
fn other_types() {
    let mut rows = [0; MOST_ROWS * ROW_SIZE];
    let reading = read(TABLE, 14, MESSAGE, &mut rows).unwrap();
    let member = |number| reading.member(number).unwrap();
    assert_eq!((member(6).as_i32(), member(6).as_i16(), member(6).as_str()), (None, None, None));
    assert_eq!((member(5).as_i16(), member(5).as_i64()), (None, Some(i32::MIN.into())));
    assert_eq!((member(4).as_i32(), member(4).as_i64(), member(4).as_u8()), (Some(-500), Some(-500), None));
    assert_eq!((member(3).as_i16(), member(3).as_bool(), member(3).as_bytes()), (None, None, None));
    assert_eq!((member(14).as_f32(), member(13).as_f64()), (None, Some(f64::from(-21.3_f32))));
    assert_eq!((member(16).as_bytes(), member(16).as_dictionary().is_none()), (None, true));
    assert_eq!((member(8).as_u8(), member(2).as_enumerator()), (None, None));
}

/// Endpoints are given unopened, with their type and version.
#[test]
fn endpoints() {
    let table = Table::new(TABLE).unwrap();
    let bytes = b"\x01n\x01c\x01\x01f\x04\x01\x01\x00\x01\x01\x02\x01\x00\x07\x00\x00\x00\x01\x01\xAA\xFE\xFF\x06\x00\x00\x00\x01\x00";
    let value = Value::new(table.type_row(13).unwrap(), bytes).unwrap();
    let proxy = value.as_proxy().unwrap();
    assert_eq!((proxy.category, proxy.facet, proxy.mode, proxy.secure), ("c", Some("f"), 4, true));
    let endpoints: Vec<_> = proxy.endpoints.map(|one| (one.of, one.encoding, one.bytes.len())).collect();
    assert_eq!((endpoints, proxy.adapter), (vec![(1, (1, 1), 9), (-2, (1, 0), 8)], None));
    assert!(matches!(Value::new(table.type_row(13).unwrap(), &[0, 0]), Some(Value::Proxy(None))));
}

/// Bytes that are no value, or a value and more, give none.
#[test]
fn no_value() {
    let table = Table::new(TABLE).unwrap();
    let row = |number| table.type_row(number).unwrap();
    assert!(Value::new(row(4), &[0; 4]).is_none());
    assert!(Value::new(row(2), &[0; 3]).is_none());
    assert!(Value::new(row(10), b"\x02\x01\x00").is_none());
    assert!(Value::new(row(10), b"\xFF\xFF\xFF\xFF\xFF").is_none());
    assert!(Value::new(row(15), &[]).is_none());
    assert_eq!(Value::at_front(row(10), b"\x01\x01\x00\x09").unwrap().1, 3);
}

/// Bytes that the library has not judged: a string that is not UTF-8 makes no value, wherever it is in it.
#[test]
fn no_text() {
    let table = Table::new(TABLE).unwrap();
    let value = |number, bytes| Value::new(table.type_row(number).unwrap(), bytes);
    assert_eq!(value(7, "\x03\u{20AC}".as_bytes()).unwrap().as_str(), Some("\u{20AC}"));
    for bytes in [&b"\x01\xFF"[..], b"\x02\xE2\x82", b"\x02\xC0\x80", b"\x03\xED\xA0\x80", b"\x04\xF4\x90\x80\x80"] {
        assert!(value(7, bytes).is_none(), "{bytes:02X?}");
    }
    assert!(value(12, b"\x01\x01k\0\0\0\0").is_some() && value(12, b"\x01\x01\xFF\0\0\0\0").is_none());
    let (proxy, name) = (b"\x01n\0\0\0\0\x01\0\x01\x01\0\0", b"\x01\xFF\0\0\0\0\x01\0\x01\x01\0\0");
    assert!(value(13, proxy).is_some() && value(13, name).is_none());
    assert_eq!(value(11, b"\x01\xFF").unwrap().as_bytes(), Some(&[0xFF][..]));
}

#[test]
fn rows_of_a_table() {
    let table = Table::new(TABLE).unwrap();
    assert_eq!((table.version(), table.types(), table.members(), table.names().len()), (1, 16, 19, 29));
    let report = table.named("::Guard::Report").unwrap();
    assert_eq!((report.number(), report.kind(), report.members(), report.place()), (15, Kind::Class, 10..19, 192));
    assert_eq!(report.base().unwrap().name(), Some("::Guard::State"));
    assert_eq!(report.base().unwrap().base(), None);
    let last = table.member_row(18).unwrap();
    assert_eq!(
        (last.tag(), last.of().kind(), last.owner(), last.place()),
        (Some(i32::MAX as u32), Kind::String, Some(report), 348)
    );
    assert_eq!((table.member_row(0).unwrap().tag(), table.member_row(19), table.type_row(16)), (None, None, None));
    assert_eq!((table.type_row(8).unwrap().greatest(), table.entries()), (Some(3), 0));
    assert!(matches!(table.type_row(8).unwrap().allowed(), Some(Allowed::UpTo(3))));
    assert!(table.type_row(7).unwrap().allowed().is_none());
    let (key, value) = (table.type_row(12).unwrap().key().unwrap(), table.type_row(12).unwrap().value().unwrap());
    assert_eq!((key.kind(), value.kind()), (Kind::String, Kind::Int));
    assert_eq!(table.type_rows().filter(|row| row.kind().can_be_top()).count(), 2);
}

/// A table of version 2: its rows are two bytes later, and its enums have lists.
#[test]
fn lists_of_a_table() {
    let table = Table::new(include_bytes!("../samples/valve.table")).unwrap();
    assert_eq!((table.version(), table.types(), table.members(), table.entries()), (2, 4, 3, 6));
    let (state, mode) = (table.type_row(0).unwrap(), table.type_row(1).unwrap());
    assert_eq!((state.place(), state.greatest(), mode.place(), mode.greatest()), (14, Some(4), 26, Some(2)));
    let list = |of: icehub::TypeRow| match of.allowed() {
        Some(Allowed::Only(list)) => (list.len(), list.collect::<Vec<_>>()),
        _ => panic!("no list"),
    };
    assert_eq!((list(state), list(mode)), ((3, vec![1, 3, 4]), (3, vec![0, 1, 2])));
    let allows = |number| state.allowed().unwrap().contains(number);
    assert_eq!([0, 1, 2, 3, 4, 5].map(allows), [false, true, false, true, true, false]);
    let member = table.member_row(2).unwrap();
    assert_eq!((member.place(), member.tag(), member.of(), member.owner()), (78, Some(1), mode, table.type_row(3)));
}

/// The library judges a table.
#[test]
fn a_broken_table() {
    let mut bytes = TABLE.to_vec();
    bytes[108] = 99;
    let refusal = Table::new(&bytes).unwrap_err();
    assert_eq!((refusal.reason(), refusal.place), (Some(Reason::BadTableKind), 108));
    let mut bytes = TABLE.to_vec();
    bytes[356] = 0xFF;
    let refusal = Table::new(&bytes).unwrap_err();
    assert_eq!((refusal.reason(), refusal.place), (Some(Reason::BadTableName), 180));
    assert_eq!(Table::new(&[]).unwrap_err().place, 0);
}
