//! Endpoints: opened, written, found in their proxy, and shown.

use icehub::{endpoint_at, open_endpoint, write_endpoint, Address, Opened, Reason, Table, Value};

const HUB: Address = Address { of: 1, host: "hub.local", port: 4061, timeout: 60_000, compress: false };

fn written(address: Address) -> Vec<u8> {
    let mut out = [0xA5; 64];
    let length = write_endpoint(address, &mut out).unwrap();
    assert!(out[length..].iter().all(|&byte| byte == 0xA5));
    out[..length].to_vec()
}

fn refused(bytes: &[u8]) -> (Reason, u32) {
    let refusal = open_endpoint(bytes).unwrap_err();
    (refusal.reason().unwrap(), refusal.place)
}

/// What is written is opened as what was given; UDP has no timeout.
#[test]
fn there_and_back() {
    for address in
        [HUB, Address { of: 2, timeout: -1, compress: true, ..HUB }, Address { host: "", port: 65_535, ..HUB }]
    {
        assert_eq!(open_endpoint(&written(address)), Ok(Opened::Address(address)));
    }
    let udp = Address { of: 3, ..HUB };
    assert_eq!(open_endpoint(&written(udp)), Ok(Opened::Address(Address { timeout: 0, ..udp })));
}

#[test]
fn another_type() {
    let bytes = [0xFE, 0xFF, 8, 0, 0, 0, 9, 9, 9, 9];
    assert_eq!(open_endpoint(&bytes), Ok(Opened::Unopened(65_534)));
    assert_eq!(refused(&[&bytes[..], &[0]].concat()), (Reason::LeftOver, 10));
}

/// Each refusal of opening, at its place; what an endpoint holds comes before what is after it.
#[test]
fn refusals() {
    let bytes = written(HUB);
    let changed = |at: usize, byte: u8| {
        let mut bytes = [&bytes[..], &[0]].concat();
        bytes[at] = byte;
        refused(&bytes)
    };
    assert_eq!(refused(&[0; 65_537]), (Reason::InputTooLong, 0));
    assert_eq!(refused(&[1]), (Reason::CutOff, 0));
    assert_eq!(refused(&bytes[..bytes.len() - 1]), (Reason::CutOff, 2));
    assert_eq!(changed(2, 5), (Reason::BadLength, 2));
    assert_eq!(changed(7, 0), (Reason::BadVersion, 6));
    assert_eq!(changed(8, 250), (Reason::CutOff, 8));
    assert_eq!(changed(9, 0xFF), (Reason::BadText, 8));
    assert_eq!(changed(20, 1), (Reason::BadPort, 18));
    assert_eq!(changed(26, 2), (Reason::BadBool, 26));
    assert_eq!(changed(2, 26), (Reason::BadLength, 2));
    assert_eq!(refused(&[&bytes[..], &[0]].concat()), (Reason::LeftOver, 27));
}

/// The writer's refusals, in their order.
#[test]
fn writer() {
    let refused = |address, room: usize| {
        let mut out = vec![0xA5; room];
        let refusal = write_endpoint(address, &mut out).unwrap_err();
        assert_eq!(out, vec![0xA5; room]);
        (refusal.reason().unwrap(), refusal.place)
    };
    let long = "x".repeat(65_537);
    assert_eq!(refused(Address { of: 0, host: &long, port: 0, ..HUB }, 0), (Reason::BadType, 0));
    assert_eq!(refused(Address { host: &long, port: 0, ..HUB }, 0), (Reason::InputTooLong, 0));
    assert_eq!(refused(Address { port: 0, ..HUB }, 0), (Reason::BadPort, 0));
    assert_eq!(refused(HUB, 26), (Reason::OutputTooLong, 27));
    assert_eq!(refused(Address { host: &long[..65_536], ..HUB }, 70_000), (Reason::OutputTooLong, 65_558));
}

/// Each endpoint of a proxy is where the library says that it is, and where the value's own endpoints are.
#[test]
fn in_a_proxy() {
    let (tcp, udp) = (written(HUB), written(Address { of: 3, ..HUB }));
    let proxy = [&b"\x05guard\x00\x00\x00\x00\x01\x00\x01\x01\x02"[..], &tcp, &udp].concat();
    let table = Table::new(include_bytes!("../samples/kinds.table")).unwrap();
    let value = Value::new(table.type_row(13).unwrap(), &proxy).unwrap();
    let endpoints: Vec<_> = value.as_proxy().unwrap().endpoints.collect();
    for (n, expected) in [tcp, udp].iter().enumerate() {
        let (count, range) = endpoint_at(&proxy, n as u32).unwrap();
        assert_eq!((count, &proxy[range.unwrap()]), (2, &expected[..]));
        assert_eq!(endpoints[n].bytes, &expected[..]);
        assert_eq!(endpoints[n].open(), open_endpoint(expected));
    }
    assert_eq!(endpoint_at(&proxy, 2), Ok((2, None)));
    assert_eq!(endpoint_at(&[0, 0], 0), Ok((0, None)));
    let refused = |proxy: &[u8]| endpoint_at(proxy, 0).map_err(|refusal| (refusal.number, refusal.place));
    assert_eq!(refused(&proxy[..proxy.len() - 1]), Err((4, 44)));
    assert_eq!(refused(&[&proxy[..], &[0]].concat()), Err((18, proxy.len() as u32)));
    assert_eq!(refused(&[0, 1, b'c']), Err((10, 0)));
}

#[test]
fn shown() {
    assert_eq!(HUB.to_string(), "tcp -h hub.local -p 4061 -t 60000");
    assert_eq!(Address { of: 2, timeout: -1, compress: true, ..HUB }.to_string(), "ssl -h hub.local -p 4061 -t -1 -z");
    assert_eq!(Address { of: 3, host: "::1", ..HUB }.to_string(), "udp -h ::1 -p 4061");
    assert_eq!(Address { host: "a b", ..HUB }.to_string(), "tcp -h \"a b\" -p 4061 -t 60000");
}
