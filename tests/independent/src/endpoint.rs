//! One endpoint of a proxy (document 02, M-106; document 004): opened, written, and found in its proxy. The calls and
//! answers of these, as the recorded calls have them.

use crate::calls::{Answer, Call, LENT};
use crate::json::{hex, Json};
use crate::value::{is_text, Part};
use crate::{Refusal, MOST};

/// An address that was opened, or the type of an endpoint that is not.
#[derive(Clone, Copy, Debug, Default, PartialEq)]
pub struct Opened {
    pub opened: u32,
    pub kind: u32,
    pub host_place: u32,
    pub host_length: u32,
    pub port: u32,
    pub timeout: u32,
    pub compress: u32,
}

impl Opened {
    /// The seven numbers in their order.
    pub fn numbers(&self) -> [u32; 7] {
        let Opened { opened, kind, host_place, host_length, port, timeout, compress } = *self;
        [opened, kind, host_place, host_length, port, timeout, compress]
    }

    pub fn of_numbers(numbers: [u32; 7]) -> Opened {
        let [opened, kind, host_place, host_length, port, timeout, compress] = numbers;
        Opened { opened, kind, host_place, host_length, port, timeout, compress }
    }
}

/// The bytes of the numbers of an opened endpoint, and of one found in its proxy.
pub const OPENED: usize = 28;
pub const LOCATED: usize = 12;

/// An int as its pattern.
fn int(part: &mut Part) -> Result<u32, Refusal> {
    let at = part.at;
    part.item(4)?;
    Ok(u32::from_le_bytes([0, 1, 2, 3].map(|i| part.bytes[at + i])))
}

/// TCP, SSL and UDP are 1, 2 and 3. Another type is judged by its size and by what is after it.
pub fn open(endpoint: &[u8]) -> Result<Opened, Refusal> {
    if endpoint.len() > MOST {
        return Err((3, 0));
    }
    let mut part = Part { bytes: endpoint, at: 0, old: false };
    part.item(2)?;
    let kind = u32::from(u16::from_le_bytes([endpoint[0], endpoint[1]]));
    let size = part;
    let end = part.declared(6, 4)?;
    let opened = if matches!(kind, 1..=3) {
        let mut inner = Part { at: 6, ..part }.upto(end);
        let opened = address(kind, &mut inner)?;
        if inner.left() > 0 {
            return size.refuse(11);
        }
        opened
    } else {
        Opened { kind, ..Opened::default() }
    };
    if end < endpoint.len() {
        return Err((18, end as u32));
    }
    Ok(opened)
}

/// Version 1.1, host, port, timeout unless UDP, compress.
fn address(kind: u32, part: &mut Part) -> Result<Opened, Refusal> {
    let version = *part;
    part.item(2)?;
    if part.bytes[version.at..version.at + 2] != [1, 1] {
        return version.refuse(6);
    }
    let host = part.string()?;
    let host_place = (part.at - host.len()) as u32;
    let before = *part;
    let port = int(part)?;
    if !(1..=65_535).contains(&port) {
        return before.refuse(27);
    }
    let timeout = if kind == 3 { 0 } else { int(part)? };
    let flag = *part;
    let compress = part.byte()?;
    if compress > 1 {
        return flag.refuse(8);
    }
    let host_length = host.len() as u32;
    Ok(Opened { opened: 1, kind, host_place, host_length, port, timeout, compress: compress.into() })
}

/// What the writer is given.
#[derive(Clone, Debug, PartialEq)]
pub struct Given {
    pub kind: u32,
    pub host: Vec<u8>,
    pub port: u32,
    pub timeout: u32,
    pub compress: bool,
}

/// Writes an endpoint; gives its length.
pub fn write_endpoint(given: &Given, out: &mut [u8]) -> Result<u32, Refusal> {
    let Given { kind, host, port, timeout, compress } = given;
    if !matches!(kind, 1..=3) {
        return Err((2, 0));
    }
    if host.len() > MOST {
        return Err((3, 0));
    }
    if !is_text(host) {
        return Err((24, 0));
    }
    if !(1..=65_535).contains(port) {
        return Err((27, 0));
    }
    let size = host.len() as u32;
    let mut inner = if size < 255 { vec![size as u8] } else { [&[255][..], &size.to_le_bytes()].concat() };
    inner.extend(host);
    inner.extend(port.to_le_bytes());
    if *kind != 3 {
        inner.extend(timeout.to_le_bytes());
    }
    inner.push(u8::from(*compress));
    let length = 8 + inner.len();
    let bytes = [&(*kind as u16).to_le_bytes()[..], &(length as u32 - 2).to_le_bytes(), &[1, 1], &inner].concat();
    if length > MOST || length > out.len() {
        return Err((22, length as u32));
    }
    out[..length].copy_from_slice(&bytes);
    Ok(length as u32)
}

/// The number of endpoints of a proxy, and place and length of the wanted one; 0, 0 if there is none.
pub fn endpoint_at(proxy: &[u8], wanted: u32) -> Result<[u32; 3], Refusal> {
    if proxy.len() > MOST {
        return Err((3, 0));
    }
    let mut part = Part { bytes: proxy, at: 0, old: false };
    let mut places = vec![];
    part.proxy_with(|place, end| places.push([place as u32, (end - place) as u32]))?;
    if part.left() > 0 {
        return part.refuse(18);
    }
    let [place, length] = places.get(wanted as usize).copied().unwrap_or_default();
    Ok([places.len() as u32, place, length])
}

/// A call on one endpoint; `room` is the bytes lent for numbers or output.
#[derive(Clone, Debug)]
pub enum EndpointCall {
    Open { bytes: Vec<u8>, room: usize },
    Write { given: Given, room: usize },
    Locate { proxy: Vec<u8>, wanted: u32, room: usize },
}

#[derive(Clone, Debug, PartialEq)]
pub enum EndpointAnswer {
    Open { refusal: Refusal, opened: Opened },
    Write { refusal: Refusal, out: Vec<u8> },
    Locate { refusal: Refusal, numbers: [u32; 3] },
}

impl EndpointCall {
    /// The answer of this implementation.
    pub fn answer(&self) -> Answer {
        match self {
            EndpointCall::Open { bytes, room } => {
                let result = open(bytes).and_then(|opened| if *room < OPENED { Err((22, 28)) } else { Ok(opened) });
                let (refusal, opened) = (result.err().unwrap_or_default(), result.unwrap_or_default());
                Answer::Endpoint(EndpointAnswer::Open { refusal, opened })
            }
            EndpointCall::Write { given, room } => {
                let mut out = vec![LENT; *room];
                let result = write_endpoint(given, &mut out);
                let (refusal, length) = (result.err().unwrap_or_default(), result.unwrap_or_default());
                EndpointAnswer::of_write(refusal, length, &out)
            }
            EndpointCall::Locate { proxy, wanted, room } => {
                let result = endpoint_at(proxy, *wanted);
                let result = result.and_then(|numbers| if *room < LOCATED { Err((22, 12)) } else { Ok(numbers) });
                let (refusal, numbers) = (result.err().unwrap_or_default(), result.unwrap_or_default());
                Answer::Endpoint(EndpointAnswer::Locate { refusal, numbers })
            }
        }
    }

    /// The call and its answer from a line.
    pub fn parse(line: &str) -> Option<(Call, Answer)> {
        let call = Json::parse(line)?;
        let expect = call.get("expect")?;
        let refusal = (expect.number("no")?, expect.number("place")?);
        let room = |most: usize| call.number("room").map_or(most, |room| room as usize);
        let (call, answer) = match call.text("op")? {
            "endpoint" => {
                let keys = ["opened", "type", "host_place", "host_length", "port", "timeout", "compress"];
                let mut numbers = [0; 7];
                for (number, key) in numbers.iter_mut().zip(keys) {
                    *number = expect.number(key)?;
                }
                let call = EndpointCall::Open { bytes: call.bytes("bytes")?, room: room(OPENED) };
                (call, EndpointAnswer::Open { refusal, opened: Opened::of_numbers(numbers) })
            }
            "endpoint_write" => {
                let given = Given {
                    kind: call.number("type")?,
                    host: call.bytes("host")?,
                    port: call.number("port")?,
                    timeout: call.number("timeout")?,
                    compress: call.number("compress")? == 1,
                };
                let call = EndpointCall::Write { given, room: room(MOST) };
                (call, EndpointAnswer::Write { refusal, out: expect.bytes("out")? })
            }
            _ => return None,
        };
        Some((Call::Endpoint(call), Answer::Endpoint(answer)))
    }

    /// The fields of its line.
    pub fn json(&self) -> String {
        match self {
            EndpointCall::Open { bytes, room } => format!(r#""op":"endpoint","bytes":"{}","room":{room}"#, hex(bytes)),
            EndpointCall::Write { given: Given { kind, host, port, timeout, compress }, room } => format!(
                r#""op":"endpoint_write","type":{kind},"host":"{}","port":{port},"timeout":{timeout},"compress":{},"room":{room}"#,
                hex(host),
                u8::from(*compress)
            ),
            EndpointCall::Locate { proxy, wanted, room } => {
                format!(r#""op":"endpoint_at","proxy":"{}","n":{wanted},"room":{room}"#, hex(proxy))
            }
        }
    }

    /// Its kind, five numbers and bytes as crates/replay reads them; an endpoint in its proxy is not recorded.
    pub fn record(&self) -> ([u32; 6], Vec<u8>) {
        match self {
            EndpointCall::Open { bytes, room } => ([12, *room as u32, 0, 0, 0, 0], bytes.clone()),
            EndpointCall::Write { given: Given { kind, host, port, timeout, compress }, room } => {
                ([13, *kind, *port, *timeout, u32::from(*compress), *room as u32], host.clone())
            }
            EndpointCall::Locate { proxy, wanted, room } => ([12, *room as u32, 1, *wanted, 0, 0], proxy.clone()),
        }
    }

    /// The call of a record.
    pub fn of_record(kind: u32, [a, b, c, d, e]: [u32; 5], bytes: &[u8]) -> EndpointCall {
        let bytes = bytes.to_vec();
        match (kind, b) {
            (12, 0) => EndpointCall::Open { bytes, room: a as usize },
            (12, _) => EndpointCall::Locate { proxy: bytes, wanted: c, room: a as usize },
            _ => {
                let given = Given { kind: a, host: bytes, port: b, timeout: c, compress: d == 1 };
                EndpointCall::Write { given, room: e as usize }
            }
        }
    }
}

impl EndpointAnswer {
    /// The writer's, from the length that it gives and the lent output.
    pub fn of_write(refusal: Refusal, length: u32, lent: &[u8]) -> Answer {
        match lent.split_at_checked(length as usize) {
            Some((out, beyond)) if beyond.iter().all(|&byte| byte == LENT) => {
                Answer::Endpoint(EndpointAnswer::Write { refusal, out: out.to_vec() })
            }
            _ => Answer::Astray,
        }
    }

    pub fn refusal(&self) -> Refusal {
        match self {
            EndpointAnswer::Open { refusal, .. }
            | EndpointAnswer::Write { refusal, .. }
            | EndpointAnswer::Locate { refusal, .. } => *refusal,
        }
    }

    pub fn json(&self) -> String {
        let (no, place) = self.refusal();
        match self {
            EndpointAnswer::Open { opened, .. } => {
                let [is, kind, at, length, port, timeout, compress] = opened.numbers();
                format!(
                    r#"{{"no":{no},"place":{place},"opened":{is},"type":{kind},"host_place":{at},"host_length":{length},"port":{port},"timeout":{timeout},"compress":{compress}}}"#
                )
            }
            EndpointAnswer::Write { out, .. } => format!(r#"{{"no":{no},"place":{place},"out":"{}"}}"#, hex(out)),
            EndpointAnswer::Locate { numbers: [count, at, length], .. } => {
                format!(r#"{{"no":{no},"place":{place},"count":{count},"at":{at},"length":{length}}}"#)
            }
        }
    }

    /// The line that crates/replay has to print.
    pub fn line(&self) -> String {
        let (no, place) = self.refusal();
        let numbers = |numbers: &[u32]| numbers.iter().map(|number| format!("{number} ")).collect::<String>();
        match self {
            EndpointAnswer::Open { opened, .. } => numbers(&[no, place]) + &numbers(&opened.numbers()),
            EndpointAnswer::Write { out, .. } => numbers(&[no, place, out.len() as u32]) + &hex(out),
            EndpointAnswer::Locate { numbers: located, .. } => numbers(&[no, place]) + &numbers(located),
        }
    }
}

#[cfg(test)]
mod tests {
    use super::*;

    fn given(kind: u32) -> Given {
        Given { kind, host: b"hub".to_vec(), port: 4061, timeout: 60_000, compress: true }
    }

    fn written(given: &Given) -> Vec<u8> {
        let mut out = [0; 64];
        let length = write_endpoint(given, &mut out).unwrap();
        out[..length as usize].to_vec()
    }

    /// Document 004's structures, byte by byte.
    #[test]
    fn layouts() {
        let tcp = [1, 0, 19, 0, 0, 0, 1, 1, 3, b'h', b'u', b'b', 0xDD, 0x0F, 0, 0, 0x60, 0xEA, 0, 0, 1];
        assert_eq!(written(&given(1)), tcp);
        assert_eq!(written(&given(2))[..2], [2, 0]);
        assert_eq!(written(&given(2))[2..], tcp[2..]);
        let udp = [3, 0, 15, 0, 0, 0, 1, 1, 3, b'h', b'u', b'b', 0xDD, 0x0F, 0, 0, 1];
        assert_eq!(written(&given(3)), udp);
    }

    /// What is written is opened as what was given, and every byte of it counts.
    #[test]
    fn round_trip() {
        for kind in 1..=3 {
            let (given, bytes) = (given(kind), written(&given(kind)));
            let timeout = if kind == 3 { 0 } else { 60_000 };
            let address = [1, kind, 9, 3, 4061, timeout, 1];
            assert_eq!(open(&bytes), Ok(Opened::of_numbers(address)));
            for cut in 0..bytes.len() {
                assert!(open(&bytes[..cut]).is_err());
            }
            assert_eq!(open(&[&bytes[..], &[0]].concat()), Err((18, bytes.len() as u32)));
            assert_eq!(write_endpoint(&given, &mut vec![0; bytes.len() - 1]), Err((22, bytes.len() as u32)));
        }
    }

    /// Where the bytes after an endpoint and what it holds are both wrong, what it holds is named.
    #[test]
    fn inside_before_18() {
        let mut bytes = [&written(&given(1))[..], &[0, 0]].concat();
        bytes[12..16].fill(0);
        assert_eq!(open(&bytes), Err((27, 12)));
        bytes[6] = 2;
        assert_eq!(open(&bytes), Err((6, 6)));
    }

    #[test]
    fn found_in_a_proxy() {
        let (first, second) = (written(&given(1)), written(&given(3)));
        let general = [&[1, b'n', 0, 0, 0, 0, 1, 0, 1, 1, 2][..]].concat();
        let proxy = [&general[..], &first, &second].concat();
        assert_eq!(endpoint_at(&proxy, 0), Ok([2, 11, 21]));
        assert_eq!(endpoint_at(&proxy, 1), Ok([2, 32, 17]));
        assert_eq!(endpoint_at(&proxy, 2), Ok([2, 0, 0]));
        assert_eq!(endpoint_at(&[0, 0], 0), Ok([0, 0, 0]));
        assert_eq!(endpoint_at(&[&proxy[..], &[0]].concat(), 0), Err((18, 49)));
        assert_eq!(endpoint_at(&proxy[..40], 0), Err((4, 34)));
    }
}
