//! Tables and messages for the tests.
#![allow(dead_code)]

use icehub::{Reading, Row, ROW_SIZE};

/// A member: its type row, and its tag if it is optional.
pub type Member = (u16, Option<u32>);

// Type rows: kinds 0 to 7, then these.
pub const BOOL: u16 = 0;
pub const BYTE: u16 = 1;
pub const SHORT: u16 = 2;
pub const INT: u16 = 3;
pub const LONG: u16 = 4;
pub const STRING: u16 = 7;
/// An enum, at most 2.
pub const STATE: u16 = 8;
/// A sequence of strings.
pub const STRINGS: u16 = 9;
pub const PROXY: u16 = 10;
/// An exception `E` without members, and without a base.
pub const E: u32 = 11;
/// The parameter list.
pub const LIST: u32 = 12;

/// The table of these rows, its list of the members given.
pub fn table(members: &[Member]) -> Vec<u8> {
    let mut rows: Vec<[u16; 6]> = (0..8).map(|kind| [kind, 0, 0, 0, 0, 0]).collect();
    rows.push([8, 2, 0, 0, 0, 0]);
    rows.push([10, STRING, 0, 0, 0, 0]);
    rows.push([12, 0, 0, 0, 0, 0]);
    rows.push([13, 0, 0, 0, 0, 1]);
    rows.push([15, 0, members.len() as u16, 0, 0, 0]);
    let mut table = b"FGT\x01\0".to_vec();
    for number in [rows.len(), members.len(), 1] {
        table.extend((number as u16).to_le_bytes());
    }
    table.push(0);
    table.extend(rows.iter().flatten().flat_map(|number| number.to_le_bytes()));
    for (of, tag) in members {
        table.extend(of.to_le_bytes());
        table.extend([tag.is_some().into(), 0]);
        table.extend(tag.unwrap_or(0).to_le_bytes());
    }
    table.push(b'E');
    table
}

/// Bytes from hex.
pub fn bytes(hex: &str) -> Vec<u8> {
    hex.split_whitespace().map(|byte| u8::from_str_radix(byte, 16).unwrap()).collect()
}

/// A body in an encapsulation.
pub fn wrapped(hex: &str) -> Vec<u8> {
    let body = bytes(hex);
    [&(body.len() as u32 + 6).to_le_bytes()[..], &[1, 1], &body].concat()
}

pub fn row((member, place, length): (u32, u32, u32)) -> Row {
    Row { member, place, length }
}

/// Room for every row of these tests.
pub const ROOM: usize = 16 * ROW_SIZE;

/// The rows of an accepted message.
pub fn rows(reading: &Reading) -> Vec<Row> {
    reading.members().map(|member| member.row).collect()
}

pub const P1: &str = "17 00 00 00 01 01 4D 63 00 0B 58 00 00 00 00 00 00 00 15 03 6A 6F 65";
pub const P2: &str = "16 00 00 00 01 01 0C FE 3B 00 00 00 00 01 00 00 00 42 08 07 00 00";

pub fn p2_table() -> Vec<u8> {
    table(&[(SHORT, None), (LONG, Some(7)), (INT, Some(8))])
}
