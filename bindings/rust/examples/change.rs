//! Reads the report of a frost guard, sets its delay to an hour and writes it again.
//!
//!     cargo run --example change

use icehub::{Reason, Refusal, Row, ROW_SIZE};

const TABLE: &[u8] = include_bytes!("../samples/report.table");
const MESSAGE: &[u8] = include_bytes!("../samples/report.message");
const DELAY: u32 = 2;

fn main() -> Result<(), Refusal> {
    let mut rows = [0; 3 * ROW_SIZE];
    let report = icehub::read(TABLE, 3, MESSAGE, &mut rows)?;

    // The new bytes are put after the message; the row of the delay points there, the others into the message.
    let new = 3600_i32.to_le_bytes();
    let buffer = [MESSAGE, &new].concat();
    let list: Vec<u8> = report
        .members()
        .map(|member| match member.number() {
            DELAY => Row { member: DELAY, place: MESSAGE.len() as u32, length: new.len() as u32 },
            _ => member.row,
        })
        .flat_map(Row::to_bytes)
        .collect();

    // With no room for output the place of the refusal is the length needed.
    let needed = match icehub::write(TABLE, report.first_type, report.format, &list, &buffer, &mut []) {
        Err(refusal) if refusal.reason() == Some(Reason::OutputTooLong) => refusal.place as usize,
        Err(refusal) => return Err(refusal),
        Ok(length) => length,
    };
    let mut out = vec![0; needed];
    let length = icehub::write(TABLE, report.first_type, report.format, &list, &buffer, &mut out)?;

    let mut rows = [0; 3 * ROW_SIZE];
    let changed = icehub::read(TABLE, 3, &out[..length], &mut rows)?;
    assert_eq!(changed.member(DELAY).and_then(|delay| delay.as_i32()), Some(3600));
    println!("{:02X?}", &out[..length]);
    Ok(())
}
