//! Setting and removing one optional.

mod tables;

use icehub::{read, remove, set, Reason, Refusal};
use tables::*;

/// The hub's table, in which the delay is member 1, the sender's newer one, and a fault of that sender.
const HUB: &[u8] = include_bytes!("../samples/fault.table");
const NEWER: &[u8] = include_bytes!("../samples/fault-newer.table");
const FAULT: &[u8] = include_bytes!("../samples/fault.message");
const DELAY: u32 = 1;

fn set_to(table: &[u8], top: u32, message: &[u8], member: u32, value: &[u8]) -> Result<Vec<u8>, Refusal> {
    let mut out = [0xA5; 256];
    let length = set(table, top, message, member, value, &mut out)?;
    assert!(out[length..].iter().all(|&byte| byte == 0xA5));
    Ok(out[..length].to_vec())
}

fn removed(table: &[u8], top: u32, message: &[u8], member: u32) -> Result<Vec<u8>, Refusal> {
    let mut out = [0xA5; 256];
    let length = remove(table, top, message, member, &mut out)?;
    assert!(out[length..].iter().all(|&byte| byte == 0xA5));
    Ok(out[..length].to_vec())
}

fn refused<T>(reason: Reason, place: u32) -> Result<T, Refusal> {
    Err(Refusal { number: reason.number(), place })
}

#[test]
fn the_delay_of_a_newer_fault() {
    let result = set_to(HUB, 2, FAULT, DELAY, &3_600i32.to_le_bytes()).unwrap();
    let mut expected = FAULT.to_vec();
    expected[61..65].copy_from_slice(&3_600i32.to_le_bytes());
    assert_eq!(result, expected);
    assert_eq!(set_to(HUB, 2, &result, DELAY, &1_800i32.to_le_bytes()).as_deref(), Ok(FAULT));
    assert_eq!(set_to(HUB, 2, FAULT, DELAY, &FAULT[61..65]).as_deref(), Ok(FAULT));

    // Both tables read it: the same members, but for the delay.
    for (table, top, rows) in [(HUB, 2, 2), (NEWER, 4, 4)] {
        let (mut before, mut after) = ([0; ROOM], [0; ROOM]);
        let before = read(table, top, FAULT, &mut before).unwrap();
        let after = read(table, top, &result, &mut after).unwrap();
        assert_eq!((before.first_type, before.slices_skipped), (after.first_type, after.slices_skipped));
        assert_eq!((before.members().len(), after.members().len()), (rows, rows));
        for (before, after) in before.members().zip(after.members()) {
            assert_eq!(before.number(), after.number());
            if before.part() != after.part() {
                assert_eq!((before.as_i32(), after.as_i32()), (Some(1_800), Some(3_600)));
            }
        }
    }
}

#[test]
fn added_and_removed() {
    let without = removed(HUB, 2, FAULT, DELAY).unwrap();
    assert_eq!(without.len(), FAULT.len() - 5);
    assert_eq!((without[0], without[48]), (75 - 5, 27 - 5));
    assert_eq!(set_to(HUB, 2, &without, DELAY, &1_800i32.to_le_bytes()).as_deref(), Ok(FAULT));
    assert_eq!(removed(HUB, 2, &without, DELAY), refused(Reason::NotThere, 0));
}

#[test]
fn lists() {
    let table = table(&[(BYTE, Some(2)), (STRINGS, Some(30))]);
    let message = wrapped("18 07");
    assert_eq!(set_to(&table, LIST, &message, 0, &[9]), Ok(wrapped("10 09 18 07")));
    assert_eq!(set_to(&table, LIST, &message, 1, &bytes("01 00")), Ok(wrapped("18 07 F6 1E 02 00 00 00 01 00")));
    assert_eq!(removed(&table, LIST, &wrapped("10 09"), 0), Ok(wrapped("")));
}

#[test]
fn not_changed() {
    let table = table(&[(SHORT, None), (STRING, Some(2))]);
    let message = wrapped("07 00");
    let of = |member, value: &[u8]| set_to(&table, LIST, &message, member, value);
    assert_eq!(of(0, &[1, 0]), refused(Reason::NotOptional, 0));
    assert_eq!(of(2, &[0]), refused(Reason::NotOptional, 0));
    assert_eq!(of(1, &vec![0; 65_537]), refused(Reason::InputTooLong, 0));
    assert_eq!(of(1, &[2, b'a']), refused(Reason::BadRowBytes, 0));
    assert_eq!(of(1, &[1, 0xFF]), refused(Reason::BadRowBytes, 0));
    assert_eq!(set(&table, LIST, &message, 1, b"\x01a", &mut [0; 10]), refused(Reason::OutputTooLong, 11));
    assert_eq!(removed(&table, LIST, &message, 1), refused(Reason::NotThere, 0));
    assert_eq!(remove(&table, LIST, &wrapped("07 00 15 00"), 1, &mut [0; 7]), refused(Reason::OutputTooLong, 8));
    assert_eq!(removed(&table, LIST, &message[..7], 1), refused(Reason::BadOuterSize, 0));
    assert_eq!(set_to(&table, BYTE.into(), &message, 1, &[0]), refused(Reason::BadType, 0));
}

/// A compact record: 49 and 50 come before 51.
#[test]
fn compact_records() {
    // A byte; class C with an optional(1) byte.
    let table = b"FGT\x01\0\x02\0\x01\0\x01\0\0\
        \x01\0\0\0\0\0\0\0\0\0\0\0\
        \x0E\0\0\0\x01\0\0\0\0\0\x01\0\
        \0\0\x01\0\x01\0\0\0C";
    let (bare, with) = (b"\x0A\0\0\0\x01\x01\x01\x21\x01C", b"\x0D\0\0\0\x01\x01\x01\x25\x01C\x08\x09\xFF");
    assert_eq!(set_to(table, 1, bare, 1, &[5]), refused(Reason::NotOptional, 0));
    assert_eq!(set_to(table, 1, bare, 0, &[5]), refused(Reason::IsCompact, 0));
    assert_eq!(removed(table, 1, bare, 0), refused(Reason::NotThere, 0));
    assert_eq!(removed(table, 1, with, 0), refused(Reason::IsCompact, 0));
}
