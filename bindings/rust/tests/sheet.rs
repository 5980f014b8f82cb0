//! The season sheet.

mod tables;

use icehub::{Refusal, Sheet, SHEET_SIZE};
use tables::*;

/// P2 with this short.
fn message(short: i16) -> Vec<u8> {
    let mut message = bytes(P2);
    message[6..8].copy_from_slice(&short.to_le_bytes());
    message
}

/// The numbers of a sheet, and that its bytes hold it.
#[test]
fn sheet_numbers() {
    let (table, mut wrong) = (p2_table(), message(0));
    wrong[5] = 9;
    let mut sheet = Sheet::default();
    let buffer = [message(-500), wrong, message(499)].concat();
    assert_eq!(sheet.add(&table, LIST, &buffer, 0), Ok(()));
    assert_eq!((sheet.carriers(), sheet.lacking(), sheet.refused(), sheet.sum()), (2, 0, 1, -1));
    assert_eq!((sheet.smallest(), sheet.largest(), sheet.mean()), (Some(-500), Some(499), Some((-1, 1))));
    let mut kept = Sheet::from_bytes(*sheet.bytes());
    assert_eq!(kept.add(&table, LIST, &message(2), 0), Ok(()));
    assert_eq!((kept.carriers(), kept.sum(), kept.mean()), (3, 1, Some((0, 1))));
}

/// Two calls give what one gives, and an empty sheet has no extremes and no mean.
#[test]
fn sheet_parts() {
    let (table, parts) = (p2_table(), [message(7), message(-9), message(3)]);
    let (mut one, mut two) = (Sheet::default(), Sheet::default());
    assert_eq!((one.smallest(), one.largest(), one.mean()), (None, None, None));
    assert_eq!(one.add(&table, LIST, &parts.concat(), 0), Ok(()));
    for part in parts {
        assert_eq!(two.add(&table, LIST, &part, 0), Ok(()));
    }
    assert_eq!(one, two);
}

/// The refusals, at 0; the sheet stays.
#[test]
fn sheet_refused() {
    let table = p2_table();
    let refused = |bytes: [u8; SHEET_SIZE], top: u32, member: u32| {
        let mut sheet = Sheet::from_bytes(bytes);
        let refusal = sheet.add(&table, top, &message(1), member).map_err(|Refusal { number, place }| (number, place));
        assert!(refusal.is_ok() || *sheet.bytes() == bytes);
        refusal
    };
    let (empty, mut many, mut wrong) = ([0; SHEET_SIZE], [0; SHEET_SIZE], [0; SHEET_SIZE]);
    many[8..16].copy_from_slice(&1_000_000_u64.to_le_bytes());
    wrong[48] = 1;
    assert_eq!(refused(empty, 0, 0), Err((2, 0)));
    assert_eq!(refused(empty, LIST, 1), Err((43, 0)));
    assert_eq!(refused(many, LIST, 0), Err((44, 0)));
    assert_eq!(refused(wrong, LIST, 0), Err((53, 0)));
    assert_eq!(refused(empty, LIST, 0), Ok(()));
}
