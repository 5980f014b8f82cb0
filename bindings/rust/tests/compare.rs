//! Two tables compared: an optional member and a class more, a base that differs, a list that is too short.

use icehub::{compare, Difference, Reason, What, DIFFERENCE_SIZE};

/// A byte, and class B with a required byte.
const OLD: &[u8] = b"FGT\x01\0\x02\0\x01\0\x01\0\0\
    \x01\0\0\0\0\0\0\0\0\0\0\0\
    \x0E\0\0\0\x01\0\0\0\0\0\x01\0\
    \0\0\0\0\0\0\0\0B";

/// The same, an optional(1) byte in B, and class D over B.
const NEW: &[u8] = b"FGT\x01\0\x03\0\x02\0\x02\0\0\
    \x01\0\0\0\0\0\0\0\0\0\0\0\
    \x0E\0\0\0\x02\0\0\0\0\0\x01\0\
    \x0E\0\x02\0\0\0\x02\0\x01\0\x01\0\
    \0\0\0\0\0\0\0\0\
    \0\0\x01\0\x01\0\0\0BD";

#[test]
fn a_newer_table() {
    let mut list = [0; 4 * DIFFERENCE_SIZE];
    let comparison = compare(OLD, 1, NEW, 1, &mut list).unwrap();
    assert!(comparison.extends);
    let optional = Difference { what: What::Optional, owners: [Some(1), Some(1)], members: [None, Some(1)] };
    let class = Difference { what: What::Owner, owners: [None, Some(2)], members: [None, None] };
    assert!(comparison.differences().eq([optional, class]));
}

#[test]
fn an_older_table() {
    let mut list = [0; 4 * DIFFERENCE_SIZE];
    let comparison = compare(NEW, 1, OLD, 1, &mut list).unwrap();
    assert!(!comparison.extends);
    assert_eq!(comparison.len(), 2);
}

#[test]
fn itself() {
    let comparison = compare(OLD, 1, OLD, 1, &mut []).unwrap();
    assert!(comparison.extends && comparison.is_empty());
}

#[test]
fn refusals() {
    let short = compare(OLD, 1, NEW, 1, &mut [0; DIFFERENCE_SIZE]).unwrap_err();
    assert_eq!((short.reason(), short.place), (Some(Reason::ListTooShort), 2));
    let top = compare(OLD, 1, NEW, 0, &mut []).unwrap_err();
    assert_eq!((top.reason(), top.place), (Some(Reason::BadType), 0));
    let broken = compare(OLD, 1, b"FGT", 0, &mut []).unwrap_err();
    assert_eq!((broken.number, broken.place), (31, 1_000_000));
}
