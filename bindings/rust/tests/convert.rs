//! The converter.

use icehub::{convert, read, write, Format, Reason, Refusal};

/// A byte; class B with a required byte; class D over it with an optional(1) byte; a parameter list of a byte.
const TABLE: &[u8] = b"FGT\x01\0\x04\0\x03\0\x02\0\0\
    \x01\0\0\0\0\0\0\0\0\0\0\0\
    \x0E\0\0\0\x01\0\0\0\0\0\x01\0\
    \x0E\0\x01\0\x01\0\x02\0\x01\0\x01\0\
    \x0F\0\x02\0\x01\0\0\0\0\0\0\0\
    \0\0\0\0\0\0\0\0\
    \0\0\x01\0\x01\0\0\0\
    \0\0\0\0\0\0\0\0BD";
const COMPACT: &[u8] = b"\x0F\0\0\0\x01\x01\x01\x05\x01D\x08\x09\xFF\x20\x07";
const SLICED: &[u8] = b"\x19\0\0\0\x01\x01\x01\x15\x01D\x07\0\0\0\x08\x09\xFF\x31\x01B\x05\0\0\0\x07";

fn refused(number: Reason, place: u32) -> Result<usize, Refusal> {
    Err(Refusal { number: number.number(), place })
}

#[test]
fn converted() {
    let mut out = [0xA5; 64];
    assert_eq!(convert(TABLE, 1, COMPACT, &mut out), Ok(SLICED.len()));
    assert_eq!((&out[..SLICED.len()], out[SLICED.len()]), (SLICED, 0xA5));

    // The same members with the same bytes, and what the writer makes of the compact record's rows.
    let (mut rows, mut others, mut written) = ([0; 24], [0; 24], [0; 64]);
    let (old, new) = (read(TABLE, 1, COMPACT, &mut rows).unwrap(), read(TABLE, 1, SLICED, &mut others).unwrap());
    assert_eq!((old.format, new.format), (Format::Compact, Format::Sliced));
    assert_eq!((old.first_type, new.first_type), (2, 2));
    assert!(old
        .members()
        .map(|old| (old.number(), old.part()))
        .eq(new.members().map(|new| (new.number(), new.part()))));
    assert_eq!(write(TABLE, 2, Format::Sliced, old.list(), COMPACT, &mut written), Ok(SLICED.len()));
    assert_eq!(&written[..SLICED.len()], SLICED);
    assert_eq!(write(TABLE, 2, Format::Compact, old.list(), COMPACT, &mut written), refused(Reason::BadFormat, 0));
}

#[test]
fn not_converted() {
    let mut out = [0xA5; 64];
    assert_eq!(convert(TABLE, 1, COMPACT, &mut out[..24]), refused(Reason::OutputTooLong, 25));
    assert_eq!(convert(TABLE, 1, SLICED, &mut out), refused(Reason::NotCompact, 0));
    assert_eq!(convert(TABLE, 3, b"\x07\0\0\0\x01\x01\x07", &mut out), refused(Reason::NotCompact, 0));
    let unknown = b"\x0E\0\0\0\x01\x01\x01\x25\x01B\x07\x10\x09\xFF";
    assert_eq!(convert(TABLE, 1, unknown, &mut out), refused(Reason::Skipped, 0));
    assert_eq!(convert(TABLE, 1, &COMPACT[..14], &mut out), refused(Reason::BadOuterSize, 0));
    assert_eq!(convert(TABLE, 0, COMPACT, &mut out), refused(Reason::BadType, 0));
    assert_eq!(out, [0xA5; 64]);
}
