//! Long sequences, which are judged and copied many bytes at a time: each refusal at its element, each byte in its place.
//! With the feature `library` the proved library reads and writes; without it this implementation does.

use independent::spec::Spec;
use independent::Refusal;

/// The refusal of a message; zeros where it is accepted.
#[cfg(feature = "library")]
fn refusal(table: &[u8], top: u32, message: &[u8]) -> Refusal {
    use independent::ffi;
    match ffi::read(table, top, message, &mut [0; 12]) {
        0 => (0, 0),
        number => (number, ffi::read_place(table, top, message, 12)),
    }
}

#[cfg(not(feature = "library"))]
fn refusal(table: &[u8], top: u32, message: &[u8]) -> Refusal {
    independent::read(table, top, message, &mut [0; 12]).err().unwrap_or_default()
}

/// The number of the refusal of rows, or 0 where their message was written.
#[cfg(feature = "library")]
fn written(table: &[u8], top: u32, rows: &[u8], buffer: &[u8], out: &mut [u8]) -> u32 {
    independent::ffi::write(table, top, 1, (rows.len() / 12) as u32, rows, buffer, out)
}

#[cfg(not(feature = "library"))]
fn written(table: &[u8], top: u32, rows: &[u8], buffer: &[u8], out: &mut [u8]) -> u32 {
    independent::write(table, top, 1, (rows.len() / 12) as u32, rows, buffer, out).err().map_or(0, |refusal| refusal.0)
}

/// A table whose one list has so many sequences of a basic kind, and the row of the list.
fn lists(kind: u8, sequences: usize) -> (Vec<u8>, u32) {
    let mut spec = Spec::default();
    let element = spec.basic(kind);
    let sequence = spec.row(10, [element, 0, 0, 0, 0]);
    let top = spec.owner(15, &vec![(sequence, None); sequences]);
    (spec.bytes(), top.into())
}

fn size(size: usize) -> Vec<u8> {
    if size < 255 {
        vec![size as u8]
    } else {
        [&[255][..], &(size as u32).to_le_bytes()].concat()
    }
}

/// The message that holds these bytes.
fn message(data: &[u8]) -> Vec<u8> {
    [&(6 + data.len() as u32).to_le_bytes()[..], &[1, 1], data].concat()
}

/// A wrong byte at every place of a sequence of up to 41 bools, alone and before another: 8 at the first of them.
#[test]
fn wrong_bools() {
    let (table, top) = lists(0, 1);
    let mut judged = 0;
    for count in 0..=41 {
        let right: Vec<u8> = (0..count).map(|i| (i % 3 == 0) as u8).collect();
        let sequence = |bools: &[u8]| message(&[&[count as u8][..], bools].concat());
        assert_eq!(refusal(&table, top, &sequence(&right)), (0, 0));
        for place in 0..count {
            // cut off before this one
            assert_eq!(refusal(&table, top, &sequence(&right[..place])), (4, 7 + place as u32));
            for wrong in [2, 3, 4, 8, 16, 32, 64, 128, 254, 255] {
                let mut bools = right.clone();
                bools[place] = wrong;
                assert_eq!(refusal(&table, top, &sequence(&bools)), (8, 7 + place as u32), "{bools:?}");
                // a wrong one that comes later, and an end that is cut off, change nothing
                bools[(place + 5).min(count - 1)] = wrong;
                assert_eq!(refusal(&table, top, &sequence(&bools)), (8, 7 + place as u32), "{bools:?}");
                assert_eq!(refusal(&table, top, &sequence(&bools[..place + 1])), (8, 7 + place as u32));
                judged += 3;
            }
        }
    }
    assert_eq!(judged, 3 * 10 * (41 * 42 / 2));
}

/// Sequences of numbers that are cut off anywhere: 4 at the first number that does not fit, whatever the others hold.
#[test]
fn numbers_that_do_not_fit() {
    for (kind, width) in [(1, 1), (2, 2), (3, 4), (4, 8), (5, 4), (6, 8)] {
        let (table, top) = lists(kind, 1);
        let most = (65_536 - 6 - 5) / width;
        for count in (0..20).chain([254, 255, most - 1, most]) {
            let whole = message(&[size(count), vec![0xFE; count * width]].concat());
            assert_eq!(refusal(&table, top, &whole), (0, 0));
            let first = 6 + size(count).len();
            let lengths = (0..count * width).filter(|length| *length < 200 || count * width - length < 20);
            for length in lengths {
                let cut = message(&[size(count), vec![0xFE; length]].concat());
                let place = first + length / width * width;
                assert_eq!(refusal(&table, top, &cut), (4, place as u32), "kind {kind}, {length} bytes of {count}");
            }
        }
    }
}

/// Long parts, from each place of 64 of the output on and from several of the buffer: the message is their bytes.
#[test]
fn long_parts_are_copied_whole() {
    let (table, top) = lists(1, 2);
    let bytes: Vec<u8> = (0..65_536_u32).map(|i| (i * 7 + i / 256) as u8).collect();
    for before in 0..64 {
        for length in [900, 1_018, 1_019, 1_020, 1_023, 1_024, 1_087, 1_088, 2_000, 4_133, 40_000] {
            let first = [size(before), bytes[..before].to_vec()].concat();
            let second = [size(length), bytes[3..3 + length].to_vec()].concat();
            let gap = before % 5;
            let buffer = [&first[..], &bytes[..gap], &second].concat();
            let places = [(0, first.len()), (first.len() + gap, second.len())];
            let numbers = places.iter().zip(0..).flat_map(|((place, length), member)| [member, *place, *length]);
            let rows: Vec<u8> = numbers.flat_map(|n| (n as u32).to_le_bytes()).collect();
            let mut expected = message(&[first, second].concat());
            let mut out = vec![0xAA; expected.len() + 7];
            expected.resize(out.len(), 0xAA);
            assert_eq!(written(&table, top, &rows, &buffer, &mut out), 0);
            assert!(out == expected, "{before} bytes, then {length}");
            // with a byte too few nothing is put
            let mut short = vec![0xAA; expected.len() - 8];
            assert_eq!(written(&table, top, &rows, &buffer, &mut short), 22);
            assert!(short.iter().all(|byte| *byte == 0xAA));
        }
    }
}
