//! The season sheet: each rule by name.

use independent::json::unhex;
use independent::sheet::{sheet, SHEET};
use independent::spec::Spec;

const TOP: u32 = 3;
/// P2's members: a short, a long, an int.
const SHORT: u32 = 0;
const LONG: u32 = 1;
const INT: u32 = 2;

/// P2's table.
fn p2_table() -> Vec<u8> {
    let mut spec = Spec::default();
    let (short, long, int) = (spec.basic(2), spec.basic(4), spec.basic(3));
    spec.owner(15, &[(short, None), (long, Some(7)), (int, Some(8))]);
    spec.bytes()
}

/// P2 with this short, and with this int or none.
fn message(short: i16, int: Option<i32>) -> Vec<u8> {
    let mut message = unhex("160000000101 0CFE 3B0000000001000000 4208070000".replace(' ', "").as_str()).unwrap();
    message[6..8].copy_from_slice(&short.to_le_bytes());
    match int {
        Some(int) => message[18..].copy_from_slice(&int.to_le_bytes()),
        None => {
            message.truncate(17);
            message[0] = 17;
        }
    }
    message
}

/// Refusal, and the numbers of the sheet: carriers, lacking, refused, sum, then smallest, largest, mean and remainder
/// where they are there.
type Told = (u32, [i64; 4], Option<(i32, i32)>, Option<(i32, i32)>);

fn told(buffer: &[u8], member: u32, lent: &mut [u8; SHEET]) -> Told {
    let refusal = sheet(&p2_table(), TOP, buffer, member, lent).err().unwrap_or_default();
    assert_eq!(refusal.1, 0);
    let long = |i: usize| i64::from_le_bytes(lent[8 * i..8 * i + 8].try_into().unwrap());
    let int = |at: usize| i32::from_le_bytes(lent[at..at + 4].try_into().unwrap());
    assert_eq!(lent[48], lent[49]);
    let extremes = (lent[48] == 1).then(|| (int(32), int(36)));
    (refusal.0, [0, 1, 2, 3].map(long), extremes, (lent[50] == 1).then(|| (int(40), int(44))))
}

fn added(buffer: &[u8], member: u32) -> Told {
    told(buffer, member, &mut [0; SHEET])
}

/// Carried, lacking and refused messages; a short is sign-extended.
#[test]
fn sheet_counts() {
    let mut wrong = message(1, None);
    wrong[5] = 9;
    let buffer = [message(-500, Some(7)), wrong, message(499, None), vec![1, 2, 3]].concat();
    assert_eq!(added(&buffer, SHORT), (0, [2, 0, 2, -1], Some((-500, 499)), Some((-1, 1))));
    assert_eq!(added(&buffer, INT), (0, [1, 1, 2, 7], Some((7, 7)), Some((7, 0))));
    assert_eq!(added(&[], INT), (0, [0; 4], None, None));
    assert_eq!(added(&message(3, None), INT), (0, [0, 1, 0, 0], None, None));
}

/// The mean's remainder is never negative.
#[test]
fn sheet_mean() {
    for (values, mean) in [([-1, 0, 0], (-1, 2)), ([1, 0, 0], (0, 1)), ([-4, 0, 0], (-2, 2)), ([-3, 0, 0], (-1, 0))] {
        let buffer = values.map(|value| message(value, None)).concat();
        assert_eq!(added(&buffer, SHORT).3, Some(mean), "{values:?}");
    }
    let (least, most) = (message(0, Some(i32::MIN)), message(0, Some(i32::MAX)));
    assert_eq!(added(&least.repeat(3), INT).3, Some((i32::MIN, 0)));
    assert_eq!(added(&[least, most].concat(), INT), (0, [2, 0, 0, -1], Some((i32::MIN, i32::MAX)), Some((-1, 1))));
}

/// Two calls give the same sheet as one.
#[test]
fn sheet_split() {
    let all: Vec<_> = (0..7).map(|i| message(i * 1_000 - 3_500, (i % 2 == 0).then_some(i32::from(i)))).collect();
    for member in [SHORT, INT] {
        for cut in 0..=all.len() {
            let mut lent = [0; SHEET];
            told(&all[..cut].concat(), member, &mut lent);
            assert_eq!(told(&all[cut..].concat(), member, &mut lent), added(&all.concat(), member));
        }
    }
}

/// A million messages pass, one more is 44, and what is on the sheet counts.
#[test]
fn sheet_season() {
    let mut lent = [0; SHEET];
    let half = message(-1, None).repeat(500_000);
    assert_eq!(told(&half, SHORT, &mut lent).0, 0);
    assert_eq!(told(&half, SHORT, &mut lent), (0, [1_000_000, 0, 0, -1_000_000], Some((-1, -1)), Some((-1, 0))));
    let before = lent;
    assert_eq!(told(&message(0, None), SHORT, &mut lent).0, 44);
    assert_eq!(told(&[9], SHORT, &mut lent).0, 44);
    assert_eq!(lent, before);
    assert_eq!(told(&[], SHORT, &mut lent).0, 0);
    // Refused ones count too, and nothing wraps.
    for at in [0, 8, 16] {
        let mut lent = [0; SHEET];
        lent[at..at + 8].copy_from_slice(&u64::MAX.to_le_bytes());
        assert_eq!(told(&[], SHORT, &mut lent).0, 44);
    }
}

/// The refusals in their order; the sheet stays.
#[test]
fn sheet_order() {
    let table = p2_table();
    let mut broken = table.clone();
    broken[3] = 7;
    let mut bad = [0; SHEET];
    bad[24] = 1;
    bad[0..8].copy_from_slice(&1_000_001_u64.to_le_bytes());
    let of = |table: &[u8], top: u32, member: u32, lent: &[u8]| {
        let mut after = lent.to_vec();
        let refusal = sheet(table, top, &[], member, &mut after).err().unwrap_or_default();
        assert!(refusal.0 == 0 || after == lent);
        refusal
    };
    assert_eq!(of(&broken, 0, 9, &bad), (31, 0));
    assert_eq!(of(&table, 0, 9, &bad), (2, 0));
    assert_eq!(of(&table, TOP, 3, &bad), (43, 0));
    assert_eq!(of(&table, TOP, LONG, &bad), (43, 0));
    assert_eq!(of(&table, TOP, INT, &bad[..51]), (53, 0));
    assert_eq!(of(&table, TOP, INT, &bad), (44, 0));
    bad[0..8].fill(0);
    assert_eq!(of(&table, TOP, INT, &bad), (53, 0));
    bad[24] = 0;
    assert_eq!(of(&table, TOP, INT, &bad), (0, 0));
}

/// What 53 refuses: extremes without carriers or missing, a sum outside, a wrong mark.
#[test]
fn sheet_amiss() {
    let of = |carriers: u64, sum: i64, low: i32, high: i32, marks: [u8; 2]| {
        let mut lent = [0; SHEET];
        lent[..8].copy_from_slice(&carriers.to_le_bytes());
        lent[24..32].copy_from_slice(&sum.to_le_bytes());
        lent[32..36].copy_from_slice(&low.to_le_bytes());
        lent[36..40].copy_from_slice(&high.to_le_bytes());
        lent[48..50].copy_from_slice(&marks);
        sheet(&p2_table(), TOP, &[], INT, &mut lent).err().unwrap_or_default().0
    };
    assert_eq!(of(3, -6, -2, 5, [1, 1]), 0);
    assert_eq!(of(3, 15, -2, 5, [1, 1]), 0);
    assert_eq!(of(0, 0, -2, 5, [0, 0]), 0);
    for (carriers, sum, marks) in [
        (3, -7, [1, 1]),
        (3, 16, [1, 1]),
        (3, 0, [0, 1]),
        (3, 0, [1, 0]),
        (3, 0, [2, 1]),
        (3, 0, [1, 255]),
        (0, 1, [0, 0]),
        (0, 0, [1, 0]),
        (0, 0, [0, 1]),
        (1_000_000, i64::MAX, [1, 1]),
        (1_000_000, i64::MIN, [1, 1]),
    ] {
        assert_eq!(of(carriers, sum, -2, 5, marks), 53, "{carriers} {sum} {marks:?}");
    }
}
