//! Buffers for the season sheet, and sheets with every fault.

use super::{night, Rng};
use crate::calls::Call;
use crate::sheet::{SheetCall, SHEET};

/// The buffer of a night and a sheet: empty, right, at an extreme, or with a fault. None for a call that has no message.
pub fn sheet(rng: &mut Rng, call: &Call, other: &[u8]) -> Option<Call> {
    let Some(Call::Night(night)) = night(rng, call, other) else { return None };
    let members = night.table.get(7..9).map_or(0, |count| usize::from(count[0]));
    let summable = summable(&night.table);
    let member = match rng.below(20) {
        0 => rng.number(members),
        1 => rng.below(members.max(1)) as u32,
        _ if summable.is_empty() => 0,
        _ => rng.pick(&summable),
    };
    let sheet = lent(rng);
    Some(Call::Sheet(SheetCall { table: night.table, top: night.top, buffer: night.buffer, member, sheet }))
}

/// The member rows of type short or int.
fn summable(table: &[u8]) -> Vec<u32> {
    let begin = if table.get(3) == Some(&2) { 14 } else { 12 };
    let first = begin + 12 * table.get(5).map_or(0, |&types| usize::from(types));
    let rows = table.get(first..).unwrap_or_default().as_chunks::<8>().0;
    let kind = |row: &[u8; 8]| table.get(begin + 12 * usize::from(row[0])).copied();
    (0..).zip(rows).filter(|(_, row)| matches!(kind(row), Some(2 | 3))).map(|(member, _)| member).collect()
}

/// A sheet of 52 bytes, seldom of another length.
fn lent(rng: &mut Rng) -> Vec<u8> {
    let extremes = [0, 1, -1, 7, -3, i32::MAX, i32::MIN, i16::MAX.into(), i16::MIN.into()];
    let carriers: i64 = rng.pick(&[0, 0, 0, 1, 2, 3, 1_000, 999_990, 999_999, 1_000_000, 1_000_001, 1 << 40]);
    let (one, two): (i32, i32) = (rng.pick(&extremes), rng.pick(&extremes));
    let (mut smallest, mut largest) = (one.min(two), one.max(two));
    let between = [smallest, largest, (smallest / 2 + largest / 2).clamp(smallest, largest)];
    let mut sum = carriers.wrapping_mul(rng.pick(&between).into());
    let mut marks = [u8::from(carriers > 0); 2];
    if carriers == 0 {
        (smallest, largest, sum) = (0, 0, 0);
    }
    match rng.below(16) {
        0 => marks[rng.below(2)] ^= 1,
        1 => marks[rng.below(2)] = rng.pick(&[2, 255]),
        2 => sum = carriers.wrapping_mul(smallest.into()).wrapping_sub(1),
        3 => sum = carriers.wrapping_mul(largest.into()).wrapping_add(1),
        4 => sum = rng.pick(&[i64::MAX, i64::MIN, -1, 1]),
        5 => (smallest, largest) = (largest, smallest),
        _ => {}
    }
    let count = |rng: &mut Rng| match rng.below(12) {
        0 => rng.pick(&[999_999, 1_000_000, u64::MAX, 1 << 63]),
        _ => rng.below(4) as u64,
    };
    let (lacking, refused) = (count(rng), count(rng));
    let mut bytes = vec![];
    for long in [carriers as u64, lacking, refused, sum as u64] {
        bytes.extend(long.to_le_bytes());
    }
    for int in [smallest, largest, rng.pick(&extremes), rng.pick(&extremes)] {
        bytes.extend(int.to_le_bytes());
    }
    bytes.extend([marks[0], marks[1], rng.below(256) as u8, rng.below(256) as u8]);
    if rng.one_in(30) {
        bytes.resize(rng.pick(&[0, 1, SHEET - 1, SHEET + 1]), 0);
    }
    bytes
}
