//! Random reports to a frost guard: seasons that run on, with faults in them, and states that no guard gives.

use super::Rng;
use crate::frost::{message, Guard, GuardCall};

/// The fields of the next report after a tick: mostly right ones, near the set point, the end of a delay and 2^32.
fn report(rng: &mut Rng, guard: &Guard) -> Vec<u8> {
    let last = guard.tick.unwrap_or(0);
    let around = |rng: &mut Rng, n: i64| n.saturating_add(rng.pick(&[-1, 0, 0, 1]));
    let due = guard.start.unwrap_or(last).saturating_add(1_000 * i64::from(guard.delay.unwrap_or(1)));
    let tick = match rng.below(24) {
        0 => around(rng, last),
        1 => around(rng, 1 << 32),
        2 => rng.pick(&[-1, i64::MIN, i64::MAX, 1 << 31, 0]),
        3..=8 => around(rng, due),
        _ => last.saturating_add(rng.pick(&[0, 1, 500, 1_000, 60_000, 1 << 30])),
    };
    let set = guard.set;
    let reading = match rng.below(8) {
        0 => rng.pick(&[i16::MIN, -1, 0, i16::MAX]),
        1 | 2 => set.saturating_add(rng.pick(&[1, 2, 500])),
        _ => set.saturating_sub(rng.pick(&[0, 0, 1, 500])),
    };
    let delay = match rng.below(16) {
        0 => rng.pick(&[-1, i32::MIN, i32::MAX]),
        _ => rng.pick(&[0, 1, 2, 30, 1_800]),
    };
    let mut bytes = message(reading, (!rng.one_in(30)).then_some(tick), (!rng.one_in(30)).then_some(delay));
    match rng.below(40) {
        0 => super::damage(rng, &mut bytes, 0),
        1 => {
            // An optional that the table does not know, between or after the two.
            let at = if rng.one_in(2) { bytes.len() } else { 8.min(bytes.len()) };
            let unknown = if at == bytes.len() { [9 * 8, 1] } else { [6 * 8, 1] };
            bytes.splice(at..at, unknown);
            let size = bytes.len() as u32;
            bytes[..4].copy_from_slice(&size.to_le_bytes());
        }
        2 => bytes[5] = 0,
        _ => {}
    }
    bytes
}

/// A set point and the messages of a season, each made after the guard that the ones before it leave.
pub fn season(rng: &mut Rng) -> (i16, Vec<Vec<u8>>) {
    let set = rng.pick(&[i16::MIN, -200, -1, 0, 1, 300, i16::MAX]);
    let (mut guard, mut messages) = (Guard::new(set), vec![]);
    if rng.one_in(3) {
        // Near day 49 from the start.
        messages.push(message(set, Some((1 << 32) - rng.pick(&[1, 1_000, 30_000])), Some(30)));
    }
    for _ in 0..rng.below(12) {
        if let Some((_, after)) = messages.last().and_then(|message: &Vec<u8>| guard.report(message).ok()) {
            guard = after;
        }
        messages.push(report(rng, &guard));
    }
    (set, messages)
}

/// A report on a state of any make.
pub fn guard_call(rng: &mut Rng) -> GuardCall {
    let number = |rng: &mut Rng| rng.pick(&[0, 1, 2, 1_000, 1 << 32, i64::MAX, i64::MIN, -1]);
    let tick = (!rng.one_in(4)).then(|| number(rng));
    let start = match rng.below(3) {
        0 => None,
        1 => tick,
        _ => Some(number(rng)),
    };
    let delay = (!rng.one_in(4)).then(|| rng.pick(&[0, 1, 1_800, i32::MAX, -1]));
    let guard = Guard { set: rng.pick(&[i16::MIN, -1, 0, 300, i16::MAX]), tick, start, delay };
    let mut state = guard.bytes().to_vec();
    let message = report(rng, &guard);
    match rng.below(12) {
        0 => state.truncate(rng.below(33)),
        1 => state.push(0),
        2 => {
            let at = 2 + rng.below(30);
            state[at] = rng.pick(&[1, 2, 255]);
        }
        _ => {}
    }
    GuardCall { state, message, room: rng.pick(&[0, 31, 32, 32, 32, 35]) }
}
