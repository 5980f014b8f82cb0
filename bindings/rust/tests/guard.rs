//! The frost guard over the library: day 49, what ends a freeze, every refusal, and the state as bytes.

use icehub::{Guard, Reason};
use std::time::Duration;

/// A report of three fields; each of the two optionals may be left out.
fn message(reading: i16, tick: Option<i64>, delay: Option<i32>) -> Vec<u8> {
    let mut bytes = vec![0, 0, 0, 0, 1, 1];
    bytes.extend(reading.to_le_bytes());
    tick.iter().for_each(|tick| bytes.extend([&[0x3B][..], &tick.to_le_bytes()].concat()));
    delay.iter().for_each(|delay| bytes.extend([&[0x42][..], &delay.to_le_bytes()].concat()));
    bytes[0] = bytes.len() as u8;
    bytes
}

fn report(guard: &mut Guard, reading: i16, tick: i64, delay: i32) -> bool {
    guard.report(&message(reading, Some(tick), Some(delay))).unwrap()
}

/// The freeze began half an hour before 2^32 milliseconds; the report at 2^32 is case P2.
#[test]
fn the_timer_fires_on_day_49() {
    let p2 = include_bytes!("../samples/report.message");
    assert_eq!(message(-500, Some(1 << 32), Some(1_800)), p2);
    let mut guard = Guard::new(0);
    assert!(!report(&mut guard, -500, (1 << 32) - 1_800_000, 1_800));
    assert!(!report(&mut guard, -500, (1 << 32) - 1, 1_800));
    assert!(guard.report(p2).unwrap());
    assert_eq!((guard.tick(), guard.start()), (Some(1 << 32), Some((1 << 32) - 1_800_000)));
    assert_eq!(guard.delay(), Some(Duration::from_secs(1_800)));
    assert!(report(&mut guard, i16::MIN, i64::MAX, i32::MAX));
}

#[test]
fn a_warm_reading_ends_the_freeze() {
    let mut guard = Guard::new(-3);
    assert!(!report(&mut guard, -4, 1_000, 1));
    assert!(!report(&mut guard, -2, 5_000, 1));
    assert_eq!(guard.start(), None);
    assert!(!report(&mut guard, -3, 6_000, 1));
    assert!(report(&mut guard, -3, 7_000, 1));
    assert!(!report(&mut guard, -3, 7_000, 2));
    assert!(report(&mut guard, -3, 7_000, 0));
}

#[test]
fn refused() {
    let mut guard = Guard::new(0);
    report(&mut guard, 0, 5, 1);
    let before = guard;
    for (bytes, reason) in [
        (message(0, Some(4), Some(1)), Reason::BadTick),
        (message(0, Some(-1), Some(-1)), Reason::BadTick),
        (message(0, Some(5), Some(-1)), Reason::BadDelay),
        (message(0, None, Some(1)), Reason::MissingField),
        (message(0, Some(6), None), Reason::MissingField),
        (vec![], Reason::CutOff),
    ] {
        let refusal = guard.report(&bytes).unwrap_err();
        assert_eq!((refusal.reason(), refusal.place), (Some(reason), 0));
        assert_eq!(guard, before);
    }
    let mut behind = message(0, Some(6), Some(1));
    behind.push(0);
    assert_eq!(guard.report(&behind).unwrap_err().reason(), Some(Reason::BadOuterSize));
}

#[test]
fn states() {
    let mut guard = Guard::new(-7);
    assert_eq!((guard.set_point(), guard.tick(), guard.start(), guard.delay()), (-7, None, None, None));
    report(&mut guard, -7, 1 << 40, 3);
    assert_eq!(Guard::from_bytes(guard.to_bytes()), guard);
    // Another mark, a start later than the tick, a negative delay.
    for (at, byte) in [(2, 2), (16, 1), (27, 0x80)] {
        let mut state = guard.to_bytes();
        state[at] = byte;
        let refusal = Guard::from_bytes(state).report(&message(0, Some(1 << 41), Some(1))).unwrap_err();
        assert_eq!(refusal.reason(), Some(Reason::BadState));
    }
}
