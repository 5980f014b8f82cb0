//! The frost guard, from document 02 alone: a layer over the reader, its state as 32 bytes, and the rule told by history.

use crate::calls::{Answer, Call, LENT};
use crate::json::{hex, Json};
use crate::{read, Refusal};

/// P2's table: a list (row 3) of a short, an optional(7) long and an optional(8) int.
#[rustfmt::skip]
pub const TABLE: [u8; 84] = [
    b'F', b'G', b'T', 1, 0, 4, 0, 3, 0, 0, 0, 0,
    2, 0, 0, 0, 0, 0, 0, 0, 0, 0, 0, 0,
    4, 0, 0, 0, 0, 0, 0, 0, 0, 0, 0, 0,
    3, 0, 0, 0, 0, 0, 0, 0, 0, 0, 0, 0,
    15, 0, 0, 0, 3, 0, 0, 0, 0, 0, 0, 0,
    0, 0, 0, 0, 0, 0, 0, 0,
    1, 0, 1, 0, 7, 0, 0, 0,
    2, 0, 1, 0, 8, 0, 0, 0,
];

/// The bytes of a state.
pub const STATE: usize = 32;

/// What is kept between reports: ticks in milliseconds, the delay in seconds.
#[derive(Clone, Copy, Debug, Default, PartialEq)]
pub struct Guard {
    pub set: i16,
    pub tick: Option<i64>,
    pub start: Option<i64>,
    pub delay: Option<i32>,
}

/// A report: reading, tick, delay.
pub type Report = (i16, i64, i32);

/// The report in a message, judged after the last tick: the reader's own refusals, 42, 40, 41.
fn judged(last: Option<i64>, message: &[u8]) -> Result<Report, Refusal> {
    let mut rows = [0; 36];
    let reading = read(&TABLE, 3, message, &mut rows)?;
    let mut fields = [None; 3];
    for row in &rows.as_chunks::<12>().0[..reading.rows as usize] {
        let [member, place, length] =
            [0, 4, 8].map(|at| u32::from_le_bytes([row[at], row[at + 1], row[at + 2], row[at + 3]]));
        fields[member as usize] = Some(&message[place as usize..][..length as usize]);
    }
    let [Some(reading), Some(tick), Some(delay)] = fields else { return Err((42, 0)) };
    let reading = i16::from_le_bytes(reading.try_into().unwrap());
    let tick = i64::from_le_bytes(tick.try_into().unwrap());
    let delay = i32::from_le_bytes(delay.try_into().unwrap());
    if tick < 0 || last.is_some_and(|last| tick < last) {
        return Err((40, 0));
    }
    if delay < 0 {
        return Err((41, 0));
    }
    Ok((reading, tick, delay))
}

impl Guard {
    /// No tick, freeze or delay yet.
    pub fn new(set: i16) -> Guard {
        Guard { set, ..Guard::default() }
    }

    /// Whether the timer fires, and the guard after the report.
    pub fn report(self, message: &[u8]) -> Result<(bool, Guard), Refusal> {
        let is_negative = self.tick < Some(0) && self.tick.is_some()
            || self.start.is_some_and(|start| start < 0)
            || self.delay.is_some_and(|delay| delay < 0);
        let is_lone = self.start.is_some_and(|start| self.tick.is_none_or(|tick| tick < start));
        if is_negative || is_lone {
            return Err((52, 0));
        }
        let (reading, tick, delay) = judged(self.tick, message)?;
        let start = (reading <= self.set).then(|| self.start.unwrap_or(tick));
        let fires = start.is_some_and(|start| tick - start >= 1_000 * i64::from(delay));
        Ok((fires, Guard { set: self.set, tick: Some(tick), start, delay: Some(delay) }))
    }

    /// Set point, a mark each for tick, start and delay, three zero bytes, tick, start, delay, four zero bytes.
    pub fn bytes(self) -> [u8; STATE] {
        let mut bytes = [0; STATE];
        bytes[..2].copy_from_slice(&self.set.to_le_bytes());
        bytes[2..5].copy_from_slice(&[self.tick.is_some(), self.start.is_some(), self.delay.is_some()].map(u8::from));
        bytes[8..16].copy_from_slice(&self.tick.unwrap_or(0).to_le_bytes());
        bytes[16..24].copy_from_slice(&self.start.unwrap_or(0).to_le_bytes());
        bytes[24..28].copy_from_slice(&self.delay.unwrap_or(0).to_le_bytes());
        bytes
    }

    /// The state in bytes; none for another length or mark. Zero bytes and what is absent are not judged.
    pub fn of_bytes(bytes: &[u8]) -> Option<Guard> {
        let bytes: &[u8; STATE] = bytes.try_into().ok()?;
        if bytes[2..5].iter().any(|&mark| mark > 1) {
            return None;
        }
        let long = |at: usize| i64::from_le_bytes(*bytes[at..].first_chunk().unwrap());
        Some(Guard {
            set: i16::from_le_bytes([bytes[0], bytes[1]]),
            tick: (bytes[2] == 1).then(|| long(8)),
            start: (bytes[3] == 1).then(|| long(16)),
            delay: (bytes[4] == 1).then(|| long(24) as i32),
        })
    }
}

/// The start into lent bytes.
pub fn start(set: i16, lent: &mut [u8]) -> Result<(), Refusal> {
    *lent.first_chunk_mut().ok_or((22, STATE as u32))? = Guard::new(set).bytes();
    Ok(())
}

/// A report on a state as bytes, the state after it into lent bytes: whether the timer fires.
pub fn report(state: &[u8], message: &[u8], lent: &mut [u8]) -> Result<bool, Refusal> {
    let (fires, guard) = Guard::of_bytes(state).ok_or((52, 0))?.report(message)?;
    *lent.first_chunk_mut().ok_or((22, STATE as u32))? = guard.bytes();
    Ok(fires)
}

/// The rule told by history: the reports accepted so far, and what it says of one more message. Nothing is kept but the
/// reports: the freeze began at the first of the last unbroken run of readings at or below the set point.
#[derive(Default)]
pub struct History {
    pub set: i16,
    pub accepted: Vec<Report>,
}

impl History {
    pub fn report(&mut self, message: &[u8]) -> Result<bool, Refusal> {
        let report = judged(self.accepted.last().map(|last| last.1), message)?;
        self.accepted.push(report);
        let (_, tick, delay) = report;
        let run = self.accepted.iter().rev().take_while(|report| report.0 <= self.set);
        Ok(run.last().is_some_and(|first| tick - first.1 >= 1_000 * i64::from(delay)))
    }
}

/// A report of three fields; each of the two optionals may be left out.
pub fn message(reading: i16, tick: Option<i64>, delay: Option<i32>) -> Vec<u8> {
    let mut data = vec![0, 0, 0, 0, 1, 1];
    data.extend(reading.to_le_bytes());
    if let Some(tick) = tick {
        data.push(7 * 8 + 3);
        data.extend(tick.to_le_bytes());
    }
    if let Some(delay) = delay {
        data.push(8 * 8 + 2);
        data.extend(delay.to_le_bytes());
    }
    let size = data.len() as u32;
    data[..4].copy_from_slice(&size.to_le_bytes());
    data
}

/// A report on a state as bytes, with `room` bytes for the state after it.
#[derive(Clone, Debug, PartialEq)]
pub struct GuardCall {
    pub state: Vec<u8>,
    pub message: Vec<u8>,
    pub room: usize,
}

/// Its answer; on a refusal there is no state.
#[derive(Clone, Debug, PartialEq)]
pub struct GuardAnswer {
    pub refusal: Refusal,
    pub fires: bool,
    pub state: Vec<u8>,
}

impl GuardCall {
    /// The answer of this implementation.
    pub fn answer(&self) -> Answer {
        let mut lent = vec![LENT; self.room];
        let result = report(&self.state, &self.message, &mut lent);
        GuardAnswer::of(result.err().unwrap_or_default(), result.unwrap_or_default(), &lent)
    }

    /// The call and its answer from a line.
    pub fn parse(line: &str) -> Option<(Call, Answer)> {
        let call = Json::parse(line)?;
        if call.text("op")? != "guard" {
            return None;
        }
        let expect = call.get("expect")?;
        // The numbers go into the state as they are recorded, also those that are not there.
        let state = |json: &Json| {
            let mut state = vec![0; STATE];
            state[..2].copy_from_slice(&(call.number("set")? as u16).to_le_bytes());
            for (mark, at, width, key) in [(2, 8, 8, "tick"), (3, 16, 8, "start"), (4, 24, 4, "delay")] {
                state[mark] = json.number(&format!("has_{key}"))? as u8;
                state[at..at + width].copy_from_slice(&json.long(key)?.to_le_bytes()[..width]);
            }
            Some(state)
        };
        let refusal = (expect.number("no")?, expect.number("place")?);
        let after = if refusal.0 == 0 { Guard::of_bytes(&state(expect)?)?.bytes().to_vec() } else { vec![] };
        let answer = GuardAnswer { refusal, fires: expect.number("fires")? == 1, state: after };
        let call = GuardCall { state: state(&call)?, message: call.bytes("msg")?, room: STATE + 3 };
        Some((Call::Guard(call), Answer::Guard(answer)))
    }

    /// The fields of a line.
    pub fn json(&self) -> String {
        let GuardCall { state, message, room } = self;
        format!(r#""op":"guard_bytes","state":"{}","msg":"{}","room":{room}"#, hex(state), hex(message))
    }
}

impl GuardAnswer {
    /// From the numbers and the lent bytes.
    pub fn of(refusal: Refusal, fires: bool, lent: &[u8]) -> Answer {
        let given = if refusal.0 == 0 { STATE } else { 0 };
        match lent.split_at_checked(given) {
            Some((state, beyond)) if beyond.iter().all(|&byte| byte == LENT) => {
                Answer::Guard(GuardAnswer { refusal, fires, state: state.to_vec() })
            }
            _ => Answer::Astray,
        }
    }

    pub fn json(&self) -> String {
        let GuardAnswer { refusal: (no, place), fires, state } = self;
        format!(r#"{{"no":{no},"place":{place},"fires":{},"state":"{}"}}"#, u8::from(*fires), hex(state))
    }

    /// The line that crates/replay prints.
    pub fn line(&self) -> String {
        let GuardAnswer { refusal: (no, place), fires, state } = self;
        format!("{no} {place} {} {}", u8::from(*fires), hex(state))
    }
}

#[cfg(test)]
mod tests {
    use super::*;

    fn told(guard: &mut Guard, reading: i16, tick: i64, delay: i32) -> bool {
        let (fires, after) = guard.report(&message(reading, Some(tick), Some(delay))).unwrap();
        *guard = after;
        fires
    }

    /// Day 49: a freeze that began half an hour before 2^32 milliseconds, and the report at 2^32, which is case P2.
    #[test]
    fn the_timer_fires_on_day_49() {
        let p2 = [0x16, 0, 0, 0, 1, 1, 0x0C, 0xFE, 0x3B, 0, 0, 0, 0, 1, 0, 0, 0, 0x42, 8, 7, 0, 0];
        assert_eq!(message(-500, Some(1 << 32), Some(1_800)), p2);
        let mut guard = Guard::new(0);
        assert!(!told(&mut guard, -500, (1 << 32) - 1_800_000, 1_800));
        assert!(!told(&mut guard, -500, (1 << 32) - 1, 1_800));
        assert!(told(&mut guard, -500, 1 << 32, 1_800));
        assert_eq!(guard.delay, Some(1_800));
        // A warm reading ends the freeze; the next cold one begins another.
        assert!(!told(&mut guard, 1, (1 << 32) + 1, 0));
        assert!(!told(&mut guard, 0, (1 << 32) + 2, 1));
        assert!(told(&mut guard, 0, (1 << 32) + 1_002, 1));
        // Up to the largest long.
        assert!(told(&mut guard, i16::MIN, i64::MAX, i32::MAX));
    }

    #[test]
    fn refused() {
        let guard = Guard { set: 0, tick: Some(5), start: Some(5), delay: Some(1) };
        let refusal = |guard: Guard, message: &[u8]| guard.report(message).unwrap_err();
        let report = |tick, delay| message(0, tick, delay);
        assert_eq!(refusal(guard, &report(Some(4), Some(1))), (40, 0));
        assert_eq!(refusal(guard, &report(Some(-1), Some(-1))), (40, 0));
        assert_eq!(refusal(guard, &report(Some(5), Some(-1))), (41, 0));
        assert_eq!(refusal(guard, &report(None, Some(1))), (42, 0));
        assert_eq!(refusal(guard, &report(Some(6), None)), (42, 0));
        assert_eq!(refusal(guard, &[]), (4, 0));
        assert!(guard.report(&report(Some(5), Some(0))).is_ok());
        for bad in [
            Guard { tick: Some(-1), start: None, ..guard },
            Guard { start: Some(-1), ..guard },
            Guard { delay: Some(-1), ..guard },
            Guard { tick: None, ..guard },
            Guard { start: Some(6), ..guard },
        ] {
            assert_eq!(refusal(bad, &[]), (52, 0));
        }
    }

    #[test]
    fn as_bytes() {
        let guard = Guard { set: -2, tick: Some(1 << 40), start: None, delay: Some(7) };
        assert_eq!(Guard::of_bytes(&guard.bytes()), Some(guard));
        let mut state = [0xA5; STATE + 1];
        assert_eq!(start(-2, &mut state[..STATE - 1]), Err((22, 32)));
        assert_eq!(state, [0xA5; STATE + 1]);
        start(-2, &mut state).unwrap();
        assert_eq!(Guard::of_bytes(&state[..STATE]), Some(Guard::new(-2)));
        assert_eq!(state[STATE], 0xA5);
        assert_eq!(report(&state, &[], &mut []), Err((52, 0)));
        state[3] = 2;
        assert_eq!(report(&state[..STATE], &[], &mut []), Err((52, 0)));
        let good = message(0, Some(1), Some(1));
        assert_eq!(report(&guard.bytes(), &message(0, Some(1 << 40), Some(1)), &mut [0; 31]), Err((22, 32)));
        assert_eq!(report(&guard.bytes(), &good, &mut [0; 31]), Err((40, 0)));
    }
}
