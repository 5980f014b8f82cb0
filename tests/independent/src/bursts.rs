//! Satellite bursts, from document 02 alone: the check of a plan, a planner, and the sentence that says what a plan is.
//!
//! Lists are pairs of numbers: length and cabin of a waiting message, message number and burst number of an entry. Half a
//! pair does not count.

use crate::calls::{Answer, Call};
use crate::json::{hex, Json};

/// The most bytes of a burst.
const BURST: u64 = 340;

/// What every lent number is before a call.
pub const LENT: u64 = 0xA5A5_A5A5_A5A5_A5A5;

type Pair = [u64; 2];

fn pairs(list: &[u64]) -> &[Pair] {
    list.as_chunks().0
}

/// The check of a plan; a refusal is the place of 46.
pub fn check_plan(messages: &[u64], entries: &[u64]) -> Result<(), u64> {
    let (messages, entries) = (pairs(messages), pairs(entries));
    let mut last: Option<Pair> = None;
    let mut above = 0;
    for (i, &[message, burst]) in entries.iter().enumerate() {
        let broken = Err(i as u64);
        if message >= messages.len() as u64 {
            return broken;
        }
        let [length, cabin] = messages[message as usize];
        let has = match last {
            None if burst == 0 => 0,
            Some([number, has]) if burst == number => has,
            Some([number, _]) if burst.checked_sub(number) == Some(1) => 0,
            _ => return broken,
        };
        if length > BURST - has {
            return broken;
        }
        // A number above all before it is new, and overtakes none.
        let clashes = |&[other, _]: &Pair| other == message || other > message && messages[other as usize][1] == cabin;
        if message < above && entries[..i].iter().any(clashes) {
            return broken;
        }
        last = Some([burst, has + length]);
        above = above.max(message + 1);
    }
    if entries.len() < messages.len() {
        return Err(entries.len() as u64);
    }
    Ok(())
}

/// The planner: gives the number of entries.
pub fn plan(messages: &[u64], entries: &mut [u64]) -> Result<u64, (u32, u64)> {
    let messages = pairs(messages);
    if let Some(long) = messages.iter().position(|&[length, _]| length > BURST) {
        return Err((45, long as u64));
    }
    let count = messages.len() as u64;
    let entries = entries.as_chunks_mut().0;
    if entries.len() < messages.len() {
        return Err((19, count));
    }
    let (mut burst, mut has) = (0, 0);
    for (message, (&[length, _], entry)) in (0..).zip(messages.iter().zip(entries)) {
        if has + length > BURST {
            burst += 1;
            has = 0;
        }
        has += length;
        *entry = [message, burst];
    }
    Ok(count)
}

/// Whether entries could begin a plan: document 02's sentence without "each message stands in it", said of all entries and
/// pairs of entries. Far too slow for a check, and nothing in it is counted on the way.
fn begins_a_plan(messages: &[Pair], entries: &[Pair]) -> bool {
    let all_before = |holds: &dyn Fn(Pair, Pair) -> bool| {
        entries.iter().enumerate().all(|(j, &entry)| entries[..j].iter().all(|&before| holds(before, entry)))
    };
    let cabin = |message: u64| messages[message as usize][1];
    entries.iter().all(|&[message, _]| message < messages.len() as u64)
        && all_before(&|[first, _], [second, _]| first != second)
        && entries.first().is_none_or(|&[_, burst]| burst == 0)
        && entries.windows(2).all(|two| two[1][1] == two[0][1] || two[1][1].wrapping_sub(two[0][1]) == 1)
        && entries.iter().all(|&[_, burst]| {
            let inside = entries.iter().filter(|entry| entry[1] == burst);
            inside.map(|&[message, _]| u128::from(messages[message as usize][0])).sum::<u128>() <= BURST.into()
        })
        && all_before(&|[first, _], [second, _]| cabin(first) != cabin(second) || first < second)
}

/// What the check should answer, by that sentence alone.
pub fn flat(messages: &[u64], entries: &[u64]) -> Result<(), u64> {
    let (messages, entries) = (pairs(messages), pairs(entries));
    if let Some(place) = (0..entries.len()).find(|&i| !begins_a_plan(messages, &entries[..=i])) {
        return Err(place as u64);
    }
    let stands = |message: u64| entries.iter().any(|entry| entry[0] == message);
    if (0..messages.len() as u64).all(stands) {
        Ok(())
    } else {
        Err(entries.len() as u64)
    }
}

/// A call on burst plans.
#[derive(Clone, Debug, PartialEq)]
pub enum PlanCall {
    Check {
        messages: Vec<u64>,
        entries: Vec<u64>,
    },
    /// `room` numbers of the lent list.
    Plan {
        messages: Vec<u64>,
        room: usize,
    },
}

/// Its answer; a check gives no entries.
#[derive(Clone, Debug, PartialEq)]
pub struct PlanAnswer {
    pub refusal: (u32, u64),
    pub entries: Vec<u64>,
}

impl PlanCall {
    /// The answer of this implementation.
    pub fn answer(&self) -> Answer {
        match self {
            PlanCall::Check { messages, entries } => {
                let refusal = check_plan(messages, entries).err().map_or((0, 0), |place| (46, place));
                Answer::Plan(PlanAnswer { refusal, entries: vec![] })
            }
            PlanCall::Plan { messages, room } => {
                let mut lent = vec![LENT; *room];
                let refusal = plan(messages, &mut lent).err().unwrap_or_default();
                self.of_plan(refusal, &lent)
            }
        }
    }

    /// The planner's answer, from its refusal and the lent list.
    pub fn of_plan(&self, refusal: (u32, u64), lent: &[u64]) -> Answer {
        let given = match self {
            PlanCall::Plan { messages, .. } if refusal.0 == 0 => messages.len() / 2 * 2,
            _ => 0,
        };
        match lent.split_at_checked(given) {
            Some((entries, beyond)) if beyond.iter().all(|&number| number == LENT) => {
                Answer::Plan(PlanAnswer { refusal, entries: entries.to_vec() })
            }
            _ => Answer::Astray,
        }
    }

    /// The call and its answer from a line.
    pub fn parse(line: &str) -> Option<(Call, Answer)> {
        let call = Json::parse(line)?;
        let expect = call.get("expect")?;
        let refusal = (expect.number("no")?, expect.number("place")?.into());
        let messages = numbers(&call.bytes("messages")?);
        let (call, entries) = match call.text("op")? {
            "plan_check" => (PlanCall::Check { messages, entries: numbers(&call.bytes("entries")?) }, vec![]),
            "plan" => {
                let room = call.number("room")? as usize;
                (PlanCall::Plan { messages, room }, numbers(&expect.bytes("entries")?))
            }
            _ => return None,
        };
        Some((Call::Plan(call), Answer::Plan(PlanAnswer { refusal, entries })))
    }

    /// The fields of a line.
    pub fn json(&self) -> String {
        match self {
            PlanCall::Check { messages, entries } => {
                let (messages, entries) = (hex(&bytes(messages)), hex(&bytes(entries)));
                format!(r#""op":"plan_check","messages":"{messages}","entries":"{entries}""#)
            }
            PlanCall::Plan { messages, room } => {
                format!(r#""op":"plan","messages":"{}","room":{room}"#, hex(&bytes(messages)))
            }
        }
    }

    /// Its record for crates/replay: kind, first number, bytes.
    pub fn record(&self) -> (u32, u32, Vec<u8>) {
        match self {
            PlanCall::Check { messages, entries } => {
                (15, messages.len() as u32, [bytes(messages), bytes(entries)].concat())
            }
            PlanCall::Plan { messages, room } => (16, *room as u32, bytes(messages)),
        }
    }

    /// The call of a record.
    pub fn of_record(kind: u32, first: u32, bytes: &[u8]) -> Option<PlanCall> {
        let mut messages = numbers(bytes);
        let first = first as usize;
        match kind {
            15 if first <= messages.len() => {
                let entries = messages.split_off(first);
                Some(PlanCall::Check { messages, entries })
            }
            16 => Some(PlanCall::Plan { messages, room: first }),
            _ => None,
        }
    }
}

impl PlanAnswer {
    pub fn json(&self) -> String {
        let PlanAnswer { refusal: (no, place), entries } = self;
        format!(r#"{{"no":{no},"place":{place},"entries":"{}"}}"#, hex(&bytes(entries)))
    }

    /// The line that crates/replay prints.
    pub fn line(&self) -> String {
        let PlanAnswer { refusal: (no, place), entries } = self;
        let entries: String = entries.iter().map(|number| format!("{number} ")).collect();
        format!("{no} {place} {entries}")
    }
}

fn numbers(bytes: &[u8]) -> Vec<u64> {
    bytes.as_chunks().0.iter().map(|&number| u64::from_le_bytes(number)).collect()
}

fn bytes(numbers: &[u64]) -> Vec<u8> {
    numbers.iter().flat_map(|number| number.to_le_bytes()).collect()
}

#[cfg(test)]
mod tests {
    use super::*;

    /// Cabins 7 and 8; the plan of the first three messages fills burst 0 to its last byte.
    const MESSAGES: [u64; 8] = [100, 7, 140, 8, 100, 7, 1, 8];

    fn check(entries: &[u64]) -> Result<(), u64> {
        assert_eq!(check_plan(&MESSAGES, entries), flat(&MESSAGES, entries));
        check_plan(&MESSAGES, entries)
    }

    #[test]
    fn planned() {
        let mut entries = [LENT; 9];
        assert_eq!(plan(&MESSAGES, &mut entries), Ok(4));
        assert_eq!(entries, [0, 0, 1, 0, 2, 0, 3, 1, LENT]);
        assert_eq!(check(&entries), Ok(()));
        assert_eq!(plan(&MESSAGES, &mut [0; 7]), Err((19, 4)));
        assert_eq!(plan(&[340, 1, 341, 1], &mut []), Err((45, 1)));
        assert_eq!(plan(&[340, 1, 341], &mut [0; 2]), Ok(1));
    }

    #[test]
    fn checked() {
        // cabin 8 may go first; cabin 7's order is broken across bursts; a message twice; one too many; 341 bytes
        assert_eq!(check(&[1, 0, 0, 0, 2, 0, 3, 1]), Ok(()));
        assert_eq!(check(&[1, 0, 2, 0, 0, 1, 3, 1]), Err(2));
        assert_eq!(check(&[0, 0, 0, 0]), Err(1));
        assert_eq!(check(&[0, 0, 4, 0]), Err(1));
        assert_eq!(check(&[0, 0, 1, 0, 2, 0, 3, 0]), Err(3));
        // burst numbers; messages missing
        assert_eq!(check(&[0, 1]), Err(0));
        assert_eq!(check(&[0, 0, 1, 2]), Err(1));
        assert_eq!(check(&[0, 0, 1, 1, 2, 0]), Err(2));
        assert_eq!(check(&[0, 0, 1, 0, 2]), Err(2));
        // a sum that would wrap
        let great = [340, 1, u64::MAX, 2];
        assert_eq!((check_plan(&great, &[0, 0, 1, 0]), flat(&great, &[0, 0, 1, 0])), (Err(1), Err(1)));
    }
}
