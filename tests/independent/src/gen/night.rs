//! Buffers of many messages, with everything that can stop a walk, and lists that are too short.

use super::Rng;
use crate::calls::Call;
use crate::night::{Night, ANSWER};

/// A buffer of messages that were made for single calls: this one, and another one under whatever table. None for a call
/// that has no message.
pub fn night(rng: &mut Rng, call: &Call, other: &[u8]) -> Option<Call> {
    let Call::Read { table, top, message, .. } = call else { return None };
    let mut buffer = vec![];
    let messages = rng.pick(&[0, 1, 1, 2, 2, 3, 4, 7]);
    for _ in 0..messages {
        match rng.below(6) {
            0 => buffer.extend(other),
            1 => buffer.extend([6, 0, 0, 0, 1, 1]),
            _ => buffer.extend(message),
        }
    }
    stop(rng, &mut buffer, message);
    let most = messages + 1;
    let answers = match rng.below(4) {
        0 => ANSWER * rng.below(most + 1),
        1 => (ANSWER * most).saturating_sub(rng.below(2 * ANSWER)),
        _ => ANSWER * (most + 1) + rng.below(3),
    };
    let rows = match rng.below(4) {
        0 => 12 * rng.below(8),
        1 => rng.below(100),
        _ => 12 * 1_024,
    };
    let top = if rng.one_in(30) { rng.number(*top as usize) } else { *top };
    Some(Call::Night(Night { table: table.clone(), top, buffer, answers, rows }))
}

/// What comes after the messages: nothing, or something that stops the walk.
fn stop(rng: &mut Rng, buffer: &mut Vec<u8>, message: &[u8]) {
    match rng.below(8) {
        0 | 1 => {}
        // Cut off in its size, or after it.
        2 => buffer.extend(message.iter().take(rng.below(4))),
        3 => buffer.extend(message.iter().take(message.len().saturating_sub(1 + rng.below(3)))),
        // A size under 6, above the limit, negative, or past the end.
        4 => buffer.extend(rng.pick(&[0_u32, 1, 5, 0x8000_0000, u32::MAX]).to_le_bytes()),
        5 => {
            buffer.extend(rng.pick(&[65_536_u32, 65_537, 0x7FFF_FFFF]).to_le_bytes());
            buffer.extend(message);
        }
        6 => {
            buffer.extend((message.len() as u32 + 5).to_le_bytes());
            buffer.extend(message);
        }
        // More than the limit is left, with a size of its own or none.
        _ if rng.one_in(20) => {
            let left = 65_533 + rng.below(6);
            let size = rng.pick(&[5, 65_536, left as u32 + 4, 0x8000_0000]);
            buffer.extend(size.to_le_bytes());
            buffer.resize(buffer.len() + left, 0);
        }
        _ => {}
    }
}
