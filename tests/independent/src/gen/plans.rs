//! Random calls on burst plans: proposals that are plans, and proposals that one change breaks, at every rule and bound.

use super::Rng;
use crate::bursts::{plan, PlanCall};
use crate::calls::Call;

/// A length: mostly some that fill a burst to its last byte, or pass it by one.
fn length(rng: &mut Rng) -> u64 {
    match rng.below(40) {
        0 => rng.pick(&[341, 342, 1 << 32, 1 << 63, u64::MAX - 339, u64::MAX]),
        1..=12 => rng.pick(&[0, 1, 2, 68, 85, 113, 114, 169, 170, 171, 339, 340]),
        _ => rng.below(200) as u64,
    }
}

fn messages(rng: &mut Rng) -> Vec<u64> {
    let cabins = rng.pick(&[1, 2, 3, 30]);
    let most = rng.pick(&[0, 1, 3, 8, 20]);
    let mut messages = vec![];
    for _ in 0..=rng.below(most + 1) {
        let cabin = if rng.one_in(20) { rng.next() } else { rng.below(cabins) as u64 };
        messages.extend([length(rng), cabin]);
    }
    if rng.one_in(8) {
        messages.pop();
    }
    messages
}

/// A plan of its own make: the messages in another order that keeps each cabin's, with bursts that need not be full.
fn proposal(rng: &mut Rng, messages: &[u64]) -> Vec<u64> {
    let waiting = messages.as_chunks::<2>().0;
    let mut order: Vec<usize> = (0..waiting.len()).collect();
    if rng.one_in(2) {
        for _ in 0..2 * waiting.len() {
            let at = rng.below(waiting.len());
            if let Some(&[a, b]) = order[at..].first_chunk() {
                if waiting[a][1] != waiting[b][1] || rng.one_in(50) {
                    order.swap(at, at + 1);
                }
            }
        }
    }
    let (mut entries, mut burst, mut has) = (vec![], 0, 0_u64);
    for message in order {
        let full = has.checked_add(waiting[message][0]).is_none_or(|sum| sum > 340);
        if !entries.is_empty() && (full || rng.one_in(6)) {
            burst += 1;
            has = 0;
        }
        has = has.saturating_add(waiting[message][0]);
        entries.extend([message as u64, burst]);
    }
    entries
}

/// Breaks a rule at one entry, or changes nothing that counts.
fn spoil(rng: &mut Rng, entries: &mut Vec<u64>, messages: u64) {
    let count = entries.len() / 2;
    if count == 0 {
        entries.push(rng.pick(&[0, 1, u64::MAX]));
        return;
    }
    let (at, other) = (2 * rng.below(count), 2 * rng.below(count));
    match rng.below(10) {
        0 => entries[at] = rng.pick(&[messages, messages.wrapping_sub(1), u64::MAX, 1 << 63, 1 << 32]),
        1 => entries[at] = entries[other],
        2 => entries.swap(at, other),
        3 => entries[at + 1] = rng.pick(&[0, 1, 2, u64::MAX, 1 << 32]),
        4 => entries[at + 1] = entries[at + 1].wrapping_add(rng.pick(&[1, 2, u64::MAX])),
        5 => (at + 1..entries.len()).step_by(2).for_each(|burst| entries[burst] = entries[burst].wrapping_sub(1)),
        6 => entries.truncate(at),
        7 => entries.push(rng.pick(&[0, messages, u64::MAX])),
        8 => {
            let again = [entries[at], entries[entries.len() - 1]];
            entries.extend(again);
        }
        _ => {
            entries.drain(at..at + 2);
        }
    }
}

/// A check of a proposal, and a call of the planner on the same messages.
pub fn plan_calls(rng: &mut Rng) -> [Call; 2] {
    let messages = messages(rng);
    let mut entries = proposal(rng, &messages);
    if rng.one_in(5) {
        entries = vec![0; messages.len()];
        let _ = plan(&messages, &mut entries);
    }
    if rng.one_in(2) {
        spoil(rng, &mut entries, messages.len() as u64 / 2);
    }
    let room = match rng.below(8) {
        0 => rng.below(messages.len() + 1),
        1 => messages.len().saturating_sub(1),
        2 => messages.len(),
        _ => messages.len() + rng.below(5),
    };
    [PlanCall::Check { messages: messages.clone(), entries }, PlanCall::Plan { messages, room }].map(Call::Plan)
}
