//! Random comparisons of two tables: derived from each other, of both versions, or changed at a few bytes; with tops that
//! match or any, and lists with just enough room or too little.

use super::{Rng, Types};
use crate::calls::{Answer, Call};
use crate::compare::{CompareCall, ENTRY};

/// Tables that are alike: one and its older one, some steps long, or two that have nothing in common.
fn tables(rng: &mut Rng) -> (Types, Types) {
    let new = Types::random(rng);
    let mut old = match rng.below(8) {
        0 => Types::random(rng),
        1 => new.other_version().unwrap_or_else(|| new.clone()),
        _ => new.clone(),
    };
    for _ in 0..rng.below(4) {
        old = old.older(rng);
    }
    if rng.one_in(3) {
        (new, old)
    } else {
        (old, new)
    }
}

/// A few bytes changed: fields of rows and members that still make a table, sometimes.
fn change(rng: &mut Rng, table: &mut [u8]) {
    for _ in 0..1 + rng.below(3) {
        if table.len() > 14 {
            let at = 12 + rng.below(table.len() - 12);
            table[at] = if rng.one_in(2) { rng.byte() } else { table[at].wrapping_add(rng.pick(&[1, 255])) };
        }
    }
}

/// The top of the new table that is the old one's, if it has one.
fn match_of(old: &Types, new: &Types, top: u16) -> Option<u16> {
    if old.kind(top) == 15 {
        return (0..new.spec.rows.len() as u16).find(|&r| new.kind(r) == 15);
    }
    let name = old.record_name(top);
    new.records().find(|&r| new.kind(r) == old.kind(top) && new.record_name(r) == name)
}

pub fn compare_call(rng: &mut Rng) -> Call {
    let (types, types_new) = tables(rng);
    let top = types.top(rng);
    let matching = match_of(&types, &types_new, top).filter(|_| !rng.one_in(6));
    let new_top = matching.unwrap_or_else(|| types_new.top(rng));
    let (mut old, mut new) = (types.spec.bytes(), types_new.spec.bytes());
    match rng.below(6) {
        0 => change(rng, &mut old),
        1 | 2 => change(rng, &mut new),
        _ => {}
    }
    let any = |rng: &mut Rng, top: u16, rows: usize| if rng.one_in(20) { rng.number(rows) } else { top.into() };
    let old_top = any(rng, top, types.spec.rows.len());
    let new_top = any(rng, new_top, types_new.spec.rows.len());
    let mut call = CompareCall { old, old_top, new, new_top, room: 65_536 };
    if let Answer::Compare(compared) = call.answer() {
        let needed = ENTRY * compared.count as usize;
        call.room = match rng.below(4) {
            0 => needed,
            1 => needed + rng.below(2 * ENTRY),
            2 => needed.saturating_sub(1 + rng.below(ENTRY)),
            _ => call.room,
        };
    }
    Call::Compare(call)
}
