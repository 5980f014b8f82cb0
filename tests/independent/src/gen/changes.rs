//! Random changes of one optional in messages, mostly in those of a newer sender under the table of an older hub.

use super::message::{mend, value};
use super::types::LIGHT;
use super::{damage, message, Message, Rng, Types, Wrong};
use crate::calls::{Answer, Call};
use crate::{read, remove, set};

/// A change, and the table of the sender.
#[derive(Clone, Debug)]
pub struct Change {
    /// The call that sets or removes, under the hub's table.
    pub call: Call,
    pub newer: Vec<u8>,
    /// The same member in the sender's table, if its owner is known there by the same name.
    pub in_newer: Option<u32>,
}

impl Change {
    fn parts(&self) -> (&[u8], u32, &[u8], u32, Option<&[u8]>) {
        match &self.call {
            Call::Set { table, top, message, member, bytes, .. } => (table, *top, message, *member, Some(bytes)),
            Call::Remove { table, top, message, member, .. } => (table, *top, message, *member, None),
            _ => unreachable!(),
        }
    }

    /// The reading of a message under the hub's table and under the sender's, with room for all rows.
    pub fn readings(&self, message: &[u8]) -> [Call; 2] {
        let (table, top, ..) = self.parts();
        [table, &self.newer].map(|table| Call::Read {
            table: table.to_vec(),
            top,
            message: message.to_vec(),
            room: 12 * 1_024,
        })
    }

    /// Whether both tables read the result as document 02 asks: where the message was accepted, the result is, with the
    /// same first known type, format and skips, and a list that differs in that member only, apart from places.
    pub fn is_passed_on(&self, result: &[u8], answer: impl Fn(&Call) -> Answer) -> bool {
        let (_, _, message, member, bytes) = self.parts();
        let both = self.readings(message).into_iter().zip(self.readings(result)).zip([Some(member), self.in_newer]);
        for ((before, after), member) in both {
            let (Some(member), Answer::Read { refusal: (0, 0), reading: old, rows }) = (member, answer(&before)) else {
                continue;
            };
            let Answer::Read { refusal: (0, 0), reading: new, rows: new_rows } = answer(&after) else { return false };
            let (was, is) = (contents(&rows, message), contents(&new_rows, result));
            let of = |rows: &[(u32, Vec<u8>)]| rows.iter().find(|row| row.0 == member).map(|row| row.1.clone());
            let others =
                |rows: &[(u32, Vec<u8>)]| -> Vec<_> { rows.iter().filter(|row| row.0 != member).cloned().collect() };
            let as_before = (old.first, old.format, old.optionals_skipped, old.slices_skipped)
                == (new.first, new.format, new.optionals_skipped, new.slices_skipped);
            if !as_before || others(&was) != others(&is) || of(&is).as_deref() != bytes {
                return false;
            }
        }
        true
    }
}

/// The rows without their places: each member with its bytes.
fn contents(rows: &[[u32; 3]], message: &[u8]) -> Vec<(u32, Vec<u8>)> {
    let part = |place: u32, length: u32| message[place as usize..(place + length) as usize].to_vec();
    rows.iter().map(|&[member, place, length]| (member, part(place, length))).collect()
}

/// As many changes as wanted, from one seed.
pub struct Changes {
    rng: Rng,
    newer: Types,
    older: Types,
    /// Changes still to be made under these tables.
    left: usize,
}

impl Changes {
    pub fn new(seed: u64) -> Changes {
        Changes::of(Rng(seed))
    }

    fn of(mut rng: Rng) -> Changes {
        let mut newer = Types::random(&mut rng);
        // Mostly one that has optionals.
        for _ in 0..rng.pick(&[0, 9, 9, 9]) {
            let has_optionals = newer.spec.members.iter().any(|member| member.1.is_some());
            newer = if has_optionals { newer } else { Types::random(&mut rng) };
        }
        let older = if rng.one_in(6) { newer.clone() } else { newer.older(&mut rng) };
        Changes { rng, newer, older, left: 8 }
    }
}

impl Iterator for Changes {
    type Item = Change;

    fn next(&mut self) -> Option<Change> {
        if self.left == 0 {
            *self = Changes::of(Rng(self.rng.next()));
        }
        self.left -= 1;
        let (rng, newer, older) = (&mut self.rng, &self.newer, &self.older);
        let mut top = newer.top(rng);
        for _ in 0..rng.pick(&[0, 5, 5, 5]) {
            top = if newer.has_optionals(top) { top } else { newer.top(rng) };
        }
        let wrong = if rng.one_in(20) { Wrong::Items(30) } else { Wrong::Nothing };
        let mut message = message(rng, newer, top, wrong);
        if rng.one_in(30) {
            damage(rng, &mut message.bytes, 6);
            mend(&mut message.bytes);
        }
        let table = older.spec.bytes();
        let (member, owner) = chosen(rng, older, &table, top, &message);
        let Message { bytes: message, .. } = message;
        let (top, room) = (u32::from(top), 0);
        let mut call = if rng.one_in(3) {
            Call::Remove { table, top, message, member, room }
        } else {
            let bytes = new_bytes(rng, older, (&table, top, &message), member);
            Call::Set { table, top, message, member, bytes, room }
        };
        give_room(rng, &mut call);
        let in_newer = owner.and_then(|r| {
            let is_same = newer.kind(r) == 15 || newer.record_name(r) == older.record_name(r);
            let tag = older.spec.members[member as usize].1?;
            let same = newer.owned(r).find(|&m| newer.spec.members[m].1 == Some(tag)).filter(|_| is_same);
            same.map(|m| m as u32)
        });
        Some(Change { call, newer: newer.spec.bytes(), in_newer })
    }
}

/// A member, mostly an optional of the first known type's chain, and its owner if it is one.
fn chosen(rng: &mut Rng, older: &Types, table: &[u8], top: u16, message: &Message) -> (u32, Option<u16>) {
    let reading = read(table, top.into(), &message.bytes, &mut [0; 12 * 1_024]);
    let first = reading.map_or(top, |reading| reading.first as u16);
    let chain = if older.kind(first) == 15 { vec![first] } else { older.chain(first) };
    let owned = |r: u16| older.owned(r).map(move |m| (m as u32, Some(r)));
    let of_chain: Vec<_> = chain.iter().flat_map(|&r| owned(r)).collect();
    let optionals: Vec<_> =
        of_chain.iter().copied().filter(|&(m, _)| older.spec.members[m as usize].1.is_some()).collect();
    match rng.below(12) {
        0 => (rng.number(older.spec.members.len()), None),
        1 if !of_chain.is_empty() => rng.pick(&of_chain),
        _ if !optionals.is_empty() => rng.pick(&optionals),
        _ => (rng.below(older.spec.members.len() + 1) as u32, None),
    }
}

/// The bytes to set: mostly those of a value, sometimes the ones that are there, or wrong.
fn new_bytes(rng: &mut Rng, older: &Types, given: (&[u8], u32, &[u8]), member: u32) -> Vec<u8> {
    let (table, top, message) = given;
    let Some(&(of, _)) = older.spec.members.get(member as usize) else { return vec![rng.byte()] };
    if rng.one_in(8) {
        return crate::member(table, top, message, member, &[]).to_vec();
    }
    if rng.one_in(400) {
        return vec![rng.below(2) as u8; rng.pick(&[65_535, 65_536, 65_537, 65_540])];
    }
    if older.kind(of) == 7 && rng.one_in(100) {
        // Near the most bytes of a message.
        let length = 65_500 - rng.below(message.len().min(60_000)) + rng.below(40);
        return [&[255][..], &(length as u32).to_le_bytes(), &vec![b'a'; length]].concat();
    }
    // Some types have more bytes than any message.
    let is_light = older.least[of as usize] < LIGHT;
    let mut bytes = if is_light { value(rng, older, of) } else { vec![rng.byte(); LIGHT] };
    if rng.one_in(10) {
        damage(rng, &mut bytes, 0);
    }
    bytes
}

/// Room for the result: more than enough, just enough, or less.
fn give_room(rng: &mut Rng, call: &mut Call) {
    let needed = match call {
        Call::Set { table, top, message, member, bytes, .. } => set(table, *top, message, *member, bytes, &mut []),
        Call::Remove { table, top, message, member, .. } => remove(table, *top, message, *member, &mut []),
        _ => return,
    };
    let needed = match needed {
        Err((22, needed)) => needed as usize,
        _ => 0,
    };
    let (less, more) = (rng.below(needed.max(1)), rng.below(40));
    let given = match rng.below(12) {
        0 => needed.saturating_sub(1),
        1 => less,
        2 | 3 => needed,
        _ => needed + more,
    };
    match call {
        Call::Set { room, .. } | Call::Remove { room, .. } => *room = given,
        _ => (),
    }
}
