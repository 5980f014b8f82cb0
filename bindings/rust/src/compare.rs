//! Two tables compared.

use crate::{ffi, Refusal};

/// The bytes of one difference in a list.
pub const DIFFERENCE_SIZE: usize = 20;

/// What a difference is about.
#[derive(Clone, Copy, Debug, PartialEq, Eq, Hash)]
pub enum What {
    /// A record or a parameter list that only one table has. Its members are not listed.
    Owner,
    /// The base: only one has one, or the bases' names differ.
    Base,
    /// A required position: only one has a member there, or the types disagree.
    Required,
    /// A tag: only one has an optional member with it, or the types disagree.
    Optional,
}

/// One difference. Rows are counted from 0; none where a table has none.
#[derive(Clone, Copy, Debug, PartialEq, Eq, Hash)]
pub struct Difference {
    /// What differs.
    pub what: What,
    /// The record or parameter list in the old and in the new table.
    pub owners: [Option<u32>; 2],
    /// The member row in the old and in the new table.
    pub members: [Option<u32>; 2],
}

/// The differences of two tables.
#[derive(Clone, Copy, Debug)]
pub struct Comparison<'a> {
    list: &'a [u8],
    /// The new table extends the old one and the two tops match: an old hub reads every message of 1.1 that the writer makes
    /// under the new table.
    pub extends: bool,
}

impl<'a> Comparison<'a> {
    /// The number of differences.
    pub fn len(&self) -> usize {
        self.list.len() / DIFFERENCE_SIZE
    }

    /// Whether there is none.
    pub fn is_empty(&self) -> bool {
        self.list.is_empty()
    }

    /// The differences: records by name, then parameter lists by their order; of each base, required positions, tags.
    pub fn differences(&self) -> impl Iterator<Item = Difference> + 'a {
        self.list.as_chunks::<DIFFERENCE_SIZE>().0.iter().map(|entry| {
            let number = |i: usize| {
                let bytes = [entry[4 * i], entry[4 * i + 1], entry[4 * i + 2], entry[4 * i + 3]];
                u32::from_le_bytes(bytes)
            };
            let row = |i: usize| number(i).checked_sub(1);
            let what = match number(0) {
                0 => What::Owner,
                1 => What::Base,
                2 => What::Required,
                _ => What::Optional,
            };
            Difference { what, owners: [row(1), row(2)], members: [row(3), row(4)] }
        })
    }
}

/// Compares an old table and a new one, each with a chosen top, before the new one is shipped. The differences are put at
/// the start of `list`; the bytes beyond them stay, and on a refusal all of them.
///
/// # Errors
///
/// The rule that the old table breaks; the rule that the new one breaks, with its place plus 1,000,000;
/// [`Reason::BadType`](crate::Reason::BadType) for either top; and, where `list` is too short, the number of differences as the
/// place.
pub fn compare<'a>(
    old: &[u8],
    old_top: u32,
    new: &[u8],
    new_top: u32,
    list: &'a mut [u8],
) -> Result<Comparison<'a>, Refusal> {
    let room = list.len();
    match ffi::compare(old, old_top, new, new_top, list) {
        0 => {
            let count = ffi::compare_count(old, old_top, new, new_top, room) as usize;
            let extends = ffi::compare_extends(old, old_top, new, new_top, room) == 1;
            Ok(Comparison { list: list.get(..DIFFERENCE_SIZE * count).unwrap_or_default(), extends })
        }
        number => Err(Refusal { number, place: ffi::compare_place(old, old_top, new, new_top, room) }),
    }
}
