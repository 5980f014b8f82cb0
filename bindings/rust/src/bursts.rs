//! Satellite bursts: the check of a plan, and a planner.

use crate::{ffi, Reason};
use core::error::Error;
use core::fmt;

/// No satellite burst is longer.
pub const BURST_BYTES: u64 = 340;

/// Why a call on burst plans refused, and at which message or entry. A refused call has changed no lent number.
#[derive(Clone, Copy, Debug, PartialEq, Eq, Hash)]
pub struct PlanRefusal {
    /// The number: 46 of [`check_plan`], 45 or 19 of [`plan`].
    pub number: u32,
    /// What [`Reason::place_text`] says.
    pub place: u64,
}

impl PlanRefusal {
    /// The reason; none for a number that only a newer library has.
    pub const fn reason(&self) -> Option<Reason> {
        Reason::from_number(self.number)
    }
}

/// `refusal 46 at 3 (..): ..`, as of [`Refusal`](crate::Refusal).
impl fmt::Display for PlanRefusal {
    fn fmt(&self, f: &mut fmt::Formatter) -> fmt::Result {
        let PlanRefusal { number, place } = self;
        match self.reason() {
            Some(reason) => write!(f, "refusal {number} at {place} ({}): {}", reason.place_text(), reason.text()),
            None => write!(f, "refusal {number} at {place}"),
        }
    }
}

impl Error for PlanRefusal {}

/// The refusal with this number, if it is one.
fn refused(number: u32, place: impl FnOnce() -> u64) -> Result<(), PlanRefusal> {
    match number {
        0 => Ok(()),
        _ => Err(PlanRefusal { number, place: place() }),
    }
}

/// Checks a plan of any make.
///
/// A waiting message is its length in bytes and its cabin, and messages are counted from 0. An entry is a message's number
/// and its burst's. The plan is right if burst numbers start at 0 and each is the one before or one more, each message is in
/// exactly one entry, the messages of each burst add up to at most [`BURST_BYTES`], and messages of one cabin are in their
/// waiting order.
///
/// It takes time in proportion to the entries if their message numbers rise; an entry whose number does not is compared with
/// all entries before it, so the time may grow with the square of their number. Nothing is allocated.
///
/// # Errors
///
/// [`Reason::BadPlan`] at the first entry that breaks a rule with the entries before it, or at the number of entries where
/// only messages are missing.
pub fn check_plan(messages: &[[u64; 2]], entries: &[[u64; 2]]) -> Result<(), PlanRefusal> {
    let (messages, entries) = (messages.as_flattened(), entries.as_flattened());
    refused(ffi::check_plan(messages, entries), || ffi::check_plan_place(messages, entries))
}

/// Makes a plan that [`check_plan`] accepts, at the start of `entries`: takes the messages in turn, and opens a new burst
/// only where the next message does not fit. Gives the plan; entries after it are unchanged.
///
/// ```
/// // Three messages of two cabins: the third does not fit into burst 0.
/// let messages = [[100, 7], [240, 8], [100, 7]];
/// let mut entries = [[0; 2]; 3];
/// let plan = icehub::plan(&messages, &mut entries)?;
/// assert_eq!(plan, [[0, 0], [1, 0], [2, 1]]);
/// assert_eq!(icehub::check_plan(&messages, plan), Ok(()));
/// # Ok::<(), icehub::PlanRefusal>(())
/// ```
///
/// # Errors
///
/// [`Reason::MessageTooLong`] at the first message that no burst can hold, then [`Reason::ListTooShort`] at the number of
/// messages where `entries` has room for fewer.
pub fn plan<'a>(messages: &[[u64; 2]], entries: &'a mut [[u64; 2]]) -> Result<&'a [[u64; 2]], PlanRefusal> {
    let room = 2 * entries.len();
    let number = ffi::plan(messages.as_flattened(), entries.as_flattened_mut());
    refused(number, || ffi::plan_place(messages.as_flattened(), room))?;
    Ok(&entries[..messages.len()])
}
