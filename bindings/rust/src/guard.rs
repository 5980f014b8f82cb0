//! The frost guard: takes reports one after another, and says when the timer fires.

use crate::{ffi, Refusal};
use core::time::Duration;

/// The bytes of a guard's state.
pub const GUARD_SIZE: usize = 32;

/// What a frost guard keeps between reports: its set point, the last tick, the start of the freeze if one runs, the delay.
///
/// A reading at or below the set point starts a freeze at its tick, if none runs; one above ends it. The timer fires with a
/// report exactly if a freeze runs after it and its tick minus the start is at least its delay.
///
/// ```
/// let message = b"\x16\0\0\0\x01\x01\x0C\xFE\x3B\0\0\0\0\x01\0\0\0\x42\x08\x07\0\0";
/// let mut guard = icehub::Guard::new(0);
/// assert!(!guard.report(message)?); // the freeze begins at 2^32 milliseconds
/// assert_eq!(guard.start(), Some(1 << 32));
/// # Ok::<(), icehub::Refusal>(())
/// ```
#[derive(Clone, Copy, Debug, PartialEq, Eq, Hash)]
pub struct Guard([u8; GUARD_SIZE]);

impl Guard {
    /// A guard at the start, with a set point in the units of the readings.
    pub fn new(set_point: i16) -> Guard {
        let mut state = [0; GUARD_SIZE];
        let refusal = ffi::guard_start(set_point as u16, &mut state);
        debug_assert_eq!(refusal, 0);
        Guard(state)
    }

    /// A guard from the bytes of [`Guard::to_bytes`]. They are judged with the next report, which other bytes refuse by
    /// [`Reason::BadState`](crate::Reason::BadState).
    pub const fn from_bytes(state: [u8; GUARD_SIZE]) -> Guard {
        Guard(state)
    }

    /// Its state, to be kept over a restart.
    pub const fn to_bytes(self) -> [u8; GUARD_SIZE] {
        self.0
    }

    /// Takes a report, one message, and says whether the timer fires.
    ///
    /// # Errors
    ///
    /// The state is refused, then the message, then a missing tick or delay, a tick that is negative or lower than the last,
    /// a negative delay. The guard stays as it was.
    pub fn report(&mut self, message: &[u8]) -> Result<bool, Refusal> {
        let mut next = [0; GUARD_SIZE];
        match ffi::guard_report(&self.0, message, &mut next) {
            0 => {
                let fires = ffi::guard_fires(&self.0, message, GUARD_SIZE) == 1;
                self.0 = next;
                Ok(fires)
            }
            number => Err(Refusal { number, place: ffi::guard_place(&self.0, message, GUARD_SIZE) }),
        }
    }

    /// The set point.
    pub fn set_point(&self) -> i16 {
        i16::from_le_bytes([self.0[0], self.0[1]])
    }

    /// The last tick, in milliseconds.
    pub fn tick(&self) -> Option<i64> {
        self.long(2, 8)
    }

    /// The tick at which the freeze began, in milliseconds; none if no freeze runs.
    pub fn start(&self) -> Option<i64> {
        self.long(3, 16)
    }

    /// The delay of the last report.
    pub fn delay(&self) -> Option<Duration> {
        self.long(4, 24).map(|seconds| Duration::from_secs(u64::from(seconds as u32)))
    }

    /// The long at a place, if the mark says that it is there.
    fn long(&self, mark: usize, at: usize) -> Option<i64> {
        (self.0[mark] == 1).then(|| self.0[at..].first_chunk().map(|bytes| i64::from_le_bytes(*bytes)))?
    }
}
