//! Document 01, as document 02 changes it, in plain Rust, written from these documents alone.
//!
//! - [`check`]: the rules of a type table, [`forms`]: how its types are written as optionals.
//! - [`read`]: the rows of a message, [`member`]: the bytes of one member.
//! - [`write`]: a message from rows and the buffer they point into.
//! - [`convert`]: the sliced form of a compact record.
//! - [`set`], [`remove`]: a message with one optional changed, and all else passed on.
//! - [`night::night`]: the answers to the messages of a buffer.
//! - [`sheet::sheet`]: the messages of a buffer added to a season sheet.
//! - [`endpoint`]: one endpoint of a proxy, opened, written, and found in its proxy.
//! - [`bursts`]: the check of a burst plan, and a planner.
//! - [`compare`]: the differences of two tables, and whether the new one extends the old one.
//!
//! A refusal is its number and its place. No call panics on any input, and on a refusal every lent byte stays.

pub mod bursts;
pub mod calls;
pub mod compare;
pub mod endpoint;
#[cfg(feature = "library")]
pub mod ffi;
pub mod frost;
pub mod gen;
pub mod json;
pub mod night;
pub mod replay;
pub mod sheet;
pub mod spec;

mod change;
mod convert;
mod read;
mod table;
mod value;
mod write;

use std::num::NonZeroU64;

pub use change::{remove, set};
pub use convert::convert;
pub use read::{member, read, Reading};
pub use table::{check, forms};
pub use write::write;

/// A refusal: its number and its place.
pub type Refusal = (u32, u32);

/// A refusal in one register, as the inner functions return it: the number in the upper half, the place in the lower.
#[derive(Clone, Copy, Debug)]
struct Fault(NonZeroU64);

impl Fault {
    fn new(number: u32, place: usize) -> Fault {
        Fault(NonZeroU64::new(u64::from(number) << 32 | place as u64).unwrap_or(NonZeroU64::MAX))
    }
}

impl From<Fault> for Refusal {
    fn from(Fault(bits): Fault) -> Refusal {
        ((bits.get() >> 32) as u32, bits.get() as u32)
    }
}

/// The most bytes of a message and of the writer's buffer.
const MOST: usize = 65_536;
