//! Verified unit arithmetic: the calls of the archive `libdemsharin.a`, on Rust records.
//!
//! A [`Table`] is made once from rows; every call on it ends with an answer or with one [`Refusal`]. Nothing is asked
//! of the caller: whatever the records can hold may be handed over, and the library itself refuses what breaks a rule.
//!
//! ```ignore
//! let metre = Row::base(1);
//! let inch = Row::derived(0, 0.0254, vec![Factor::of(0)]);
//! let table = Table::new(&[metre, inch]);
//! let length = table.convert_to(&Quantity::new(10.0, Factor::of(1)), &Factor::of(0).into())?;
//! ```
//!
//! Knots in their senders' units become one [`KnotVector`] by [`Table::knot_vector`]: values in one unit, merged within
//! a tolerance, with their multiplicities.
//!
//! All calls are thread-safe and keep nothing between them. Each needs less than 512 KiB of stack.

pub mod bytes;
mod calls;
pub mod exports;
mod files;
mod knots;
mod records;
mod refusal;
#[cfg(test)]
mod tests;

pub use calls::{Table, prefix_factor};
pub use files::{Salvaged, salvage};
pub use records::{
    Candidate, Counted, Distinct, Exponent, Factor, Kind, KnotRule, KnotVector, List, Multiple, Prefix, Quantity,
    Reduced, Row,
};
pub use refusal::Refusal;
