// 01's rules, and 02's as they land, as a plain program, written from the document and its readings and not from the Rust.
//
// The oracle asks it which requests lie outside the equality domain; compared with the Rust's answers it also shows
// where the Rust and the document part. It is slow and short on purpose, and shares nothing with the proved library.
pub mod arguments;
pub mod calls;
pub mod canonical;
pub mod conversion;
pub mod domain;
pub mod files;
pub mod fractions;
pub mod knots;
pub mod lists;
pub mod multiples;
pub mod paths;
pub mod places;
pub mod reduction;
pub mod registry;
pub mod simplification;
pub mod sums;
pub mod tables;

/// An answer, or the number of the first refusal met.
pub type Checked<T> = Result<T, u32>;
