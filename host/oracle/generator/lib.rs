// A seeded generator of requests: realistic and random admitted tables, lists that convert, values of every sort.
//
// It asks the crate `scope` for base exponents and scales, so that most requests lie inside the equality domain.
pub mod cancelling;
pub mod counted;
pub mod faults;
pub mod files;
pub mod halves;
pub mod knots;
pub mod limits;
pub mod lists;
pub mod noise;
pub mod random;
pub mod realistic;
pub mod requests;
pub mod rewriting;
pub mod tables;
pub mod troubles;
pub mod values;
pub mod wild;
