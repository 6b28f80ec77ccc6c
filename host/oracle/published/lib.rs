// The published Rust as a library that answers requests: its edited files with what they need to stand alone.
//
// build.sh puts this folder's files beside those that edits.py writes, and compiles them as one crate.
#![allow(dead_code)]

// written by edits.py from the published files
pub mod arithmetic;
pub mod number;
pub mod prefix;
pub mod quantity;
pub mod registry;
pub mod unit;
pub mod unit_registry;

// this folder's
pub mod answers;
pub mod placing;
pub mod power;
pub mod prefix_parser;
pub mod product;
pub mod units;
