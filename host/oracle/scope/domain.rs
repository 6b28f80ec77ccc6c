// Which requests lie outside the equality domain: those at which 01 answers what it adds to the Rust, and the calls of 02.
use wire::refusals::*;
use wire::stream::Request;

use crate::calls::given;
use crate::{arguments, lists};
use wire::bytes;
use wire::calls::{ADDED, Kind, of_code};

/// NONWHOLE for a fraction, which 01 adds; for a NaN and the infinities the Rust refuses too.
pub const NONWHOLE_FRACTION: u32 = 0x100 + NONWHOLE;

/// The most units that the Rust's trees for a request's rows may hold together; its time grows with their square.
const TREE_LIMIT: u64 = 4096;

/// 01's number of a refusal.
pub fn number(refusal: u32) -> u32 {
    if refusal == NONWHOLE_FRACTION { NONWHOLE } else { refusal }
}

/// The number that says why a request lies outside, or None if the Rust is to answer it.
pub fn outside(request: &Request) -> Option<u32> {
    if ADDED.contains(&request.code) {
        return Some(OUTSIDE);
    }
    match given(request) {
        Err(TABLE | SHAPE | UNKNOWN | ROOM | NONWHOLE_FRACTION) => Some(OUTSIDE),
        Err(RANGE | DENOMINATOR) => Some(OUTSIDE_RANGE),
        Err(FRACTION) => Some(OUTSIDE_FRACTION),
        _ => (trees(request) > TREE_LIMIT).then_some(OUTSIDE_COST),
    }
}

/// How many units the Rust's trees hold for the lists of a request whose arguments are in order.
fn trees(request: &Request) -> u64 {
    let (Ok(a), Some(call)) = (arguments::of(request).or(Err(())), of_code(request.code)) else { return 0 };
    let units = call.arguments.iter().zip(&request.arguments).flat_map(|(kind, b)| match kind {
        Kind::List => bytes::list(b).into_iter().collect(),
        Kind::Quantity => bytes::quantity(b).map(|q| q.unit).into_iter().collect(),
        Kind::Candidates => bytes::candidates(b).unwrap_or_default().into_iter().map(|c| c.unit).collect(),
        _ => Vec::new(),
    });
    let tree = |p: lists::Part| a.table.rows[p.row].tree;
    units
        .filter_map(|unit| lists::resolved(&a.table, Some(unit)).ok())
        .flatten()
        .fold(0, |sum: u64, p| sum.saturating_add(tree(p)))
}
