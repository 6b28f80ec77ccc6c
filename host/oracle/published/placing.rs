// The place of a factor in canonical order, from 01: key, rank, prefix. A row's name is its rank, so names stand for ranks.
//
// The published `Ord` has no rank in it (key, prefix, exponent); how product.rs uses it is not at hand.
use compact_str::CompactString;

use crate::arithmetic::Exponent;
use crate::prefix::Prefix;
use crate::registry::BaseRepresentationFactor;
use crate::unit::UnitFactor;

pub trait Placed {
    type Place: Ord;

    fn place(&self) -> Self::Place;
}

impl Placed for UnitFactor {
    type Place = (Vec<(CompactString, Exponent)>, CompactString, Prefix);

    fn place(&self) -> Self::Place {
        (self.unit_id.sort_key(), self.unit_id.name, self.prefix)
    }
}

impl Placed for BaseRepresentationFactor {
    type Place = CompactString;

    fn place(&self) -> Self::Place {
        self.0
    }
}
