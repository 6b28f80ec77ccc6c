// `is_multiple_of` ("Simplification"; reading 18).
use crate::Checked;
use crate::fractions::{Fraction, ONE};
use crate::lists::Part;
use crate::reduction::{Exponents, base_exponents};
use crate::tables::Table;

/// The first's base exponents, the second's, the quotient, the products: the first that leaves the range decides.
pub fn is_multiple_of(table: &Table, a: &[Part], b: &[Part]) -> Checked<Option<Fraction>> {
    let a = base_exponents(&table.rows, a)?;
    let b = base_exponents(&table.rows, b)?;
    if a == b {
        return Ok(Some(ONE));
    }
    let Some((first, own)) = a.first() else { return Ok(None) };
    let Some((_, other)) = b.iter().find(|(rank, _)| rank == first) else { return Ok(None) };
    let multiple = own.over(*other)?;
    let raised: Exponents = b.iter().map(|(rank, e)| Ok((*rank, e.times(multiple)?))).collect::<Checked<_>>()?;
    Ok((raised == a).then_some(multiple))
}
