// Lists of factors: shape, unknown rows, product, quotient and power ("Records and sizes", "Canonical form").
use wire::records::{Factor, LIST_PLACES, List, Prefix};
use wire::refusals::{ROOM, SHAPE, UNKNOWN};

use crate::Checked;
use crate::fractions::Fraction;
use crate::tables::Table;

/// A factor whose prefix and exponent keep their rules.
#[derive(Debug, Clone, Copy, PartialEq, Eq)]
pub struct Part {
    pub row: usize,
    pub prefix: Prefix,
    pub exponent: Fraction,
}

pub fn prefix_shaped(p: Prefix) -> bool {
    p.kind <= 1 && (-1100..=1100).contains(&p.n)
}

pub fn shaped(f: &Factor) -> Checked<Part> {
    let exponent = Fraction::of(f.exponent).filter(|_| prefix_shaped(f.prefix)).ok_or(SHAPE)?;
    Ok(Part { row: f.row as usize, prefix: f.prefix, exponent })
}

/// A list's SHAPE faults all come before its UNKNOWN ones (reading 2). None is an argument of the wrong byte length.
pub fn resolved(table: &Table, list: Option<List>) -> Checked<Vec<Part>> {
    let list = list.filter(|l| l.len as usize <= LIST_PLACES).ok_or(SHAPE)?;
    let parts: Vec<Part> = list.factors.iter().map(shaped).collect::<Checked<_>>()?;
    if parts.iter().any(|p| p.row >= table.rows.len()) { Err(UNKNOWN) } else { Ok(parts) }
}

pub fn written(parts: &[Part]) -> List {
    let factor = |p: &Part| Factor { row: p.row as u32, prefix: p.prefix, exponent: p.exponent.exponent() };
    List::of(parts.iter().map(factor).collect())
}

pub fn joined(a: &[Part], b: &[Part]) -> Vec<Part> {
    [a, b].concat()
}

pub fn negated(parts: &[Part]) -> Vec<Part> {
    parts.iter().map(|p| Part { exponent: p.exponent.negated(), ..*p }).collect()
}

pub fn power(parts: &[Part], e: Fraction) -> Checked<Vec<Part>> {
    parts.iter().map(|p| Ok(Part { exponent: p.exponent.times(e)?, ..*p })).collect()
}

/// ROOM: over 16 factors before merging.
pub fn with_room(parts: Vec<Part>) -> Checked<Vec<Part>> {
    if parts.len() > LIST_PLACES { Err(ROOM) } else { Ok(parts) }
}
