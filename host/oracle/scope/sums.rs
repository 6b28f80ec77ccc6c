// Quantities, and the calls that add, compare and raise them ("Conversion, sums, comparison"; readings 14 to 17).
use std::cmp::Ordering;

use wire::refusals::{NAN, NONWHOLE, RANGE, UNITS, ZERONEG};

use crate::Checked;
use crate::canonical::same;
use crate::conversion::converted;
use crate::domain::NONWHOLE_FRACTION;
use crate::fractions::Fraction;
use crate::lists::{self, Part};
use crate::reduction::{base_exponents, power, scale};
use crate::tables::Table;

#[derive(Debug, Clone)]
pub struct Quantity {
    pub value: f64,
    pub mark: bool,
    pub unit: Vec<Part>,
}

/// A new quantity has the mark.
pub fn fresh(value: f64, unit: Vec<Part>) -> Quantity {
    Quantity { value, mark: true, unit }
}

pub fn is_zero(q: &Quantity) -> bool {
    q.value == 0.0
}

fn scale_after_base(table: &Table, unit: &[Part]) -> Checked<f64> {
    base_exponents(&table.rows, unit)?;
    scale(&table.rows, unit)
}

pub fn smaller_unit<'a>(table: &Table, a: &'a [Part], b: &'a [Part]) -> Checked<&'a [Part]> {
    let (own, other) = (scale_after_base(table, a)?, scale_after_base(table, b)?);
    Ok(if own <= other { a } else { b })
}

/// What is left of add and subtract when neither operand is zero.
fn combined(table: &Table, a: &Quantity, b: &Quantity, step: fn(f64, f64) -> f64) -> Checked<Quantity> {
    if same(table, &a.unit, &b.unit)? {
        return Ok(fresh(step(a.value, b.value), a.unit.clone()));
    }
    let unit = smaller_unit(table, &a.unit, &b.unit)?;
    let own = converted(table, a.value, &a.unit, unit)?;
    Ok(fresh(step(own, converted(table, b.value, &b.unit, unit)?), unit.to_vec()))
}

pub fn add(table: &Table, a: &Quantity, b: &Quantity) -> Checked<Quantity> {
    match (is_zero(a), is_zero(b)) {
        (true, _) => Ok(b.clone()),
        (_, true) => Ok(a.clone()),
        _ => combined(table, a, b, |x, y| x + y),
    }
}

pub fn subtract(table: &Table, a: &Quantity, b: &Quantity) -> Checked<Quantity> {
    match (is_zero(a), is_zero(b)) {
        (true, _) => Ok(fresh(-b.value, b.unit.clone())),
        (_, true) => Ok(a.clone()),
        _ => combined(table, a, b, |x, y| x - y),
    }
}

/// The second is the converted one, so its list is the own one (02's reading 14).
pub fn equal(table: &Table, a: &Quantity, b: &Quantity) -> Checked<bool> {
    match converted(table, b.value, &b.unit, &a.unit) {
        Err(UNITS) => Ok(false),
        other => Ok(a.value == other?),
    }
}

/// As in `equal`, the second's list is the own one.
pub fn compare(table: &Table, a: &Quantity, b: &Quantity) -> Checked<Ordering> {
    if a.value.is_nan() || b.value.is_nan() {
        return Err(NAN);
    }
    let other = converted(table, b.value, &b.unit, &a.unit)?;
    a.value.partial_cmp(&other).ok_or(NAN)
}

pub fn checked_power(table: &Table, q: &Quantity, exponent: &Quantity) -> Checked<Quantity> {
    let e = converted(table, exponent.value, &exponent.unit, &[])?;
    if is_zero(q) && e < 0.0 {
        return Err(ZERONEG);
    }
    if !e.is_finite() {
        return Err(NONWHOLE);
    }
    if e.trunc() != e {
        return Err(NONWHOLE_FRACTION);
    }
    if e.abs() > 2_147_483_647.0 {
        return Err(RANGE);
    }
    let unit = lists::power(&q.unit, Fraction::whole(e as i64))?;
    Ok(fresh(power(q.value, e as i64), unit))
}
