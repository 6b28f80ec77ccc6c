// The three steps of `full_simplify` ("Simplification"; readings 19 to 23).
use wire::refusals::UNITS;

use crate::Checked;
use crate::canonical::canonical;
use crate::conversion::converted;
use crate::fractions::{Fraction, ONE, ZERO};
use crate::lists::Part;
use crate::multiples::is_multiple_of;
use crate::reduction::base_exponents;
use crate::sums::{Quantity, fresh};
use crate::tables::Table;

/// Only UNITS lets simplification go on, neither RANGE nor DENOMINATOR (02's reading 15): None then.
fn tried(table: &Table, q: &Quantity, target: Vec<Part>) -> Checked<Option<Quantity>> {
    match converted(table, q.value, &q.unit, &target) {
        Err(UNITS) => Ok(None),
        other => Ok(Some(fresh(other?, target))),
    }
}

pub fn full_simplify(table: &Table, q: &Quantity) -> Checked<Quantity> {
    if !q.mark {
        return Ok(q.clone());
    }
    if let Some(scalar) = tried(table, q, Vec::new())? {
        return Ok(scalar);
    }
    match to_one_factor(table, q)? {
        Some(found) => Ok(found),
        None => by_groups(table, q),
    }
}

/// Step 2: the first factor of the canonical list to a whole multiple.
fn to_one_factor(table: &Table, q: &Quantity) -> Checked<Option<Quantity>> {
    let form = canonical(table, &q.unit)?;
    if form.len() < 2 {
        return Ok(None);
    }
    for factor in &form {
        let single = Part { exponent: ONE, ..*factor };
        if let Some(multiple) = is_multiple_of(table, &form, &[single])?.filter(|m| m.is_whole())
            && let Some(found) = tried(table, q, vec![Part { exponent: multiple, ..single }])?
        {
            return Ok(Some(found));
        }
    }
    Ok(None)
}

/// Step 3: groups of one key, each converted to its target.
fn by_groups(table: &Table, q: &Quantity) -> Checked<Quantity> {
    let form = canonical(table, &q.unit)?;
    let (mut factor, mut unit) = (1.0, Vec::new());
    for group in form.chunk_by(|a, b| table.rows[a.row].key == table.rows[b.row].key) {
        let target = group_target(table, group)?;
        factor *= converted(table, 1.0, group, &target)?;
        unit.extend(target);
    }
    Ok(fresh(q.value * factor, canonical(table, &unit)?))
}

pub fn group_target(table: &Table, group: &[Part]) -> Checked<Vec<Part>> {
    let place = |p: &Part| table.rows[p.row].is_base;
    let greater = |a: &&Part, b: &&Part| place(a).cmp(&place(b)).then(a.exponent.compared(b.exponent));
    let representative = group.iter().max_by(greater).expect("a group has a factor");
    if base_exponents(&table.rows, group)?.is_empty() {
        return Ok(Vec::new());
    }
    let divisor = first_exponent(table, representative);
    let mut sum = ZERO;
    for p in group {
        sum = sum.plus(p.exponent.times(first_exponent(table, p))?.over(divisor)?)?;
    }
    Ok(vec![Part { exponent: sum, ..*representative }])
}

/// The row's first base exponent, or 1 where it has none.
fn first_exponent(table: &Table, p: &Part) -> Fraction {
    table.rows[p.row].exponents.first().map_or(ONE, |(_, e)| *e)
}
