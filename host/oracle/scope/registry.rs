// The registry form of simplification ("Simplification"; readings 24 to 28).
use crate::Checked;
use crate::conversion::converted;
use crate::fractions::Fraction;
use crate::lists::Part;
use crate::reduction::{Exponents, base_exponents, scale};
use crate::simplification::full_simplify;
use crate::sums::{Quantity, fresh};
use crate::tables::Table;
use wire::records::METRIC;

const NEAR: f64 = 1e-9;

pub fn full_simplify_with(table: &Table, q: &Quantity, candidates: &[Vec<Part>]) -> Checked<Quantity> {
    let now = full_simplify(table, q)?;
    if !now.mark || now.unit.len() < 2 {
        return Ok(now);
    }
    let base = base_exponents(&table.rows, &now.unit)?;
    let own_scale = scale(&table.rows, &now.unit)?;
    if let [(_, exponent)] = base[..]
        && exponent.is_whole()
        && (own_scale - 1.0).abs() < NEAR
    {
        return to(table, &now, base_list(table, &base));
    }
    best(table, &now, candidates, &base, own_scale)
}

fn to(table: &Table, q: &Quantity, target: Vec<Part>) -> Checked<Quantity> {
    Ok(fresh(converted(table, q.value, &q.unit, &target)?, target))
}

/// Base exponents as base factors in rank order.
pub fn base_list(table: &Table, base: &Exponents) -> Vec<Part> {
    let row = |rank: u16| table.rows.iter().position(|k| k.rank == rank).expect("a base row");
    base.iter()
        .map(|(rank, exponent): &(u16, Fraction)| Part { row: row(*rank), prefix: METRIC, exponent: *exponent })
        .collect()
}

fn best(table: &Table, now: &Quantity, candidates: &[Vec<Part>], base: &Exponents, own: f64) -> Checked<Quantity> {
    let mut best: Option<Quantity> = None;
    for unit in candidates {
        if unit.len() >= now.unit.len() || base_exponents(&table.rows, unit)? != *base {
            continue;
        }
        if !alike(own, scale(&table.rows, unit)?) {
            continue;
        }
        let found = to(table, now, unit.clone())?;
        if unit.len() == 1 {
            return Ok(found);
        }
        if best.as_ref().is_none_or(|b| unit.len() < b.unit.len()) {
            best = Some(found);
        }
    }
    Ok(best.unwrap_or_else(|| now.clone()))
}

fn alike(s: f64, t: f64) -> bool {
    let larger = s.abs().max(t.abs());
    larger == 0.0 || (s - t).abs() < NEAR * larger
}
