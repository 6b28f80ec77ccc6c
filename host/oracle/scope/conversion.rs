// Conversion of a value from one list to another ("Conversion, sums, comparison"; readings 10 to 13), and the second
// one beside it (02, "Order 3: cancel on both sides"; 02's readings 16 to 22), each with its multiplications counted (02,
// "Order 5: count the multiplications"; its readings 30 and 31).
use wire::refusals::UNITS;

use crate::Checked;
use crate::canonical::canonical;
use crate::fractions::Fraction;
use crate::lists::{Part, joined, negated};
use crate::reduction::{Counted, base_exponents, scale_counted};
use crate::tables::Table;

fn common_exponent(own: Fraction, target: Fraction) -> Option<Fraction> {
    let own_smaller = own.compared(target).is_le();
    match (own.num > 0, target.num > 0) {
        (true, true) => Some(if own_smaller { own } else { target }),
        (false, false) => Some(if own_smaller { target } else { own }),
        _ => None,
    }
}

/// The factors common to two canonical lists, in the order of the own one.
pub fn common(own: &[Part], target: &[Part]) -> Vec<Part> {
    let beside = |p: &Part| {
        let other = target.iter().find(|t| t.row == p.row && t.prefix == p.prefix)?;
        Some(Part { exponent: common_exponent(p.exponent, other.exponent)?, ..*p })
    };
    own.iter().filter_map(beside).collect()
}

/// 01's: a factor common to both lists is taken out of the target but stays, twice, in the own scale.
pub fn counted(table: &Table, value: f64, own: &[Part], target: &[Part]) -> Checked<Counted> {
    in_steps(table, value, own, target, Ok)
}

/// 02's order 3: the own list is merged too before its scale is taken; its base exponents are those of the merged list.
pub fn counted_merged(table: &Table, value: f64, own: &[Part], target: &[Part]) -> Checked<Counted> {
    in_steps(table, value, own, target, |left| canonical(table, &left))
}

/// By 01's, the value alone.
pub fn converted(table: &Table, value: f64, own: &[Part], target: &[Part]) -> Checked<f64> {
    counted(table, value, own, target).map(|answer| answer.value)
}

/// By order 3's, the value alone.
pub fn converted_merged(table: &Table, value: f64, own: &[Part], target: &[Part]) -> Checked<f64> {
    counted_merged(table, value, own, target).map(|answer| answer.value)
}

/// Both canonical forms, the own list over the common list made ready, its base exponents, the target over the common
/// list, its base exponents: the first of these that leaves the range decides (reading 11; 02's readings 13 and 16). A
/// zero and equal lists count 0, as nothing is raised for them.
fn in_steps(
    table: &Table,
    value: f64,
    own: &[Part],
    target: &[Part],
    ready: impl FnOnce(Vec<Part>) -> Checked<Vec<Part>>,
) -> Checked<Counted> {
    let (own_form, target_form) = (canonical(table, own)?, canonical(table, target)?);
    if own_form == target_form || value == 0.0 {
        return Ok(Counted { value, count: 0 });
    }
    let common = negated(&common(&own_form, &target_form));
    let own_left = ready(joined(own, &common))?;
    let own_base = base_exponents(&table.rows, &own_left)?;
    let target_left = canonical(table, &joined(target, &common))?;
    if own_base != base_exponents(&table.rows, &target_left)? {
        return Err(UNITS);
    }
    let own_scale = scale_counted(&table.rows, &own_left)?;
    let target_scale = scale_counted(&table.rows, &target_left)?;
    let value = value * own_scale.value / target_scale.value;
    Ok(Counted { value, count: own_scale.count + target_scale.count })
}
