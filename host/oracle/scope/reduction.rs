// The power rule, scales and base exponents of a list ("Powers and scales"), and how many multiplications the power rule
// does for them (02, "Order 5: count the multiplications"; its reading 30).
use wire::records::Prefix;
use wire::refusals::FRACTION;

use crate::Checked;
use crate::fractions::{Fraction, ZERO};
use crate::lists::Part;
use crate::tables::Known;

/// Nonzero base exponents by the rank of their base row, ranks rising.
pub type Exponents = Vec<(u16, Fraction)>;

/// A number, and how many multiplications inside the power rule it took.
#[derive(Debug, Clone, Copy, PartialEq)]
pub struct Counted {
    pub value: f64,
    pub count: u32,
}

/// "Power to a whole n", each multiplication counted where it is done. The 1/r of a negative n is none.
pub fn power_counted(base: f64, n: i64) -> Counted {
    let (mut r, mut a, mut count) = (1.0, base, 0);
    let mut bits = n.unsigned_abs();
    loop {
        if bits % 2 == 1 {
            r *= a;
            count += 1;
        }
        bits /= 2;
        if bits == 0 {
            break;
        }
        a *= a;
        count += 1;
    }
    Counted { value: if n < 0 { 1.0 / r } else { r }, count }
}

pub fn power(base: f64, n: i64) -> f64 {
    power_counted(base, n).value
}

fn prefix_counted(p: Prefix) -> Counted {
    power_counted(if p.kind == 0 { 10.0 } else { 2.0 }, p.n as i64)
}

pub fn prefix_factor(p: Prefix) -> f64 {
    prefix_counted(p).value
}

/// The scale of a list: 1 times, from left to right, (prefix factor · row scale) to its exponent. Counted are the prefix
/// powers, of factors to 0 and to a fraction too, and the powers to whole exponents; the row scales are in hand.
pub fn scale_counted(rows: &[Known], parts: &[Part]) -> Checked<Counted> {
    let mut scale = Counted { value: 1.0, count: 0 };
    for p in parts {
        let prefix = prefix_counted(p.prefix);
        let base = prefix.value * rows[p.row].scale;
        let raised = match p.exponent.is_whole() {
            true => power_counted(base, p.exponent.num),
            false if base == 1.0 => Counted { value: 1.0, count: 0 },
            false => return Err(FRACTION),
        };
        scale.value *= raised.value;
        scale.count += prefix.count + raised.count;
    }
    Ok(scale)
}

pub fn scale(rows: &[Known], parts: &[Part]) -> Checked<f64> {
    scale_counted(rows, parts).map(|scale| scale.value)
}

fn exponent_at(exponents: &Exponents, rank: u16) -> Fraction {
    exponents.iter().find(|(r, _)| *r == rank).map_or(ZERO, |(_, e)| *e)
}

/// The ranks of the base rows that some factor reaches, rising; at any other only zeros are added.
pub fn reached(rows: &[Known], parts: &[Part]) -> Vec<u16> {
    let mut ranks: Vec<u16> = parts.iter().flat_map(|p| rows[p.row].exponents.iter().map(|(r, _)| *r)).collect();
    ranks.sort();
    ranks.dedup();
    ranks
}

/// At one base row, factor by factor: the product, then the partial sum.
pub fn exponent_of(rows: &[Known], parts: &[Part], rank: u16) -> Checked<Fraction> {
    let mut sum = ZERO;
    for p in parts {
        let product = p.exponent.times(exponent_at(&rows[p.row].exponents, rank))?;
        sum = sum.plus(product)?;
    }
    Ok(sum)
}

/// Base row by base row in rank order, so that the lowest that fails decides (reading 4; 02's reading 11).
pub fn base_exponents(rows: &[Known], parts: &[Part]) -> Checked<Exponents> {
    let mut exponents = Vec::new();
    for rank in reached(rows, parts) {
        let exponent = exponent_of(rows, parts, rank)?;
        if exponent != ZERO {
            exponents.push((rank, exponent));
        }
    }
    Ok(exponents)
}
