// Admission of a table's rows: base exponents, key and scale of each ("Records and sizes", "The refusals").
use wire::records::{DEF_PLACES, Row};
use wire::refusals::{DENOMINATOR, TABLE};

use crate::Checked;
use crate::fractions::{LIMIT, ONE, gcd};
use crate::lists::{Part, shaped};
use crate::places::{Operation, refused};
use crate::reduction::{Exponents, base_exponents, scale};

pub const ROWS: usize = 128;
const BASE_ROWS: usize = 16;

/// A key: base ranks with whole numbers.
pub type Key = Vec<(u16, i128)>;

#[derive(Debug, Clone)]
pub struct Known {
    pub rank: u16,
    pub is_base: bool,
    pub exponents: Exponents,
    pub key: Key,
    pub scale: f64,
    /// How many units the Rust's tree for this row holds.
    pub tree: u64,
}

#[derive(Debug, Clone)]
pub struct Table {
    pub rows: Vec<Known>,
}

/// None is a table whose byte length no run of rows has.
pub fn admitted(rows: Option<Vec<Row>>) -> Checked<Table> {
    let rows = rows.filter(|rows| rows.len() <= ROWS).ok_or(TABLE)?;
    let mut known: Vec<Known> = Vec::new();
    for row in &rows {
        let next = admitted_row(&known, row)?;
        known.push(next);
    }
    Ok(Table { rows: known })
}

/// A row behind those that are known.
pub fn admitted_row(known: &[Known], row: &Row) -> Checked<Known> {
    if faulty(known, row) {
        return Err(TABLE);
    }
    let parts: Vec<Part> = row.def.iter().map(shaped).collect::<Checked<_>>()?;
    let is_base = row.kind == 0;
    // All base exponents, then the key (02's reading 12).
    let exponents = if is_base { vec![(row.rank, ONE)] } else { base_exponents(known, &parts)? };
    let key = key(&exponents)?;
    let scale = if is_base { 1.0 } else { f64::from_bits(row.bits) * scale(known, &parts)? };
    let tree = parts.iter().fold(1, |sum: u64, p| sum.saturating_add(known[p.row].tree));
    Ok(Known { rank: row.rank, is_base, exponents, key, scale, tree })
}

/// A row's TABLE faults, all looked at before its SHAPE faults (reading 1).
fn faulty(known: &[Known], row: &Row) -> bool {
    let factor = f64::from_bits(row.bits);
    known.iter().any(|k| k.rank == row.rank)
        || match row.kind {
            0 => row.len != 0 || known.iter().filter(|k| k.is_base).count() == BASE_ROWS,
            1 => {
                !(factor.is_finite() && factor > 0.0)
                    || row.len as usize > DEF_PLACES
                    || row.def.iter().any(|f| f.row as usize >= known.len())
            }
            _ => true,
        }
}

/// "A row's key": made whole by the least common multiple, divided by the greatest common divisor, the first positive.
/// The multiple is a denominator (02, order 2).
fn key(exponents: &Exponents) -> Checked<Key> {
    let mut multiple: i128 = 1;
    for (_, e) in exponents {
        multiple = multiple / gcd(multiple, e.den as i128) * e.den as i128;
        if multiple > LIMIT {
            refused(Operation::Multiple, false, true);
            return Err(DENOMINATOR);
        }
    }
    let whole: Key = exponents.iter().map(|(r, e)| (*r, e.num as i128 * (multiple / e.den as i128))).collect();
    let divisor = whole.iter().fold(0, |divisor, (_, n)| gcd(divisor, *n));
    let sign = whole.first().map_or(1, |(_, n)| n.signum());
    Ok(whole.iter().map(|(r, n)| (*r, n / divisor * sign)).collect())
}
