// The canonical form of a list and the equality of lists ("Canonical form").
use crate::Checked;
use crate::fractions::ZERO;
use crate::lists::Part;
use crate::tables::Table;

/// Merging walks the given list from left to right, and the first sum that leaves the range decides (reading 11); then
/// zeros go and the rest is ordered.
pub fn canonical(table: &Table, parts: &[Part]) -> Checked<Vec<Part>> {
    let mut merged: Vec<Part> = Vec::new();
    for p in parts {
        match merged.iter_mut().find(|m| m.row == p.row && m.prefix == p.prefix) {
            Some(m) => m.exponent = m.exponent.plus(p.exponent)?,
            None => merged.push(*p),
        }
    }
    merged.retain(|m| m.exponent != ZERO);
    let place = |p: &Part| (table.rows[p.row].key.clone(), table.rows[p.row].rank, p.prefix.kind, p.prefix.n);
    merged.sort_by_key(place);
    Ok(merged)
}

pub fn same(table: &Table, a: &[Part], b: &[Part]) -> Checked<bool> {
    Ok(canonical(table, a)? == canonical(table, b)?)
}
