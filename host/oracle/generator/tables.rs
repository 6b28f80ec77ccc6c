// Tables: random ones that 01 admits, built row by row, and the choice between them and the realistic ones.
use scope::tables::{Table, admitted};
use wire::records::{Factor, Row};

use crate::lists;
use crate::random::Random;
use crate::realistic;

/// A table's rows with what 01 knows about each.
#[derive(Debug, Clone)]
pub struct Made {
    pub rows: Vec<Row>,
    pub table: Table,
}

/// The Rust expands definitions as trees, so a definition only names rows whose trees are this small.
const SHALLOW: u64 = 12;

const FACTORS: [f64; 14] =
    [1.0, 1.0, 1.0, 60.0, 1000.0, 0.0254, 0.01, 8.0, 12.0, 1e-3, 2.0, 0.5, 3.141592653589793, 1e30];
/// Near 1 on both sides of the registry form's 1e-9, and the ends of what a factor may be.
const ODD: [f64; 10] = [
    1.0 + 1e-10,
    1.0 + 9.9e-10,
    1.0 + 1.0000001e-9,
    1.0 - 1e-9,
    1.0 + 2e-9,
    1e300,
    1e-300,
    5e-324,
    f64::MAX,
    1.0 - 5e-10,
];

/// On both sides of the registry form's 1e-9, close by.
const NEAR: [f64; 6] = [1.0 + 9.9e-10, 1.0 + 1e-9, 1.0 + 1.05e-9, 1.0 - 9.9e-10, 1.0 - 1.05e-9, 1.0 + 1.0000001e-9];

pub fn made(rows: Vec<Row>) -> Option<Made> {
    let table = admitted(Some(rows.clone())).ok()?;
    Some(Made { rows, table })
}

/// A table of at most `limit` rows (some more where definitions need them).
pub fn table(random: &mut Random, limit: usize) -> Made {
    match random.weighted(&[60, 38, 2]) {
        0 => realistic::table(random, limit),
        1 => {
            let rows = 1 + random.below(limit.min(12));
            random_table(random, rows)
        }
        _ => {
            let rows = 1 + random.below(limit);
            random_table(random, rows)
        }
    }
}

pub fn base_row(rank: u16) -> Row {
    Row { rank, kind: 0, len: 0, bits: 0, def: Vec::new() }
}

pub fn derived_row(rank: u16, factor: f64, def: Vec<Factor>) -> Row {
    Row { rank, kind: 1, len: def.len() as u32, bits: factor.to_bits(), def }
}

pub fn unused_rank(random: &mut Random, rows: &[Row]) -> u16 {
    loop {
        let rank = if random.percent(70) { random.below(200) as u16 } else { random.bits() as u16 };
        if rows.iter().all(|row| row.rank != rank) {
            return rank;
        }
    }
}

/// So many random rows.
pub fn random_table(random: &mut Random, rows: usize) -> Made {
    let most_bases = if random.percent(5) { 16 } else { 5 };
    let first = unused_rank(random, &[]);
    let mut so_far = made(vec![base_row(first)]).expect("a base row is admitted");
    while so_far.rows.len() < rows {
        let bases = so_far.rows.iter().filter(|row| row.kind == 0).count();
        let rank = unused_rank(random, &so_far.rows);
        let row =
            if bases < most_bases && random.percent(35) { base_row(rank) } else { proposed(random, &so_far, rank) };
        let mut rows = so_far.rows.clone();
        rows.push(row);
        // A row that 01 refuses (RANGE or FRACTION of its definition) is proposed anew.
        so_far = made(rows).unwrap_or(so_far);
    }
    so_far
}

/// A derived row; one in eight is the twin of another under a factor near 1.
fn proposed(random: &mut Random, so_far: &Made, rank: u16) -> Row {
    let factor = if random.percent(12) { random.pick(&ODD) } else { random.pick(&FACTORS) };
    let usable: Vec<usize> = (0..so_far.rows.len()).filter(|at| so_far.table.rows[*at].tree <= SHALLOW).collect();
    if random.percent(12) {
        let row = random.pick(&usable) as u32;
        let factor = random.pick(&ODD[..5]);
        return derived_row(rank, factor, vec![lists::plain(row)]);
    }
    let len = random.pick(&[0, 1, 1, 1, 2, 2, 2, 3, 3, 4, 8]);
    let def = (0..len).map(|_| lists::factor(random, so_far, &usable)).collect();
    derived_row(rank, factor, def)
}

/// The table with one more row that is nearly another: as a candidate, its scale decides.
pub fn with_twin(random: &mut Random, so_far: Made) -> Made {
    let row = random.below(so_far.rows.len());
    let rank = unused_rank(random, &so_far.rows);
    let mut rows = so_far.rows.clone();
    rows.push(derived_row(rank, random.pick(&NEAR), vec![lists::plain(row as u32)]));
    made(rows).unwrap_or(so_far)
}
