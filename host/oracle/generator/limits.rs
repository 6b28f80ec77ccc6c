// Factors at the limits of what a power may be: exponents near the ends of their range, prefixes of 1023 and 1100, zeros,
// roots of sizes that are exactly 1; over rows without base exponents, so that no conversion of them is refused.
use wire::records::{Exponent, Factor, LIST_PLACES, Prefix};

use crate::lists::{fraction_exponent, plain, takes_fractions};
use crate::random::Random;
use crate::tables::{Made, base_row, derived_row, made};

const ENDS: [i32; 9] =
    [i32::MAX, i32::MAX, i32::MAX - 1, 1 << 30, (1 << 30) - 1, 1 << 29, 65_535, 65_536, 1_431_655_765];
const PREFIXES: [i32; 14] = [0, 0, 1023, 1023, 1100, 1100, 1099, 1024, 1087, 512, 511, 10, 3, 1];
/// The prefix that takes the most multiplications, 19.
const MOST: i32 = 1023;
/// Scales of rows: exactly 1, near it, exactly 1 under a prefix, others.
const SCALES: [f64; 14] = [
    1.0,
    1.0,
    1.0,
    1.0 + f64::EPSILON,
    1.000000000465661,
    0.001,
    1000.0,
    0.0009765625,
    // 2^1023, and its inverse, which is subnormal
    8.98846567431158e307,
    1.1125369292536007e-308,
    60.0,
    0.0254,
    2.0,
    1e300,
];

pub fn signed(random: &mut Random, n: i32) -> i32 {
    if random.percent(40) { -n } else { n }
}

pub fn whole(n: i32) -> Exponent {
    Exponent { num: n, den: 1 }
}

/// At an end of the range or beside it, any number, a small one or zero.
pub fn exponent(random: &mut Random) -> Exponent {
    let (beside, any) = (random.below(3) as i32, (random.bits() as u32 >> (1 + random.below(31))) as i32);
    let n = match random.weighted(&[45, 10, 25, 13, 7]) {
        0 => random.pick(&ENDS),
        1 => random.pick(&ENDS) - beside,
        2 => any,
        3 => random.within(1, 9) as i32,
        _ => 0,
    };
    whole(signed(random, n))
}

/// Another exponent of the same sign: twice as far, half as far, a little farther, or any.
pub fn like(random: &mut Random, e: Exponent) -> Exponent {
    let other = exponent(random).num.abs().max(1);
    let n = match random.below(4) {
        0 => e.num.abs().saturating_mul(2),
        1 => e.num.abs() / 2,
        2 => e.num.abs().saturating_add(1),
        _ => other,
    };
    whole(n * e.num.signum())
}

fn prefix(random: &mut Random) -> Prefix {
    let n = if random.percent(75) { random.pick(&PREFIXES) } else { random.below(1101) as i32 };
    Prefix { kind: random.below(2) as u32, n: signed(random, n) }
}

// ---- tables

/// Two base rows, rows over the first, and rows without base exponents.
pub fn table(random: &mut Random) -> Made {
    let mut rows = vec![base_row(90), base_row(91)];
    for rank in 0..1 + random.below(3) as u16 {
        rows.push(derived_row(rank, random.pick(&SCALES), vec![plain(0)]));
    }
    for rank in 20..24 + random.below(5) as u16 {
        let cancelled = vec![plain(1), Factor { exponent: whole(-1), ..plain(1) }];
        let def = if random.percent(70) { Vec::new() } else { cancelled };
        rows.push(derived_row(rank, random.pick(&SCALES), def));
    }
    made(rows).expect("definitions of base rows alone")
}

/// So many rows of scale 1 without base exponents.
pub fn of_scale_1(rows: u16) -> Made {
    made((0..rows).map(|rank| derived_row(rank, 1.0, Vec::new())).collect()).expect("rows without definition")
}

/// The rows without base exponents.
fn bare(made: &Made) -> Vec<u32> {
    (0..made.rows.len() as u32).filter(|at| made.table.rows[*at as usize].exponents.is_empty()).collect()
}

/// A row whose base exponents are those of the first.
pub fn a_length(random: &mut Random, made: &Made) -> u32 {
    let rows = &made.table.rows;
    let alike: Vec<usize> = (0..rows.len()).filter(|at| rows[*at].exponents == rows[0].exponents).collect();
    random.pick(&alike) as u32
}

// ---- factors

/// Without base exponents; a root if its size is exactly 1, now and then.
pub fn free(random: &mut Random, made: &Made) -> Factor {
    let (row, prefix) = (random.pick(&bare(made)), prefix(random));
    let rooted = takes_fractions(made, row, prefix) && random.percent(40);
    let exponent = if rooted { fraction_exponent(random) } else { exponent(random) };
    Factor { row, prefix, exponent }
}

/// So many of these, no two of one row and prefix.
pub fn apart(random: &mut Random, made: &Made, many: usize) -> Vec<Factor> {
    let mut all: Vec<Factor> = Vec::new();
    while all.len() < many {
        let next = free(random, made);
        if all.iter().all(|f| f.row != next.row || f.prefix != next.prefix) {
            all.push(next);
        }
    }
    all
}

/// A root of a row and prefix whose size is exactly 1, if some tries find one; with a prefix, if they do.
pub fn exactly_1(random: &mut Random, made: &Made) -> Option<Factor> {
    let mut tried = || {
        let n = random.pick(&[3, -3, 10, -10, MOST, -MOST, 0]);
        let (row, prefix) = (random.pick(&bare(made)), Prefix { kind: random.below(2) as u32, n });
        let exponent = fraction_exponent(random);
        takes_fractions(made, row, prefix).then_some(Factor { row, prefix, exponent })
    };
    let found: Vec<Factor> = (0..30).filter_map(|_| tried()).collect();
    found.iter().find(|f| f.prefix.n != 0).or(found.first()).copied()
}

/// Each of these rows under each of the four prefixes that take the most, in any order.
pub fn under_most(random: &mut Random, rows: [u32; 4]) -> Vec<Factor> {
    let prefixes = [(0, MOST), (0, -MOST), (1, MOST), (1, -MOST)];
    let of_row = |row: u32| prefixes.map(|(kind, n)| Factor { prefix: Prefix { kind, n }, ..plain(row) });
    let mut all: Vec<Factor> = rows.into_iter().flat_map(of_row).collect();
    random.shuffle(&mut all);
    all
}

/// At any place; in place of the last factor if the list is full.
pub fn put(random: &mut Random, list: &mut Vec<Factor>, factor: Factor) {
    list.truncate(LIST_PLACES - 1);
    list.insert(random.below(list.len() + 1), factor);
}

/// A power of a length on both sides, each in a unit of its own.
pub fn with_length(random: &mut Random, made: &Made, own: &mut Vec<Factor>, target: &mut Vec<Factor>) {
    let exponent = exponent(random);
    for list in [own, target] {
        let (row, prefix) = (a_length(random, made), prefix(random));
        put(random, list, Factor { row, prefix, exponent });
    }
}
