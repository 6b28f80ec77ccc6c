// Lists of factors: repeats, cancelling pairs, zero exponents, both kinds of prefix, fractions where they are allowed.
use scope::fractions::Fraction;
use scope::reduction::prefix_factor;
use wire::records::{Exponent, Factor, List, METRIC, ONE, Prefix};

use crate::random::Random;
use crate::tables::Made;

pub fn plain(row: u32) -> Factor {
    Factor { row, prefix: METRIC, exponent: ONE }
}

pub fn prefix(random: &mut Random) -> Prefix {
    let metric = |n: i64| Prefix { kind: 0, n: n as i32 };
    let binary = |n: i64| Prefix { kind: 1, n: n as i32 };
    match random.weighted(&[62, 16, 8, 3, 6, 3, 2]) {
        0 => METRIC,
        1 => metric(random.pick(&[3, -3, 6, -2, -1, -6, 9, 2, 1])),
        2 => binary(random.pick(&[10, 20, 30, 40])),
        3 => binary(0),
        4 => metric(random.within(-30, 30)),
        5 => binary(random.within(-100, 100)),
        _ => Prefix { kind: random.below(2) as u32, n: random.pick(&[1100, -1100, 308, -308, 309, -324, 1023, -1074]) },
    }
}

pub fn whole_exponent(random: &mut Random) -> Exponent {
    let num = match random.weighted(&[45, 20, 24, 4, 5, 2]) {
        0 => 1,
        1 => -1,
        2 => random.pick(&[2, -2, 3, -3, 4]),
        3 => 0,
        4 => random.within(-40, 40) as i32,
        _ => random.pick(&[2147483647, -2147483647, 65536, 1 << 30, -46341]),
    };
    Exponent { num, den: 1 }
}

pub fn fraction_exponent(random: &mut Random) -> Exponent {
    let (num, den) = match random.weighted(&[85, 12, 3]) {
        0 => random.pick(&[(1, 2), (-1, 2), (1, 3), (2, 3), (3, 2), (-5, 4), (-2, 3)]),
        1 => random.pick(&[(1, 7), (5, 6), (-7, 12), (22, 7)]),
        _ => random.pick(&[(1, 2147483647), (2147483647, 2), (-1, 65536), (1, 46341)]),
    };
    Exponent { num, den }
}

/// Whether a non-whole exponent meets no FRACTION on this row and prefix.
pub fn takes_fractions(made: &Made, row: u32, prefix: Prefix) -> bool {
    prefix_factor(prefix) * made.table.rows[row as usize].scale == 1.0
}

fn exponent(random: &mut Random, made: &Made, row: u32, prefix: Prefix) -> Exponent {
    let share = if takes_fractions(made, row, prefix) { 15 } else { 1 };
    if random.percent(share) { fraction_exponent(random) } else { whole_exponent(random) }
}

pub fn factor(random: &mut Random, made: &Made, usable: &[usize]) -> Factor {
    let row = random.pick(usable) as u32;
    let prefix = prefix(random);
    Factor { row, prefix, exponent: exponent(random, made, row, prefix) }
}

fn length(random: &mut Random) -> usize {
    match random.weighted(&[5, 25, 27, 20, 18, 5]) {
        few @ 0..=3 => few,
        4 => random.within(4, 6) as usize,
        _ => random.within(7, 16) as usize,
    }
}

pub fn opposite(f: Factor) -> Factor {
    Factor { exponent: Exponent { num: -f.exponent.num, ..f.exponent }, ..f }
}

pub fn list(random: &mut Random, made: &Made) -> List {
    let all: Vec<usize> = (0..made.rows.len()).collect();
    if random.percent(22)
        && let Some(definition) = if random.percent(70) { a_definition(random, made) } else { a_quotient(random, made) }
    {
        return definition;
    }
    let len = length(random);
    let mut factors: Vec<Factor> = Vec::new();
    for _ in 0..len {
        let fresh = factor(random, made, &all);
        let before = if factors.is_empty() { fresh } else { random.pick(&factors) };
        factors.push(match random.weighted(&[78, 12, 8, 2]) {
            1 => Factor { exponent: exponent(random, made, before.row, before.prefix), ..before },
            2 => opposite(before),
            3 => Factor { exponent: Exponent { num: 0, den: 1 }, ..fresh },
            _ => fresh,
        });
    }
    List::of(factors)
}

/// A row whose definition has two factors or more.
fn a_long_row(random: &mut Random, made: &Made) -> Option<usize> {
    let long: Vec<usize> = (0..made.rows.len()).filter(|at| made.rows[*at].def.len() >= 2).collect();
    (!long.is_empty()).then(|| random.pick(&long))
}

/// The definition of one of the rows as a list.
fn a_definition(random: &mut Random, made: &Made) -> Option<List> {
    Some(List::of(made.rows[a_long_row(random, made)?].def.clone()))
}

/// A row over its definition but for one factor, as joule over newton: what is left is that factor.
fn a_quotient(random: &mut Random, made: &Made) -> Option<List> {
    let row = a_long_row(random, made)?;
    let mut under: Vec<Factor> = made.rows[row].def.iter().copied().map(opposite).collect();
    under.remove(random.below(under.len()));
    Some(List::of([vec![plain(row as u32)], under].concat()))
}

/// A list that holds a row's definition, and the list with the row in its place: what the registry form is for.
pub fn foldable(random: &mut Random, made: &Made) -> Option<(List, List)> {
    let row = a_long_row(random, made)?;
    let all: Vec<usize> = (0..made.rows.len()).collect();
    let more: Vec<Factor> = (0..random.below(4)).map(|_| factor(random, made, &all)).collect();
    let mut unit = [made.rows[row].def.clone(), more.clone()].concat();
    random.shuffle(&mut unit);
    Some((List::of(unit), List::of([vec![plain(row as u32)], more].concat())))
}

/// The list with each exponent multiplied, if that stays in range.
pub fn raised(list: &List, by: Fraction) -> Option<List> {
    let raise = |f: &Factor| {
        let exponent = Fraction::of(f.exponent)?.times(by).ok()?;
        Some(Factor { exponent: exponent.exponent(), ..*f })
    };
    Some(List::of(list.factors.iter().map(raise).collect::<Option<_>>()?))
}
