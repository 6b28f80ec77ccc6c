// Another list with the same base exponents: what a list can be converted to.
use scope::fractions::Fraction;
use wire::records::{Exponent, Factor, LIST_PLACES, List};

use crate::lists::{prefix, raised, whole_exponent};
use crate::random::Random;
use crate::tables::Made;

pub fn rewritten(random: &mut Random, made: &Made, list: &List) -> List {
    let mut now = list.clone();
    for _ in 0..1 + random.below(4) {
        let next = step(random, made, &now).filter(|next| next.factors.len() <= LIST_PLACES);
        now = next.unwrap_or(now);
    }
    now
}

/// One way of writing the list otherwise; None where that way is not open.
fn step(random: &mut Random, made: &Made, list: &List) -> Option<List> {
    let at = random.below(list.factors.len().max(1));
    match random.weighted(&[12, 22, 26, 16, 8, 8, 4, 4]) {
        0 => shuffled(random, list),
        1 => expanded(made, list, at),
        2 => exchanged(random, made, list, at),
        3 => with_prefix(random, list, at),
        4 => split(random, list, at),
        5 => with_pair(random, made, list),
        6 => reduced(made, list),
        _ => with_zero(random, made, list),
    }
}

fn replaced(list: &List, at: usize, by: &[Factor]) -> List {
    let mut factors = list.factors.clone();
    factors.splice(at..at + 1, by.iter().copied());
    List::of(factors)
}

pub fn shuffled(random: &mut Random, list: &List) -> Option<List> {
    let mut factors = list.factors.clone();
    random.shuffle(&mut factors);
    Some(List::of(factors))
}

/// A derived factor by its definition.
fn expanded(made: &Made, list: &List, at: usize) -> Option<List> {
    let factor = list.factors.get(at)?;
    let row = &made.rows[factor.row as usize];
    let definition = raised(&List::of(row.def.clone()), Fraction::of(factor.exponent)?)?;
    (row.kind == 1).then(|| replaced(list, at, &definition.factors))
}

/// Another row whose base exponents are a multiple of this one's.
pub fn exchanged(random: &mut Random, made: &Made, list: &List, at: usize) -> Option<List> {
    let factor = list.factors.get(at)?;
    let other = random.below(made.rows.len());
    let (own, others) = (&made.table.rows[factor.row as usize], &made.table.rows[other]);
    if own.key != others.key {
        return None;
    }
    let multiple = match (own.exponents.first(), others.exponents.first()) {
        (Some((_, a)), Some((_, b))) => a.over(*b).ok()?,
        _ => Fraction::whole(1),
    };
    let exponent = Fraction::of(factor.exponent)?.times(multiple).ok()?.exponent();
    Some(replaced(list, at, &[Factor { row: other as u32, exponent, ..*factor }]))
}

fn with_prefix(random: &mut Random, list: &List, at: usize) -> Option<List> {
    let factor = list.factors.get(at)?;
    Some(replaced(list, at, &[Factor { prefix: prefix(random), ..*factor }]))
}

pub fn split(random: &mut Random, list: &List, at: usize) -> Option<List> {
    let factor = list.factors.get(at)?;
    let part = Fraction::of(whole_exponent(random))?;
    let rest = Fraction::of(factor.exponent)?.plus(part.negated()).ok()?;
    let (a, b) = (Factor { exponent: part.exponent(), ..*factor }, Factor { exponent: rest.exponent(), ..*factor });
    Some(replaced(list, at, &[a, b]))
}

fn with_pair(random: &mut Random, made: &Made, list: &List) -> Option<List> {
    let (row, prefix, exponent) = (random.below(made.rows.len()) as u32, prefix(random), whole_exponent(random));
    let mut factors = list.factors.clone();
    factors.insert(random.below(factors.len() + 1), Factor { row, prefix, exponent });
    let back = Exponent { num: -exponent.num, den: 1 };
    factors.insert(random.below(factors.len() + 1), Factor { row, prefix, exponent: back });
    Some(List::of(factors))
}

fn with_zero(random: &mut Random, made: &Made, list: &List) -> Option<List> {
    let row = random.below(made.rows.len()) as u32;
    let mut factors = list.factors.clone();
    let zero = Factor { row, prefix: prefix(random), exponent: Exponent { num: 0, den: 1 } };
    factors.insert(random.below(factors.len() + 1), zero);
    Some(List::of(factors))
}

/// The base factors in rank order.
fn reduced(made: &Made, list: &List) -> Option<List> {
    let parts = scope::lists::resolved(&made.table, Some(list.clone())).ok()?;
    let base = scope::reduction::base_exponents(&made.table.rows, &parts).ok()?;
    Some(scope::lists::written(&scope::registry::base_list(&made.table, &base)))
}
