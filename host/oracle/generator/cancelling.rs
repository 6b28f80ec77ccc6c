// Conversions in which factors cancel on both sides (02, "Order 3"): wholly, in part, under a sum of exponents, as a
// fraction of any scale; own lists that are spelled otherwise than their canonical form; lists with nothing in common.
use scope::canonical::canonical as form;
use scope::lists::{joined, negated, resolved, written};
use scope::reduction::base_exponents;
use scope::registry::base_list;
use wire::records::{Exponent, Factor, LIST_PLACES, List};

use crate::lists::{list, opposite, prefix};
use crate::random::Random;
use crate::rewriting::{rewritten, shuffled, split};
use crate::tables::Made;

/// Where exponents of factors that cancel come from.
type Exponents = fn(&mut Random) -> Exponent;

/// An own list, made from the given one, and a target.
pub fn both(random: &mut Random, made: &Made, own: List, exponents: Exponents) -> (List, List) {
    let (mut own, mut target) = (own.clone(), apart(random, made, &own, exponents));
    for _ in 0..random.pick(&[0, 0, 1, 1, 2, 3]) {
        let shared = factor(random, made, &own, exponents);
        put(random, &mut own, shared);
        put(random, &mut target, shared);
    }
    if random.percent(30) {
        let alone = factor(random, made, &own, exponents);
        put(random, &mut own, alone);
        put(random, &mut own, opposite(alone));
    }
    let own = if random.percent(15) { canonical(made, own) } else { respelled(random, own) };
    (own, respelled(random, target))
}

/// Mostly no other spelling of the own list, since then the value is kept.
fn apart(random: &mut Random, made: &Made, own: &List, exponents: Exponents) -> List {
    let first = target(random, made, own, exponents);
    if canonical(made, own.clone()) == canonical(made, first.clone()) {
        target(random, made, own, exponents)
    } else {
        first
    }
}

/// The canonical form, or the list itself where it has none.
fn canonical(made: &Made, list: List) -> List {
    let parts = resolved(&made.table, Some(list.clone()));
    parts.and_then(|parts| form(&made.table, &parts)).map_or(list, |parts| written(&parts))
}

/// What the own list converts to, mostly: in other words, or with some of its factors under other exponents.
fn target(random: &mut Random, made: &Made, own: &List, exponents: Exponents) -> List {
    match random.weighted(&[45, 45, 10]) {
        0 => rewritten(random, made, own),
        1 => completed(random, made, own, exponents).unwrap_or_else(|| rewritten(random, made, own)),
        _ => list(random, made),
    }
}

/// Some of the own factors, as they are or under other exponents, and in base factors what is missing then.
fn completed(random: &mut Random, made: &Made, own: &List, exponents: Exponents) -> Option<List> {
    let mut kept = Vec::new();
    for factor in &own.factors {
        match random.below(4) {
            0 => {}
            1 => kept.push(*factor),
            2 => kept.push(Factor { exponent: like(factor.exponent, exponents(random)), ..*factor }),
            _ => kept.push(Factor { exponent: exponents(random), ..*factor }),
        }
    }
    let parts = |list: List| resolved(&made.table, Some(list)).ok();
    let (own, taken) = (parts(own.clone())?, parts(List::of(kept.clone()))?);
    let missing = base_exponents(&made.table.rows, &joined(&own, &negated(&taken))).ok()?;
    kept.extend(written(&base_list(&made.table, &missing)).factors);
    (kept.len() <= LIST_PLACES).then(|| List::of(kept))
}

/// The other exponent under the sign of the first.
fn like(first: Exponent, other: Exponent) -> Exponent {
    Exponent { num: other.num.abs() * first.num.signum(), den: if first.num == 0 { 1 } else { other.den } }
}

/// Of one of the own rows and prefixes, or of any.
fn factor(random: &mut Random, made: &Made, own: &List, exponents: Exponents) -> Factor {
    let any = Factor { row: random.below(made.rows.len()) as u32, prefix: prefix(random), exponent: exponents(random) };
    match own.factors.is_empty() || random.percent(60) {
        true => any,
        false => Factor { exponent: any.exponent, ..random.pick(&own.factors) },
    }
}

/// The factor at any place, if there is one.
fn put(random: &mut Random, list: &mut List, factor: Factor) {
    if list.factors.len() < LIST_PLACES {
        let at = random.below(list.factors.len() + 1);
        list.factors.insert(at, factor);
        list.len += 1;
    }
}

/// The same factors in another order, one of them split; or as they are.
fn respelled(random: &mut Random, list: List) -> List {
    let at = random.below(list.factors.len().max(1));
    let other = match random.below(4) {
        0 => shuffled(random, &list),
        1 => split(random, &list, at),
        2 => split(random, &list, at).and_then(|list| shuffled(random, &list)),
        _ => None,
    };
    other.filter(|other| other.factors.len() <= LIST_PLACES).unwrap_or(list)
}
