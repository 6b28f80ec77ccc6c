// Conversions whose multiplications are counted (02, "Order 5: count the multiplications"), in ways that have names: as they
// come, with powers at their limits, sixteen factors on both sides and in common, what counts 0, and what is refused.
use wire::records::{Exponent, Factor, LIST_PLACES, List, METRIC, Quantity};

use crate::faults::{list_fault, table_fault};
use crate::limits::{a_length, apart, exactly_1, exponent, free, like, of_scale_1, put, signed, table, under_most};
use crate::limits::{whole, with_length};
use crate::lists::{self, fraction_exponent, plain};
use crate::random::Random;
use crate::requests::{any_exponent, quantity_of};
use crate::rewriting::{rewritten, shuffled, split};
use crate::tables::{self, Made};
use crate::{cancelling, realistic};

#[derive(Debug, Clone)]
pub struct Conversion {
    pub made: Made,
    pub own: Quantity,
    pub target: List,
}

type Way = fn(&mut Random, usize) -> Conversion;

/// Every way with its name, and how often it is gone.
const WAYS: [(&str, usize, Way); 18] = [
    ("units in use", 10, |random, _| in_use(random)),
    ("factors that cancel", 10, cancelling),
    ("exponents and prefixes at their limits", 14, |random, _| at_limits(random)),
    ("sixteen factors on both sides", 9, |random, _| sixteen(random)),
    ("many factors in common", 9, |random, _| in_common(random)),
    ("the most by 01's rule, or nearly", 4, |random, _| most_by_01(random)),
    ("the most by order 3's, or nearly", 4, |random, _| most_merged(random)),
    ("zeros, and roots of exactly 1", 9, |random, _| zeros_and_roots(random)),
    ("a root in the own list", 4, |random, _| rooted(random, true)),
    ("a root in the target", 5, |random, _| rooted(random, false)),
    ("a zero", 3, |random, _| zero(random)),
    ("equal lists", 4, |random, _| equal(random)),
    ("other units", 3, |random, _| other_units(random)),
    ("powers beyond the range", 3, |random, _| beyond(random, [(i32::MAX, 1), (1, 1)])),
    ("roots beyond the range", 3, |random, _| beyond(random, [(1, 65_536), (1, 65_537)])),
    ("a faulty table", 3, |random, _| faulty(random, |random, c| table_fault(random, &mut c.made.rows))),
    ("a faulty list", 2, |random, _| faulty(random, |random, c| list_fault(random, &mut c.own.unit))),
    ("a faulty target", 2, |random, _| faulty(random, |random, c| list_fault(random, &mut c.target))),
];

pub fn names() -> impl Iterator<Item = &'static str> {
    WAYS.iter().map(|(name, _, _)| *name)
}

/// A conversion in one of the ways, with the way's place among the names. The table has at most so many rows, if it isn't
/// the way's own.
pub fn conversion(random: &mut Random, limit: usize) -> (usize, Conversion) {
    let weights = WAYS.map(|(_, weight, _)| weight);
    let at = random.weighted(&weights);
    (at, WAYS[at].2(random, limit))
}

/// A value that isn't zero, over both lists.
fn over(random: &mut Random, made: Made, own: Vec<Factor>, target: Vec<Factor>) -> Conversion {
    let mut own = quantity_of(random, List::of(own));
    if own.value() == 0.0 {
        own.bits = 1.5f64.to_bits();
    }
    Conversion { made, own, target: List::of(target) }
}

// ---- what counts

fn in_use(random: &mut Random) -> Conversion {
    let made = realistic::table(random, 19);
    let unit = lists::list(random, &made);
    let target = rewritten(random, &made, &unit);
    over(random, made, unit.factors, target.factors)
}

fn cancelling(random: &mut Random, limit: usize) -> Conversion {
    let made = tables::table(random, limit);
    let unit = lists::list(random, &made);
    let (own, target) = cancelling::both(random, &made, unit, any_exponent);
    over(random, made, own.factors, target.factors)
}

/// A few factors on either side; some of them stand on both, some again on one.
fn at_limits(random: &mut Random) -> Conversion {
    let made = table(random);
    let (few, more) = (random.below(6), random.below(6));
    let (mut own, mut target) = (apart(random, &made, few), apart(random, &made, more));
    if random.percent(60) {
        with_length(random, &made, &mut own, &mut target);
    }
    for _ in 0..random.below(3) {
        let shared = free(random, &made);
        put(random, &mut own, shared);
        let exponent = if shared.exponent.den == 1 { like(random, shared.exponent) } else { shared.exponent };
        put(random, &mut target, Factor { exponent, ..shared });
    }
    if random.percent(25) && !own.is_empty() {
        let again = random.pick(&own);
        put(random, &mut own, Factor { exponent: whole(-again.exponent.num.signum()), ..again });
    }
    over(random, made, own, target)
}

fn sixteen(random: &mut Random) -> Conversion {
    let made = table(random);
    let (mut own, mut target) = (apart(random, &made, LIST_PLACES), apart(random, &made, LIST_PLACES));
    if random.percent(30) {
        with_length(random, &made, &mut own, &mut target);
    }
    over(random, made, own, target)
}

/// The target has the own factors in another order, most of them under other exponents of the same sign.
fn in_common(random: &mut Random) -> Conversion {
    let made = table(random);
    let many = 1 + random.below(LIST_PLACES);
    let own = apart(random, &made, many);
    let mut target = own.clone();
    for factor in &mut target {
        if factor.exponent.den == 1 && random.percent(80) {
            factor.exponent = like(random, factor.exponent);
        }
    }
    random.shuffle(&mut target);
    over(random, made, own, target)
}

/// Three lists of four stay as they are; in the fourth some exponents become others.
fn nearly(random: &mut Random, list: &mut [Factor]) {
    if random.percent(25) {
        let at = random.below(list.len());
        list[at].exponent = exponent(random);
        list[0].exponent = exponent(random);
    }
}

/// The own exponent is all in common, and as much is left of the target's: three powers of 59 for each own factor, and 19
/// for each prefix.
fn most_by_01(random: &mut Random) -> Conversion {
    let made = of_scale_1(4 + random.below(5) as u16);
    let mut own = under_most(random, [0, 1, 2, 3]);
    own.iter_mut().for_each(|f| f.exponent = whole(signed(random, (1 << 30) - 1)));
    let mut target = own.clone();
    target.iter_mut().for_each(|f| f.exponent.num *= 2);
    random.shuffle(&mut target);
    nearly(random, &mut target);
    over(random, made, own, target)
}

/// Nothing is common: a power of 61 for each factor, and 19 for its prefix.
fn most_merged(random: &mut Random) -> Conversion {
    let made = of_scale_1(8);
    let [own, target] = [[0, 1, 2, 3], [4, 5, 6, 7]].map(|rows| {
        let mut list = under_most(random, rows);
        list.iter_mut().for_each(|f| f.exponent = whole(signed(random, i32::MAX)));
        nearly(random, &mut list);
        list
    });
    over(random, made, own, target)
}

/// Factors to zero, and fractions where the size is exactly 1, under any prefix.
fn zeros_and_roots(random: &mut Random) -> Conversion {
    let made = table(random);
    let (few, more) = (1 + random.below(5), random.below(5));
    let (mut own, mut target) = (apart(random, &made, few), apart(random, &made, more));
    for list in [&mut own, &mut target] {
        for _ in 0..1 + random.below(3) {
            let root = exactly_1(random, &made).filter(|_| random.percent(60));
            let zero = Factor { exponent: whole(0), ..free(random, &made) };
            put(random, list, root.unwrap_or(zero));
        }
    }
    over(random, made, own, target)
}

// ---- what counts 0, and what is refused

/// A root, mostly of another size than 1, among factors that count.
fn rooted(random: &mut Random, in_own: bool) -> Conversion {
    let made = table(random);
    let (few, more) = (random.below(5), random.below(5));
    let (mut own, mut target) = (apart(random, &made, few), apart(random, &made, more));
    with_length(random, &made, &mut own, &mut target);
    let root = Factor { exponent: fraction_exponent(random), ..free(random, &made) };
    put(random, if in_own { &mut own } else { &mut target }, root);
    over(random, made, own, target)
}

/// Of like units or of others.
fn zero(random: &mut Random) -> Conversion {
    let mut conversion = if random.percent(70) { at_limits(random) } else { other_units(random) };
    conversion.own.bits = random.pick(&[0, 1 << 63]);
    conversion
}

fn equal(random: &mut Random) -> Conversion {
    let mut conversion = if random.percent(50) { at_limits(random) } else { sixteen(random) };
    let own = conversion.own.unit.clone();
    let at = random.below(own.factors.len().max(1));
    let respelled = split(random, &own, at).filter(|list| list.factors.len() <= LIST_PLACES).unwrap_or(own);
    conversion.target = shuffled(random, &respelled).unwrap_or(respelled);
    conversion
}

/// Powers of the second base row in the target alone.
fn other_units(random: &mut Random) -> Conversion {
    let mut conversion = at_limits(random);
    let mut target = conversion.target.factors;
    put(random, &mut target, Factor { exponent: whole(7), ..plain(1) });
    conversion.target = List::of(target);
    conversion
}

/// Exponents whose sum leaves the range: of one row and prefix, or of two rows of the same base exponents.
fn beyond(random: &mut Random, exponents: [(i32, u32); 2]) -> Conversion {
    let mut conversion = at_limits(random);
    let any = random.below(conversion.made.rows.len()) as u32;
    let rows = if random.percent(40) { [0, a_length(random, &conversion.made)] } else { [any, any] };
    let in_own = random.percent(60);
    let list = if in_own { &mut conversion.own.unit } else { &mut conversion.target };
    let mut factors = list.factors.clone();
    for (row, (num, den)) in rows.into_iter().zip(exponents) {
        put(random, &mut factors, Factor { row, prefix: METRIC, exponent: Exponent { num, den } });
    }
    *list = List::of(factors);
    conversion
}

fn faulty(random: &mut Random, put: fn(&mut Random, &mut Conversion)) -> Conversion {
    let mut conversion = at_limits(random);
    put(random, &mut conversion);
    conversion
}
