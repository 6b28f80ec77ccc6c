// Knot vectors in ways that have names: as made, at the limits of a multiplicity, with zeros, and with what is refused,
// alone and where two refusals compete.
use wire::records::{Exponent, Factor, LIST_PLACES, List, Prefix, Quantity};

use crate::faults::{list_fault, table_fault};
use crate::knots::{self, MOST, Vector, largest};
use crate::lists::{self, plain};
use crate::random::Random;

/// What is put into a vector in order.
type Put = fn(&mut Random, &mut Vector);

/// Every way with its name, and how often it is gone.
const WAYS: [(&str, usize, Put); 21] = [
    ("as made", 30, |_, _| {}),
    ("a multiplicity of degree + 1", 6, |random, vector| filled(random, vector, 1)),
    ("a multiplicity of degree + 2", 5, |random, vector| filled(random, vector, 2)),
    ("zeros of both signs", 4, |random, vector| zeros(random, vector, false)),
    ("zeros in other units", 4, |random, vector| zeros(random, vector, true)),
    ("a fall", 6, fall),
    ("a NaN", 3, nan),
    ("an infinity", 3, infinity),
    ("a fall and too many", 2, |random, vector| both(random, vector, fall, |r, v| filled(r, v, 2))),
    ("a refused knot", 9, |random, vector| refused(random, vector, 1)),
    ("two refused knots", 5, |random, vector| refused(random, vector, 2)),
    ("a refused knot and a fall", 3, |random, vector| both(random, vector, fall, |r, v| refused(r, v, 1))),
    ("a faulty list", 3, faulty_list),
    ("a faulty target", 3, faulty_target),
    ("a faulty target and a refused knot", 2, |random, vector| both(random, vector, faulty_target, faulty_list)),
    ("a faulty table", 3, faulty_table),
    ("a faulty table and a refused knot", 1, |random, vector| both(random, vector, faulty_list, faulty_table)),
    ("a bad count", 2, bad_count),
    ("a bad degree", 2, bad_degree),
    ("a bad tolerance", 3, bad_tolerance),
    ("a bad argument and another fault", 4, argued),
];

pub fn names() -> impl Iterator<Item = &'static str> {
    WAYS.iter().map(|(name, _, _)| *name)
}

/// A vector in one of the ways, with the way's place among the names.
pub fn vector(random: &mut Random, limit: usize) -> (usize, Vector) {
    let vector = knots::in_order(random, limit);
    troubled(random, vector)
}

/// The vector gone one of the ways.
pub fn troubled(random: &mut Random, mut vector: Vector) -> (usize, Vector) {
    let weights = WAYS.map(|(_, weight, _)| weight);
    let at = random.weighted(&weights);
    WAYS[at].2(random, &mut vector);
    (at, vector)
}

fn both(random: &mut Random, vector: &mut Vector, first: Put, second: Put) {
    first(random, vector);
    second(random, vector);
}

/// The first knot, one in the middle or the last.
fn place(random: &mut Random, vector: &Vector) -> usize {
    let last = vector.knots.len() - 1;
    match random.below(3) {
        0 => 0,
        1 => last,
        _ => random.below(last + 1),
    }
}

// ---- multiplicities

/// The largest run gets as many knots as a degree and so many more, none of another value.
fn filled(random: &mut Random, vector: &mut Vector, more: usize) {
    let Some(values) = vector.values() else { return };
    let most = largest(&values, vector.tolerance());
    if most > 9 + more {
        return;
    }
    let least = most.saturating_sub(more).max(1);
    let degree = least + random.below((10 - least).min(3));
    let runs = scope::knots::runs(&values, vector.tolerance());
    let mut end = 0;
    for run in runs {
        end += run.len();
        if run.len() == most {
            break;
        }
    }
    let missing = degree + more - most;
    if vector.knots.len() + missing <= MOST {
        let last = vector.knots[end - 1].clone();
        vector.knots.splice(end..end, std::iter::repeat_n(last, missing));
        vector.rule.degree = degree as u32;
    }
}

/// Zeros where the values pass from below to above, as many as there are places.
fn zeros(random: &mut Random, vector: &mut Vector, other_units: bool) {
    let Some(values) = vector.values() else { return };
    let mut at = values.partition_point(|value| *value < 0.0);
    for _ in 0..(1 + random.below(3)).min(MOST - vector.knots.len()) {
        let unit = if other_units { lists::list(random, &vector.made) } else { vector.rule.target.clone() };
        vector.knots.insert(at, Quantity { bits: random.pick(&[0, 1 << 63]), mark: 1, unit });
        at += random.below(2);
    }
}

// ---- what is refused as ORDER

/// Two unlike neighbours change places, or one falls by a last place; the first, the last or any.
fn fall(random: &mut Random, vector: &mut Vector) {
    let at = place(random, vector).max(1);
    let Some(before) = vector.value(at - 1).filter(|_| at < vector.knots.len()) else { return };
    let rises = vector.value(at).is_some_and(|value| before < value);
    match rises && random.percent(50) {
        true => vector.knots.swap(at - 1, at),
        false => vector.knots[at] = Quantity::of(before.next_down(), vector.rule.target.clone()),
    }
}

fn any_nan(random: &mut Random) -> u64 {
    random.pick(&[0x7ff8_0000_0000_0000, 0xfff8_0000_0000_0001, 0x7ff0_0000_0000_0001, u64::MAX])
}

/// As it is given, or of scales that have no value.
fn nan(random: &mut Random, vector: &mut Vector) {
    let (at, bits) = (place(random, vector), any_nan(random));
    match random.percent(70) {
        true => vector.knots[at].bits = bits,
        false => under(random, vector, at, [(1100, 1, 1), (1099, -1, 1)]),
    }
}

fn infinity(random: &mut Random, vector: &mut Vector) {
    let at = place(random, vector);
    match random.percent(70) {
        true => vector.knots[at].bits = random.pick(&[f64::INFINITY, f64::NEG_INFINITY]).to_bits(),
        false => under(random, vector, at, [(1100, 1, 1), (0, -1, 1)]),
    }
}

// ---- what a conversion refuses

/// Two factors of one row, each with its metric prefix and exponent, in a knot that isn't zero.
fn under(random: &mut Random, vector: &mut Vector, at: usize, parts: [(i32, i32, u32); 2]) {
    let row = random.below(vector.made.rows.len()) as u32;
    let knot = &mut vector.knots[at];
    if knot.value() == 0.0 {
        knot.bits = 1.0f64.to_bits();
    }
    let factor =
        |(n, num, den)| Factor { prefix: Prefix { kind: 0, n }, exponent: Exponent { num, den }, ..plain(row) };
    put(random, &mut knot.unit, &parts.map(factor));
}

/// The factors somewhere in the list, in place of the last ones if it is full.
fn put(random: &mut Random, list: &mut List, more: &[Factor]) {
    list.factors.truncate(LIST_PLACES - more.len());
    let at = random.below(list.factors.len() + 1);
    list.factors.splice(at..at, more.iter().copied());
    list.len = list.factors.len() as u32;
}

/// RANGE, DENOMINATOR, FRACTION or UNITS at the first, the last or any knot; so many times.
fn refused(random: &mut Random, vector: &mut Vector, times: usize) {
    for _ in 0..times {
        let at = place(random, vector);
        match random.below(4) {
            0 => under(random, vector, at, [(0, i32::MAX, 1), (0, 1, 1)]),
            1 => under(random, vector, at, [(0, 1, 65_536), (0, 1, 65_537)]),
            2 => under(random, vector, at, [(0, 1, 2), (3, -1, 2)]),
            _ => under(random, vector, at, [(0, 7, 1), (0, 4, 1)]),
        }
    }
}

fn faulty_list(random: &mut Random, vector: &mut Vector) {
    let at = place(random, vector);
    list_fault(random, &mut vector.knots[at].unit);
}

fn faulty_target(random: &mut Random, vector: &mut Vector) {
    list_fault(random, &mut vector.rule.target);
}

fn faulty_table(random: &mut Random, vector: &mut Vector) {
    table_fault(random, &mut vector.made.rows);
}

// ---- what is refused as ARGUMENT

fn bad_count(random: &mut Random, vector: &mut Vector) {
    let count = random.pick(&[0, 0, 0, 0, 0, MOST + 1, MOST + 1, 600]);
    vector.knots = vector.knots.iter().cycle().take(count).cloned().collect();
}

fn bad_degree(random: &mut Random, vector: &mut Vector) {
    vector.rule.degree = random.pick(&[0, 0, 10, 10, 11, 255, 256, 1 << 31, u32::MAX]);
}

fn bad_tolerance(random: &mut Random, vector: &mut Vector) {
    let (nan, negative) = (any_nan(random), random.pick(&[-1.0, -1e-9, -5e-324, -f64::MAX]));
    vector.rule.tolerance = match random.below(3) {
        0 => nan,
        1 => random.pick(&[f64::INFINITY, f64::NEG_INFINITY]).to_bits(),
        _ => negative.to_bits(),
    };
}

/// Before what would be refused without it.
fn argued(random: &mut Random, vector: &mut Vector) {
    let others: [Put; 6] = [faulty_table, faulty_list, faulty_target, fall, nan, |r, v| refused(r, v, 1)];
    let bad: [Put; 4] = [bad_degree, bad_degree, bad_tolerance, bad_tolerance];
    random.pick(&others)(random, vector);
    match random.percent(5) {
        true => bad_count(random, vector),
        false => random.pick(&bad)(random, vector),
    }
}
