// Knot vectors in order (02, "Order 4: the knot vector"): knots that don't fall, in one unit, in several by turns, as
// suppliers mix them, again in other spellings, a last place or about a tolerance apart; and spans of them.
use scope::conversion::converted_merged;
use scope::knots::runs;
use scope::lists::resolved;
use wire::records::{Factor, List, Prefix, Quantity, Rule, SpanRule};

use crate::cancelling;
use crate::lists::{self, plain};
use crate::random::Random;
use crate::realistic;
use crate::requests::{any_exponent, quantity_of};
use crate::rewriting::rewritten;
use crate::tables::{self, Made};
use crate::values;

pub const MOST: usize = 512;

#[derive(Debug, Clone)]
pub struct Vector {
    pub made: Made,
    pub knots: Vec<Quantity>,
    pub rule: Rule,
}

/// A knot with its value in the target unit.
type Placed = (f64, Quantity);

/// A table, a target unit, knots in any order, and what is about their distance.
type Drawn = (Made, List, Vec<Placed>, f64);

impl Vector {
    pub fn value(&self, at: usize) -> Option<f64> {
        let knot = &self.knots[at];
        valued(&self.made, knot.value(), &knot.unit, &self.rule.target)
    }

    /// All values, if every knot converts.
    pub fn values(&self) -> Option<Vec<f64>> {
        (0..self.knots.len()).map(|at| self.value(at)).collect()
    }

    /// Of each knot the first value of its run, if every knot converts.
    pub fn firsts(&self) -> Option<Vec<f64>> {
        let runs = runs(&self.values()?, self.tolerance());
        Some(runs.iter().flat_map(|run| run.iter().map(|_| run[0])).collect())
    }

    pub fn tolerance(&self) -> f64 {
        f64::from_bits(self.rule.tolerance)
    }
}

pub fn valued(made: &Made, value: f64, own: &List, target: &List) -> Option<f64> {
    let parts = |list: &List| resolved(&made.table, Some(list.clone())).ok();
    converted_merged(&made.table, value, &parts(own)?, &parts(target)?).ok()
}

/// Most are short; some are as long as it goes.
fn count(random: &mut Random) -> usize {
    match random.weighted(&[60, 445, 340, 130, 20, 5]) {
        0 => 1,
        1 => random.within(2, 4) as usize,
        2 => random.within(5, 9) as usize,
        3 => random.within(10, 30) as usize,
        4 => random.within(31, MOST as i64) as usize,
        _ => random.pick(&[MOST - 1, MOST]),
    }
}

/// A vector over a table of at most so many rows, its multiplicities mostly within the degree.
pub fn in_order(random: &mut Random, limit: usize) -> Vector {
    let count = count(random);
    let (made, target, mut knots, near) = if limit >= NAMES.len() && random.percent(40) {
        supplied(random, count)
    } else {
        let made = tables::table(random, limit);
        rising(random, made, count)
    };
    knots.sort_by(|(a, _), (b, _)| a.partial_cmp(b).expect("values that are numbers"));
    let (values, knots): (Vec<f64>, Vec<Quantity>) = knots.into_iter().unzip();
    let tolerance = tolerance(random, &values, near);
    let degree = degree(random, &values, tolerance);
    Vector { made, knots, rule: Rule { tolerance: tolerance.to_bits(), degree, target } }
}

// ---- tolerance and degree

/// None, a last place, exactly a difference, about one, the least and the greatest there is.
fn tolerance(random: &mut Random, values: &[f64], near: f64) -> f64 {
    let at = random.below(values.len());
    let last_place = values[at].abs().next_up() - values[at].abs();
    let difference = values.get(at + 1).map_or(near, |next| next - values[at]);
    let wide = values[values.len() - 1] - values[0];
    let found = match random.weighted(&[18, 5, 12, 18, 6, 6, 18, 3, 3, 4, 2, 5]) {
        0 => 0.0,
        1 => -0.0,
        2 => last_place,
        3 => difference,
        4 => difference.next_down(),
        5 => difference.next_up(),
        6 => near,
        7 => 5e-324,
        8 => f64::MIN_POSITIVE.next_down(),
        9 => wide / random.pick(&[1.0, 2.0, 3.0, 10.0]),
        10 => f64::MAX,
        _ => 2.0 * last_place,
    };
    if found.is_finite() && found >= 0.0 { found } else { near }
}

/// How many knots the largest run has.
pub fn largest(values: &[f64], tolerance: f64) -> usize {
    runs(values, tolerance).iter().map(|run| run.len()).max().unwrap_or(0)
}

/// Mostly one that the largest run keeps, often with no knot to spare.
fn degree(random: &mut Random, values: &[f64], tolerance: f64) -> u32 {
    let least = largest(values, tolerance).saturating_sub(1).clamp(1, 9) as i64;
    let at_least = random.within(least, 9) as u32;
    match random.weighted(&[40, 40, 20]) {
        0 => least as u32,
        1 => at_least,
        _ => random.within(1, 9) as u32,
    }
}

// ---- values and units of any table

/// Values that don't fall, in the target unit, and what is about their distance.
fn steps(random: &mut Random, count: usize) -> (Vec<f64>, f64) {
    if random.percent(9) {
        let far = [-f64::MAX, -1.5e308, -1e308, -9e307, 9e307, 1e308, 1.5e308, f64::MAX];
        let wide = random.percent(50);
        let mut one = || if wide { random.pick(&far) } else { f64::from_bits(values::bits(random)) };
        let all: Vec<f64> = (0..count).map(|_| one()).collect();
        let all = all.into_iter().map(|value| if value.is_finite() { value } else { 1e308 }).collect();
        return (all, random.pick(&[1.0, 0.5, 1e300]));
    }
    let size = random.pick(&[1.0, 1.0, 1.0, 1.0, 0.1, 25.4, 1e-3, 1e6, 1e-300, 5e-324, 1e290]);
    let steps: &[f64] = match random.weighted(&[40, 30, 15, 15]) {
        0 => &[0.0, 0.0, 1.0, 1.0, 2.0, 0.5, 10.0],
        1 => &[0.0, 0.3, 0.5, 0.6, 0.9, 1.0, 1.0, 1.0000000000000002, 1.5, 3.0],
        2 => &[0.0, 0.0, 0.0, 1.0],
        _ => &[],
    };
    let mut value = size * random.pick(&[0.0, 0.0, 1.0, -1.0, -3.0, 7.0, -0.5, 1000.0]);
    let mut all = Vec::new();
    for _ in 0..count {
        all.push(value);
        value = match steps.is_empty() {
            false => value + size * random.pick(steps),
            true => (0..random.below(3)).fold(value, |value, _| value.next_up()),
        };
    }
    (all, size)
}

/// A target and units that convert to it, with factors in common, in other words, or the target itself.
fn units(random: &mut Random, made: &Made) -> (List, Vec<List>) {
    let first = lists::list(random, made);
    let (own, target) = cancelling::both(random, made, first, any_exponent);
    let converts = |list: &List, target: &List| {
        let there = valued(made, 1.0, list, target);
        there.is_some_and(|value| value.is_finite() && value != 0.0)
    };
    let target = if converts(&target, &target) { target } else { List::of(vec![plain(0)]) };
    let mut all = vec![target.clone()];
    for _ in 0..random.pick(&[0, 1, 1, 2, 3]) {
        let other = if random.percent(40) { own.clone() } else { rewritten(random, made, &target) };
        if converts(&other, &target) {
            all.push(other);
        }
    }
    if all.len() > 1 && random.percent(50) {
        all.remove(0);
    }
    (target, all)
}

/// The value as it is in a unit, and what comes of it; in the target unit where it has none.
fn placed(random: &mut Random, made: &Made, value: f64, unit: &List, target: &List) -> Placed {
    let own = valued(made, value, target, unit);
    let there = own.and_then(|own| valued(made, own, unit, target)).filter(|there| there.is_finite());
    let (value, own, unit) = match (own, there) {
        (Some(own), Some(there)) => (there, own, unit),
        _ => (value, value, target),
    };
    (value, Quantity { bits: own.to_bits(), ..quantity_of(random, unit.clone()) })
}

/// In one unit, in several by turns, or in any of several.
fn rising(random: &mut Random, made: Made, count: usize) -> Drawn {
    let (target, units) = units(random, &made);
    let (values, near) = steps(random, count);
    let by_turns = random.percent(50);
    let mut knots = Vec::new();
    for (at, value) in values.into_iter().enumerate() {
        let unit = if by_turns { at % units.len() } else { random.below(units.len()) };
        knots.push(placed(random, &made, value, &units[unit], &target));
    }
    (made, target, knots, near)
}

// ---- as suppliers send them

const NAMES: [&str; 5] = ["metre", "inch", "foot", "degree", "radian"];

/// A unit's place among the names, its metric prefix, and how many of it are one of the grid's unit.
type Sent = (usize, i32, f64);

const LENGTHS: [Sent; 5] = [(0, -3, 1.0), (0, 0, 1e-3), (0, -2, 0.1), (1, 0, 1.0 / 25.4), (2, 0, 1.0 / 304.8)];
const ANGLES: [Sent; 2] = [(3, 0, 1.0), (4, 0, std::f64::consts::PI / 180.0)];

/// Places on a grid in millimetres or degrees, each sent once or more in a mix of units, as decimals or as near as it goes.
fn supplied(random: &mut Random, count: usize) -> Drawn {
    let (sent, grid): (&[Sent], f64) = match random.percent(60) {
        true => (&LENGTHS, random.pick(&[0.1, 0.5, 1.0, 1.5875, 12.7, 25.4, 63.5, 304.8])),
        false => (&ANGLES, random.pick(&[1.0, 7.5, 12.0, 15.0, 22.5, 45.0])),
    };
    let (made, rows) = realistic::of(random, &NAMES);
    let unit = |(at, n, _): Sent| List::of(vec![Factor { prefix: Prefix { kind: 0, n }, ..plain(rows[at]) }]);
    let target = unit(random.pick(sent));
    let (digits, mut place) = (random.pick(&[1e3, 1e4, 1e6, 1e9]), random.within(-4, 4));
    let mut knots = Vec::new();
    while knots.len() < count {
        for _ in 0..random.pick(&[1, 1, 1, 2, 2, 3, 4]).min(count - knots.len()) {
            let one = random.pick(sent);
            let value = place as f64 * grid * one.2;
            let value = if random.percent(60) { (value * digits).round() / digits } else { value };
            let there = valued(&made, value, &unit(one), &target).expect("a length or an angle");
            knots.push((there, Quantity::of(value, unit(one))));
        }
        place += random.within(1, 3);
    }
    (made, target, knots, random.pick(&[1e-12, 1e-9, 1e-6, 1e-4, 1e-3]))
}

// ---- spans

/// What is told of x beside its bits.
pub const SORTS: [&str; 6] = ["at the left end", "inside", "at the right end", "outside", "infinite", "NaN"];

/// Bits of x of one of the sorts for the ends of a span.
pub fn x(random: &mut Random, sort: usize, left: f64, right: f64) -> u64 {
    let wide = right - left;
    let inside = left + wide * random.pick(&[0.5, 0.25, 1.0 / 3.0, 0.1, 0.999]);
    let beside = [left.next_down(), right.next_up(), left - wide, right + wide, -1e308, 1e308, 0.0, -0.0];
    match sort {
        0 => left.to_bits(),
        1 => random.pick(&[inside, left.next_up(), right.next_down()]).to_bits(),
        2 => right.to_bits(),
        3 => random.pick(&beside).to_bits(),
        4 => random.pick(&[f64::INFINITY, f64::NEG_INFINITY]).to_bits(),
        _ => random.pick(&[0x7ff8_0000_0000_0000, 0xfff8_0000_0000_0001, 0x7ff0_0000_0000_0001, u64::MAX]),
    }
}

/// The ends of the span of a place, or others where there are none.
pub fn ends(firsts: &Option<Vec<f64>>, place: usize) -> (f64, f64) {
    let value = |at: usize| firsts.as_ref().and_then(|all| all.get(at).copied());
    (value(place).unwrap_or(0.0), value(place + 1).unwrap_or(1.0))
}

/// A span and an x of it: any place, the first, the last, and past the end.
pub fn spanned(random: &mut Random, vector: &Vector) -> SpanRule {
    let knots = vector.knots.len();
    let last = knots.saturating_sub(2);
    let any = random.below(last + 1);
    let place = match random.weighted(&[62, 12, 12, 5, 5, 4]) {
        0 => any,
        1 => 0,
        2 => last,
        3 => knots.saturating_sub(1),
        4 => knots,
        _ => random.pick(&[512, 513, u32::MAX as usize]),
    };
    let (left, right) = ends(&vector.firsts(), place);
    let sort = random.below(SORTS.len());
    let any = values::bits(random);
    let x = if random.percent(10) { any } else { x(random, sort, left, right) };
    SpanRule { rule: vector.rule.clone(), x, place: place as u32 }
}
