// Tables of units in use: all of them, or a few with what they are defined by, in a random order that respects definitions.
use wire::records::{Exponent, Factor, Prefix, Row};

use crate::random::Random;
use crate::tables::{Made, derived_row, made, unused_rank};

/// Unit, metric prefix, exponent.
type Part = (&'static str, i32, i32);

/// Name, factor (zero for a base unit), definition. Names in byte order: their order is the order of ranks.
const UNITS: [(&str, f64, &[Part]); 19] = [
    ("bit", 0.0, &[]),
    ("byte", 8.0, &[("bit", 0, 1)]),
    ("degree", std::f64::consts::PI / 180.0, &[("radian", 0, 1)]),
    ("foot", 12.0, &[("inch", 0, 1)]),
    ("gram", 0.0, &[]),
    ("hertz", 1.0, &[("second", 0, -1)]),
    ("hour", 60.0, &[("minute", 0, 1)]),
    ("inch", 0.0254, &[("metre", 0, 1)]),
    ("joule", 1.0, &[("newton", 0, 1), ("metre", 0, 1)]),
    ("litre", 1.0, &[("metre", -1, 3)]),
    ("metre", 0.0, &[]),
    ("mile", 5280.0, &[("foot", 0, 1)]),
    ("minute", 60.0, &[("second", 0, 1)]),
    ("newton", 1.0, &[("gram", 3, 1), ("metre", 0, 1), ("second", 0, -2)]),
    ("pascal", 1.0, &[("newton", 0, 1), ("metre", 0, -2)]),
    ("percent", 0.01, &[]),
    ("radian", 1.0, &[("metre", 0, 1), ("metre", 0, -1)]),
    ("second", 0.0, &[]),
    ("watt", 1.0, &[("joule", 0, 1), ("second", 0, -1)]),
];

fn place(name: &str) -> usize {
    UNITS.iter().position(|unit| unit.0 == name).expect("a unit in use")
}

/// The unit's place with all it is defined by.
fn with_definition(at: usize, wanted: &mut Vec<usize>) {
    for (name, _, _) in UNITS[at].2 {
        with_definition(place(name), wanted);
    }
    if !wanted.contains(&at) {
        wanted.push(at);
    }
}

/// Places in an order in which definitions name earlier ones.
fn ordered(random: &mut Random, mut left: Vec<usize>) -> Vec<usize> {
    let mut order: Vec<usize> = Vec::new();
    random.shuffle(&mut left);
    while !left.is_empty() {
        let ready = |at: &usize| UNITS[*at].2.iter().all(|part| order.contains(&place(part.0)));
        let next = left.iter().position(ready).expect("definitions have no circle");
        order.push(left.remove(next));
    }
    order
}

pub fn table(random: &mut Random, limit: usize) -> Made {
    let mut wanted = Vec::new();
    let some = if limit >= UNITS.len() && random.percent(12) { UNITS.len() } else { limit.min(2 + random.below(6)) };
    while wanted.len() < some {
        with_definition(random.below(UNITS.len()), &mut wanted);
    }
    placed(random, wanted).0
}

/// A table of these units and of what they are defined by, and each one's row.
pub fn of(random: &mut Random, names: &[&str]) -> (Made, Vec<u32>) {
    let mut wanted = Vec::new();
    names.iter().for_each(|name| with_definition(place(name), &mut wanted));
    let (made, order) = placed(random, wanted);
    let row = |name: &&str| order.iter().position(|at| *at == place(name)).expect("placed") as u32;
    (made, names.iter().map(row).collect())
}

/// The units in an order and under ranks of their own.
fn placed(random: &mut Random, wanted: Vec<usize>) -> (Made, Vec<usize>) {
    let order = ordered(random, wanted);
    let (offset, step, by_name) = (random.below(50) as u16, 1 + random.below(40) as u16, random.percent(75));
    let mut rows: Vec<Row> = Vec::new();
    for at in &order {
        let rank = if by_name { offset + step * *at as u16 } else { unused_rank(random, &rows) };
        rows.push(row(*at, rank, &order));
    }
    (made(rows).expect("units in use are admitted"), order)
}

fn row(at: usize, rank: u16, order: &[usize]) -> Row {
    let (_, factor, parts) = UNITS[at];
    if factor == 0.0 {
        return Row { rank, kind: 0, len: 0, bits: 0, def: Vec::new() };
    }
    let factor_of = |(name, prefix, exponent): &Part| Factor {
        row: order.iter().position(|o| *o == place(name)).expect("placed before") as u32,
        prefix: Prefix { kind: 0, n: *prefix },
        exponent: Exponent { num: *exponent, den: 1 },
    };
    derived_row(rank, factor, parts.iter().map(factor_of).collect())
}
