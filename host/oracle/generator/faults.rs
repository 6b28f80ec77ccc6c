// Faults put into a request that was in order, so that every refusal is met.
use wire::records::{Exponent, Factor, List, Quantity, Row, Rule};

use crate::files;
use crate::random::Random;
use crate::requests::{Draft, Part};

/// One fault in the table or in one of the parts.
pub fn put(random: &mut Random, draft: &mut Draft) {
    if random.percent(35) && draft.has_table() {
        table_fault(random, &mut draft.made.rows);
        return;
    }
    let at = random.below(draft.parts.len());
    match &mut draft.parts[at] {
        Part::File(file) => *file = files::damaged(random, &draft.made.rows).2,
        Part::Lent(n) => *n = random.below(*n as usize + 1) as u32,
        Part::Prefix(p) => p.n = random.pick(&[1101, -1101, i32::MIN, i32::MAX]),
        Part::Exponent(e) => *e = bad_exponent(random),
        Part::List(l) => list_fault(random, l),
        Part::Quantity(q) => list_fault(random, &mut q.unit),
        Part::Knots(knots) => knot_faults(random, knots),
        Part::Rule(rule) => rule_fault(random, rule),
        Part::SpanRule(span) if random.percent(25) => span.place = random.pick(&[511, 512, u32::MAX]),
        Part::SpanRule(span) => rule_fault(random, &mut span.rule),
        Part::Candidates(all) => match all.len() {
            0 | 1 => {}
            n if random.percent(50) => all.swap(0, n - 1),
            n => {
                let at = random.below(n);
                list_fault(random, &mut all[at].unit);
            }
        },
    }
}

fn bad_exponent(random: &mut Random) -> Exponent {
    let (num, den) = random.pick(&[(2, 4), (0, 2), (1, 0), (i32::MIN, 1), (1, 0x8000_0000), (0, 0), (3, 3)]);
    Exponent { num, den }
}

/// One knot or two.
fn knot_faults(random: &mut Random, knots: &mut [Quantity]) {
    for _ in 0..1 + random.below(2) {
        if !knots.is_empty() {
            let at = random.below(knots.len());
            list_fault(random, &mut knots[at].unit);
        }
    }
}

fn rule_fault(random: &mut Random, rule: &mut Rule) {
    match random.below(3) {
        0 => rule.degree = random.pick(&[0, 10, u32::MAX]),
        1 => rule.tolerance = random.pick(&[f64::NAN, f64::INFINITY, -1.0, -5e-324]).to_bits(),
        _ => list_fault(random, &mut rule.target),
    }
}

pub fn table_fault(random: &mut Random, rows: &mut [Row]) {
    let at = random.below(rows.len());
    let row = &mut rows[at];
    match random.below(9) {
        0 => row.kind = 2,
        1 => row.bits = random.pick(&[0.0f64, -1.0, f64::NAN, f64::INFINITY]).to_bits(),
        2 => row.len = 9,
        3 => row.def.iter_mut().take(1).for_each(|f| f.row = at as u32),
        4 => row.def.iter_mut().take(1).for_each(|f| f.exponent = bad_exponent(random)),
        5 => row.def.iter_mut().take(1).for_each(|f| f.prefix.n = 1101),
        6 => row.def.iter_mut().take(1).for_each(|f| f.exponent = Exponent { num: 2147483647, den: 1 }),
        7 => row.def.iter_mut().take(1).for_each(|f| f.exponent = Exponent { num: 1, den: 2 }),
        _ => {
            let rank = rows[0].rank;
            rows[at].rank = rank;
        }
    }
}

pub fn list_fault(random: &mut Random, list: &mut List) {
    let at = random.below(list.factors.len().max(1));
    if list.factors.is_empty() || random.percent(10) {
        list.len = 17;
        return;
    }
    let factor = &mut list.factors[at];
    match random.below(6) {
        0 => factor.row = random.pick(&[128, 200, u32::MAX]),
        1 => factor.prefix.n = 1101,
        2 => factor.prefix.kind = 2,
        3 => factor.exponent = bad_exponent(random),
        4 => factor.exponent = Exponent { num: 2147483647, den: 1 },
        _ => *factor = Factor { exponent: Exponent { num: 1, den: 3 }, ..*factor },
    }
}
