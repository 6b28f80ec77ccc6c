// One request for each call: arguments that fit together more often than not.
use scope::fractions::Fraction;
use wire::bytes::*;
use wire::calls::{CONVERT_MERGED_COUNTED, CONVERT_TO_COUNTED, KNOT_VECTOR, SPAN_QUOTIENT};
use wire::records::{Candidate, Exponent, Factor, List, Quantity, Rule, SpanRule, bits_of};
use wire::stream::Request;

use crate::cancelling;
use crate::counted;
use crate::files;
use crate::knots::{self, Vector};
use crate::lists::{self, fraction_exponent, raised, whole_exponent};
use crate::random::Random;
use crate::rewriting::{exchanged, rewritten};
use crate::tables::{self, Made};
use crate::troubles;
use crate::values;

/// A request before it is bytes, so that faults can be put into its parts.
#[derive(Debug, Clone)]
pub struct Draft {
    pub code: u32,
    pub made: Made,
    pub parts: Vec<Part>,
}

#[derive(Debug, Clone)]
pub enum Part {
    Prefix(wire::records::Prefix),
    Exponent(Exponent),
    List(List),
    Quantity(Quantity),
    Candidates(Vec<Candidate>),
    File(Vec<u8>),
    Lent(u32),
    Knots(Vec<Quantity>),
    Rule(Rule),
    SpanRule(SpanRule),
}

pub fn draft(random: &mut Random, code: u32, limit: usize) -> Draft {
    if [KNOT_VECTOR, SPAN_QUOTIENT].contains(&code) {
        let (_, vector) = troubles::vector(random, limit);
        return of_knots(random, code, vector);
    }
    if [CONVERT_TO_COUNTED, CONVERT_MERGED_COUNTED].contains(&code) {
        let (_, conversion) = counted::conversion(random, limit);
        let parts = vec![Part::Quantity(conversion.own), Part::List(conversion.target)];
        return Draft { code, made: conversion.made, parts };
    }
    let mut made = tables::table(random, limit);
    if code == 22 && random.percent(40) {
        made = tables::with_twin(random, made);
    }
    let parts = match code {
        1 => vec![Part::Prefix(any_prefix(random))],
        2 | 3 => vec![Part::List(lists::list(random, &made)), Part::List(lists::list(random, &made))],
        4 => vec![Part::List(lists::list(random, &made)), Part::Exponent(any_exponent(random))],
        5 | 7 => vec![Part::List(lists::list(random, &made))],
        6 | 19 => two_lists(random, &made),
        9 => conversion(random, &made),
        10..=13 | 17 | 18 => two_quantities(random, &made, code),
        14 => power(random, &made),
        20 => multiple(random, &made),
        22 => with_candidates(random, &made),
        24 => vec![Part::Lent(files::room(random, file(&made).len()))],
        25 | 26 => vec![Part::File(file(&made)), Part::Lent(files::places(random, made.rows.len()))],
        27 => cancelling(random, &made),
        _ => vec![Part::Quantity(quantity(random, &made))],
    };
    Draft { code, made, parts }
}

/// A knot vector as a request: its runs, or the quotient of one of its spans.
pub fn of_knots(random: &mut Random, code: u32, vector: Vector) -> Draft {
    let last = match code {
        KNOT_VECTOR => Part::Rule(vector.rule.clone()),
        _ => Part::SpanRule(knots::spanned(random, &vector)),
    };
    Draft { code, made: vector.made, parts: vec![Part::Knots(vector.knots), last] }
}

/// The file of the table, which is in order.
fn file(made: &Made) -> Vec<u8> {
    scope::files::file(&made.rows)
}

impl Draft {
    pub fn has_table(&self) -> bool {
        ![1, 25, 26].contains(&self.code)
    }

    pub fn request(&self) -> Request {
        let table = self.made.rows.iter().fold(Vec::new(), |mut out, row| {
            put_row(&mut out, row);
            out
        });
        let first = self.has_table().then_some(table);
        Request { code: self.code, arguments: first.into_iter().chain(self.parts.iter().map(part_bytes)).collect() }
    }
}

fn part_bytes(part: &Part) -> Vec<u8> {
    let mut out = Vec::new();
    match part {
        Part::Prefix(p) => put_prefix(&mut out, *p),
        Part::Exponent(e) => put_exponent(&mut out, *e),
        Part::List(l) => put_list(&mut out, l),
        Part::Quantity(q) => put_quantity(&mut out, q),
        Part::Candidates(all) => all.iter().for_each(|c| put_candidate(&mut out, c)),
        Part::File(file) => out.extend(file),
        Part::Lent(n) => put_u32(&mut out, *n),
        Part::Knots(knots) => knots.iter().for_each(|knot| put_quantity(&mut out, knot)),
        Part::Rule(rule) => put_rule(&mut out, rule),
        Part::SpanRule(span) => put_span_rule(&mut out, span),
    }
    out
}

fn any_prefix(random: &mut Random) -> wire::records::Prefix {
    let n = if random.percent(50) { random.within(-1100, 1100) } else { random.within(-330, 330) };
    wire::records::Prefix { kind: random.below(2) as u32, n: n as i32 }
}

pub fn any_exponent(random: &mut Random) -> Exponent {
    if random.percent(25) { fraction_exponent(random) } else { whole_exponent(random) }
}

pub fn quantity_of(random: &mut Random, unit: List) -> Quantity {
    let mark = if random.percent(15) { 0 } else { 1 + 6 * random.percent(3) as u32 };
    Quantity { bits: values::bits(random), mark, unit }
}

fn quantity(random: &mut Random, made: &Made) -> Quantity {
    let unit = lists::list(random, made);
    quantity_of(random, unit)
}

/// A second list: the first in other words, or one of its own.
fn beside(random: &mut Random, made: &Made, first: &List) -> List {
    if random.percent(75) { rewritten(random, made, first) } else { lists::list(random, made) }
}

fn two_lists(random: &mut Random, made: &Made) -> Vec<Part> {
    let first = lists::list(random, made);
    let second = beside(random, made, &first);
    vec![Part::List(first), Part::List(second)]
}

fn conversion(random: &mut Random, made: &Made) -> Vec<Part> {
    let own = quantity(random, made);
    let target = beside(random, made, &own.unit);
    vec![Part::Quantity(own), Part::List(target)]
}

fn cancelling(random: &mut Random, made: &Made) -> Vec<Part> {
    let unit = lists::list(random, made);
    let (own, target) = cancelling::both(random, made, unit, any_exponent);
    vec![Part::Quantity(quantity_of(random, own)), Part::List(target)]
}

fn two_quantities(random: &mut Random, made: &Made, code: u32) -> Vec<Part> {
    let first = quantity(random, made);
    let unit = beside(random, made, &first.unit);
    let mut second = quantity_of(random, unit);
    // So that equality is met: the first's own value, in the second's list.
    if code >= 17 && random.percent(45) {
        second.bits = converted(made, &first, &second.unit).unwrap_or(second.bits);
    }
    vec![Part::Quantity(first), Part::Quantity(second)]
}

fn converted(made: &Made, q: &Quantity, target: &List) -> Option<u64> {
    let own = scope::lists::resolved(&made.table, Some(q.unit.clone())).ok()?;
    let target = scope::lists::resolved(&made.table, Some(target.clone())).ok()?;
    scope::conversion::converted(&made.table, q.value(), &own, &target).ok().map(bits_of)
}

/// Lists that convert to the scalar: rows without base exponents, or a list over itself.
fn scalar_list(random: &mut Random, made: &Made) -> List {
    let bare: Vec<usize> = (0..made.rows.len()).filter(|at| made.table.rows[*at].exponents.is_empty()).collect();
    if bare.is_empty() || random.percent(30) {
        return rewritten(random, made, &List::of(Vec::new()));
    }
    List::of(vec![lists::plain(random.pick(&bare) as u32)])
}

fn power(random: &mut Random, made: &Made) -> Vec<Part> {
    let unit = match random.weighted(&[60, 30, 10]) {
        0 => List::of(Vec::new()),
        1 => scalar_list(random, made),
        _ => lists::list(random, made),
    };
    let wanted = if random.percent(82) { values::whole(random) } else { values::unwhole(random) };
    // The value that comes out as the wanted one, as near as it goes.
    let scalar = Quantity::of(wanted, List::of(Vec::new()));
    let bits = converted(made, &scalar, &unit).unwrap_or(scalar.bits);
    let mut base = quantity(random, made);
    if random.percent(8) {
        base.bits = random.pick(&[0, 1 << 63]);
    }
    vec![Part::Quantity(base), Part::Quantity(Quantity { bits, mark: 1, unit })]
}

fn multiple(random: &mut Random, made: &Made) -> Vec<Part> {
    let b = lists::list(random, made);
    let by = Fraction::of(any_exponent(random)).expect("exponents keep their rule");
    let a = match raised(&b, by) {
        Some(raised) if random.percent(70) => rewritten(random, made, &raised),
        _ => lists::list(random, made),
    };
    vec![Part::List(a), Part::List(b)]
}

fn with_candidates(random: &mut Random, made: &Made) -> Vec<Part> {
    let mut q = quantity(random, made);
    if q.value() == 0.0 && random.percent(80) {
        q.bits = 1.5f64.to_bits();
    }
    let foldable = lists::foldable(random, made).filter(|_| random.percent(50));
    let folded = foldable.map(|(unit, folded)| {
        q.unit = unit;
        folded
    });
    let count = if random.percent(4) { random.below(33) } else { random.below(7) };
    let mut ranks: Vec<u16> = (0..count).map(|_| random.bits() as u16).collect();
    ranks.sort();
    ranks.dedup();
    let candidate = |rank| Candidate { rank, unit: candidate(random, made, &q.unit, folded.as_ref()) };
    let candidates = ranks.into_iter().map(candidate).collect();
    vec![Part::Quantity(q), Part::Candidates(candidates)]
}

/// Mostly what could win: one row with the list's base exponents, or the list in other words.
fn candidate(random: &mut Random, made: &Made, unit: &List, folded: Option<&List>) -> List {
    if let Some(folded) = folded.filter(|_| random.percent(60)) {
        let mut factors = folded.factors.clone();
        random.shuffle(&mut factors);
        let folded = List::of(factors);
        let other = random.percent(30).then(|| random.below(folded.factors.len()));
        // Now and then another row of one key in a factor's place: its scale may be alike, or nearly so.
        return other.and_then(|at| exchanged(random, made, &folded, at)).unwrap_or(folded);
    }
    match random.weighted(&[55, 30, 15]) {
        0 => one_row(random, made, unit).unwrap_or_else(|| rewritten(random, made, unit)),
        1 => rewritten(random, made, unit),
        _ => lists::list(random, made),
    }
}

fn one_row(random: &mut Random, made: &Made, unit: &List) -> Option<List> {
    let parts = scope::lists::resolved(&made.table, Some(unit.clone())).ok()?;
    let fits = |at: &usize| {
        let row = scope::lists::shaped(&lists::plain(*at as u32)).expect("a plain factor");
        scope::multiples::is_multiple_of(&made.table, &parts, &[row]).ok().flatten().map(|m| (*at, m))
    };
    let all: Vec<(usize, Fraction)> = (0..made.rows.len()).collect::<Vec<_>>().iter().filter_map(fits).collect();
    let (row, multiple) = (!all.is_empty()).then(|| random.pick(&all))?;
    let prefix = if random.percent(80) { wire::records::METRIC } else { lists::prefix(random) };
    Some(List::of(vec![Factor { row: row as u32, prefix, exponent: multiple.exponent() }]))
}
