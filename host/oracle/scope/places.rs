// In which operation and at which step a request is refused as RANGE or DENOMINATOR, and by which halves, so that a
// comparison can say how often each was met; no answer hangs on it. The operation is noted where it is refused. For the
// step those of a row, a power, a canonical form, a reduction, a conversion, a multiple and a simplification are walked
// again; of the other calls no step is said.
use std::cell::Cell;

use wire::bytes;
use wire::calls::{FILES, KNOT_VECTOR, SPAN_QUOTIENT};
use wire::refusals::{DENOMINATOR, RANGE};
use wire::stream::Request;

use crate::Checked;
use crate::arguments::{self, Arguments};
use crate::calls::given;
use crate::canonical::canonical;
use crate::conversion::{common, converted, converted_merged};
use crate::fractions::ONE;
use crate::lists::{Part, joined, negated, resolved, shaped};
use crate::multiples::is_multiple_of;
use crate::reduction::base_exponents;
use crate::simplification::group_target;
use crate::sums::Quantity;
use crate::tables::{Known, Table, admitted_row};

#[derive(Debug, Clone, Copy, PartialEq, Eq)]
pub enum Operation {
    Sum,
    Product,
    Quotient,
    Multiple,
}

/// Which halves left their range.
#[derive(Debug, Clone, Copy, PartialEq, Eq)]
pub enum Halves {
    Numerator,
    Denominator,
    Both,
}

thread_local! {
    static LAST: Cell<Option<(Operation, Halves)>> = const { Cell::new(None) };
}

/// An operation is refused; one half at least has left its range.
pub fn refused(operation: Operation, numerator: bool, denominator: bool) {
    let halves = match (numerator, denominator) {
        (true, true) => Halves::Both,
        (true, false) => Halves::Numerator,
        _ => Halves::Denominator,
    };
    LAST.set(Some((operation, halves)));
}

/// The step that was not passed.
type Walked = Result<(), &'static str>;

/// Where a request was refused as RANGE or DENOMINATOR.
pub struct Place {
    pub operation: &'static str,
    pub step: Option<&'static str>,
    pub halves: Halves,
}

pub fn of(request: &Request) -> Option<Place> {
    LAST.set(None);
    given(request).err().filter(|refusal| is_a_half(*refusal))?;
    // A power's exponent that is too large is no operation.
    let (operation, halves) = match LAST.get() {
        Some((Operation::Sum, halves)) => ("sum", halves),
        Some((Operation::Product, halves)) => ("product", halves),
        Some((Operation::Quotient, halves)) => ("quotient", halves),
        Some((Operation::Multiple, halves)) => ("common multiple", halves),
        None => ("whole exponent", Halves::Numerator),
    };
    Some(Place { operation, step: step(request), halves })
}

fn step(request: &Request) -> Option<&'static str> {
    match arguments::of(request) {
        _ if FILES.contains(&request.code) => None,
        Ok(a) if [KNOT_VECTOR, SPAN_QUOTIENT].contains(&request.code) => knot(request, &a.table),
        Ok(arguments) => call(request.code, arguments).ok()?.err(),
        Err(_) => row(&request.arguments[0]),
    }
}

fn row(table: &[u8]) -> Option<&'static str> {
    let mut known: Vec<Known> = Vec::new();
    for row in bytes::table(table)? {
        let Ok(next) = admitted_row(&known, &row) else {
            let parts: Vec<Part> = row.def.iter().map(shaped).collect::<Checked<_>>().ok()?;
            return Some(if base_exponents(&known, &parts).is_err() { "row: base exponents" } else { "row: key" });
        };
        known.push(next);
    }
    None
}

fn call(code: u32, mut a: Arguments) -> Checked<Walked> {
    Ok(match code {
        4 => Err("power: a product"),
        5 => Err("canonical form: merging"),
        7 | 8 => Err("reduction: base exponents"),
        9 | 27 | 30 | 31 => {
            let (own, target) = (a.quantity()?, a.list()?);
            conversion(&a.table, &own.unit, &target, matches!(code, 27 | 31))
        }
        14 => {
            let (_, exponent) = (a.quantity()?, a.quantity()?);
            conversion(&a.table, &exponent.unit, &[], false)
        }
        17 | 18 => {
            let (first, second) = (a.quantity()?, a.quantity()?);
            conversion(&a.table, &second.unit, &first.unit, false)
        }
        20 => {
            let (first, second) = (a.list()?, a.list()?);
            multiple(&a.table, &first, &second)
        }
        21 | 22 => {
            let q = a.quantity()?;
            simplification(&a.table, &q).and(Err("simplification: candidates"))
        }
        _ => Ok(()),
    })
}

/// Of the lowest knot that is refused.
fn knot(request: &Request, table: &Table) -> Option<&'static str> {
    let rule = bytes::rule(&request.arguments[2]).or(bytes::span_rule(&request.arguments[2]).map(|span| span.rule))?;
    let target = resolved(table, Some(rule.target)).ok()?;
    for knot in bytes::knots(&request.arguments[1])? {
        let own = resolved(table, Some(knot.unit.clone())).ok()?;
        if converted_merged(table, knot.value(), &own, &target).is_err() {
            return conversion(table, &own, &target, true).err();
        }
    }
    None
}

/// Of a value that isn't zero; a zero is refused in the first two steps alone.
fn conversion(table: &Table, own: &[Part], target: &[Part], merged: bool) -> Walked {
    let own_form = canonical(table, own).or(Err("conversion: own canonical form"))?;
    let target_form = canonical(table, target).or(Err("conversion: target's canonical form"))?;
    let common = negated(&common(&own_form, &target_form));
    let mut own_left = joined(own, &common);
    if merged {
        own_left = canonical(table, &own_left).or(Err("conversion: own over the common list"))?;
    }
    base_exponents(&table.rows, &own_left).or(Err("conversion: own base exponents"))?;
    let left = canonical(table, &joined(target, &common)).or(Err("conversion: target over the common list"))?;
    base_exponents(&table.rows, &left).or(Err("conversion: the target's base exponents"))?;
    Ok(())
}

fn multiple(table: &Table, a: &[Part], b: &[Part]) -> Walked {
    let a = base_exponents(&table.rows, a).or(Err("multiple: the first's base exponents"))?;
    let b = base_exponents(&table.rows, b).or(Err("multiple: the second's base exponents"))?;
    let Some((first, own)) = a.first() else { return Ok(()) };
    let Some((_, other)) = b.iter().find(|(rank, _)| rank == first) else { return Ok(()) };
    if a != b {
        own.over(*other).or(Err("multiple: the quotient"))?;
        return Err("multiple: the products");
    }
    Ok(())
}

fn simplification(table: &Table, q: &Quantity) -> Walked {
    if converted(table, q.value, &q.unit, &[]).is_err_and(is_a_half) {
        return Err("simplification: to scalar");
    }
    let form = canonical(table, &q.unit).or(Err("simplification: to scalar"))?;
    for factor in form.iter().filter(|_| form.len() > 1) {
        let single = Part { exponent: ONE, ..*factor };
        let multiple = is_multiple_of(table, &form, &[single]).or(Err("simplification: a multiple"))?;
        let Some(exponent) = multiple.filter(|m| m.is_whole()) else { continue };
        let target = [Part { exponent, ..single }];
        if converted(table, q.value, &q.unit, &target).is_err_and(is_a_half) {
            return Err("simplification: to one factor");
        }
    }
    let mut unit = Vec::new();
    for group in form.chunk_by(|a, b| table.rows[a.row].key == table.rows[b.row].key) {
        let target = group_target(table, group).or(Err("simplification: a group's target"))?;
        if converted(table, 1.0, group, &target).is_err_and(is_a_half) {
            return Err("simplification: a group's conversion");
        }
        unit.extend(target);
    }
    canonical(table, &unit).or(Err("simplification: the targets merged"))?;
    Ok(())
}

fn is_a_half(refusal: u32) -> bool {
    [RANGE, DENOMINATOR].contains(&refusal)
}
