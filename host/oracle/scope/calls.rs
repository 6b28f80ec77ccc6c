// Every call from a request to its answer by 01's rules and 02's.
use wire::bytes::{lent, put_counted, put_exponent, put_list, put_quantity, put_u32, put_u64};
use wire::calls::{CONVERT_MERGED_COUNTED, CONVERT_TO_COUNTED, FILES, KNOT_VECTOR, SPAN_QUOTIENT};
use wire::records::{self, bits_of};
use wire::refusals::DIVZERO;
use wire::stream::{Answer, Request};

use crate::Checked;
use crate::arguments::{self, Arguments};
use crate::canonical::{canonical, same};
use crate::conversion::{converted, converted_merged, counted, counted_merged};
use crate::domain::number;
use crate::files;
use crate::fractions::{Fraction, ZERO};
use crate::knots;
use crate::lists::{Part, joined, negated, power, with_room, written};
use crate::multiples::is_multiple_of;
use crate::reduction::{base_exponents, prefix_factor, scale};
use crate::registry::{base_list, full_simplify_with};
use crate::simplification::full_simplify;
use crate::sums::{self, Quantity, fresh, is_zero};

/// 01's answer to a request.
pub fn answer(request: &Request) -> Answer {
    match given(request) {
        Ok(bytes) => Answer::given(bytes),
        Err(refusal) => Answer::refused(number(refusal)),
    }
}

pub fn given(request: &Request) -> Checked<Vec<u8>> {
    if request.code == 1 {
        let prefix = arguments::prefix(request)?;
        return Ok(bytes(|out| put_u64(out, bits_of(prefix_factor(prefix)))));
    }
    if FILES.contains(&request.code) {
        return on_files(request);
    }
    if [KNOT_VECTOR, SPAN_QUOTIENT].contains(&request.code) {
        return on_knots(request);
    }
    let mut a = arguments::of(request)?;
    match request.code {
        2..=7 | 19 | 20 => on_lists(request.code, &mut a),
        17 | 18 => comparison(request.code, &mut a),
        10..=14 => on_two(request.code, &mut a),
        CONVERT_TO_COUNTED | CONVERT_MERGED_COUNTED => with_count(request.code, &mut a),
        _ => on_one(request.code, &mut a),
    }
}

fn bytes(put: impl FnOnce(&mut Vec<u8>)) -> Vec<u8> {
    let mut out = Vec::new();
    put(&mut out);
    out
}

fn list_bytes(parts: &[Part]) -> Vec<u8> {
    bytes(|out| put_list(out, &written(parts)))
}

fn record(q: &Quantity) -> records::Quantity {
    records::Quantity { bits: bits_of(q.value), mark: q.mark as u32, unit: written(&q.unit) }
}

fn quantity_bytes(q: &Quantity) -> Vec<u8> {
    bytes(|out| put_quantity(out, &record(q)))
}

fn number_bytes(n: u32) -> Vec<u8> {
    bytes(|out| put_u32(out, n))
}

fn multiple_bytes(multiple: Option<Fraction>) -> Vec<u8> {
    bytes(|out| {
        put_u32(out, multiple.is_some() as u32);
        put_exponent(out, multiple.unwrap_or(ZERO).exponent());
    })
}

fn on_files(request: &Request) -> Checked<Vec<u8>> {
    let [first, second] = &request.arguments[..] else { unreachable!("a call has its arguments") };
    let lent = lent(second) as usize;
    match request.code {
        24 => files::write(first, lent).map(|file| files::written_bytes(&file)),
        25 => files::read(first, lent).map(|rows| files::rows_bytes(&rows, 0)),
        _ => {
            let kept = files::salvage(first, lent);
            Ok(files::rows_bytes(&kept.rows, kept.byte as u32))
        }
    }
}

fn on_knots(request: &Request) -> Checked<Vec<u8>> {
    let [table, given, rule] = &request.arguments[..] else { unreachable!("a call has its arguments") };
    match request.code {
        KNOT_VECTOR => knots::vector(table, given, rule).map(|all| knots::vector_bytes(&all)),
        _ => {
            let quotient = knots::span(table, given, rule)?;
            Ok(bytes(|out| put_u64(out, bits_of(quotient))))
        }
    }
}

fn on_lists(code: u32, a: &mut Arguments) -> Checked<Vec<u8>> {
    let first = a.list()?;
    match code {
        4 => {
            let e = a.exponent()?;
            return Ok(list_bytes(&power(&first, e)?));
        }
        5 => return Ok(list_bytes(&canonical(&a.table, &first)?)),
        7 => return reduced(a, &first),
        _ => {}
    }
    let second = a.list()?;
    let table = &a.table;
    Ok(match code {
        2 => list_bytes(&with_room(joined(&first, &second))?),
        3 => list_bytes(&with_room(joined(&first, &negated(&second)))?),
        6 => number_bytes(same(table, &first, &second)? as u32),
        19 => list_bytes(sums::smaller_unit(table, &first, &second)?),
        _ => multiple_bytes(is_multiple_of(table, &first, &second)?),
    })
}

fn reduced(a: &Arguments, list: &[Part]) -> Checked<Vec<u8>> {
    let base = base_exponents(&a.table.rows, list)?;
    let scale = scale(&a.table.rows, list)?;
    let mut out = bytes(|out| put_u64(out, bits_of(scale)));
    out.extend(list_bytes(&base_list(&a.table, &base)));
    Ok(out)
}

fn comparison(code: u32, a: &mut Arguments) -> Checked<Vec<u8>> {
    let (first, second) = (a.quantity()?, a.quantity()?);
    Ok(number_bytes(match code {
        17 => sums::equal(&a.table, &first, &second)? as u32,
        _ => (sums::compare(&a.table, &first, &second)? as i8 + 1) as u32,
    }))
}

fn on_two(code: u32, a: &mut Arguments) -> Checked<Vec<u8>> {
    let (first, second) = (a.quantity()?, a.quantity()?);
    let table = &a.table;
    Ok(quantity_bytes(&match code {
        10 => sums::add(table, &first, &second)?,
        11 => sums::subtract(table, &first, &second)?,
        12 => fresh(first.value * second.value, with_room(joined(&first.unit, &second.unit))?),
        13 if is_zero(&second) => return Err(DIVZERO),
        13 => fresh(first.value / second.value, with_room(joined(&first.unit, &negated(&second.unit)))?),
        _ => sums::checked_power(table, &first, &second)?,
    }))
}

/// The quantity is the one that the conversion answers without its count.
fn with_count(code: u32, a: &mut Arguments) -> Checked<Vec<u8>> {
    let (q, target) = (a.quantity()?, a.list()?);
    let by_rule = if code == CONVERT_TO_COUNTED { counted } else { counted_merged };
    let answer = by_rule(&a.table, q.value, &q.unit, &target)?;
    let quantity = record(&fresh(answer.value, target));
    Ok(bytes(|out| put_counted(out, &records::Counted { quantity, count: answer.count })))
}

fn on_one(code: u32, a: &mut Arguments) -> Checked<Vec<u8>> {
    let q = a.quantity()?;
    Ok(quantity_bytes(&match code {
        8 => {
            let base = base_exponents(&a.table.rows, &q.unit)?;
            fresh(q.value * scale(&a.table.rows, &q.unit)?, base_list(&a.table, &base))
        }
        9 | 27 => {
            let target = a.list()?;
            let by_rule = if code == 9 { converted } else { converted_merged };
            fresh(by_rule(&a.table, q.value, &q.unit, &target)?, target)
        }
        15 => fresh(-q.value, q.unit),
        16 => fresh(q.value.abs(), q.unit),
        21 => full_simplify(&a.table, &q)?,
        22 => {
            let candidates = a.candidates()?;
            full_simplify_with(&a.table, &q, &candidates)?
        }
        _ => Quantity { mark: false, ..q },
    }))
}
