// Which way an answer comes about, so that a list of requests can be spread over the ways and not only over the outcomes.
use wire::stream::Request;

use crate::Checked;
use crate::arguments::{self, Arguments};
use crate::canonical::{canonical, same};
use crate::conversion::common;
use crate::lists::Part;
use crate::registry::full_simplify_with;
use crate::simplification::full_simplify;
use crate::sums::{Quantity, is_zero, smaller_unit};
use crate::tables::Table;

/// A few words, the same for requests that are answered the same way; empty where there is only one.
pub fn of(request: &Request) -> String {
    let way = match request.code {
        9..=11 | 17 | 18 | 21 | 22 => arguments::of(request).and_then(|a| way(request.code, a)),
        _ => Ok(String::new()),
    };
    way.unwrap_or_else(|refusal| format!("refused {refusal}"))
}

fn way(code: u32, mut a: Arguments) -> Checked<String> {
    let first = a.quantity()?;
    match code {
        9 => {
            let target = a.list()?;
            conversion(&a.table, &first, &target)
        }
        10 | 11 => {
            let second = a.quantity()?;
            sum(&a.table, &first, &second)
        }
        17 | 18 => {
            let second = a.quantity()?;
            conversion(&a.table, &second, &first.unit)
        }
        21 => simplification(&a.table, &first),
        _ => {
            let candidates = a.candidates()?;
            registry(&a.table, &first, &candidates)
        }
    }
}

fn conversion(table: &Table, q: &Quantity, target: &[Part]) -> Checked<String> {
    let (own, target) = (canonical(table, &q.unit)?, canonical(table, target)?);
    let merged = if own.len() == q.unit.len() { "" } else { ", own list merges" };
    Ok(match (own == target, is_zero(q)) {
        (true, _) => "equal lists".to_string(),
        (_, true) => "zero".to_string(),
        _ => format!("{} common factors{merged}", common(&own, &target).len().min(2)),
    })
}

fn sum(table: &Table, a: &Quantity, b: &Quantity) -> Checked<String> {
    if is_zero(a) || is_zero(b) {
        return Ok("zero".to_string());
    }
    if same(table, &a.unit, &b.unit)? {
        return Ok("equal lists".to_string());
    }
    let own = std::ptr::eq(smaller_unit(table, &a.unit, &b.unit)?, &a.unit[..]);
    Ok(format!("to the {}", if own { "first" } else { "second" }))
}

fn simplification(table: &Table, q: &Quantity) -> Checked<String> {
    let form = canonical(table, &q.unit)?;
    let simplified = full_simplify(table, q)?;
    let keys = |parts: &[Part]| parts.chunk_by(|a, b| table.rows[a.row].key == table.rows[b.row].key).count();
    Ok(match (q.mark, simplified.unit.len()) {
        (false, _) => "unmarked".to_string(),
        (_, 0) => "scalar".to_string(),
        (_, 1) if keys(&form) > 1 => "one factor of several keys".to_string(),
        (_, left) => format!("{} of {} keys, {} factors", left.min(3), keys(&form).min(3), form.len().min(4)),
    })
}

fn registry(table: &Table, q: &Quantity, candidates: &[Vec<Part>]) -> Checked<String> {
    let (before, after) = (full_simplify(table, q)?, full_simplify_with(table, q, candidates)?);
    let by_candidate = candidates.contains(&after.unit);
    Ok(match (after.unit == before.unit, by_candidate) {
        (true, _) => format!("left as {} factors", after.unit.len().min(3)),
        (_, true) => format!("a candidate of {} for {}", after.unit.len().min(3), before.unit.len().min(4)),
        _ => "the single base unit".to_string(),
    })
}
