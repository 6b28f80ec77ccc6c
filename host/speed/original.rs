// The published Rust's own call for a request: units and quantities are built beforehand, and the call alone is timed.
//
// An operator that takes its operands gets clones made outside the time.
use std::hint::black_box;
use std::time::Duration;

use published::answers::registry;
use published::arithmetic::Power;
use published::prefix::Prefix;
use published::quantity::Quantity;
use published::unit::{Unit, is_multiple_of};
use published::units::{Units, exponent};
use wire::bytes;
use wire::stream::Request;

use crate::timing::per_call;

/// Nanoseconds of the Rust's call.
pub fn time(request: &Request, round: Duration) -> f64 {
    let argument = &request.arguments[0];
    if request.code == 1 {
        let given = bytes::prefix(argument).expect("a prefix");
        let prefix = if given.kind == 0 { Prefix::Metric(given.n) } else { Prefix::Binary(given.n) };
        return lent(round, || black_box(&prefix).factor());
    }
    let mut units = Units::new(bytes::table(argument).expect("a table"));
    match request.code {
        2..=7 | 19 | 20 => on_lists(&mut units, request, round),
        10..=14 | 17 | 18 => on_two(&mut units, request, round),
        _ => on_one(&mut units, request, round),
    }
}

/// A call that only borrows.
fn lent<R>(round: Duration, mut call: impl FnMut() -> R) -> f64 {
    per_call(round, || (), |()| call())
}

fn list(units: &mut Units, request: &Request, at: usize) -> Unit {
    units.unit(&bytes::list(&request.arguments[at]).expect("a list"))
}

fn quantity(units: &mut Units, request: &Request, at: usize) -> Quantity {
    units.quantity(&bytes::quantity(&request.arguments[at]).expect("a quantity"))
}

fn on_lists(units: &mut Units, request: &Request, round: Duration) -> f64 {
    let a = list(units, request, 1);
    match request.code {
        4 => {
            let e = exponent(bytes::exponent(&request.arguments[2]).expect("an exponent"));
            return per_call(round, || a.clone(), |a| a.power(black_box(e)));
        }
        5 => return lent(round, || black_box(&a).canonicalized()),
        7 => return lent(round, || black_box(&a).to_base_unit_representation()),
        _ => {}
    }
    let b = list(units, request, 2);
    let both = || (a.clone(), b.clone());
    match request.code {
        2 => per_call(round, both, |(a, b)| a * b),
        3 => per_call(round, both, |(a, b)| a / b),
        6 => lent(round, || black_box(&a) == black_box(&b)),
        19 => lent(round, || black_box(&a).smaller_unit(black_box(&b)) as *const Unit),
        _ => lent(round, || is_multiple_of(black_box(&a), black_box(&b))),
    }
}

fn on_one(units: &mut Units, request: &Request, round: Duration) -> f64 {
    let q = quantity(units, request, 1);
    match request.code {
        8 => lent(round, || black_box(&q).to_base_unit_representation()),
        9 => {
            let target = list(units, request, 2);
            lent(round, || black_box(&q).convert_to(black_box(&target)).is_ok())
        }
        15 => per_call(round, || q.clone(), |q| -q),
        16 => per_call(round, || q.clone(), |q| q.abs()),
        21 => lent(round, || black_box(&q).full_simplify()),
        22 => {
            let (registry, known) = registry(units, &request.arguments[2]);
            let find = |name: &str| known.iter().find(|(n, _)| n == name).map(|(_, unit)| unit.clone());
            lent(round, || black_box(&q).full_simplify_with_registry(black_box(&registry), find))
        }
        _ => per_call(round, || q.clone(), |q| q.no_simplify()),
    }
}

/// Comparison is timed by `partial_cmp`, whose work is that of the private call but for two tests for NaN.
fn on_two(units: &mut Units, request: &Request, round: Duration) -> f64 {
    let (a, b) = (quantity(units, request, 1), quantity(units, request, 2));
    let both = || (a.clone(), b.clone());
    match request.code {
        10 => lent(round, || (black_box(&a) + black_box(&b)).is_ok()),
        11 => lent(round, || (black_box(&a) - black_box(&b)).is_ok()),
        12 => per_call(round, both, |(a, b)| a * b),
        13 => per_call(round, both, |(a, b)| a.checked_div(b)),
        14 => per_call(round, both, |(a, b)| a.checked_power(b).is_ok()),
        17 => lent(round, || black_box(&a) == black_box(&b)),
        _ => lent(round, || black_box(&a).partial_cmp(black_box(&b))),
    }
}
