// `convert_merged` against `convert_to` with the same arguments. numbat has no such call.
use std::hint::black_box;
use std::time::Duration;

use demsharin::bytes::QUANTITY_BYTES;
use demsharin::exports::{convert_merged, convert_to};
use wire::bytes;
use wire::records::Factor;

use crate::cases::{self, Case};
use crate::sides::{ROUNDS, micros};
use crate::timing::per_call;
use crate::{stack, tables};

/// `convert_merged` is to take at most so many times as long, and less than `convert_to` where factors cancel.
const TARGET: f64 = 1.1;
/// The place of the conversion between equal lists.
const EQUAL: usize = 0;
/// The two answers lie at most so many last places apart.
const PLACES: u64 = 8;

type Call = fn(&[u8], &[u8], &[u8], &mut [u8]) -> u32;
const CALLS: [Call; 2] = [convert_to, convert_merged];

fn answered(call: Call, case: &Case, out: &mut [u8]) -> u32 {
    let [table, quantity, target] = &case.request.arguments[..] else { panic!("a conversion has three arguments") };
    call(black_box(table), black_box(quantity), black_box(target), black_box(out))
}

/// Whether both rules answer, and with nearly the same value.
fn agrees(case: &Case) -> bool {
    let values = CALLS.map(|call| {
        let mut out = [0; QUANTITY_BYTES];
        (answered(call, case, &mut out) == 0).then(|| bytes::quantity(&out).expect("a quantity").bits)
    });
    matches!(values, [Some(old), Some(new)] if old.abs_diff(new) <= PLACES)
}

/// How many factors of a conversion cancel; none if the lists are equal, since then nothing is converted.
fn cancelling(case: &Case) -> usize {
    let own = bytes::quantity(&case.request.arguments[1]).expect("a quantity").unit.factors;
    let target = bytes::list(&case.request.arguments[2]).expect("a list").factors;
    let alike = |a: &Factor, b: &Factor| {
        a.row == b.row && a.prefix == b.prefix && a.exponent.num.signum() == b.exponent.num.signum()
    };
    let common = own.iter().filter(|a| target.iter().any(|b| alike(a, b))).count();
    if own == target { 0 } else { common }
}

/// Nanoseconds of `convert_to` and of `convert_merged`, by turns.
fn times(case: &Case, round: Duration) -> Result<[f64; 2], String> {
    if !agrees(case) {
        return Err(format!("{}: the two rules don't agree", case.what));
    }
    let (mut best, mut out) = ([f64::MAX; 2], [0; QUANTITY_BYTES]);
    for _ in 0..ROUNDS {
        for (best, call) in best.iter_mut().zip(CALLS) {
            *best = best.min(per_call(round, || (), |()| answered(call, case, &mut out)));
        }
    }
    Ok(best)
}

fn met(kept: bool) -> &'static str {
    if kept { "met" } else { "MISSED" }
}

/// Equal lists are the same work by both rules, so their ratio shows what the places of the code in memory do: under the
/// emulator up to 5 in a hundred over few rows. The last column has each call's time less its time for equal lists.
pub fn compare(round: Duration) -> Result<(), String> {
    let tables = [tables::bench_with_mile(), tables::shop(), tables::full()].map(|named| cases::conversions(&named));
    println!(
        "\n| conversion | cancel | convert_to in µs, bench | shop | full | convert_merged over it, bench | shop | full | \
         beyond equal lists, bench |"
    );
    println!("|{}", "---|".repeat(9));
    let [mut most, mut most_beyond] = [0f64; 2];
    let [equal_old, equal_new] = times(&tables[0][EQUAL], round)?;
    for (at, case) in tables[0].iter().enumerate() {
        let times: Vec<[f64; 2]> = tables.iter().map(|cases| times(&cases[at], round)).collect::<Result<_, _>>()?;
        let ratios: Vec<f64> = times.iter().map(|[old, new]| new / old).collect();
        let beyond = (times[0][1] - equal_new) / (times[0][0] - equal_old);
        let last = if at == EQUAL { String::new() } else { format!("{beyond:.2}") };
        let cells = times.iter().map(|[old, _]| micros(*old)).chain(ratios.iter().map(|ratio| format!("{ratio:.2}")));
        println!("| {} | {} | {} | {last} |", case.what, cancelling(case), cells.collect::<Vec<_>>().join(" | "));
        most = ratios.into_iter().fold(most, f64::max);
        most_beyond = if cancelling(case) > 0 { most_beyond.max(beyond) } else { most_beyond };
    }
    println!("convert_merged within {TARGET} times convert_to: {}, at most {most:.2}", met(most <= TARGET));
    println!("faster beyond equal lists where factors cancel: {}, at most {most_beyond:.2}", met(most_beyond < 1.0));
    Ok(())
}

/// Bytes of stack of the deepest, among the conversions that go deepest by `convert_to`.
pub fn depth() -> usize {
    let depth = |case: &Case| {
        let mut out = [0; QUANTITY_BYTES];
        stack::depth(|| {
            black_box(answered(convert_merged, case, &mut out));
        })
    };
    let deep = cases::deep(&tables::full());
    deep.iter().filter(|case| case.request.code == 9).map(depth).max().expect("a conversion")
}
