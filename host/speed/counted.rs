// The conversions with their multiplications counted against those without, with the same arguments. numbat has no such
// calls.
use std::hint::black_box;
use std::time::Duration;

use demsharin::bytes::{COUNTED_BYTES, QUANTITY_BYTES};
use demsharin::exports::{convert_merged, convert_merged_counted, convert_to, convert_to_counted};
use wire::bytes;

use crate::cases::{self, Case};
use crate::sides::{ROUNDS, micros};
use crate::timing::per_call;
use crate::{stack, tables};

/// A counted conversion is to take at most so many times as long.
const TARGET: f64 = 1.1;

type Call = fn(&[u8], &[u8], &[u8], &mut [u8]) -> u32;
/// By either rule the conversion without a count, then with it.
const RULES: [[Call; 2]; 2] = [[convert_to, convert_to_counted], [convert_merged, convert_merged_counted]];

fn answered(call: Call, case: &Case, out: &mut [u8]) -> u32 {
    let [table, quantity, target] = &case.request.arguments[..] else { panic!("a conversion has three arguments") };
    call(black_box(table), black_box(quantity), black_box(target), black_box(out))
}

/// The count, if both answer, and with the same quantity.
fn count([plain, counted]: [Call; 2], case: &Case) -> Result<u32, String> {
    let (mut quantity, mut out) = ([0; QUANTITY_BYTES], [0; COUNTED_BYTES]);
    let numbers = [answered(plain, case, &mut quantity), answered(counted, case, &mut out)];
    match numbers == [0, 0] && out.starts_with(&quantity) {
        true => Ok(bytes::counted(&out).expect("a counted quantity").count),
        false => Err(format!("{}: the counted conversion doesn't agree", case.what)),
    }
}

/// Nanoseconds without a count and with it, by turns.
fn times(calls: [Call; 2], case: &Case, round: Duration) -> [f64; 2] {
    let (mut best, mut out) = ([f64::MAX; 2], [0; COUNTED_BYTES]);
    for _ in 0..ROUNDS {
        for (best, call) in best.iter_mut().zip(calls) {
            *best = best.min(per_call(round, || (), |()| answered(call, case, &mut out)));
        }
    }
    best
}

/// Conversions over three tables by both rules; the last one takes some of the most multiplications that there are.
pub fn compare(round: Duration) -> Result<(), String> {
    let tables = [tables::bench_with_mile(), tables::shop(), tables::full()].map(|named| cases::counted(&named));
    println!(
        "\n| conversion | multiplications, convert_to | convert_merged | convert_to in µs, bench | shop | full | \
         convert_to_counted over it, bench | shop | full | convert_merged_counted over convert_merged, bench | shop | full |"
    );
    println!("|{}", "---|".repeat(12));
    let mut most = 0f64;
    for (at, case) in tables[0].iter().enumerate() {
        let counts = [count(RULES[0], case)?, count(RULES[1], case)?];
        let [old, new] = RULES.map(|calls| tables.each_ref().map(|cases| times(calls, &cases[at], round)));
        let ratios = old.iter().chain(&new).map(|[plain, counted]| counted / plain).collect::<Vec<f64>>();
        let shown = counts.map(|count| count.to_string()).into_iter().chain(old.map(|[plain, _]| micros(plain)));
        let cells: Vec<String> = shown.chain(ratios.iter().map(|ratio| format!("{ratio:.2}"))).collect();
        println!("| {} | {} |", case.what, cells.join(" | "));
        most = ratios.into_iter().fold(most, f64::max);
    }
    let met = if most <= TARGET { "met" } else { "MISSED" };
    println!("counted within {TARGET} times the same conversion without a count: {met}, at most {most:.2}");
    Ok(())
}

/// Bytes of stack of the deepest by either rule, among the conversions that go deepest by `convert_to`.
pub fn depths() -> [usize; 2] {
    let deep = cases::deep(&tables::full());
    RULES.map(|[_, counted]| {
        let depth = |case: &Case| {
            let mut out = [0; COUNTED_BYTES];
            stack::depth(|| {
                black_box(answered(counted, case, &mut out));
            })
        };
        deep.iter().filter(|case| case.request.code == 9).map(depth).max().expect("a conversion")
    })
}
