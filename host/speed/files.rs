// The calls on table files against `negate` over the same table, which does hardly more than admit it. numbat has none.
use std::time::Duration;

use wire::stream::Request;

use crate::by_code::{answer_bytes, call};
use crate::cases::{self, Case};
use crate::name;
use crate::sides::{ROUNDS, library, micros};
use crate::tables;

/// Writing and reading the full table are to take at most so many times as long as `negate`. Over few rows copying a record
/// of 128 places weighs more than admitting them.
const TARGET: f64 = 2.0;

/// Whether the archive answers as the reading does.
fn agrees(request: &Request) -> bool {
    let (mut out, reading) = (vec![0; answer_bytes(request)], scope::calls::answer(request));
    let number = call(request, &mut out);
    number == 0 && reading.number == 0 && out.starts_with(&reading.bytes)
}

/// Nanoseconds of each call over one table, the calls by turns.
fn times(cases: &[Case], round: Duration) -> Result<Vec<f64>, String> {
    if let Some(case) = cases.iter().find(|case| !agrees(&case.request)) {
        return Err(format!("{}: the answers differ", name(case.request.code)));
    }
    let mut best = vec![f64::MAX; cases.len()];
    for _ in 0..ROUNDS {
        for (best, case) in best.iter_mut().zip(cases) {
            *best = best.min(library(&case.request, round));
        }
    }
    Ok(best)
}

pub fn compare(round: Duration) -> Result<(), String> {
    let tables = [tables::bench(), tables::shop(), tables::full()].map(|named| cases::files(&named));
    let times: Vec<Vec<f64>> = tables.iter().map(|cases| times(cases, round)).collect::<Result<_, _>>()?;
    println!("\n| call, µs | bench | shop | full | times negate, bench | shop | full |");
    println!("|{}", "---|".repeat(7));
    for (at, case) in tables[0].iter().enumerate() {
        let own = times.iter().map(|table| micros(table[at]));
        let over = times.iter().map(|table| format!("{:.2}", table[at] / table[0]));
        let code = case.request.code;
        println!("| {code} {} | {} |", name(code), own.chain(over).collect::<Vec<_>>().join(" | "));
    }
    let full = &times[2];
    let most = (full[1] / full[0]).max(full[2] / full[0]);
    let met = if most <= TARGET { "met" } else { "MISSED" };
    println!("write_table and read_table of the full table within {TARGET} times negate: {met}, at most {most:.2}");
    Ok(())
}
