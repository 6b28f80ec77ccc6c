// How the time of a call grows: with the rows of the table, the factors of a list, the size of an exponent.
use std::time::Duration;

use wire::making::{binary, factor, list, metric, over, quantity};
use wire::records::{Factor, List};

use crate::cases::Case;
use crate::sides::{micros, times};
use crate::tables::{self, Named, Part};

const METRE: u32 = 1;
/// Rows of the full table that simplification converts without roots.
const SIXTEEN: [&str; 16] = [
    "inch", "hour", "pound", "degree", "watt", "byte", "psi", "day", "foot", "euro", "yard", "piece", "knot", "ounce",
    "joule", "mile",
];

/// One line: the times of both sides, in microseconds.
fn line(what: &str, round: Duration, cases: impl Iterator<Item = Case>) -> Result<(), String> {
    let cells: Vec<String> = cases
        .map(|case| times(&case, round).map(|t| format!("{} / {}", micros(t.library), micros(t.rust))))
        .collect::<Result<_, _>>()?;
    println!("| {what} | {} |", cells.join(" | "));
    Ok(())
}

fn head(what: &str, columns: &[&str]) {
    println!("\n| {what}: library / Rust, µs | {} |", columns.join(" | "));
    println!("|{}", "---|".repeat(columns.len() + 1));
}

fn case(named: &Named, code: u32, arguments: Vec<Vec<u8>>) -> Case {
    Case { what: String::new(), request: over(&named.rows, code, arguments) }
}

pub fn rows(round: Duration) -> Result<(), String> {
    head("km to metre, by rows", &["1", "8", "16", "32", "64", "128"]);
    for factors in 0..=3 {
        let cases = [1, 8, 16, 32, 64, 128].into_iter().map(|rows| {
            let named = tables::grown(rows, factors);
            let km = quantity(5.0, named.list(&[("metre", 3, 1)]));
            case(&named, 9, vec![km, list(named.list(&[("metre", 0, 1)]))])
        });
        line(&format!("{factors} factors a row"), round, cases)?;
    }
    Ok(())
}

/// A call over the first factors of a list.
fn over_list(named: &Named, code: u32, own: List) -> Case {
    let reversed = List::of(own.factors.iter().rev().copied().collect());
    let arguments = match code {
        9 => vec![quantity(1.5, own), list(reversed)],
        21 => vec![quantity(1.5, own)],
        _ => vec![list(own)],
    };
    case(named, code, arguments)
}

pub fn factors(round: Duration) -> Result<(), String> {
    let signed = |at: usize| if at % 3 == 2 { -1 } else { 1 };
    let different: Vec<Part> = SIXTEEN.iter().enumerate().map(|(at, name)| (*name, 0, signed(at))).collect();
    let alike: Vec<Part> = (0..16).map(|at| ("metre", at as i32 - 8, signed(at))).collect();
    let named = tables::full();
    head("by factors, full table", &["1", "2", "4", "8", "12", "16"]);
    for (kind, parts) in [("different rows", different), ("one row, prefixes differ", alike)] {
        for (call, code) in [("canonical", 5), ("reduce_list", 7), ("convert_to, reversed", 9), ("full_simplify", 21)] {
            let cases = [1, 2, 4, 8, 12, 16].map(|len| over_list(&named, code, named.list(&parts[..len])));
            line(&format!("{call}, {kind}"), round, cases.into_iter())?;
        }
    }
    Ok(())
}

pub fn exponents(round: Duration) -> Result<(), String> {
    let named = tables::bench();
    let converted =
        |from: Factor, to: Factor| case(&named, 9, vec![quantity(1.5, List::of(vec![from])), list(List::of(vec![to]))]);
    head("by exponents, bench table", &["1", "2", "3", "10", "1000", "1000000", "2147483647"]);
    let whole = [1, 2, 3, 10, 1000, 1_000_000, 2_147_483_647];
    let cases = whole.into_iter().map(|e| converted(metric(3, factor(METRE, e, 1)), factor(METRE, e, 1)));
    line("km^e to metre^e", round, cases)?;
    head("by fractions, bench table", &["1", "1/2", "-7/12", "1/46341", "2147483647/2147483646"]);
    let parts = [(1, 1), (1, 2), (-7, 12), (1, 46341), (2_147_483_647, 2_147_483_646)];
    let cases = parts.into_iter().map(|(num, den)| factor(METRE, num, den)).map(|f| converted(f, binary(0, f)));
    line("metre^e to Binary(0) metre^e", round, cases)
}
