// The archive's exported calls against the published Rust's own, in one process: times, growth, depth of the stack. The
// calls on table files are timed against `negate`, `convert_merged` against `convert_to`, those on knots against one
// conversion, conversions with a count against those without.
//
//   speed [compare] [files] [merged] [knots] [counted] [growth] [stack] [--round MILLISECONDS]
//                                                     all unless said; a round is 20 milliseconds
//
// Ends with 1 if the answers to a timed request differ, or a call needs 512 KiB of stack or more. Under an emulator
// times are only good as ratios within one run.
#[path = "../by_code.rs"]
mod by_code;
mod cases;
mod counted;
mod files;
mod growth;
mod knots;
mod merged;
mod original;
mod sides;
mod stack;
mod tables;
mod timing;

use std::collections::BTreeMap;
use std::hint::black_box;
use std::time::Duration;

use cases::Case;
use sides::{Times, micros, times};

const STACK_LIMIT: usize = 512 << 10;

fn name(code: u32) -> &'static str {
    wire::calls::of_code(code).map_or("", |call| call.name)
}

fn row(case: &Case, tables: &[Times]) {
    let code = case.request.code;
    let rust = micros(tables.iter().map(|t| t.rust).fold(f64::MAX, f64::min));
    let library = tables.iter().map(|t| micros(t.library));
    let ratios = tables.iter().map(|t| t.ratio());
    let cells: Vec<String> = library.chain(ratios).collect();
    println!("| {code} {} | {} | {rust} | {} |", name(code), case.what, cells.join(" | "));
}

/// The bench table has no mile, so that case gets the one with a ninth row.
fn compare(round: Duration) -> Result<(), String> {
    println!("µs a call, and Rust/library: above 1 the library is faster.");
    println!("The table bench has 8 rows (9 for the mile), shop 60, full 128.");
    println!("\n| call | case | Rust | library, bench | shop | full | Rust/library, bench | shop | full |");
    println!("|{}", "---|".repeat(9));
    for case in cases::prefixes() {
        row(&case, &[times(&case, round)?; 3]);
    }
    let (shop, full) = (cases::all(&tables::shop()), cases::all(&tables::full()));
    let (bench, mile) = (cases::all(&tables::bench()), cases::all(&tables::bench_with_mile()));
    for (shop, full) in shop.iter().zip(&full) {
        let same = |case: &&Case| case.request.code == shop.request.code && case.what == shop.what;
        let small = bench.iter().chain(&mile).find(same).expect("every case over a small table");
        row(shop, &[times(small, round)?, times(shop, round)?, times(full, round)?]);
    }
    Ok(())
}

fn grow(round: Duration) -> Result<(), String> {
    growth::rows(round)?;
    growth::factors(round)?;
    growth::exponents(round)
}

/// The deepest of each call's cases, over 128 rows.
fn depths() -> Result<(), String> {
    let mut deepest: BTreeMap<u32, usize> = BTreeMap::new();
    for case in cases::deep(&tables::full()) {
        let request = &case.request;
        let mut out = vec![0; by_code::answer_bytes(request)];
        let depth = stack::depth(|| {
            black_box(by_code::call(black_box(request), black_box(&mut out)));
        });
        let most = deepest.entry(request.code).or_default();
        *most = depth.max(*most);
    }
    deepest.insert(27, merged::depth());
    deepest.extend((28..).zip(knots::depths()));
    deepest.extend((30..).zip(counted::depths()));
    println!("\n| call, over 128 rows | stack, bytes |\n|---|---|");
    deepest.iter().for_each(|(code, depth)| println!("| {code} {} | {depth} |", name(*code)));
    match deepest.values().max() {
        Some(most) if *most >= STACK_LIMIT => Err(format!("a call needs {most} bytes of stack")),
        _ => Ok(()),
    }
}

fn run() -> Result<(), String> {
    let mut round = Duration::from_millis(20);
    let (mut parts, mut given) = (Vec::new(), std::env::args().skip(1));
    while let Some(argument) = given.next() {
        match argument.as_str() {
            "compare" | "files" | "merged" | "knots" | "counted" | "growth" | "stack" => parts.push(argument),
            "--round" => {
                let number = given.next().and_then(|n| n.parse().ok()).ok_or("--round MILLISECONDS")?;
                round = Duration::from_millis(number);
            }
            other => return Err(format!("unknown part {other}")),
        }
    }
    let wanted = |part: &str| parts.is_empty() || parts.iter().any(|p| p == part);
    if wanted("compare") {
        compare(round)?;
    }
    if wanted("files") {
        files::compare(round)?;
    }
    if wanted("merged") {
        merged::compare(round)?;
    }
    if wanted("knots") {
        knots::compare(round)?;
    }
    if wanted("counted") {
        counted::compare(round)?;
    }
    if wanted("growth") {
        grow(round)?;
    }
    if wanted("stack") {
        depths()?;
    }
    Ok(())
}

fn main() {
    if let Err(problem) = run() {
        println!("{problem}");
        std::process::exit(1);
    }
}
