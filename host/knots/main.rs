// Knot vectors and the quotients of their spans: the archive's two calls against the plain reading of 02's order 4.
//
//   knots SEED COUNT COUNTS     COUNT vectors of a seed; counts per way and outcome go to the file COUNTS
//   knots --table COUNTS ..     prints such files as tables
//
// Each vector is asked for its distinct values and for the quotients of its spans: of every place if it is short, else of
// the ends and of some places, for several x, and past the end. Refusal numbers, answers and the bytes that a call must
// leave are compared; what 02 says of every answer is tested beside that. Ends with 1 if anything differs, or if one of
// the refusals was never met.
mod asking;
#[path = "../by_seed.rs"]
mod by_seed;
mod counts;
mod judging;
mod laws;
mod sorts;
#[path = "../tallies.rs"]
mod tallies;
#[path = "../unread.rs"]
mod unread;

use std::io;
use std::process::ExitCode;
use std::time::Instant;

use counts::Counts;
use generator::random::Random;
use judging::Judge;

const USE: &str = "knots SEED COUNT COUNTS, or knots --table COUNTS ..";

fn held(seed: u64, count: u64, file: &str) -> io::Result<bool> {
    let mut random = Random::new(seed);
    let mut judge = Judge::default();
    let from = Instant::now();
    for _ in 0..count {
        let asked = asking::next(&mut random);
        judge.hold(&mut random, &asked);
    }
    let spent = from.elapsed().as_secs_f64();
    println!("seed {seed}: {count} vectors, {} ({:.0} vectors a second)", judge.summary(), count as f64 / spent);
    judge.counts.write(file)?;
    Ok(judge.counts.different() == 0)
}

fn table(given: &[String]) -> io::Result<bool> {
    let counts = Counts::read(given)?;
    counts.print();
    Ok(counts.different() == 0 && counts.missed().is_empty())
}

fn main() -> io::Result<ExitCode> {
    by_seed::main(USE, held, table)
}
