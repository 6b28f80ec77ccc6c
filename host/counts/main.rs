// Conversions with their multiplications counted: the archive's two calls against the plain reading of 02's order 5, and
// against the archive's own conversions without a count.
//
//   counts SEED COUNT COUNTS     COUNT conversions of a seed, each by both rules; counts per way and outcome go to the file
//                                COUNTS
//   counts --table COUNTS ..     prints such files as tables
//
// Refusal numbers, answers and the bytes that a call must leave are compared; the quantity has to be that of the call
// without a count, bit for bit, and so has a refusal. Ends with 1 if anything differs, if one of the refusals was never
// met, or if a rule never counted its most.
mod asking;
#[path = "../by_code.rs"]
mod by_code;
#[path = "../by_seed.rs"]
mod by_seed;
mod judging;
mod met;
#[path = "../tallies.rs"]
mod tallies;
#[path = "../unread.rs"]
mod unread;

use std::io;
use std::process::ExitCode;
use std::time::Instant;

use generator::random::Random;
use judging::Judge;
use met::Met;

const USE: &str = "counts SEED COUNT COUNTS, or counts --table COUNTS ..";

fn held(seed: u64, count: u64, file: &str) -> io::Result<bool> {
    let mut random = Random::new(seed);
    let mut judge = Judge::default();
    let from = Instant::now();
    for _ in 0..count {
        let asked = asking::next(&mut random);
        judge.hold(&mut random, &asked);
    }
    let spent = from.elapsed().as_secs_f64();
    println!("seed {seed}: {count} conversions, {} ({:.0} a second)", judge.summary(), count as f64 / spent);
    judge.met.write(file)?;
    Ok(judge.met.different() == 0)
}

fn table(given: &[String]) -> io::Result<bool> {
    let met = Met::read(given)?;
    met.print();
    Ok(met.different() == 0 && met.missed().is_empty())
}

fn main() -> io::Result<ExitCode> {
    by_seed::main(USE, held, table)
}
