// The archive against the published Rust and 01's reading, all in this one process.
//
//   differential SEED COUNT COUNTS    COUNT requests of a seed, a conversion by both rules; counts per call and outcome
//                                     go to the file COUNTS, those of the steps that leave a range to COUNTS.steps,
//                                     those of conversions by both rules to COUNTS.pairs
//   differential --table COUNTS ..    prints such files as three tables
//
// The archive's answer is held against the Rust's inside the equality domain, and against the reading's everywhere.
// Ends with 1 if an answer differs, if the two rules part otherwise than 02 says, or if a call treats the room for its
// answer in another way than the byte form says.
#[path = "../by_code.rs"]
mod by_code;
#[path = "../by_seed.rs"]
mod by_seed;
// The oracle prints them in another way too.
#[allow(dead_code)]
#[path = "../oracle/programs/counts.rs"]
mod counts;
mod judging;
mod pairs;
mod requests;
mod steps;

use std::io;
use std::process::ExitCode;
use std::time::Instant;

use counts::{Counts, DIFFERENT};
use generator::random::Random;
use judging::Judge;
use pairs::Pairs;
use steps::Steps;

const USE: &str = "differential SEED COUNT COUNTS, or differential --table COUNTS ..";

fn held(seed: u64, count: u64, file: &str) -> io::Result<bool> {
    let mut random = Random::new(seed);
    let mut judge = Judge::new(seed);
    let from = Instant::now();
    for _ in 0..count {
        judge.hold(&requests::next(&mut random));
    }
    let spent = from.elapsed().as_secs_f64();
    println!("seed {seed}: {} ({:.0} requests a second)", judge.summary(), count as f64 / spent);
    judge.counts.add_to(file)?;
    judge.steps.write(&format!("{file}.steps"))?;
    judge.pairs.write(&format!("{file}.pairs"))?;
    Ok(judge.counts.of(DIFFERENT) == 0 && judge.pairs.broken == 0)
}

/// The files are added up into the first.
fn table(files: &[String]) -> io::Result<bool> {
    let [first, others @ ..] = files else { return Err(io::Error::other(USE)) };
    for file in others {
        Counts::read(file)?.add_to(first)?;
    }
    let counts = Counts::read(first)?;
    counts.print_table();
    counts.print_total();
    let mut steps = Steps::default();
    files.iter().try_for_each(|file| steps.read_more(&format!("{file}.steps")))?;
    steps.print();
    let mut pairs = Pairs::default();
    files.iter().try_for_each(|file| pairs.read_more(&format!("{file}.pairs")))?;
    pairs.print();
    Ok(counts.of(DIFFERENT) == 0 && pairs.broken == 0)
}

fn main() -> io::Result<ExitCode> {
    // A panic of the Rust is an answer of its own, not a message.
    std::panic::set_hook(Box::new(|_| {}));
    by_seed::main(USE, held, table)
}
