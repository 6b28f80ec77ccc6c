// Table files, most of them damaged: the archive's three calls against the plain reader and writer of 02.
//
//   files SEED COUNT COUNTS     COUNT files of a seed; counts per way of damage and outcome go to the file COUNTS
//   files --table COUNTS ..     prints such files as one table
//
// Each file is read and salvaged, and the rows it was written from are written; refusal numbers, answers and the bytes
// that a call must leave are compared. Beside that a read has to answer exactly if a salvage keeps all, a write after a
// read to give the file, and a read after a write the rows. Ends with 1 if anything differs.
#[path = "../by_seed.rs"]
mod by_seed;
mod counts;
mod judging;
mod tables;

use std::io;
use std::process::ExitCode;
use std::time::Instant;

use counts::Counts;
use generator::files;
use generator::random::Random;
use judging::Judge;
use tables::Source;

const USE: &str = "files SEED COUNT COUNTS, or files --table COUNTS ..";

fn held(seed: u64, count: u64, file: &str) -> io::Result<bool> {
    let mut random = Random::new(seed);
    let (source, mut judge) = (Source::new(&mut random), Judge::default());
    let names: Vec<&str> = files::names().collect();
    let from = Instant::now();
    for _ in 0..count {
        let rows = source.rows(&mut random);
        let (way, rows, file) = files::damaged(&mut random, &rows);
        judge.hold(&mut random, names[way], &rows, &file);
    }
    let spent = from.elapsed().as_secs_f64();
    println!("seed {seed}: {count} files, {} ({:.0} files a second)", judge.summary(), count as f64 / spent);
    judge.counts.add_different(judge.different);
    judge.counts.write(file)?;
    Ok(judge.different == 0)
}

fn table(given: &[String]) -> io::Result<bool> {
    let read: Vec<Counts> = given.iter().map(|file| Counts::read(file)).collect::<io::Result<_>>()?;
    let counts = read.into_iter().fold(Counts::default(), Counts::with);
    counts.print(files::names());
    Ok(counts.different() == 0)
}

fn main() -> io::Result<ExitCode> {
    by_seed::main(USE, held, table)
}
