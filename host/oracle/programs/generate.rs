// Writes a stream of requests to standard output, the same for the same arguments.
//
//   generate SEED COUNT [--calls LIST] [--rows N | --halves] [--faults PERCENT] [--wild | --random]
//
// LIST is codes with commas, each with a weight if wanted: 9:5,10,11. N is the most rows of a table (some more where
// definitions need them). --halves makes exponents leave their range by either half. PERCENT of the requests get a fault.
// --wild damages every request's bytes; --random puts random bytes, mostly of other lengths, in the place of at least one
// of its arguments.
use std::io::{self, BufWriter, Write};

use generator::random::Random;
use generator::{faults, halves, noise, requests, wild};
use wire::calls::CODES;

struct Wanted {
    seed: u64,
    count: u64,
    codes: Vec<u32>,
    weights: Vec<usize>,
    rows: usize,
    halves: bool,
    faults: usize,
    wild: bool,
    random: bool,
}

fn calls(list: &str) -> Option<(Vec<u32>, Vec<usize>)> {
    let one = |part: &str| {
        let (code, weight) = part.split_once(':').unwrap_or((part, "1"));
        let code = code.parse().ok().filter(|code| CODES.contains(code))?;
        Some((code, weight.parse::<usize>().ok()?))
    };
    Some(list.split(',').map(one).collect::<Option<Vec<_>>>()?.into_iter().unzip())
}

fn wanted(mut arguments: impl Iterator<Item = String>) -> Option<Wanted> {
    let (seed, count) = (arguments.next()?.parse().ok()?, arguments.next()?.parse().ok()?);
    let (codes, weights) = (CODES.collect(), CODES.map(|_| 1).collect());
    let (rows, faults) = (19, 8);
    let mut wanted = Wanted { seed, count, codes, weights, rows, halves: false, faults, wild: false, random: false };
    while let Some(switch) = arguments.next() {
        match switch.as_str() {
            "--calls" => (wanted.codes, wanted.weights) = calls(&arguments.next()?)?,
            "--rows" => wanted.rows = arguments.next()?.parse().ok().filter(|n| (1..=128).contains(n))?,
            "--halves" => wanted.halves = true,
            "--faults" => wanted.faults = arguments.next()?.parse().ok()?,
            "--wild" => wanted.wild = true,
            "--random" => wanted.random = true,
            _ => return None,
        }
    }
    Some(wanted)
}

fn main() -> io::Result<()> {
    let Some(wanted) = wanted(std::env::args().skip(1)) else {
        return Err(io::Error::other(
            "generate SEED COUNT [--calls LIST] [--rows N | --halves] [--faults PERCENT] [--wild | --random]",
        ));
    };
    let mut random = Random::new(wanted.seed);
    let mut output = BufWriter::new(io::stdout().lock());
    for _ in 0..wanted.count {
        let code = wanted.codes[random.weighted(&wanted.weights)];
        let mut draft = match wanted.halves {
            true => halves::draft(&mut random, code),
            false => requests::draft(&mut random, code, wanted.rows),
        };
        if random.percent(wanted.faults) {
            faults::put(&mut random, &mut draft);
        }
        let mut request = draft.request();
        if wanted.wild {
            request = wild::damaged(&mut random, request);
        }
        if wanted.random {
            request = noise::filled(&mut random, request);
        }
        output.write_all(&request.to_bytes())?;
    }
    output.flush()
}
