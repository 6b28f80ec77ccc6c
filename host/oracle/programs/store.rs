// Picks requests with the oracle's answers for the stored list: inside the equality domain, spread over outcomes.
//
//   store pick REQUESTS ANSWERS FILE CODE LIMIT
//   store split REQUESTS ANSWERS FILE ..
//
// `pick` writes to FILE records of the call CODE, at most LIMIT bytes: the request as in the stream, then its answer as in
// the stream. Outcomes and the ways to them take turns, so that a rare one is not crowded out. `split` makes the two
// streams of stored files.
use std::collections::{BTreeMap, HashSet, VecDeque};
use std::fs::File;
use std::io::{self, BufReader, Write};

use scope::paths;
use wire::bytes::{u32_at, u64_at};
use wire::refusals::{self, is_outside};
use wire::stream::{Answer, Next, Request, read_answer, read_request};

/// Records by outcome, in the order met, each only once.
type Outcomes = BTreeMap<String, VecDeque<Vec<u8>>>;

fn sort_of_value(bits: u64) -> &'static str {
    let value = f64::from_bits(bits);
    match value.classify() {
        std::num::FpCategory::Normal => "number",
        std::num::FpCategory::Subnormal => "subnormal",
        std::num::FpCategory::Zero if value.is_sign_negative() => "-0",
        std::num::FpCategory::Zero => "0",
        std::num::FpCategory::Nan => "NaN",
        std::num::FpCategory::Infinite => "infinity",
    }
}

fn length(list: &[u8]) -> String {
    format!("{} factors", u32_at(list, 0).min(3))
}

/// What tells outcomes apart: the refusal, the sort of value, the mark, the length of the list.
fn outcome(answer: &Answer) -> String {
    let b = &answer.bytes;
    match b.len() {
        0 => refusals::name(answer.number),
        4 => format!("{}", u32_at(b, 0)),
        8 => sort_of_value(u64_at(b, 0)).to_string(),
        12 => format!("found {}, denominator {}", u32_at(b, 0), u32_at(b, 8).min(2)),
        324 => length(b),
        332 => format!("{}, {}", sort_of_value(u64_at(b, 0)), length(&b[8..])),
        _ => format!("{}, mark {}, {}", sort_of_value(u64_at(b, 0)), u32_at(b, 8), length(&b[12..])),
    }
}

fn record(request: &Request, answer: &Answer) -> io::Result<Vec<u8>> {
    let mut bytes = request.to_bytes();
    answer.write(&mut bytes)?;
    Ok(bytes)
}

fn gathered(requests: &str, answers: &str, code: u32) -> io::Result<Outcomes> {
    let mut requests = BufReader::new(File::open(requests)?);
    let mut answers = BufReader::new(File::open(answers)?);
    let (mut outcomes, mut met) = (Outcomes::new(), HashSet::new());
    while let (Next::One(request), Next::One(answer)) = (read_request(&mut requests)?, read_answer(&mut answers)?) {
        if request.code == code && !is_outside(answer.number) {
            let record = record(&request, &answer)?;
            if met.insert(record.clone()) {
                let kind = format!("{}; {}", outcome(&answer), paths::of(&request));
                outcomes.entry(kind).or_default().push_back(record);
            }
        }
    }
    Ok(outcomes)
}

/// Records within the limit, outcomes in turn.
fn chosen(mut outcomes: Outcomes, limit: usize) -> Vec<Vec<u8>> {
    let (mut taken, mut size) = (Vec::new(), 0);
    while outcomes.values().any(|left| !left.is_empty()) {
        for left in outcomes.values_mut() {
            let Some(record) = left.pop_front() else { continue };
            if size + record.len() > limit {
                return taken;
            }
            size += record.len();
            taken.push(record);
        }
    }
    taken
}

fn pick(given: &[String]) -> io::Result<()> {
    let [requests, answers, file, code, limit] = given else {
        return Err(io::Error::other("store pick: five arguments"));
    };
    let (code, limit) = (code.parse().map_err(io::Error::other)?, limit.parse().map_err(io::Error::other)?);
    let outcomes = gathered(requests, answers, code)?;
    let sorts = outcomes.len();
    let records = chosen(outcomes, limit);
    let bytes = records.concat();
    File::create(file)?.write_all(&bytes)?;
    println!("{code:>2} {} records of {sorts} outcomes, {} bytes", records.len(), bytes.len());
    Ok(())
}

fn split(given: &[String]) -> io::Result<()> {
    let [requests, answers, files @ ..] = given else {
        return Err(io::Error::other("store split: two files to write"));
    };
    let (mut requests, mut answers) = (File::create(requests)?, File::create(answers)?);
    for file in files {
        let mut records = BufReader::new(File::open(file)?);
        while let Next::One(request) = read_request(&mut records)? {
            let Next::One(answer) = read_answer(&mut records)? else { return Err(io::Error::other("cut short")) };
            requests.write_all(&request.to_bytes())?;
            answer.write(&mut answers)?;
        }
    }
    Ok(())
}

fn main() -> io::Result<()> {
    let given: Vec<String> = std::env::args().skip(1).collect();
    match given.first().map(String::as_str) {
        Some("pick") => pick(&given[1..]),
        Some("split") => split(&given[1..]),
        _ => Err(io::Error::other("store pick .., or store split ..")),
    }
}
