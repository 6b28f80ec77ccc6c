// How far two streams of answers lie apart, per call: how many of how many differ, and by how many units in the last place.
//
//   distances REQUESTS A B
//
// Writes a table in Markdown; the last column is the place in the stream of the request that lies farthest apart. A value
// that is zero, infinite or a NaN on one side only has no distance and is counted apart.
use std::collections::BTreeMap;
use std::fs::File;
use std::io::{self, BufReader};

use wire::bytes::u64_at;
use wire::calls::{self, Kind};
use wire::refusals;
use wire::stream::{Answer, Next, read_answer, read_request};

#[derive(Default)]
struct Distances {
    compared: u64,
    values: u64,
    most: u64,
    farthest: u64,
    all: Vec<u64>,
    unbounded: u64,
    other: u64,
}

/// Bits as whole numbers in the order of the values, both zeros at 0.
fn place(bits: u64) -> i128 {
    let magnitude = (bits & !(1 << 63)) as i128;
    if bits >> 63 == 1 { -magnitude } else { magnitude }
}

fn value_bits(code: u32, answer: &Answer) -> Option<u64> {
    let kind = calls::of_code(code)?.answer;
    matches!(kind, Kind::Value | Kind::Quantity | Kind::Reduced).then(|| u64_at(&answer.bytes, 0))
}

impl Distances {
    fn take(&mut self, at: u64, code: u32, a: &Answer, b: &Answer) {
        self.compared += 1;
        if a == b {
            return;
        }
        let values = (a.number == 0 && b.number == 0).then(|| (value_bits(code, a), value_bits(code, b)));
        match values {
            Some((Some(x), Some(y))) if x != y && a.bytes[8..] == b.bytes[8..] => self.take_values(at, x, y),
            _ => self.other += 1,
        }
    }

    fn take_values(&mut self, at: u64, x: u64, y: u64) {
        self.values += 1;
        let bounded = |bits| f64::from_bits(bits).is_finite() && place(bits) != 0;
        if !bounded(x) || !bounded(y) {
            self.unbounded += 1;
            return;
        }
        let distance = (place(x) - place(y)).unsigned_abs() as u64;
        if distance > self.most {
            (self.most, self.farthest) = (distance, at);
        }
        self.all.push(distance);
    }

    fn print(&mut self, name: &str) {
        self.all.sort();
        let within = |percent: usize| self.all.get(self.all.len() * percent / 100).copied().unwrap_or(0);
        let (median, mostly) = (within(50), within(99));
        let Distances { compared, values, unbounded, other, most, farthest, .. } = self;
        print!("| {name} | {compared} | {values} | {unbounded} | {other} ");
        match self.all.len() {
            0 => println!("| – | – | – | – |"),
            _ => println!("| {median} | {mostly} | {most} | {farthest} |"),
        }
    }
}

fn main() -> io::Result<()> {
    let files: Vec<String> = std::env::args().skip(1).collect();
    let [requests, first, second] = &files[..] else { return Err(io::Error::other("distances REQUESTS A B")) };
    let open = |name: &String| File::open(name).map(BufReader::new);
    let (mut requests, mut first, mut second) = (open(requests)?, open(first)?, open(second)?);
    let mut calls_met: BTreeMap<u32, Distances> = BTreeMap::new();
    for at in 0.. {
        let Next::One(request) = read_request(&mut requests)? else { break };
        let (Next::One(a), Next::One(b)) = (read_answer(&mut first)?, read_answer(&mut second)?) else { break };
        if !refusals::is_outside(a.number) && !refusals::is_outside(b.number) {
            calls_met.entry(request.code).or_default().take(at, request.code, &a, &b);
        }
    }
    println!(
        "| call | answers | values differ | to 0, ∞, NaN | differ otherwise | median ulp | 99 in 100 | most | farthest |"
    );
    println!("|---|---|---|---|---|---|---|---|---|");
    for (code, distances) in &mut calls_met {
        distances.print(calls::of_code(*code).map_or("end", |call| call.name));
    }
    Ok(())
}
