// Knot vectors and span quotients: against one conversion over the same table, against numbat converting the knots one
// by one, and by the number of knots. numbat has no such calls.
use std::hint::black_box;
use std::time::Duration;

use demsharin::bytes::{QUANTITY_BYTES, VALUE_BYTES, VECTOR_BYTES};
use demsharin::exports::{convert_merged, knot_vector, span_quotient};
use published::quantity::Quantity;
use published::units::Units;
use wire::bytes::{self, u32_at, u64_at};
use wire::making::{list, over, quantity, table};

use crate::sides::{ROUNDS, micros};
use crate::tables::{self, Named, Part};
use crate::timing::per_call;
use crate::{cases, stack};

/// As many as there may be.
const MOST: usize = 512;
/// 512 knots in one unit, and in four by turns, are to take at most so many times as long as one conversion, over the
/// full table; and over the bench table the Rust is to take so many times as long for the 512.
const ONE_UNIT: f64 = 3.0;
const BY_TURNS: f64 = 20.0;
const RUST: f64 = 50.0;

/// A unit, and roughly how many of the target it is: knots lie a hundredth of the target apart.
type Sent = (Part, f64);
const LENGTHS: [Sent; 4] =
    [(("inch", 0, 1), 0.0254), (("metre", -3, 1), 0.001), (("foot", 0, 1), 0.3048), (("yard", 0, 1), 0.9144)];
const TIMES: [Sent; 4] =
    [(("hour", 0, 1), 3600.0), (("minute", 0, 1), 60.0), (("second", 3, 1), 1000.0), (("second", -3, 1), 0.001)];

/// Knots of a cubic in some units by turns, for one target.
struct Knots {
    table: Vec<u8>,
    knots: Vec<u8>,
    target: Vec<u8>,
    rule: Vec<u8>,
}

impl Knots {
    fn new(named: &Named, count: usize, units: &[Sent], target: Part) -> Knots {
        let target = list(named.list(&[target]));
        let (tolerance, degree) = (1e-9f64.to_bits().to_le_bytes(), 3u32.to_le_bytes());
        let knot = |at: usize| {
            let (unit, scale) = units[at % units.len()];
            quantity((at + 1) as f64 * 0.01 / scale, named.list(&[unit]))
        };
        Knots {
            table: table(&named.rows),
            knots: (0..count).flat_map(knot).collect(),
            rule: [&tolerance[..], &degree, &target].concat(),
            target,
        }
    }

    fn lengths(named: &Named, count: usize, units: usize) -> Knots {
        Knots::new(named, count, &LENGTHS[..units], ("metre", 0, 1))
    }

    fn times(named: &Named, count: usize, units: usize) -> Knots {
        Knots::new(named, count, &TIMES[..units], ("second", 0, 1))
    }

    fn each(&self) -> impl Iterator<Item = &[u8]> {
        self.knots.chunks_exact(QUANTITY_BYTES)
    }

    fn vector(&self, out: &mut [u8]) -> u32 {
        knot_vector(black_box(&self.table), black_box(&self.knots), black_box(&self.rule), black_box(out))
    }

    fn span_rule(&self, place: u32) -> Vec<u8> {
        let x = 1.0f64.to_bits().to_le_bytes();
        [&self.rule[..], &x, &place.to_le_bytes(), &[0; 4]].concat()
    }

    fn quotient(&self, rule: &[u8], out: &mut [u8]) -> u32 {
        span_quotient(black_box(&self.table), black_box(&self.knots), black_box(rule), black_box(out))
    }

    fn one(&self, knot: &[u8], out: &mut [u8]) -> u32 {
        convert_merged(black_box(&self.table), black_box(knot), black_box(&self.target), black_box(out))
    }

    fn timed_one(&self) -> Timed<'_> {
        let (knot, mut out) = (self.each().next().expect("a knot"), [0; QUANTITY_BYTES]);
        Box::new(move || self.one(knot, &mut out))
    }

    fn timed_vector(&self) -> Timed<'_> {
        let mut out = vec![0; VECTOR_BYTES];
        Box::new(move || self.vector(&mut out))
    }

    fn timed_quotient(&self, place: u32) -> Timed<'_> {
        let (rule, mut out) = (self.span_rule(place), [0; VALUE_BYTES]);
        Box::new(move || self.quotient(&rule, &mut out))
    }

    /// Whether the vector has each knot once, with the bits that the knot alone converts to; by numbat too, if asked.
    fn agrees(&self, with_rust: bool) -> bool {
        let (mut vector, mut alone) = ([0; VECTOR_BYTES], [0; QUANTITY_BYTES]);
        if self.vector(&mut vector) != 0 || u32_at(&vector, 0) as usize != self.each().count() {
            return false;
        }
        let rows = bytes::table(&self.table).expect("a table");
        self.each().enumerate().all(|(at, knot)| {
            let bits = u64_at(&vector, 8 + 16 * at);
            let rust = || published::answers::answer(&over(&rows, 9, vec![knot.to_vec(), self.target.clone()]));
            self.one(knot, &mut alone) == 0
                && u64_at(&alone, 0) == bits
                && (!with_rust || u64_at(&rust().bytes, 0) == bits)
        })
    }
}

/// A call with its own room for the answer.
type Timed<'a> = Box<dyn FnMut() -> u32 + 'a>;

/// Nanoseconds a call of each, by turns.
fn best(round: Duration, mut calls: Vec<Timed>) -> Vec<f64> {
    let mut best = vec![f64::MAX; calls.len()];
    for _ in 0..ROUNDS {
        for (best, call) in best.iter_mut().zip(&mut calls) {
            *best = best.min(per_call(round, || (), |()| call()));
        }
    }
    best
}

fn checked(knots: Knots, with_rust: bool) -> Result<Knots, String> {
    if knots.agrees(with_rust) { Ok(knots) } else { Err("knot vector: the answers differ".to_string()) }
}

fn said(what: &str, kept: bool, number: f64) {
    println!("{what}: {}, {number:.2}", if kept { "met" } else { "MISSED" });
}

/// Times one conversion over the full table.
fn against_one(round: Duration) -> Result<(), String> {
    let named = tables::full();
    let one = checked(Knots::lengths(&named, MOST, 1), false)?;
    let four = checked(Knots::lengths(&named, MOST, 4), false)?;
    let (first, last) = (0, MOST as u32 - 2);
    let calls = [
        ("convert_merged, one inch to metre", one.timed_one()),
        ("knot_vector, 512 knots in inches", one.timed_vector()),
        ("knot_vector, 512 in inches, mm, feet, yards by turns", four.timed_vector()),
        ("span_quotient, 512 in inches, the first place", one.timed_quotient(first)),
        ("span_quotient, 512 in inches, the last place", one.timed_quotient(last)),
        ("span_quotient, 512 by turns, the first place", four.timed_quotient(first)),
        ("span_quotient, 512 by turns, the last place", four.timed_quotient(last)),
    ];
    let (names, calls): (Vec<&str>, Vec<Timed>) = calls.into_iter().unzip();
    let times = best(round, calls);
    println!("\n| call, full table | µs | times one conversion |\n|---|---|---|");
    for (name, time) in names.iter().zip(&times) {
        println!("| {name} | {} | {:.2} |", micros(*time), time / times[0]);
    }
    let [in_one, by_turns] = [1, 2].map(|at| times[at] / times[0]);
    said(&format!("512 knots in one unit within {ONE_UNIT} conversions"), in_one <= ONE_UNIT, in_one);
    said(&format!("512 knots in four units by turns within {BY_TURNS} conversions"), by_turns <= BY_TURNS, by_turns);
    Ok(())
}

/// The Rust converts the knots one after the other, its units and quantities built beforehand.
fn timed_rust(knots: &Knots) -> Timed<'static> {
    let mut units = Units::new(bytes::table(&knots.table).expect("a table"));
    let target = units.unit(&bytes::list(&knots.target).expect("a list"));
    let quantity = |knot: &[u8]| units.quantity(&bytes::quantity(knot).expect("a quantity"));
    let all: Vec<Quantity> = knots.each().map(quantity).collect();
    Box::new(move || all.iter().map(|knot| u32::from(black_box(knot).convert_to(black_box(&target)).is_ok())).sum())
}

fn against_rust(round: Duration) -> Result<(), String> {
    let named = tables::bench();
    println!("\n| 512 knots, bench table | Rust one by one, µs | knot_vector, µs | Rust/library |\n|---|---|---|---|");
    let mut ratios = Vec::new();
    for (what, units) in [("hours to seconds", 1), ("hours, minutes, ks, ms by turns to seconds", 4)] {
        let knots = checked(Knots::times(&named, MOST, units), true)?;
        let times = best(round, vec![knots.timed_vector(), timed_rust(&knots)]);
        let ratio = times[1] / times[0];
        println!("| {what} | {} | {} | {ratio:.1} |", micros(times[1]), micros(times[0]));
        ratios.push((what, ratio));
    }
    for (what, ratio) in ratios {
        said(&format!("{what}: at least {RUST} times as fast as the Rust"), ratio >= RUST, ratio);
    }
    Ok(())
}

/// Times for growing numbers of knots, as multiples of the first.
fn growth(round: Duration) -> Result<(), String> {
    let counts = [1, 8, 64, MOST];
    println!("\n| knot_vector by knots, µs and times the first | {} |", counts.map(|n| n.to_string()).join(" | "));
    println!("|{}", "---|".repeat(counts.len() + 1));
    let (bench, full) = (tables::bench(), tables::full());
    type Make = fn(&Named, usize, usize) -> Knots;
    let tables: [(&str, &Named, Make); 2] = [("bench", &bench, Knots::times), ("full", &full, Knots::lengths)];
    for (table, named, make) in tables {
        for (what, units) in [("one unit", 1), ("four units by turns", 4)] {
            let times = counts.map(|count| {
                let knots = checked(make(named, count, units), false)?;
                Ok(best(round, vec![knots.timed_vector()])[0])
            });
            let times: Vec<f64> = times.into_iter().collect::<Result<_, String>>()?;
            let cells = times.iter().map(|time| format!("{} / {:.2}", micros(*time), time / times[0]));
            println!("| {what}, {table} table | {} |", cells.collect::<Vec<_>>().join(" | "));
        }
    }
    Ok(())
}

pub fn compare(round: Duration) -> Result<(), String> {
    against_one(round)?;
    against_rust(round)?;
    growth(round)
}

/// Bytes of stack of both calls, the deepest over 512 knots: plain ones, and in the lists that go deepest in a
/// conversion.
pub fn depths() -> [usize; 2] {
    let named = tables::full();
    let mut all = vec![Knots::lengths(&named, MOST, 1), Knots::lengths(&named, MOST, 4)];
    for case in cases::deep(&named).into_iter().filter(|case| case.request.code == 9) {
        let [table, knot, target] = &case.request.arguments[..] else { panic!("a conversion has three arguments") };
        let risen = |at: usize| [&(1.0 + at as f64).to_le_bytes()[..], &knot[8..]].concat();
        let rule = [&[0; 8][..], &3u32.to_le_bytes(), target].concat();
        all.push(Knots {
            table: table.clone(),
            knots: (0..MOST).flat_map(risen).collect(),
            target: target.clone(),
            rule,
        });
    }
    let (mut out, mut most) = (vec![0; VECTOR_BYTES], [0; 2]);
    for knots in &all {
        let rule = knots.span_rule(0);
        let vector = stack::depth(|| {
            assert_eq!(knots.vector(&mut out), 0);
        });
        let quotient = stack::depth(|| {
            assert_eq!(knots.quotient(&rule, &mut out), 0);
        });
        most = [most[0].max(vector), most[1].max(quotient)];
    }
    most
}
