// Knots of one blade section from several suppliers, each in his own unit, made one knot vector by the library.
//
//   knots [FILE ..]     the suppliers' files; without any, those of the folder `suppliers`
//
// A line of a file is `lengths` or `angles`, a unit, and knots in it; `#` begins a remark. Lengths go to metres, angles
// to radians. The library wants knots that don't fall, so they are laid together in the order of what each converts to.
use std::error::Error;

use demsharin::{Factor, KnotRule, KnotVector, List, Prefix, Quantity, Refusal, Row, Table};

const METRE: u32 = 0;
const RADIAN: u32 = 1;
const INCH: u32 = 2;
const FOOT: u32 = 3;
const DEGREE: u32 = 4;

/// Names of units, for the files.
const UNITS: [(&str, Factor); 6] = [
    ("m", Factor::of(METRE)),
    ("mm", Factor::of(METRE).under(Prefix::Metric(-3))),
    ("inch", Factor::of(INCH)),
    ("foot", Factor::of(FOOT)),
    ("radian", Factor::of(RADIAN)),
    ("degree", Factor::of(DEGREE)),
];

const SUPPLIERS: [(&str, &str); 3] = [
    ("foundry", include_str!("suppliers/foundry.txt")),
    ("forge", include_str!("suppliers/forge.txt")),
    ("tipworks", include_str!("suppliers/tipworks.txt")),
];

const DEGREE_OF_SPLINE: u32 = 3;

/// Ranks are the places of the names in their order: degree, foot, inch, metre, radian.
fn table() -> Table {
    Table::new(&[
        Row::base(3),
        Row::base(4),
        Row::derived(2, 0.0254, vec![Factor::of(METRE)]),
        Row::derived(1, 12.0, vec![Factor::of(INCH)]),
        Row::derived(0, std::f64::consts::PI / 180.0, vec![Factor::of(RADIAN)]),
    ])
}

/// A knot as it arrived.
struct Sent {
    what: String,
    by: String,
    quantity: Quantity,
    written: String,
}

fn read_line(by: &str, line: &str) -> Result<Vec<Sent>, String> {
    let mut words = line.split('#').next().unwrap_or("").split_whitespace();
    let Some(what) = words.next() else { return Ok(Vec::new()) };
    let name = words.next().unwrap_or("");
    let unit = UNITS.iter().find(|(known, _)| *known == name).map(|(_, unit)| *unit);
    let unit = unit.ok_or_else(|| format!("{by}: no unit in '{line}'"))?;
    let knot = |word: &str| {
        let value = word.parse().map_err(|_| format!("{by}: no number: {word}"))?;
        let quantity = Quantity::new(value, unit);
        Ok(Sent { what: what.to_string(), by: by.to_string(), quantity, written: format!("{word} {name}") })
    };
    words.map(knot).collect()
}

fn read(by: &str, file: &str) -> Result<Vec<Sent>, String> {
    let lines: Vec<Vec<Sent>> = file.lines().map(|line| read_line(by, line)).collect::<Result<_, _>>()?;
    Ok(lines.into_iter().flatten().collect())
}

/// All suppliers' knots of one kind, in the order of what they convert to.
fn together<'a>(table: &Table, sent: &'a [Sent], what: &str, unit: &List) -> Result<Vec<&'a Sent>, Refusal> {
    let valued = |knot: &'a Sent| Ok((table.convert_merged(&knot.quantity, unit)?.value, knot));
    let kind = sent.iter().filter(|knot| knot.what == what);
    let mut knots: Vec<(f64, &Sent)> = kind.map(valued).collect::<Result<_, Refusal>>()?;
    knots.sort_by(|(a, _), (b, _)| a.total_cmp(b));
    Ok(knots.into_iter().map(|(_, knot)| knot).collect())
}

/// Who sent the knots of a run, and how.
fn senders(run: &[&Sent]) -> String {
    let mut all: Vec<(String, usize)> = Vec::new();
    for knot in run {
        let shown = format!("{} ({})", knot.written, knot.by);
        match all.last_mut() {
            Some((before, times)) if *before == shown => *times += 1,
            _ => all.push((shown, 1)),
        }
    }
    let shown = all.into_iter().map(|(shown, times)| match times {
        1 => shown,
        _ => format!("{times} × {shown}"),
    });
    shown.collect::<Vec<_>>().join(", ")
}

/// The vector's runs are the knots in their order, so many at a time.
fn show(vector: &KnotVector, knots: &[&Sent]) {
    let (mut rest, mut before) = (knots, None::<f64>);
    for run in &vector.distinct {
        let (own, others) = rest.split_at(run.multiplicity as usize);
        let tiny = before.is_some_and(|before| run.value - before <= 2.0 * f64::EPSILON * run.value.abs());
        let word = if tiny { "  <- a span of rounding" } else { "" };
        println!("{:>22} × {}  {}{word}", run.value, run.multiplicity, senders(own));
        (rest, before) = (others, Some(run.value));
    }
}

/// At tolerance 0 knots merge that are equal to the last bit; a millionth of a millimetre is far above rounding and far
/// below what a blade is ground to.
fn report(table: &Table, sent: &[Sent], what: &str, unit: (&str, u32), x: f64) -> Result<(), Refusal> {
    let list = List::from(Factor::of(unit.1));
    let knots = together(table, sent, what, &list)?;
    let quantities: Vec<Quantity> = knots.iter().map(|knot| knot.quantity.clone()).collect();
    for tolerance in [0.0, 1e-9] {
        let rule = KnotRule::new(list.clone(), tolerance, DEGREE_OF_SPLINE);
        let vector = table.knot_vector(&quantities, &rule)?;
        assert_eq!(vector.knots().len(), knots.len());
        println!("{} {what} within {tolerance} {}: {} values", knots.len(), unit.0, vector.distinct.len());
        show(&vector, &knots);
        let quotient = |place| table.span_quotient(&quantities, &rule, place, x);
        let quotients: Vec<f64> = (0..knots.len() - 1).map(quotient).collect::<Result<_, _>>()?;
        let most = quotients.iter().fold(0f64, |most, q| most.max(q.abs()));
        let zero = quotients.iter().filter(|q| **q == 0.0).count();
        println!("{x} {} in {} spans: {zero} quotients are 0, the largest is {most:.4e}\n", unit.0, quotients.len());
    }
    Ok(())
}

/// What is no knot vector.
fn refusals(table: &Table, sent: &[Sent]) -> Result<(), Refusal> {
    let (metre, radian) = (List::from(Factor::of(METRE)), List::from(Factor::of(RADIAN)));
    let lengths: Vec<Quantity> = together(table, sent, "lengths", &metre)?.iter().map(|k| k.quantity.clone()).collect();
    let refused = |what: &str, knots: &[Quantity], unit: &List, tolerance, degree| {
        let answer = table.knot_vector(knots, &KnotRule::new(unit.clone(), tolerance, degree));
        println!("{what}: {}", answer.expect_err("no knot vector"));
    };
    refused("lengths as angles", &lengths, &radian, 0.0, DEGREE_OF_SPLINE);
    let falling: Vec<Quantity> = lengths.iter().rev().cloned().collect();
    refused("from the tip to the root", &falling, &metre, 0.0, DEGREE_OF_SPLINE);
    refused("a root of four knots for a spline of degree 2", &lengths, &metre, 0.0, 2);
    refused("within less than nothing", &lengths, &metre, -1e-9, DEGREE_OF_SPLINE);
    Ok(())
}

fn main() -> Result<(), Box<dyn Error>> {
    let paths: Vec<String> = std::env::args().skip(1).collect();
    let mut sent = Vec::new();
    for path in &paths {
        sent.extend(read(path, &std::fs::read_to_string(path)?)?);
    }
    if paths.is_empty() {
        for (by, file) in SUPPLIERS {
            sent.extend(read(by, file)?);
        }
    }
    let table = table();
    report(&table, &sent, "lengths", ("metre", METRE), 0.16)?;
    report(&table, &sent, "angles", ("radian", RADIAN), 0.3)?;
    Ok(refusals(&table, &sent)?)
}
