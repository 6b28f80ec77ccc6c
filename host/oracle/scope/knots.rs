// The knot vector and the quotients of its spans (02, "Order 4: the knot vector"; its readings 23 to 29).
//
// Written from 02's sentences: what is wrong with count, degree and tolerance, then all knots converted one after the
// other, then order, then runs. Nothing is kept between knots but their values.
use wire::bytes::{self, put_distinct, put_u32};
use wire::records::{Distinct, List, Quantity, Rule, bits_of};
use wire::refusals::{ARGUMENT, MULTIPLE, ORDER};

use crate::Checked;
use crate::conversion::converted_merged;
use crate::lists::resolved;
use crate::tables::admitted;

const KNOTS: usize = 512;
const DEGREE: u32 = 9;

/// Knots one after the other, all merged into the first of them.
pub type Run = Vec<f64>;

/// "ARGUMENT about count, degree and tolerance comes before all of these" (reading 23). None is an argument of the wrong
/// byte length: of knots a bad count, of a rule a bad degree.
fn argued(knots: Option<Vec<Quantity>>, rule: Option<Rule>) -> Checked<(Vec<Quantity>, Rule)> {
    let knots = knots.filter(|all| (1..=KNOTS).contains(&all.len())).ok_or(ARGUMENT)?;
    let rule = rule.filter(|rule| (1..=DEGREE).contains(&rule.degree)).ok_or(ARGUMENT)?;
    let tolerance = f64::from_bits(rule.tolerance);
    if tolerance.is_nan() || tolerance.is_infinite() || tolerance < 0.0 {
        return Err(ARGUMENT);
    }
    Ok((knots, rule))
}

/// Knot after knot, each complete: the table, its list, the target list, the rest (reading 24). The table is the same for
/// all of them, so it is looked at once.
pub fn converted(table: &[u8], knots: &[Quantity], target: &List) -> Checked<Vec<f64>> {
    let table = admitted(bytes::table(table))?;
    let mut values = Vec::new();
    for knot in knots {
        let own = resolved(&table, Some(knot.unit.clone()))?;
        let target = resolved(&table, Some(target.clone()))?;
        values.push(converted_merged(&table, knot.value(), &own, &target)?);
    }
    Ok(values)
}

/// "ORDER for a fall, NaN or infinity", of all values before any is merged (reading 25).
fn ordered(values: &[f64]) -> Checked<()> {
    let odd = values.iter().any(|value| value.is_nan() || value.is_infinite());
    let falls = values.windows(2).any(|pair| pair[1] < pair[0]);
    if odd || falls { Err(ORDER) } else { Ok(()) }
}

/// "Each next knot joins the run exactly if it, less the run's first by one rounded subtraction, is at most the
/// tolerance, and begins the next run otherwise."
pub fn runs(values: &[f64], tolerance: f64) -> Vec<Run> {
    let mut runs: Vec<Run> = Vec::new();
    for value in values {
        match runs.last_mut() {
            Some(run) if *value - run[0] <= tolerance => run.push(*value),
            _ => runs.push(vec![*value]),
        }
    }
    runs
}

/// "MULTIPLE for a multiplicity above degree plus one."
fn merged(values: &[f64], rule: &Rule) -> Checked<Vec<Run>> {
    let runs = runs(values, f64::from_bits(rule.tolerance));
    if runs.iter().any(|run| run.len() > rule.degree as usize + 1) { Err(MULTIPLE) } else { Ok(runs) }
}

/// What both calls have in common, up to MULTIPLE (reading 27).
fn taken(table: &[u8], knots: &[u8], rule: Option<Rule>) -> Checked<Vec<Run>> {
    let (knots, rule) = argued(bytes::knots(knots), rule)?;
    let values = converted(table, &knots, &rule.target)?;
    ordered(&values)?;
    merged(&values, &rule)
}

/// "The distinct values with their multiplicities"; "the first stands for all".
pub fn vector(table: &[u8], knots: &[u8], rule: &[u8]) -> Checked<Vec<Distinct>> {
    let runs = taken(table, knots, bytes::rule(rule))?;
    Ok(runs.iter().map(|run| Distinct { bits: bits_of(run[0]), multiplicity: run.len() as u32 }).collect())
}

pub fn span(table: &[u8], knots: &[u8], rule: &[u8]) -> Checked<f64> {
    let asked = bytes::span_rule(rule);
    let runs = taken(table, knots, asked.clone().map(|asked| asked.rule))?;
    let asked = asked.expect("a rule was taken");
    quotient(&runs, asked.place, f64::from_bits(asked.x))
}

/// "(x − left)/(right − left) for a span named by its left knot's place from 0, its ends taken at their runs' first
/// values, a merged span giving 0" (reading 28). A place that is no span's is ARGUMENT, last (reading 27).
pub fn quotient(runs: &[Run], place: u32, x: f64) -> Checked<f64> {
    let of_knots: Vec<&Run> = runs.iter().flat_map(|run| run.iter().map(move |_| run)).collect();
    let (from, to) = (place as usize, place as usize + 1);
    let (Some(left), Some(right)) = (of_knots.get(from), of_knots.get(to)) else { return Err(ARGUMENT) };
    if std::ptr::eq(*left, *right) {
        return Ok(0.0);
    }
    let (left, right) = (left[0], right[0]);
    Ok((x - left) / (right - left))
}

/// The answer of a knot vector: the number, reserved, the distinct values.
pub fn vector_bytes(all: &[Distinct]) -> Vec<u8> {
    let mut out = Vec::new();
    put_u32(&mut out, all.len() as u32);
    put_u32(&mut out, 0);
    all.iter().for_each(|distinct| put_distinct(&mut out, distinct));
    out
}
