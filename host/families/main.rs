// Conversions between units of one family by both rules, for judge.py to hold against exact fractions.
//
// Prints, as lines of words:
//
//   row NAME [FACTOR DEFINITION]          the table
//   family NAME                           what follows is of this family
//   pair OWN TARGET canonical|spelled     the two units, and whether the own list is in canonical form as it is spelled
//   VALUE OLD NEW                         the bits of a value, and of what `convert_to` and `convert_merged` answer, or
//                                         the refusal's name
mod pairs;
mod units;

use std::collections::BTreeSet;
use std::io::{self, BufWriter, Write};

use demsharin::{Quantity, Refusal, Table};
use pairs::{FAMILIES, Family, ROOTS};

const SEED: u64 = 1;
/// Values for each pair and direction, in thousandths, hundredths and 64ths by turns, and how high they go.
const VALUES: usize = 3000;
const STEPS: [(f64, u64); 3] = [(1000.0, 100_000), (100.0, 100_000), (64.0, 6_400)];

/// splitmix64
fn random(state: &mut u64) -> u64 {
    *state = state.wrapping_add(0x9e37_79b9_7f4a_7c15);
    let mut z = *state;
    z = (z ^ (z >> 30)).wrapping_mul(0xbf58_476d_1ce4_e5b9);
    z = (z ^ (z >> 27)).wrapping_mul(0x94d0_49bb_1331_11eb);
    z ^ (z >> 31)
}

/// Each is the float nearest to so many parts, as a reader of decimals has it; no two are the same.
fn values(state: &mut u64) -> Vec<f64> {
    let (mut met, mut all) = (BTreeSet::new(), Vec::new());
    while all.len() < VALUES {
        let (parts, most) = STEPS[all.len() % STEPS.len()];
        let value = (1 + random(state) % most) as f64 / parts;
        if met.insert(value.to_bits()) {
            all.push(value);
        }
    }
    all
}

fn word(answer: Result<Quantity, Refusal>) -> String {
    match answer {
        Ok(quantity) => format!("{:016x}", quantity.value.to_bits()),
        Err(refusal) => refusal.to_string(),
    }
}

fn converted(out: &mut impl Write, table: &Table, state: &mut u64, own: &str, target: &str) -> io::Result<()> {
    let (from, to) = (units::list(own), units::list(target));
    let form = if table.canonical(&from).as_ref() == Ok(&from) { "canonical" } else { "spelled" };
    writeln!(out, "pair {own} {target} {form}")?;
    for value in values(state) {
        let own = Quantity::new(value, from.clone());
        let (old, new) = (table.convert_to(&own, &to), table.convert_merged(&own, &to));
        writeln!(out, "{:016x} {} {}", value.to_bits(), word(old), word(new))?;
    }
    Ok(())
}

fn family(out: &mut impl Write, table: &Table, state: &mut u64, family: &Family) -> io::Result<()> {
    writeln!(out, "family {}", family.name)?;
    for (a, b) in family.pairs() {
        converted(out, table, state, a, b)?;
        converted(out, table, state, b, a)?;
    }
    Ok(())
}

fn main() -> io::Result<()> {
    let (table, mut state) = (units::table(), SEED);
    let mut out = BufWriter::new(io::stdout().lock());
    for (name, text) in units::ROWS {
        writeln!(out, "{}", format!("row {name} {text}").trim_end())?;
    }
    for each in FAMILIES.iter().chain([&ROOTS]) {
        family(&mut out, &table, &mut state, each)?;
    }
    out.flush()
}
