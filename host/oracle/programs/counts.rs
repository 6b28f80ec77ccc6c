// Counts per call and outcome: kept in a file over several streams, printed as lines or as a table.
use std::collections::{BTreeMap, BTreeSet};
use std::fs;
use std::io;

use wire::{calls, refusals};

pub const DIFFERENT: &str = "DIFFERENT";
/// Not an outcome: the requests that the first of several judges calls outside, so that the others alone judge them.
pub const UNJUDGED: &str = "outside the Rust";

/// How often each outcome was met, by code.
#[derive(Default)]
pub struct Counts(BTreeMap<u32, BTreeMap<String, u64>>);

impl Counts {
    pub fn add(&mut self, code: u32, outcome: &str, n: u64) {
        *self.0.entry(code).or_default().entry(outcome.to_string()).or_default() += n;
    }

    /// A line for each count: code, outcome, number, with tabs between. No file is no counts.
    pub fn read(file: &str) -> io::Result<Counts> {
        let mut counts = Counts::default();
        let text = if fs::exists(file)? { fs::read_to_string(file)? } else { String::new() };
        for line in text.lines() {
            let parts: Vec<&str> = line.split('\t').collect();
            let [code, outcome, n] = parts[..] else { return Err(io::Error::other(format!("no count: {line}"))) };
            counts.add(code.parse().map_err(io::Error::other)?, outcome, n.parse().map_err(io::Error::other)?);
        }
        Ok(counts)
    }

    /// The file's counts and these.
    pub fn add_to(&self, file: &str) -> io::Result<()> {
        let mut sum = Counts::read(file)?;
        for (code, outcomes) in &self.0 {
            outcomes.iter().for_each(|(outcome, n)| sum.add(*code, outcome, *n));
        }
        let mut text = String::new();
        for (code, outcomes) in &sum.0 {
            outcomes.iter().for_each(|(outcome, n)| text += &format!("{code}\t{outcome}\t{n}\n"));
        }
        fs::write(file, text)
    }

    /// How often an outcome was met, over all calls.
    pub fn of(&self, outcome: &str) -> u64 {
        self.0.values().filter_map(|outcomes| outcomes.get(outcome)).sum()
    }

    pub fn print(&self) {
        for (code, outcomes) in &self.0 {
            let parts: Vec<String> = outcomes.iter().map(|(outcome, n)| format!("{outcome} {n}")).collect();
            println!("{code:>2} {:<18} {}", name(*code), parts.join(", "));
        }
    }

    /// A column for each outcome that was met, and one for differences.
    pub fn print_table(&self) {
        let met: BTreeSet<&str> = self.0.values().flatten().map(|(outcome, _)| outcome.as_str()).collect();
        let known: Vec<String> = (0..=refusals::ARGUMENT).map(refusals::name).collect();
        let mut columns: Vec<&str> = known.iter().map(String::as_str).filter(|name| met.contains(name)).collect();
        let other = |name: &&str| ![DIFFERENT, UNJUDGED].contains(name) && known.iter().all(|k| k != name);
        columns.extend(met.iter().copied().filter(other));
        columns.push(DIFFERENT);
        columns.extend(met.get(UNJUDGED));
        println!("| code | call | requests | {} |", columns.join(" | "));
        println!("|{}", "---|".repeat(columns.len() + 3));
        let mut all = Counts::default();
        for (code, outcomes) in &self.0 {
            print_row(&format!("{code} | {}", name(*code)), outcomes, &columns);
            outcomes.iter().for_each(|(outcome, n)| all.add(0, outcome, *n));
        }
        all.0.values().for_each(|outcomes| print_row("| all", outcomes, &columns));
    }

    pub fn print_total(&self) {
        let mut total: BTreeMap<&str, u64> = BTreeMap::new();
        for (outcome, n) in self.0.values().flatten() {
            let kind = match outcome.as_str() {
                UNJUDGED => continue,
                "answered" => "answered alike",
                DIFFERENT => "different",
                other if other.starts_with("outside") => "outside, not compared",
                _ => "refused alike",
            };
            *total.entry(kind).or_default() += n;
        }
        let parts: Vec<String> = total.iter().map(|(kind, n)| format!("{kind} {n}")).collect();
        let unjudged = match self.of(UNJUDGED) {
            0 => String::new(),
            n => format!("; of these {UNJUDGED} {n}"),
        };
        println!("of {} requests: {}{unjudged}", total.values().sum::<u64>(), parts.join(", "));
    }
}

fn name(code: u32) -> &'static str {
    calls::of_code(code).map_or("end", |call| call.name)
}

fn print_row(head: &str, outcomes: &BTreeMap<String, u64>, columns: &[&str]) {
    let all: u64 = outcomes.iter().filter(|(outcome, _)| *outcome != UNJUDGED).map(|(_, n)| n).sum();
    let cells: Vec<String> = columns.iter().map(|c| outcomes.get(*c).copied().unwrap_or(0).to_string()).collect();
    println!("| {head} | {all} | {} |", cells.join(" | "));
}
