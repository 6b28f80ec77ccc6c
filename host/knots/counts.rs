// How often each way of making a vector met each outcome, and each sort of x each sort of span.
use std::io;

use generator::knots::SORTS;
use wire::refusals::*;

use crate::asking;
use crate::sorts::{APART, ENDLESS, MERGED};
use crate::tallies::Tallies;

/// All that the two calls may answer but ROOM, which comes with the room.
const OUTCOMES: [u32; 11] = [0, TABLE, SHAPE, UNKNOWN, RANGE, DENOMINATOR, UNITS, FRACTION, ORDER, MULTIPLE, ARGUMENT];
/// Of which the counts are.
pub const VECTORS: &str = "knot_vector";
pub const SPANS: &str = "span_quotient";
const BY_X: &str = "x";
const ANSWERED: &str = "answered";
const ALL: &str = "all";
const DIFFERENT: &str = "different";

#[derive(Default)]
pub struct Counts(Tallies);

impl Counts {
    /// What a call answered to a vector made in a way.
    pub fn add(&mut self, call: &str, way: &str, number: u32) {
        self.0.put([call, way, &name(number)], 1);
        self.0.put([call, ALL, &name(number)], 1);
    }

    /// An answered span of a sort, with an x of a sort.
    pub fn add_span(&mut self, x: &str, span: &str) {
        self.0.put([BY_X, x, span], 1);
    }

    /// An answered vector of a sort.
    pub fn add_sort(&mut self, sort: &str) {
        self.0.put([ANSWERED, "", sort], 1);
    }

    pub fn add_different(&mut self) {
        self.0.put([ALL, "", DIFFERENT], 1);
    }

    pub fn different(&self) -> u64 {
        self.0.of([ALL, "", DIFFERENT])
    }

    /// The outcomes that a call never had.
    pub fn missed(&self) -> Vec<String> {
        let never = |call: &str, number: u32| self.0.of([call, ALL, &name(number)]) == 0;
        let all = |call| OUTCOMES.into_iter().chain([ROOM]).filter(move |number| never(call, *number));
        [VECTORS, SPANS].into_iter().flat_map(|call| all(call).map(move |n| format!("{call} {}", name(n)))).collect()
    }

    pub fn read(files: &[String]) -> io::Result<Counts> {
        Tallies::read(files).map(Counts)
    }

    pub fn write(&self, file: &str) -> io::Result<()> {
        self.0.write(file)
    }

    fn print_row(&self, what: &str, row: &str, columns: &[String]) {
        let cells: Vec<u64> = columns.iter().map(|column| self.0.of([what, row, column])).collect();
        let shown: Vec<String> = cells.iter().map(u64::to_string).collect();
        println!("| {row} | {} | {} |", cells.iter().sum::<u64>(), shown.join(" | "));
    }

    fn print_table(&self, what: &str, head: &str, rows: &[&str], columns: &[String]) {
        println!("| {head} | number | {} |", columns.join(" | "));
        println!("|{}", "---|".repeat(columns.len() + 2));
        rows.iter().for_each(|row| self.print_row(what, row, columns));
    }

    pub fn print(&self) {
        let outcomes = OUTCOMES.map(name);
        let ways: Vec<&str> = asking::ways().chain([ALL]).collect();
        self.print_table(VECTORS, "knot vectors", &ways, &outcomes);
        self.print_table(SPANS, "span quotients", &ways, &outcomes);
        self.print_table(BY_X, "x of an answered span", &SORTS, &[APART, MERGED, ENDLESS].map(str::to_string));
        println!("| answered vectors with | number |\n|---|---|");
        self.0.met(ANSWERED, "").for_each(|(sort, n)| println!("| {sort} | {n} |"));
        let asked = |call| OUTCOMES.map(|number| self.0.of([call, ALL, &name(number)])).iter().sum::<u64>();
        for missed in self.missed() {
            println!("never met: {missed}");
        }
        println!("of {} vectors and {} spans: {} different", asked(VECTORS), asked(SPANS), self.different());
    }
}
