// How often each way of making a conversion met each outcome by each rule, and how often each count.
use std::io;

use wire::refusals::*;

use crate::asking;
use crate::judging::RULES;
use crate::tallies::Tallies;

/// All that the two calls may answer but ROOM, which comes with the room.
const REFUSALS: [u32; 7] = [TABLE, SHAPE, UNKNOWN, RANGE, DENOMINATOR, UNITS, FRACTION];
/// Where the bands of counts begin.
const BANDS: [u32; 9] = [0, 1, 10, 100, 1000, 2000, 2560, 2561, 3744];
const COUNT: &str = "count by ";
const ALL: &str = "all";
const DIFFERENT: &str = "different";

/// By rule, way and outcome; and by rule, way and count.
#[derive(Default)]
pub struct Met(Tallies);

impl Met {
    /// A conversion that both rules are asked for.
    pub fn add_asked(&mut self) {
        self.0.put([ALL, "", "asked"], 1);
    }

    /// What a rule answered to a conversion made in a way; the count is that of an answer.
    pub fn add(&mut self, rule: &str, way: &str, number: u32, count: u32) {
        for row in [way, ALL] {
            self.0.put([rule, row, &name(number)], 1);
            if number == 0 {
                self.0.put([&format!("{COUNT}{rule}"), row, &count.to_string()], 1);
            }
        }
    }

    pub fn add_short(&mut self, rule: &str) {
        self.0.put([rule, "a short room", &name(ROOM)], 1);
    }

    pub fn add_different(&mut self) {
        self.0.put([ALL, "", DIFFERENT], 1);
    }

    pub fn different(&self) -> u64 {
        self.0.of([ALL, "", DIFFERENT])
    }

    pub fn read(files: &[String]) -> io::Result<Met> {
        Tallies::read(files).map(Met)
    }

    pub fn write(&self, file: &str) -> io::Result<()> {
        self.0.write(file)
    }

    /// Every count of a way, with how often it was met.
    fn counts(&self, rule: &str, way: &str) -> Vec<(u32, u64)> {
        let what = format!("{COUNT}{rule}");
        self.0.met(&what, way).map(|(count, n)| (count.parse().expect("a count"), n)).collect()
    }

    fn largest(&self, rule: &str, way: &str) -> Option<u32> {
        self.counts(rule, way).into_iter().map(|(count, _)| count).max()
    }

    /// The refusals that a rule never had, and the most that it never counted.
    pub fn missed(&self) -> Vec<String> {
        let mut missed = Vec::new();
        for (rule, most) in RULES.iter().map(|rule| (rule.name, rule.most)) {
            let refused = REFUSALS.iter().filter(|number| self.0.of([rule, ALL, &name(**number)]) == 0);
            missed.extend(refused.map(|number| format!("{} by {rule}", name(*number))));
            if self.0.of([rule, "a short room", &name(ROOM)]) == 0 {
                missed.push(format!("ROOM by {rule}"));
            }
            if self.0.of([&format!("{COUNT}{rule}"), ALL, &most.to_string()]) == 0 {
                missed.push(format!("{most} multiplications by {rule}"));
            }
        }
        missed
    }

    fn print_ways(&self, rule: &str) {
        let refusals = REFUSALS.map(name);
        println!("| conversions by {rule} | number | answered | of these 0 | most | {} |", refusals.join(" | "));
        println!("|{}", "---|".repeat(refusals.len() + 5));
        for way in asking::ways().chain([ALL]) {
            let refused = refusals.each_ref().map(|refusal| self.0.of([rule, way, refusal]));
            let answered = self.0.of([rule, way, &name(0)]);
            let zero = self.0.of([&format!("{COUNT}{rule}"), way, "0"]);
            let most = self.largest(rule, way).map_or(String::new(), |most| most.to_string());
            let number = answered + refused.iter().sum::<u64>();
            let refused = refused.map(|n| n.to_string()).join(" | ");
            println!("| {way} | {number} | {answered} | {zero} | {most} | {refused} |");
        }
    }

    /// How many answers of each rule count from the beginning of each band to that of the next.
    fn print_bands(&self) {
        let rules = RULES.each_ref().map(|rule| rule.name);
        println!("| multiplications | {} |\n|---|---|---|", rules.map(|rule| format!("by {rule}")).join(" | "));
        for (at, from) in BANDS.iter().enumerate() {
            let to = BANDS.get(at + 1).map_or(u32::MAX, |next| next - 1);
            let within = |rule| {
                self.counts(rule, ALL).iter().filter(|(n, _)| (*from..=to).contains(n)).map(|(_, n)| n).sum::<u64>()
            };
            let band = if to == *from || to == u32::MAX { from.to_string() } else { format!("{from} to {to}") };
            println!("| {band} | {} |", rules.map(|rule| within(rule).to_string()).join(" | "));
        }
    }

    pub fn print(&self) {
        RULES.iter().for_each(|rule| self.print_ways(rule.name));
        self.print_bands();
        for missed in self.missed() {
            println!("never met: {missed}");
        }
        println!(
            "of {} conversions, each by both rules: {} different",
            self.0.of([ALL, "", "asked"]),
            self.different()
        );
    }
}
