// How often each way of damage met each outcome: kept in a file over several seeds, printed as tables.
use std::collections::BTreeMap;
use std::fs;
use std::io;

const REFUSALS: [&str; 6] = ["TABLE", "SHAPE", "RANGE", "DENOMINATOR", "FRACTION", "FORMAT"];
const ALL: &str = "all";
const PLACES: &str = "places";
const SHORT: &str = "below the head";
pub const DIFFERENT: &str = "different";

#[derive(Default)]
pub struct Counts(BTreeMap<(String, String), u64>);

impl Counts {
    fn put(&mut self, way: &str, outcome: &str, n: u64) {
        *self.0.entry((way.to_string(), outcome.to_string())).or_default() += n;
    }

    pub fn add(&mut self, way: &str, outcome: &str) {
        self.put(way, outcome, 1);
        self.put(ALL, outcome, 1);
    }

    /// How many rows were lent for a file of so many.
    pub fn add_places(&mut self, counted: Option<u32>, places: usize) {
        let sort = match counted.map(|count| (count as usize).cmp(&places)) {
            None => "for no count",
            Some(std::cmp::Ordering::Greater) => "too few",
            Some(std::cmp::Ordering::Equal) => "as many",
            Some(_) => "more",
        };
        self.put(PLACES, sort, 1);
        if [128, 129, 200].contains(&places) {
            self.put(PLACES, &places.to_string(), 1);
        }
    }

    pub fn add_short(&mut self) {
        self.put(PLACES, SHORT, 1);
    }

    pub fn add_different(&mut self, n: u64) {
        self.put(ALL, DIFFERENT, n);
    }

    pub fn of(&self, way: &str, outcome: &str) -> u64 {
        self.0.get(&(way.to_string(), outcome.to_string())).copied().unwrap_or(0)
    }

    fn sum(&self, way: &str, outcomes: &[&str]) -> u64 {
        outcomes.iter().map(|outcome| self.of(way, outcome)).sum()
    }

    pub fn different(&self) -> u64 {
        self.of(ALL, DIFFERENT)
    }

    /// A line for each count: way, outcome, number, with tabs between. No file is no counts.
    pub fn read(file: &str) -> io::Result<Counts> {
        let mut counts = Counts::default();
        let text = if fs::exists(file)? { fs::read_to_string(file)? } else { String::new() };
        for line in text.lines() {
            let parts: Vec<&str> = line.split('\t').collect();
            let [way, outcome, n] = parts[..] else { return Err(io::Error::other(format!("no count: {line}"))) };
            counts.put(way, outcome, n.parse().map_err(io::Error::other)?);
        }
        Ok(counts)
    }

    pub fn with(mut self, other: Counts) -> Counts {
        other.0.iter().for_each(|((way, outcome), n)| self.put(way, outcome, *n));
        self
    }

    pub fn write(&self, file: &str) -> io::Result<()> {
        fs::write(file, self.0.iter().map(|((way, outcome), n)| format!("{way}\t{outcome}\t{n}\n")).collect::<String>())
    }

    pub fn print(&self, ways: impl Iterator<Item = &'static str>) {
        println!("| file | number | read | {} | salvaged: all | some | none |", REFUSALS.join(" | "));
        println!("|{}", "---|".repeat(REFUSALS.len() + 6));
        for way in ways.chain([ALL]) {
            let read = |outcome: &str| self.of(way, &format!("read {outcome}"));
            let kept = ["kept all", "some", "none"].map(|outcome| self.of(way, outcome));
            let cells = [kept.iter().sum(), read("answered")].into_iter().chain(REFUSALS.map(read)).chain(kept);
            println!("| {way} | {} |", cells.map(|n| n.to_string()).collect::<Vec<_>>().join(" | "));
        }
        self.print_rest();
    }

    fn print_rest(&self) {
        let written = ["answered", "ROOM", "TABLE", "SHAPE", "RANGE", "DENOMINATOR", "FRACTION"];
        let told = written.map(|name| format!("{name} {}", self.of(ALL, &format!("written {name}"))));
        println!("written: {}", told.join(", "));
        let lent = ["too few", "as many", "more", "for no count", "128", "129", "200", SHORT];
        println!("places lent: {}", lent.map(|sort| format!("{sort} {}", self.of(PLACES, sort))).join(", "));
        let files = self.sum(ALL, &["kept all", "some", "none"]);
        println!("of {files} files: {} different", self.different());
    }
}
