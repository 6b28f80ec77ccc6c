// 01's bench list as a stream of requests, and its answers as a table.
//
//   bench requests           writes the stream
//   bench show ANSWERS ..    prints each case with its answers, one column for each stream
use std::fs::File;
use std::io::{self, BufReader, Write};

use wire::making::{base, binary, derived, factor, list, metric, one, over, prefix, quantity, unmarked};
use wire::records::{LIST_PLACES, List, Row};
use wire::stream::{Next, Request, read_answer};
use wire::text;

const NAMES: [&str; 8] = ["gram", "metre", "second", "bit", "minute", "hour", "byte", "newton"];
const GRAM: u32 = 0;
const METRE: u32 = 1;
const SECOND: u32 = 2;
const BIT: u32 = 3;
const MINUTE: u32 = 4;
const HOUR: u32 = 5;
const BYTE: u32 = 6;
const NEWTON: u32 = 7;

/// Ranks of reading 9: minute ranks below hour.
fn rows() -> Vec<Row> {
    vec![
        base(2),
        base(5),
        base(7),
        base(0),
        derived(3, 60.0, vec![factor(SECOND, 1, 1)]),
        derived(4, 60.0, vec![factor(MINUTE, 1, 1)]),
        derived(1, 8.0, vec![factor(BIT, 1, 1)]),
        derived(6, 1.0, vec![metric(3, factor(GRAM, 1, 1)), factor(METRE, 1, 1), factor(SECOND, -2, 1)]),
    ]
}

/// The bench table, filled up with further rows of the scalar to the wanted length.
fn filled(len: u16) -> Vec<Row> {
    rows().into_iter().chain((8..len).map(|rank| derived(rank, 1.0, Vec::new()))).collect()
}

struct Case {
    name: &'static str,
    request: Request,
}

/// A case over the bench table.
fn case(name: &'static str, code: u32, arguments: Vec<Vec<u8>>) -> Case {
    Case { name, request: over(&rows(), code, arguments) }
}

fn conversions() -> Vec<Case> {
    let root = |row| factor(row, 1, 2);
    let roots = List::of(vec![root(GRAM), root(METRE), factor(SECOND, -1, 1)]);
    let (none, bare) = (one(METRE), List::of(vec![binary(0, factor(METRE, 1, 1))]));
    vec![
        case("6 hour to minute", 9, vec![quantity(6.0, one(HOUR)), list(one(MINUTE))]),
        case(
            "1 Binary(10) byte to bit",
            9,
            vec![quantity(1.0, List::of(vec![binary(10, factor(BYTE, 1, 1))])), list(one(BIT))],
        ),
        case("5 metre to second", 9, vec![quantity(5.0, one(METRE)), list(one(SECOND))]),
        case("0 metre to second", 9, vec![quantity(0.0, one(METRE)), list(one(SECOND))]),
        case("−0 metre to second", 9, vec![quantity(-0.0, one(METRE)), list(one(SECOND))]),
        case("newton reduced", 7, vec![list(one(NEWTON))]),
        case("4 newton^(1/2) to its base units", 9, vec![quantity(4.0, List::of(vec![root(NEWTON)])), list(roots)]),
        case("Metric(0) metre and Binary(0) metre: same list", 6, vec![list(none.clone()), list(bare.clone())]),
        case("7 Metric(0) metre to Binary(0) metre", 9, vec![quantity(7.0, none.clone()), list(bare.clone())]),
        case("7 Binary(0) metre to Metric(0) metre", 9, vec![quantity(7.0, bare), list(none)]),
    ]
}

fn sums() -> Vec<Case> {
    let scalar = || List::of(Vec::new());
    let (five, late) = (|| unmarked(5.0, one(SECOND)), || quantity(0.0, one(METRE)));
    let both = List::of(vec![factor(MINUTE, 1, 1), factor(HOUR, 1, 1)]);
    vec![
        case("0 second compared with 5 metre", 18, vec![quantity(0.0, one(SECOND)), quantity(5.0, one(METRE))]),
        case("5 metre compared with 0 second", 18, vec![quantity(5.0, one(METRE)), quantity(0.0, one(SECOND))]),
        case("0 metre + 5 unmarked second", 10, vec![late(), five()]),
        case("0 metre − 5 unmarked second", 11, vec![late(), five()]),
        case("0 metre to −1", 14, vec![late(), quantity(-1.0, scalar())]),
        case("1 hour + 30 minute", 10, vec![quantity(1.0, one(HOUR)), quantity(30.0, one(MINUTE))]),
        case("2 minute·hour simplified", 21, vec![quantity(2.0, both)]),
    ]
}

fn many(len: usize) -> List {
    let factors = vec![factor(METRE, 1, 1); len.min(LIST_PLACES)];
    List { len: len as u32, factors }
}

fn prefix_case(name: &'static str, n: i32) -> Case {
    Case { name, request: Request { code: 1, arguments: vec![prefix(0, n)] } }
}

fn limits() -> Vec<Case> {
    vec![
        case("16 factors", 5, vec![list(many(16))]),
        case("17 factors", 5, vec![list(many(17))]),
        case("8 factors times 9", 2, vec![list(many(8)), list(many(9))]),
        prefix_case("prefix Metric(1100)", 1100),
        prefix_case("prefix Metric(1101)", 1101),
        Case { name: "row 127 of 128", request: over(&filled(128), 5, vec![list(one(127))]) },
        Case { name: "a 129th row", request: over(&filled(129), 5, vec![list(one(127))]) },
    ]
}

fn cases() -> Vec<Case> {
    [conversions(), sums(), limits()].into_iter().flatten().collect()
}

/// Rows by their names.
fn named(answer: String) -> String {
    NAMES.iter().enumerate().fold(answer, |text, (row, name)| {
        let digitless = |rest: &str| !rest.starts_with(|c: char| c.is_ascii_digit());
        let mark = format!("row{row}");
        text.split(&mark)
            .map(str::to_string)
            .reduce(|before, rest| if digitless(&rest) { before + name + &rest } else { before + &mark + &rest })
            .unwrap_or_default()
    })
}

fn show(files: &[String]) -> io::Result<()> {
    let mut answers: Vec<_> = files.iter().map(|f| File::open(f).map(BufReader::new)).collect::<io::Result<_>>()?;
    for case in cases() {
        print!("| {}", case.name);
        for answers in &mut answers {
            let Next::One(answer) = read_answer(answers)? else { return Err(io::Error::other("no answer")) };
            print!(" | {}", named(text::answer(case.request.code, &answer)));
        }
        println!(" |");
    }
    Ok(())
}

fn main() -> io::Result<()> {
    let given: Vec<String> = std::env::args().skip(1).collect();
    match given.first().map(String::as_str) {
        Some("requests") => cases().iter().try_for_each(|case| io::stdout().write_all(&case.request.to_bytes())),
        Some("show") => show(&given[1..]),
        _ => Err(io::Error::other("bench requests, or bench show ANSWERS ..")),
    }
}
