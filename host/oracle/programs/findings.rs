// The findings about the Rust, each by the smallest input that shows it.
//
//   findings requests        writes the stream of the inputs
//   findings show ANSWERS .. prints each with its answers, one column for each stream
//   findings order           how the Rust's own order places rows of one key
//   findings near            whether the registry's own first candidate could win
//   findings deep DEPTH      writes one request over a table whose last row has that depth, two factors a row
use std::fs::File;
use std::io::{self, BufReader, Write};

use published::units::Units;
use wire::making::{base, derived, factor, list, metric, one, over, quantity};
use wire::records::{Factor, List, Row};
use wire::stream::{Next, Request, read_answer};
use wire::text;

const LARGE: u32 = 2_147_483_647;

struct Finding {
    name: &'static str,
    request: Request,
}

fn metre(n: i32) -> List {
    List::of(vec![metric(n, factor(0, 1, 1))])
}

fn finding(name: &'static str, rows: &[Row], code: u32, arguments: Vec<Vec<u8>>) -> Finding {
    Finding { name, request: over(rows, code, arguments) }
}

/// A row over so many base rows, each to 1/denominator.
fn wide(bases: u16, denominator: u32) -> Vec<Row> {
    let parts = (0..bases as u32).map(|row| factor(row, 1, denominator)).collect();
    (0..bases).map(base).chain([derived(bases, 1.0, parts)]).collect()
}

fn panics() -> Vec<Finding> {
    let rows = [base(0)];
    let (near, far) = (quantity(1.0, metre(0)), quantity(f64::INFINITY, metre(-1100)));
    let (more, most) = (quantity(1.0, metre(1099)), quantity(1.0, metre(1100)));
    vec![
        finding("1 m compared with ∞ Metric(−1100) m", &rows, 18, vec![near, far]),
        finding("1 Metric(1099) m compared with 1 Metric(1100) m", &rows, 18, vec![more, most]),
        finding("canonical form of a row of 4 bases to 1/2147483647", &wide(4, LARGE), 5, vec![list(one(4))]),
        finding("canonical form of a row of 5 bases to 1/2147483647", &wide(5, LARGE), 5, vec![list(one(5))]),
        finding("canonical form of a row of 5 bases to 1/67108864", &wide(5, 1 << 26), 5, vec![list(one(5))]),
        finding("canonical form of a row of 8 bases to 1/65536", &wide(8, 1 << 16), 5, vec![list(one(8))]),
    ]
}

/// Two rows over the same 5 bases, to 1/2147483647 and to 1: their keys are the same, so rank decides.
fn wrapped_key() -> Finding {
    let parts = |den: u32| (0..5).map(|row| factor(row, 1, den)).collect::<Vec<Factor>>();
    let rows: Vec<Row> = (0..5).map(base).chain([derived(6, 1.0, parts(LARGE)), derived(5, 1.0, parts(1))]).collect();
    let both = List::of(vec![factor(5, 1, 1), factor(6, 1, 1)]);
    finding(
        "canonical form of row5·row6, one key, row5 of 5 bases to 1/2147483647, rank of row6 lower",
        &rows,
        5,
        vec![list(both)],
    )
}

fn beyond() -> Vec<Finding> {
    let newton = [
        base(2),
        base(5),
        base(7),
        derived(6, 1.0, vec![metric(3, factor(0, 1, 1)), factor(1, 1, 1), factor(2, -2, 1)]),
    ];
    let root = List::of(vec![factor(3, 1, 2)]);
    let roots = List::of(vec![factor(0, 1, 2), factor(1, 1, 2), factor(2, -1, 1)]);
    let high = List::of(vec![factor(0, LARGE as i32, 1)]);
    let scalar = || List::of(Vec::new());
    vec![
        finding(
            "4 newton^(1/2) to gram^(1/2)·metre^(1/2)·second^−1",
            &newton,
            9,
            vec![quantity(4.0, root), list(roots)],
        ),
        finding("2 m^2147483647 to the power 2", &[base(0)], 14, vec![quantity(2.0, high), quantity(2.0, scalar())]),
        finding("2 to the power 1e300", &[base(0)], 14, vec![quantity(2.0, scalar()), quantity(1e300, scalar())]),
    ]
}

/// Where powf rounds otherwise than the power rule.
fn rounding() -> Finding {
    let on = |rank, factor_, row| derived(rank, factor_, vec![factor(row, 1, 1)]);
    let rows = [base(10), on(7, 0.0254, 0), on(3, 12.0, 1), on(11, 5280.0, 2)];
    finding("mile^3 reduced", &rows, 7, vec![list(List::of(vec![factor(3, 3, 1)]))])
}

fn findings() -> Vec<Finding> {
    [panics(), vec![wrapped_key()], beyond(), vec![rounding()]].into_iter().flatten().collect()
}

fn show(files: &[String]) -> io::Result<()> {
    let mut answers: Vec<_> = files.iter().map(|f| File::open(f).map(BufReader::new)).collect::<io::Result<_>>()?;
    for finding in findings() {
        print!("| {}", finding.name);
        for answers in &mut answers {
            let Next::One(answer) = read_answer(answers)? else { return Err(io::Error::other("no answer")) };
            print!(" | {}", text::answer(finding.request.code, &answer));
        }
        println!(" |");
    }
    Ok(())
}

/// Minute and hour over second: one key, so only prefix and exponent are left to the published order.
fn order() {
    let rows = vec![base(7), derived(3, 60.0, vec![factor(0, 1, 1)]), derived(4, 60.0, vec![factor(1, 1, 1)])];
    let mut units = Units::new(rows);
    let mut placed = |name: &str, a: Factor, b: Factor| {
        let unit = units.unit(&List::of(vec![a, b]));
        let [a, b] = &unit.into_iter().collect::<Vec<_>>()[..] else { unreachable!("two factors") };
        println!("{name}: cmp {:?}, equal {}", a.cmp(b), a == b);
    };
    placed("minute and hour", factor(1, 1, 1), factor(2, 1, 1));
    placed("minute^2 and hour", factor(1, 2, 1), factor(2, 1, 1));
    placed("Metric(3) minute and hour", metric(3, factor(1, 1, 1)), factor(2, 1, 1));
}

/// The two tests on a scale s: the single base unit's, and the one that its name as a candidate would have to pass.
fn near() {
    let single = |s: f64| (s - 1.0).abs() < 1e-9;
    let candidate = |s: f64| (s - 1.0).abs() < 1e-9 * s.abs().max(1.0);
    let around = |middle: f64| {
        let bits = middle.to_bits();
        (bits - 10_000_000..bits + 10_000_000).map(f64::from_bits).filter(|s| candidate(*s) && !single(*s)).count()
    };
    println!("scales that pass as a candidate only: {} above 1, {} below", around(1.0 + 1e-9), around(1.0 - 1e-9));
}

fn deep(depth: u16) -> Request {
    let row = |at: u16| derived(at, 2.0, vec![factor(at as u32 - 1, 1, 1), factor(at as u32 - 1, 0, 1)]);
    let rows: Vec<Row> = [base(0)].into_iter().chain((1..=depth).map(row)).collect();
    over(&rows, 9, vec![quantity(3.0, one(depth as u32)), list(one(0))])
}

fn main() -> io::Result<()> {
    let given: Vec<String> = std::env::args().skip(1).collect();
    let words: Vec<&str> = given.iter().map(String::as_str).collect();
    match words[..] {
        ["requests"] => findings().iter().try_for_each(|f| io::stdout().write_all(&f.request.to_bytes())),
        ["show", ..] => show(&given[1..]),
        ["order"] => Ok(order()),
        ["near"] => Ok(near()),
        ["deep", depth] => io::stdout().write_all(&deep(depth.parse().map_err(io::Error::other)?).to_bytes()),
        _ => Err(io::Error::other("findings requests | show ANSWERS .. | order | near | deep DEPTH")),
    }
}
