// Requests whose exponents leave their range by the numerator, by the denominator or by both, wherever exponents are
// worked out, and often at two places of one request, so that the order shows (02, "Order 2").
use scope::fractions::{Fraction, gcd};
use scope::tables::Known;
use scope::{calls, places};
use wire::calls::{CONVERT_MERGED, CONVERT_MERGED_COUNTED, CONVERT_TO, CONVERT_TO_COUNTED};
use wire::records::{Candidate, Exponent, Factor, LIST_PLACES, List, METRIC, Prefix, Quantity, Row, Rule};
use wire::refusals::{DENOMINATOR, RANGE};
use wire::stream::Request;

use crate::cancelling;
use crate::files;
use crate::knots::Vector;
use crate::lists;
use crate::random::Random;
use crate::requests::{self, Draft, Part, quantity_of};
use crate::rewriting::rewritten;
use crate::tables::{Made, base_row, derived_row, made, unused_rank};
use crate::values;

const LARGE: [i64; 10] = [2147483647, 2147483647, 2147483646, 1 << 30, 715827883, 65537, 65536, 46341, 32768, 32767];
const ODD: [i64; 11] = [2147483647, 2147483629, 1 << 30, 131071, 65537, 65537, 65536, 65521, 46349, 46341, 46337];
const SMALL: [(i64, i64); 9] = [(1, 1), (1, 1), (1, 1), (2, 1), (3, 1), (1, 2), (1, 3), (2, 3), (3, 2)];
/// Exponents whose sums stay in range in this order, and often in no other.
const THERE_AND_BACK: [[(i32, u32); 3]; 3] =
    [[(i32::MAX, 1), (-1, 1), (1, 1)], [(1, 65536), (-1, 65536), (1, 65537)], [(i32::MAX, 2), (-i32::MAX, 2), (1, 3)]];

/// Steps that most requests which leave a range don't get past.
const EARLY: [&str; 6] = [
    "row: base exponents",
    "row: key",
    "conversion: own canonical form",
    "conversion: own base exponents",
    "multiple: the first's base exponents",
    "simplification: to scalar",
];

/// Some drafts, until one is refused by either half, or by a later step, or by one of the two conversions alone; one in
/// three is taken as it comes.
pub fn draft(random: &mut Random, code: u32) -> Draft {
    let (tries, late) = random.pick(&[(1, false), (6, false), (20, true)]);
    let mut taken = drafted(random, code);
    for _ in 1..tries {
        if refused(&taken.request(), late && matches!(code, 9 | 14 | 17 | 18 | 20..=22 | 27..=31)) {
            break;
        }
        taken = drafted(random, code);
    }
    taken
}

fn refused(request: &Request, late: bool) -> bool {
    match late {
        true if [CONVERT_MERGED, CONVERT_TO_COUNTED, CONVERT_MERGED_COUNTED].contains(&request.code) => {
            by_one_rule(request)
        }
        true => places::of(request).and_then(|place| place.step).is_some_and(|step| !EARLY.contains(&step)),
        false => matches!(calls::given(request), Err(RANGE | DENOMINATOR)),
    }
}

/// Whether one of the two conversions is refused by a half and the other isn't.
fn by_one_rule(request: &Request) -> bool {
    let by = |code| {
        let asked = Request { code, arguments: request.arguments.clone() };
        matches!(calls::given(&asked), Err(RANGE | DENOMINATOR))
    };
    by(CONVERT_TO) != by(CONVERT_MERGED)
}

fn drafted(random: &mut Random, code: u32) -> Draft {
    if code == 1 {
        return requests::draft(random, code, 3);
    }
    let mut made = if code >= CONVERT_MERGED && random.percent(50) { over_one(random) } else { table(random) };
    let mut parts = parts(random, &made, code);
    let bare = matches!(code, 2 | 3 | 12 | 13 | 15 | 16 | 23..=26);
    if random.percent(if bare { 60 } else { 12 }) {
        // The parts name the rows before it.
        let row = beyond(random, &made);
        made.rows.push(row);
        parts = file_parts(random, &made, code).unwrap_or(parts);
    }
    Draft { code, made, parts }
}

fn parts(random: &mut Random, made: &Made, code: u32) -> Vec<Part> {
    match code {
        4 => vec![Part::List(list(random, made)), Part::Exponent(exponent(random))],
        5 | 7 => vec![Part::List(list(random, made))],
        2 | 3 | 6 | 19 => {
            let first = list(random, made);
            let second = beside(random, made, &first);
            vec![Part::List(first), Part::List(second)]
        }
        9 => {
            let own = quantity(random, made);
            let target = beside(random, made, &own.unit);
            vec![Part::Quantity(own), Part::List(target)]
        }
        10..=13 | 17 | 18 => {
            let first = quantity(random, made);
            let unit = beside(random, made, &first.unit);
            vec![Part::Quantity(first), Part::Quantity(quantity_of(random, unit))]
        }
        14 => power(random, made),
        20 => multiple(random, made),
        22 => {
            let q = quantity_for(random, made, code);
            let candidate = |rank| Candidate { rank, unit: beside(random, made, &q.unit) };
            let candidates = (0..3).map(candidate).collect();
            vec![Part::Quantity(q), Part::Candidates(candidates)]
        }
        24..=26 => file_parts(random, made, code).expect("a call on files"),
        27 | 30 | 31 => cancelling(random, made),
        28 | 29 => knots(random, made, code),
        _ => vec![Part::Quantity(quantity_for(random, made, code))],
    }
}

/// What a call on files is given for these rows, admitted or not.
fn file_parts(random: &mut Random, made: &Made, code: u32) -> Option<Vec<Part>> {
    let file = scope::files::file(&made.rows);
    match code {
        24 => Some(vec![Part::Lent(files::room(random, file.len()))]),
        25 | 26 => Some(vec![Part::File(file), Part::Lent(files::places(random, made.rows.len()))]),
        _ => None,
    }
}

// ---- exponents

fn lowest(random: &mut Random, (num, den): (i64, i64)) -> Exponent {
    let divisor = gcd(num as i128, den as i128) as i64;
    let sign = if random.percent(30) { -1 } else { 1 };
    Exponent { num: (sign * num / divisor) as i32, den: (den / divisor) as u32 }
}

/// Near the end of the numerator's range, of the denominator's, of both; or small.
fn exponent(random: &mut Random) -> Exponent {
    let parts = match random.weighted(&[24, 42, 9, 25]) {
        0 => (random.pick(&LARGE), 1),
        1 => (random.pick(&[1, 1, 1, 2, 3, 5]), random.pick(&ODD)),
        2 => (random.pick(&LARGE), random.pick(&[2, 3, 7, 65536, 65537, 65521, 46341, 2147483629])),
        _ => random.pick(&SMALL),
    };
    lowest(random, parts)
}

/// Of a definition: mostly small, so that rows are admitted and a list's exponents decide.
fn coefficient(random: &mut Random) -> Exponent {
    let parts = match random.weighted(&[60, 15, 25]) {
        0 => random.pick(&SMALL),
        1 => (random.pick(&LARGE), 1),
        _ => (1, random.pick(&ODD)),
    };
    lowest(random, parts)
}

/// Another exponent of the same sign.
fn like(random: &mut Random, sign_of: Exponent) -> Exponent {
    let other = exponent(random);
    Exponent { num: if sign_of.num < 0 { -other.num.abs() } else { other.num.abs() }, ..other }
}

// ---- tables

/// Two to four base rows, and rows over them, many of them of one key.
fn table(random: &mut Random) -> Made {
    let mut rows = Vec::new();
    for _ in 0..2 + random.below(3) {
        rows.push(base_row(unused_rank(random, &rows)));
    }
    let mut so_far = made(rows).expect("base rows are admitted");
    for _ in 0..2 + random.below(5) {
        let mut rows = so_far.rows.clone();
        rows.push(derived(random, &so_far));
        so_far = made(rows).unwrap_or(so_far);
    }
    so_far
}

/// Rows over one base row of two, some of them to an exponent whose roots are whole in base units.
fn over_one(random: &mut Random) -> Made {
    let mut rows = vec![base_row(random.below(50) as u16), base_row(60)];
    for _ in 0..4 + random.below(4) {
        let (num, den) = random.pick(&[(1, 1), (1, 1), (1, 1), (65536, 1), (65537, 1), (1, 2), (1, 5)]);
        let def = vec![Factor { exponent: lowest(random, (num, den)), ..lists::plain(0) }];
        rows.push(derived_row(unused_rank(random, &rows), random.pick(&[1.0, 1.0, 1.0, 60.0]), def));
    }
    made(rows).expect("exponents in range")
}

fn derived(random: &mut Random, so_far: &Made) -> Row {
    let factor = if random.percent(85) { 1.0 } else { random.pick(&[60.0, 0.0254, 8.0]) };
    let len = random.pick(&[1, 1, 1, 2, 2, 3]);
    let def: Vec<Factor> =
        (0..len).map(|_| Factor { exponent: coefficient(random), ..a_row(random, so_far) }).collect();
    derived_row(unused_rank(random, &so_far.rows), factor, def)
}

/// A base row in two cases of three.
fn a_row(random: &mut Random, made: &Made) -> Factor {
    let row = if random.percent(66) { random.pick(&bases(made)) } else { random.below(made.table.rows.len()) };
    lists::plain(row as u32)
}

fn bases(made: &Made) -> Vec<usize> {
    (0..made.table.rows.len()).filter(|at| made.table.rows[*at].is_base).collect()
}

/// A row that is mostly refused by a half: of its base exponents, of its key, or of both.
fn beyond(random: &mut Random, made: &Made) -> Row {
    let rows = if random.percent(50) { bases(made) } else { Vec::new() };
    let mut def: Vec<Factor> = rows.into_iter().map(|row| rooted(random, row)).collect();
    for _ in 0..random.below(4) {
        def.push(Factor { exponent: exponent(random), ..a_row(random, made) });
    }
    random.shuffle(&mut def);
    derived_row(unused_rank(random, &made.rows), 1.0, def)
}

fn rooted(random: &mut Random, row: usize) -> Factor {
    let under = random.pick(&ODD);
    Factor { exponent: lowest(random, (1, under)), ..lists::plain(row as u32) }
}

// ---- lists

fn prefix(random: &mut Random) -> Prefix {
    if random.percent(90) { METRIC } else { random.pick(&[Prefix { kind: 0, n: 3 }, Prefix { kind: 1, n: 0 }]) }
}

fn factor(random: &mut Random, made: &Made) -> Factor {
    Factor { row: random.below(made.rows.len()) as u32, prefix: prefix(random), exponent: exponent(random) }
}

/// A few rows again and again, each row at most once, base rows with a little of others, rows of one key, anything, or
/// little.
fn list(random: &mut Random, made: &Made) -> List {
    match random.weighted(&[23, 22, 22, 10, 13, 10]) {
        0 => {
            let (few, many) = (1 + random.below(3), 2 + random.below(5));
            let rows: Vec<Factor> = (0..few).map(|_| factor(random, made)).collect();
            let again = |_| Factor { exponent: exponent(random), ..random.pick(&rows) };
            List::of((0..many).map(again).collect())
        }
        1 => spread(random, made),
        2 => gentle(random, made),
        3 => of_one_key(random, made),
        4 => {
            let many = 1 + random.below(LIST_PLACES);
            List::of((0..many).map(|_| factor(random, made)).collect())
        }
        _ => {
            let few = random.below(3);
            List::of((0..few).map(|_| a_row(random, made)).collect())
        }
    }
}

/// Base rows, each at most once, and at most two rows to a small exponent: base exponents mostly stay in range.
fn gentle(random: &mut Random, made: &Made) -> List {
    let mut rows = bases(made);
    random.shuffle(&mut rows);
    rows.truncate(1 + random.below(3));
    let mut factors: Vec<Factor> =
        rows.into_iter().map(|row| Factor { exponent: exponent(random), ..lists::plain(row as u32) }).collect();
    for _ in 0..random.below(3) {
        let small = random.pick(&SMALL);
        factors.push(Factor { exponent: lowest(random, small), ..factor(random, made) });
    }
    random.shuffle(&mut factors);
    List::of(factors)
}

/// Rows of one key under one denominator or under large exponents, so that their sum is in range and its shares often
/// are not; and the first base row, which no other key's rows are a multiple of.
fn of_one_key(random: &mut Random, made: &Made) -> List {
    let rows = &made.table.rows;
    let first = bases(made).into_iter().min_by_key(|at| rows[*at].rank).expect("a base row");
    let others: Vec<&Known> = rows.iter().filter(|row| !row.is_base && row.key != rows[first].key).collect();
    let key = if others.is_empty() { &rows[first].key } else { &random.pick(&others).key };
    let alike: Vec<usize> = (0..rows.len()).filter(|at| rows[*at].key == *key).collect();
    let (under, large) = (random.pick(&ODD), random.percent(40));
    let mut factors = vec![lists::plain(first as u32)];
    for _ in 0..2 + random.below(2) {
        let parts = match large {
            true => (random.pick(&[1 << 30, 1 << 29, 715827883, 1431655765]), 1),
            false => (random.pick(&[1, 1, 2, 3]), under),
        };
        factors.push(Factor { exponent: lowest(random, parts), ..lists::plain(random.pick(&alike) as u32) });
    }
    List::of(factors)
}

/// Rows with the exponents of one base unit.
fn there_and_back(random: &mut Random, made: &Made) -> List {
    let rows = &made.table.rows;
    let base = &rows[random.pick(&bases(made))].exponents;
    let mut alike: Vec<usize> = (0..rows.len()).filter(|at| rows[*at].exponents == *base).collect();
    random.shuffle(&mut alike);
    let factor = |(row, (num, den))| Factor { exponent: Exponent { num, den }, ..lists::plain(row as u32) };
    List::of(alike.into_iter().zip(random.pick(&THERE_AND_BACK)).map(factor).collect())
}

/// No two factors merge.
fn spread(random: &mut Random, made: &Made) -> List {
    let mut rows: Vec<u32> = (0..made.rows.len() as u32).collect();
    random.shuffle(&mut rows);
    rows.truncate(1 + random.below(4));
    List::of(rows.into_iter().map(|row| Factor { row, ..factor(random, made) }).collect())
}

/// A second list: the first's factors under other exponents, the first in other words, or one of its own.
fn beside(random: &mut Random, made: &Made, first: &List) -> List {
    match random.weighted(&[35, 25, 40]) {
        0 => {
            let other = |f: &Factor| match random.percent(60) {
                true => Factor { exponent: like(random, f.exponent), ..*f },
                false => *f,
            };
            List::of(first.factors.iter().map(other).collect())
        }
        1 => rewritten(random, made, first),
        _ => list(random, made),
    }
}

fn quantity(random: &mut Random, made: &Made) -> Quantity {
    let unit = list(random, made);
    quantity_of(random, unit)
}

/// For simplification half of the lists have rows of one key.
fn quantity_for(random: &mut Random, made: &Made, code: u32) -> Quantity {
    let grouped = matches!(code, 21 | 22) && random.percent(50);
    let unit = if grouped { of_one_key(random, made) } else { list(random, made) };
    quantity_of(random, unit)
}

fn power(random: &mut Random, made: &Made) -> Vec<Part> {
    let base = quantity(random, made);
    let unit = if random.percent(50) { List::of(Vec::new()) } else { list(random, made) };
    let exponent = Quantity { bits: values::whole(random).to_bits(), mark: 1, unit };
    vec![Part::Quantity(base), Part::Quantity(exponent)]
}

/// Lists that mostly have a canonical form, so that a later step decides.
fn cancelling(random: &mut Random, made: &Made) -> Vec<Part> {
    let unit = match random.below(5) {
        0 => list(random, made),
        1 => gentle(random, made),
        2 => of_one_key(random, made),
        3 => there_and_back(random, made),
        _ => spread(random, made),
    };
    let (own, target) = cancelling::both(random, made, unit, coefficient);
    vec![Part::Quantity(quantity_of(random, own)), Part::List(target)]
}

/// Few knots, the first one's list and the target as in a conversion; others in either, in other words or of their own.
fn knots(random: &mut Random, made: &Made, code: u32) -> Vec<Part> {
    let pair = cancelling(random, made);
    let [Part::Quantity(first), Part::List(target)] = &pair[..] else { unreachable!("a quantity and a list") };
    let mut all = vec![Quantity { bits: 1.0f64.to_bits(), ..first.clone() }];
    for value in 0..random.below(4) {
        let unit = match random.below(4) {
            0 => first.unit.clone(),
            1 => target.clone(),
            2 => rewritten(random, made, target),
            _ => list(random, made),
        };
        all.push(Quantity::of(value as f64 + 1.0, unit));
    }
    if random.percent(40) {
        random.shuffle(&mut all);
    }
    let rule = Rule { tolerance: random.pick(&[0.0f64, 0.5]).to_bits(), degree: 3, target: target.clone() };
    let vector = Vector { made: made.clone(), knots: all, rule };
    requests::of_knots(random, code, vector).parts
}

/// Two lists with exponents of their own at each base row, or one a power of the other.
fn multiple(random: &mut Random, made: &Made) -> Vec<Part> {
    let b = if random.percent(70) { spread(random, made) } else { list(random, made) };
    let by = Fraction::of(coefficient(random)).expect("exponents keep their rule");
    let a = match lists::raised(&b, by) {
        Some(raised) if random.percent(40) => raised,
        _ => beside(random, made, &b),
    };
    vec![Part::List(a), Part::List(b)]
}
