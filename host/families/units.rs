// A shop's table as one would write it, with decimal factors, and units over it as text.
use demsharin::{Exponent, Factor, List, Prefix, Row, Table};

/// Name, then factor and definition; a base unit has neither. A row is defined by earlier ones.
pub const ROWS: [(&str, &str); 29] = [
    ("gram", ""),
    ("kelvin", ""),
    ("metre", ""),
    ("radian", ""),
    ("second", ""),
    ("minute", "60 second"),
    ("hour", "60 minute"),
    ("inch", "0.0254 metre"),
    ("mil", "0.001 inch"),
    ("foot", "12 inch"),
    ("mile", "5280 foot"),
    ("litre", "1 decimetre^3"),
    ("gallon", "231 inch^3"),
    ("degree", "0.017453292519943295 radian"),
    ("arcminute", "0.016666666666666666 degree"),
    ("turn", "360 degree"),
    ("pound", "0.45359237 kilogram"),
    ("newton", "1 kilogram·metre/second^2"),
    ("gravity", "9.80665 metre/second^2"),
    ("poundforce", "1 pound·gravity"),
    ("kip", "1000 poundforce"),
    ("pascal", "1 newton/metre^2"),
    ("bar", "100000 pascal"),
    ("psi", "1 poundforce/inch^2"),
    ("ksi", "1000 psi"),
    ("joule", "1 newton·metre"),
    ("watt", "1 joule/second"),
    ("btu", "1055.05585262 joule"),
    ("rankine", "0.5555555555555556 kelvin"),
];

const PREFIXES: [(&str, i32); 6] =
    [("mega", 6), ("kilo", 3), ("deci", -1), ("centi", -2), ("milli", -3), ("micro", -6)];
const BETWEEN: [char; 2] = ['·', '/'];

fn row(name: &str) -> Option<u32> {
    ROWS.iter().position(|row| row.0 == name).map(|at| at as u32)
}

fn prefixed(name: &str) -> Option<Factor> {
    let under = |(word, n): &(&str, i32)| Some(Factor::of(row(name.strip_prefix(word)?)?).under(Prefix::Metric(*n)));
    row(name).map(Factor::of).or_else(|| PREFIXES.iter().find_map(under))
}

/// A prefix, a unit, and an exponent in whole numbers or halves, as inch^0.5.
fn factor(text: &str, sign: i32) -> Factor {
    let (name, power) = text.split_once('^').unwrap_or((text, "1"));
    let halves = sign * (2.0 * power.parse::<f64>().expect("an exponent")) as i32;
    let exponent = if halves % 2 == 0 { Exponent::whole(halves / 2) } else { Exponent::new(halves, 2) };
    prefixed(name).unwrap_or_else(|| panic!("no unit {name}")).to(exponent)
}

/// Factors with · or / between them; a / is of the next factor alone, as btu/hour/foot^2.
pub fn list(text: &str) -> List {
    let mut sign = 1;
    let next = |part: &str| {
        let read = factor(part.trim_end_matches(BETWEEN), sign);
        sign = if part.ends_with('/') { -1 } else { 1 };
        read
    };
    text.split_inclusive(BETWEEN).map(next).collect()
}

/// Ranks in the order of the names.
pub fn table() -> Table {
    let mut sorted = ROWS.map(|row| row.0);
    sorted.sort();
    let made = ROWS.map(|(name, text)| {
        let rank = sorted.binary_search(&name).expect("its own name") as u16;
        match text.split_once(' ') {
            None => Row::base(rank),
            Some((factor, unit)) => Row::derived(rank, factor.parse().expect("a factor"), list(unit).factors),
        }
    });
    Table::new(&made)
}
