// The tables that are timed: 01's bench table, a shop's of sixty rows, and a full one.
use wire::making::{base, derived, factor, metric};
use wire::records::{Factor, List, Row};

/// Unit, metric prefix, exponent.
pub type Part = (&'static str, i32, i32);

/// Name, factor (zero for a base unit), definition.
type Unit = (&'static str, f64, &'static [Part]);

const BENCH: [Unit; 8] = [
    ("gram", 0.0, &[]),
    ("metre", 0.0, &[]),
    ("second", 0.0, &[]),
    ("bit", 0.0, &[]),
    ("minute", 60.0, &[("second", 0, 1)]),
    ("hour", 60.0, &[("minute", 0, 1)]),
    ("byte", 8.0, &[("bit", 0, 1)]),
    ("newton", 1.0, &[("gram", 3, 1), ("metre", 0, 1), ("second", 0, -2)]),
];

const MILE: Unit = ("mile", 1609.344, &[("metre", 0, 1)]);

/// What a shop adds to the bench table.
const SHOP: [Unit; 52] = [
    ("radian", 0.0, &[]),
    ("euro", 0.0, &[]),
    ("piece", 0.0, &[]),
    MILE,
    ("inch", 0.0254, &[("metre", 0, 1)]),
    ("foot", 12.0, &[("inch", 0, 1)]),
    ("yard", 3.0, &[("foot", 0, 1)]),
    ("micron", 1.0, &[("metre", -6, 1)]),
    ("thou", 0.001, &[("inch", 0, 1)]),
    ("point", 1.0 / 72.0, &[("inch", 0, 1)]),
    ("pica", 12.0, &[("point", 0, 1)]),
    ("fathom", 6.0, &[("foot", 0, 1)]),
    ("chain", 22.0, &[("yard", 0, 1)]),
    ("furlong", 10.0, &[("chain", 0, 1)]),
    ("nauticalmile", 1852.0, &[("metre", 0, 1)]),
    ("knot", 1.0, &[("nauticalmile", 0, 1), ("hour", 0, -1)]),
    ("degree", std::f64::consts::PI / 180.0, &[("radian", 0, 1)]),
    ("turn", 360.0, &[("degree", 0, 1)]),
    ("gon", 0.0025, &[("turn", 0, 1)]),
    ("arcminute", 1.0 / 60.0, &[("degree", 0, 1)]),
    ("arcsecond", 1.0 / 60.0, &[("arcminute", 0, 1)]),
    ("day", 24.0, &[("hour", 0, 1)]),
    ("week", 7.0, &[("day", 0, 1)]),
    ("shift", 8.0, &[("hour", 0, 1)]),
    ("hertz", 1.0, &[("second", 0, -1)]),
    ("rpm", 1.0, &[("turn", 0, 1), ("minute", 0, -1)]),
    ("are", 100.0, &[("metre", 0, 2)]),
    ("hectare", 100.0, &[("are", 0, 1)]),
    ("acre", 4840.0, &[("yard", 0, 2)]),
    ("litre", 1.0, &[("metre", -1, 3)]),
    ("gallon", 231.0, &[("inch", 0, 3)]),
    ("pint", 0.125, &[("gallon", 0, 1)]),
    ("tonne", 1000.0, &[("gram", 3, 1)]),
    ("pound", 0.45359237, &[("gram", 3, 1)]),
    ("ounce", 0.0625, &[("pound", 0, 1)]),
    ("stone", 14.0, &[("pound", 0, 1)]),
    ("carat", 0.2, &[("gram", 0, 1)]),
    ("joule", 1.0, &[("newton", 0, 1), ("metre", 0, 1)]),
    ("watt", 1.0, &[("joule", 0, 1), ("second", 0, -1)]),
    ("pascal", 1.0, &[("newton", 0, 1), ("metre", 0, -2)]),
    ("bar", 100000.0, &[("pascal", 0, 1)]),
    ("gravity", 9.80665, &[("metre", 0, 1), ("second", 0, -2)]),
    ("poundforce", 1.0, &[("pound", 0, 1), ("gravity", 0, 1)]),
    ("psi", 1.0, &[("poundforce", 0, 1), ("inch", 0, -2)]),
    ("horsepower", 550.0, &[("foot", 0, 1), ("poundforce", 0, 1), ("second", 0, -1)]),
    ("calorie", 4.184, &[("joule", 0, 1)]),
    ("kwh", 1.0, &[("watt", 3, 1), ("hour", 0, 1)]),
    ("cent", 0.01, &[("euro", 0, 1)]),
    ("dozen", 12.0, &[("piece", 0, 1)]),
    ("gross", 12.0, &[("dozen", 0, 1)]),
    ("percent", 0.01, &[]),
    ("permille", 0.1, &[("percent", 0, 1)]),
];

/// Pairs and triples of these fill the full table.
const FILLING: [Part; 16] = [
    ("inch", 0, 1),
    ("joule", 3, 1),
    ("hour", 0, -1),
    ("pound", 0, 1),
    ("litre", -3, 2),
    ("degree", 0, 1),
    ("watt", 0, -1),
    ("byte", 6, 1),
    ("psi", 0, 1),
    ("day", 0, -2),
    ("acre", 0, 1),
    ("euro", 0, 1),
    ("yard", 0, 3),
    ("piece", 0, -1),
    ("knot", 0, 1),
    ("gallon", 0, 1),
];

const ROWS: usize = 128;

/// Rows with their names.
#[derive(Default)]
pub struct Named {
    names: Vec<String>,
    pub rows: Vec<Row>,
}

impl Named {
    pub fn has(&self, name: &str) -> bool {
        self.names.iter().any(|n| n == name)
    }

    fn factor(&self, (name, prefix, exponent): &Part) -> Factor {
        let row = self.names.iter().position(|n| n == name).unwrap_or_else(|| panic!("no unit {name}"));
        metric(*prefix, factor(row as u32, *exponent, 1))
    }

    pub fn list(&self, parts: &[Part]) -> List {
        List::of(parts.iter().map(|part| self.factor(part)).collect())
    }

    fn push(&mut self, name: &str, scale: f64, parts: &[Part]) {
        self.rows.push(if scale == 0.0 { base(0) } else { derived(0, scale, self.list(parts).factors) });
        self.names.push(name.to_string());
    }

    fn of(units: impl IntoIterator<Item = Unit>) -> Named {
        let mut named = Named::default();
        units.into_iter().for_each(|(name, scale, parts)| named.push(name, scale, parts));
        named
    }

    /// Ranks in the order of the names.
    fn ranked(mut self) -> Named {
        let mut sorted = self.names.clone();
        sorted.sort();
        for (name, row) in self.names.iter().zip(&mut self.rows) {
            row.rank = sorted.binary_search(name).expect("its own name") as u16;
        }
        self
    }
}

pub fn bench() -> Named {
    Named::of(BENCH).ranked()
}

/// The bench table with a mile as its ninth row.
pub fn bench_with_mile() -> Named {
    Named::of(BENCH.into_iter().chain([MILE])).ranked()
}

pub fn shop() -> Named {
    Named::of(BENCH.into_iter().chain(SHOP)).ranked()
}

/// The shop's table, filled up with rows of two and three factors.
pub fn full() -> Named {
    let mut named = Named::of(BENCH.into_iter().chain(SHOP));
    for at in 0..ROWS - named.rows.len() {
        let parts: Vec<Part> = (0..2 + at % 2).map(|k| FILLING[(at + 5 * k) % FILLING.len()]).collect();
        named.push(&format!("filled{at:03}"), 1.5 + at as f64, &parts);
    }
    named.ranked()
}

/// A metre, and rows of so many factors over it.
pub fn grown(rows: usize, factors: usize) -> Named {
    let parts = [("metre", 0, 1), ("metre", 3, 1), ("metre", 0, -2)];
    let mut named = Named::of([BENCH[1]]);
    for at in 1..rows {
        named.push(&format!("grown{at:03}"), 1.0 + at as f64, &parts[..factors]);
    }
    named.ranked()
}
