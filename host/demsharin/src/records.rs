// The records that calls take and answer, as plain data.
//
// No rule is tested here: a list of seventeen factors or an exponent of 2/4 can be written, and the library refuses it.

/// A fraction in lowest terms: numerator within ±2147483647, denominator 1 to 2147483647, zero as 0/1.
#[derive(Debug, Clone, Copy, PartialEq, Eq, Hash)]
pub struct Exponent {
    /// Above the line, with the sign.
    pub numerator: i32,
    /// Below the line.
    pub denominator: u32,
}

impl Exponent {
    /// 1/1.
    pub const ONE: Exponent = Exponent::whole(1);

    /// A fraction as it is given: it isn't brought to lowest terms.
    pub const fn new(numerator: i32, denominator: u32) -> Exponent {
        Exponent { numerator, denominator }
    }

    /// A whole number.
    pub const fn whole(n: i32) -> Exponent {
        Exponent::new(n, 1)
    }
}

/// A power of ten or of two before a unit, from -1100 to 1100.
#[derive(Debug, Clone, Copy, PartialEq, Eq, Hash)]
pub enum Prefix {
    /// Ten to this power.
    Metric(i32),
    /// Two to this power.
    Binary(i32),
}

impl Prefix {
    /// No prefix. `Binary(0)` means none too, yet is another prefix.
    pub const NONE: Prefix = Prefix::Metric(0);
}

/// A unit under a prefix, to an exponent.
#[derive(Debug, Clone, Copy, PartialEq, Eq, Hash)]
pub struct Factor {
    /// The unit's place in the table.
    pub row: u32,
    /// The prefix before the unit.
    pub prefix: Prefix,
    /// The exponent of prefix and unit together.
    pub exponent: Exponent,
}

impl Factor {
    /// A unit without prefix, to the first power.
    pub const fn of(row: u32) -> Factor {
        Factor { row, prefix: Prefix::NONE, exponent: Exponent::ONE }
    }

    /// The factor under another prefix.
    pub const fn under(self, prefix: Prefix) -> Factor {
        Factor { prefix, ..self }
    }

    /// The factor to another exponent.
    pub const fn to(self, exponent: Exponent) -> Factor {
        Factor { exponent, ..self }
    }
}

/// A product of factors in the order they were joined; over 16 the library answers SHAPE. The empty one is the scalar.
#[derive(Debug, Clone, PartialEq, Eq, Hash, Default)]
pub struct List {
    /// The factors, zero exponents allowed.
    pub factors: Vec<Factor>,
}

impl List {
    /// The list without factors.
    pub const SCALAR: List = List { factors: Vec::new() };
}

impl From<Factor> for List {
    fn from(factor: Factor) -> List {
        List { factors: vec![factor] }
    }
}

impl FromIterator<Factor> for List {
    fn from_iter<I: IntoIterator<Item = Factor>>(factors: I) -> List {
        List { factors: factors.into_iter().collect() }
    }
}

impl<const N: usize> From<[Factor; N]> for List {
    fn from(factors: [Factor; N]) -> List {
        factors.into_iter().collect()
    }
}

/// A value in a unit. `==` compares the fields; [`Table::equal`](crate::Table::equal) compares the amounts.
#[derive(Debug, Clone, PartialEq)]
pub struct Quantity {
    /// Any float; all NaNs count as one.
    pub value: f64,
    /// Whether simplification is permitted.
    pub mark: bool,
    /// The unit.
    pub unit: List,
}

impl Quantity {
    /// A new quantity, which has the mark.
    pub fn new(value: f64, unit: impl Into<List>) -> Quantity {
        Quantity { value, mark: true, unit: unit.into() }
    }
}

/// A converted quantity, and what its conversion costs.
#[derive(Debug, Clone, PartialEq)]
pub struct Counted {
    /// The one that the conversion answers without its count.
    pub quantity: Quantity,
    /// The multiplications done inside the power rule, prefix powers included: at most 3744 by
    /// [`Table::convert_to_counted`](crate::Table::convert_to_counted), 2560 by
    /// [`Table::convert_merged_counted`](crate::Table::convert_merged_counted).
    pub count: u32,
}

/// What a row of a table is.
#[derive(Debug, Clone, PartialEq)]
pub enum Kind {
    /// A base unit; a table has at most 16.
    Base,
    /// A unit made of earlier ones.
    Derived {
        /// How many of the definition the unit is: finite and above zero.
        factor: f64,
        /// At most 8 factors, naming lower rows only.
        definition: Vec<Factor>,
    },
}

/// A unit of a table.
#[derive(Debug, Clone, PartialEq)]
pub struct Row {
    /// The place of the unit's name in the order of names; no two rows have one rank.
    pub rank: u16,
    /// Base or derived.
    pub kind: Kind,
}

impl Row {
    /// A base unit.
    pub fn base(rank: u16) -> Row {
        Row { rank, kind: Kind::Base }
    }

    /// A unit of so many of its definition.
    pub fn derived(rank: u16, factor: f64, definition: Vec<Factor>) -> Row {
        Row { rank, kind: Kind::Derived { factor, definition } }
    }
}

/// A list that simplification may turn to.
#[derive(Debug, Clone, PartialEq, Eq, Hash)]
pub struct Candidate {
    /// Ranks rise from one candidate to the next. They need not be a row's.
    pub rank: u16,
    /// The list itself.
    pub unit: List,
}

/// The exponent that turns one list's base exponents into another's, if there is one.
pub type Multiple = Option<Exponent>;

/// A list in base units.
#[derive(Debug, Clone, PartialEq)]
pub struct Reduced {
    /// How many of the base units the list is.
    pub scale: f64,
    /// Base units in the order of their ranks.
    pub unit: List,
}

/// How knots become a knot vector.
#[derive(Debug, Clone, PartialEq)]
pub struct KnotRule {
    /// The unit that every knot is brought to, by [`Table::convert_merged`](crate::Table::convert_merged).
    pub unit: List,
    /// How far above the first of its run a knot may lie, in that unit: finite, and not below zero. 0 merges equal
    /// values alone.
    pub tolerance: f64,
    /// The spline's degree, 1 to 9. A knot may be there once more than that.
    pub degree: u32,
}

impl KnotRule {
    /// A rule for knots in this unit.
    pub fn new(unit: impl Into<List>, tolerance: f64, degree: u32) -> KnotRule {
        KnotRule { unit: unit.into(), tolerance, degree }
    }
}

/// A value of a knot vector.
#[derive(Debug, Clone, Copy, PartialEq)]
pub struct Distinct {
    /// That of the first knot of the run, in the rule's unit.
    pub value: f64,
    /// How many knots the run has.
    pub multiplicity: u32,
}

/// Knots in one unit, those that lie together merged.
#[derive(Debug, Clone, PartialEq)]
pub struct KnotVector {
    /// The runs from the lowest up: values rise by more than the tolerance, multiplicities add up to the knots given.
    pub distinct: Vec<Distinct>,
}

impl KnotVector {
    /// The distinct values.
    pub fn values(&self) -> Vec<f64> {
        self.distinct.iter().map(|run| run.value).collect()
    }

    /// How many knots each of them stands for.
    pub fn multiplicities(&self) -> Vec<u32> {
        self.distinct.iter().map(|run| run.multiplicity).collect()
    }

    /// The full list, as a spline takes it: at the place of each knot given the value of its run.
    pub fn knots(&self) -> Vec<f64> {
        self.distinct.iter().flat_map(|run| std::iter::repeat_n(run.value, run.multiplicity as usize)).collect()
    }
}
