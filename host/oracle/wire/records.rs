// The records of the calls as they stand in the bytes, before any rule is tested.
#[derive(Debug, Clone, Copy, PartialEq, Eq, Hash)]
pub struct Exponent {
    pub num: i32,
    pub den: u32,
}

/// Kind 0 is metric, 1 binary.
#[derive(Debug, Clone, Copy, PartialEq, Eq, Hash)]
pub struct Prefix {
    pub kind: u32,
    pub n: i32,
}

#[derive(Debug, Clone, Copy, PartialEq, Eq, Hash)]
pub struct Factor {
    pub row: u32,
    pub prefix: Prefix,
    pub exponent: Exponent,
}

/// `len` is the length as given, which may be over 16; `factors` are those that have a place.
#[derive(Debug, Clone, PartialEq, Eq, Hash)]
pub struct List {
    pub len: u32,
    pub factors: Vec<Factor>,
}

#[derive(Debug, Clone, PartialEq, Eq, Hash)]
pub struct Quantity {
    pub bits: u64,
    pub mark: u32,
    pub unit: List,
}

/// Kind 0 is base, 1 derived; `len` is the definition's length as given.
#[derive(Debug, Clone, PartialEq, Eq, Hash)]
pub struct Row {
    pub rank: u16,
    pub kind: u16,
    pub len: u32,
    pub bits: u64,
    pub def: Vec<Factor>,
}

#[derive(Debug, Clone, PartialEq, Eq, Hash)]
pub struct Candidate {
    pub rank: u16,
    pub unit: List,
}

/// A converted quantity, and how many multiplications inside the power rule it took.
#[derive(Debug, Clone, PartialEq, Eq, Hash)]
pub struct Counted {
    pub quantity: Quantity,
    pub count: u32,
}

/// Tolerance's bits, degree, target unit.
#[derive(Debug, Clone, PartialEq, Eq, Hash)]
pub struct Rule {
    pub tolerance: u64,
    pub degree: u32,
    pub target: List,
}

/// A rule, x's bits, the place of the span's left knot.
#[derive(Debug, Clone, PartialEq, Eq, Hash)]
pub struct SpanRule {
    pub rule: Rule,
    pub x: u64,
    pub place: u32,
}

/// A value's bits and how many knots it stands for.
#[derive(Debug, Clone, Copy, PartialEq, Eq, Hash)]
pub struct Distinct {
    pub bits: u64,
    pub multiplicity: u32,
}

pub const LIST_PLACES: usize = 16;
pub const DEF_PLACES: usize = 8;
pub const METRIC: Prefix = Prefix { kind: 0, n: 0 };
pub const ONE: Exponent = Exponent { num: 1, den: 1 };
/// What stands in a place past the end wherever it is written.
pub const BLANK: Factor = Factor { row: 0, prefix: METRIC, exponent: Exponent { num: 0, den: 1 } };

impl List {
    pub fn of(factors: Vec<Factor>) -> List {
        List { len: factors.len() as u32, factors }
    }
}

impl Quantity {
    pub fn of(value: f64, unit: List) -> Quantity {
        Quantity { bits: bits_of(value), mark: 1, unit }
    }

    pub fn value(&self) -> f64 {
        f64::from_bits(self.bits)
    }
}

/// All NaNs count as one value.
pub fn bits_of(value: f64) -> u64 {
    if value.is_nan() { 0x7ff8_0000_0000_0000 } else { value.to_bits() }
}
