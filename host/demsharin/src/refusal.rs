// The sixteen refusals, with the numbers that the library has for them.
use std::fmt;

/// Why a call has no answer.
#[derive(Debug, Clone, Copy, PartialEq, Eq, Hash, PartialOrd, Ord)]
#[repr(u32)]
pub enum Refusal {
    /// Over 128 rows, or a row breaks the table rules.
    Table = 1,
    /// A list is too long, a prefix or an exponent breaks its rule, or candidates are too many or don't rise in rank.
    Shape = 2,
    /// A list names a row that isn't there.
    Unknown = 3,
    /// A product or a quotient has over 16 factors before merging; or a file has no room.
    Room = 4,
    /// An exponent's numerator leaves its range: a power too high.
    Range = 5,
    /// The units don't agree, and the value isn't zero.
    Units = 6,
    /// A scale other than 1 meets an exponent that isn't whole.
    Fraction = 7,
    /// The divisor's value is zero.
    DivZero = 8,
    /// Zero to an exponent below zero.
    ZeroNeg = 9,
    /// A power by a value that isn't whole.
    NonWhole = 10,
    /// A comparison with a NaN, or a NaN after conversion.
    Nan = 11,
    /// A table file breaks the rules of its form, or has more rows than places are lent.
    Format = 12,
    /// An exponent's denominator, or the common multiple of a row's denominators, leaves its range: a root too odd.
    Denominator = 13,
    /// Knots fall, or one of them is a NaN or infinite in the unit asked for.
    Order = 14,
    /// A knot is there more often than the degree plus one.
    Multiple = 15,
    /// No knot or over 512, a degree other than 1 to 9, a tolerance that is a NaN, infinite or below zero; or, after
    /// every other refusal, a span that isn't there.
    Argument = 16,
}

impl Refusal {
    /// All of them, in the order of their numbers.
    pub const ALL: [Refusal; 16] = [
        Refusal::Table,
        Refusal::Shape,
        Refusal::Unknown,
        Refusal::Room,
        Refusal::Range,
        Refusal::Units,
        Refusal::Fraction,
        Refusal::DivZero,
        Refusal::ZeroNeg,
        Refusal::NonWhole,
        Refusal::Nan,
        Refusal::Format,
        Refusal::Denominator,
        Refusal::Order,
        Refusal::Multiple,
        Refusal::Argument,
    ];

    /// The refusal's number, 1 to 16.
    pub const fn number(self) -> u32 {
        self as u32
    }

    /// The refusal of a number; 0 and numbers above 16 are none.
    pub fn of(number: u32) -> Option<Refusal> {
        Refusal::ALL.get((number as usize).wrapping_sub(1)).copied()
    }

    /// The name that the rules have for it, as DIVZERO.
    pub const fn name(self) -> &'static str {
        match self {
            Refusal::Table => "TABLE",
            Refusal::Shape => "SHAPE",
            Refusal::Unknown => "UNKNOWN",
            Refusal::Room => "ROOM",
            Refusal::Range => "RANGE",
            Refusal::Units => "UNITS",
            Refusal::Fraction => "FRACTION",
            Refusal::DivZero => "DIVZERO",
            Refusal::ZeroNeg => "ZERONEG",
            Refusal::NonWhole => "NONWHOLE",
            Refusal::Nan => "NAN",
            Refusal::Format => "FORMAT",
            Refusal::Denominator => "DENOMINATOR",
            Refusal::Order => "ORDER",
            Refusal::Multiple => "MULTIPLE",
            Refusal::Argument => "ARGUMENT",
        }
    }
}

impl fmt::Display for Refusal {
    fn fmt(&self, f: &mut fmt::Formatter<'_>) -> fmt::Result {
        f.write_str(self.name())
    }
}

impl std::error::Error for Refusal {}
