// Exponents: fractions in lowest terms, worked out exactly and then tested for their range ("Records and sizes"; 02,
// "Order 2: which half of the fraction").
use std::cmp::Ordering;

use wire::records::Exponent;
use wire::refusals::{DENOMINATOR, RANGE};

use crate::Checked;
use crate::places::{Operation, refused};

pub const LIMIT: i128 = 2_147_483_647;

#[derive(Debug, Clone, Copy, PartialEq, Eq)]
pub struct Fraction {
    pub num: i64,
    pub den: i64,
}

pub const ZERO: Fraction = Fraction { num: 0, den: 1 };
pub const ONE: Fraction = Fraction { num: 1, den: 1 };

pub fn gcd(a: i128, b: i128) -> i128 {
    if b == 0 { a.abs() } else { gcd(b, a % b) }
}

/// Lowest terms, then the range: the numerator's, then the denominator's (02's reading 9).
fn ranged(num: i128, den: i128) -> Checked<Fraction> {
    let divisor = gcd(num, den) * den.signum();
    let (num, den) = (num / divisor, den / divisor);
    if num.abs() > LIMIT {
        return Err(RANGE);
    }
    if den > LIMIT {
        return Err(DENOMINATOR);
    }
    Ok(Fraction { num: num as i64, den: den as i64 })
}

/// The same, and which operation was refused.
fn noted(operation: Operation, num: i128, den: i128) -> Checked<Fraction> {
    ranged(num, den).inspect_err(|_| {
        let divisor = gcd(num, den);
        refused(operation, (num / divisor).abs() > LIMIT, (den / divisor).abs() > LIMIT);
    })
}

impl Fraction {
    pub fn whole(n: i64) -> Fraction {
        Fraction { num: n, den: 1 }
    }

    /// None if the exponent breaks its rule.
    pub fn of(e: Exponent) -> Option<Fraction> {
        let (num, den) = (e.num as i128, e.den as i128);
        let kept = num.abs() <= LIMIT && (1..=LIMIT).contains(&den) && gcd(num, den) == 1;
        kept.then_some(Fraction { num: e.num as i64, den: e.den as i64 })
    }

    pub fn exponent(self) -> Exponent {
        Exponent { num: self.num as i32, den: self.den as u32 }
    }

    pub fn plus(self, other: Fraction) -> Checked<Fraction> {
        let (a, b) = (self.num as i128 * other.den as i128, other.num as i128 * self.den as i128);
        noted(Operation::Sum, a + b, self.den as i128 * other.den as i128)
    }

    pub fn times(self, other: Fraction) -> Checked<Fraction> {
        noted(Operation::Product, self.num as i128 * other.num as i128, self.den as i128 * other.den as i128)
    }

    /// `other` is not zero.
    pub fn over(self, other: Fraction) -> Checked<Fraction> {
        noted(Operation::Quotient, self.num as i128 * other.den as i128, self.den as i128 * other.num as i128)
    }

    pub fn negated(self) -> Fraction {
        Fraction { num: -self.num, den: self.den }
    }

    pub fn is_whole(self) -> bool {
        self.den == 1
    }

    pub fn compared(self, other: Fraction) -> Ordering {
        (self.num as i128 * other.den as i128).cmp(&(other.num as i128 * self.den as i128))
    }
}
