// A product of factors, written from 01's "Canonical form" alone, since the published product.rs is not at hand.
//
// What rests on this file cannot be compared with the Rust: joining, negating, raising, ordering and merging.
use crate::arithmetic::{Exponent, Power};
use crate::placing::Placed;

/// What unit.rs and registry.rs say about their factors. Merging goes by the place, which names row and prefix.
pub trait Canonicalize {
    type MergeKey;

    fn merge_key(&self) -> Self::MergeKey;
    fn merge(self, other: Self) -> Self;
    fn is_trivial(&self) -> bool;
}

/// Factors as they were joined; with `CANONICAL`, always kept in canonical form.
#[derive(Debug, Clone)]
pub struct Product<Factor, const CANONICAL: bool> {
    factors: Vec<Factor>,
}

impl<Factor: Power + Clone + Canonicalize + Placed, const CANONICAL: bool> Product<Factor, CANONICAL> {
    pub fn unity() -> Self {
        Product { factors: Vec::new() }
    }

    pub fn from_factor(factor: Factor) -> Self {
        Self::from_factors([factor])
    }

    pub fn from_factors(factors: impl IntoIterator<Item = Factor>) -> Self {
        let mut product = Product { factors: factors.into_iter().collect() };
        if CANONICAL {
            product.canonicalize();
        }
        product
    }

    pub fn iter(&self) -> std::slice::Iter<'_, Factor> {
        self.factors.iter()
    }

    pub fn canonicalized(&self) -> Self {
        let mut product = self.clone();
        product.canonicalize();
        product
    }

    /// Orders by place, merges what has one place in the order of the given list, and lets zero exponents go.
    pub fn canonicalize(&mut self) {
        let mut placed: Vec<_> = self.factors.drain(..).map(|f| (f.place(), f)).collect();
        placed.sort_by(|a, b| a.0.cmp(&b.0));
        let mut merged: Vec<(Factor::Place, Factor)> = Vec::with_capacity(placed.len());
        for (place, factor) in placed {
            match merged.pop() {
                Some((last, sum)) if last == place => merged.push((last, sum.merge(factor))),
                Some(before) => merged.extend([before, (place, factor)]),
                None => merged.push((place, factor)),
            }
        }
        self.factors = merged.into_iter().map(|(_, f)| f).filter(|f| !f.is_trivial()).collect();
    }
}

impl<Factor: Power + Clone + Canonicalize + Placed, const CANONICAL: bool> Power for Product<Factor, CANONICAL> {
    fn power(self, e: Exponent) -> Self {
        Self::from_factors(self.factors.into_iter().map(|f| f.power(e)))
    }
}

impl<Factor: Power + Clone + Canonicalize + Placed, const CANONICAL: bool> std::ops::Mul
    for Product<Factor, CANONICAL>
{
    type Output = Self;

    fn mul(self, other: Self) -> Self {
        Self::from_factors(self.factors.into_iter().chain(other.factors))
    }
}

impl<Factor: Power + Clone + Canonicalize + Placed, const CANONICAL: bool> std::ops::Div
    for Product<Factor, CANONICAL>
{
    type Output = Self;

    #[allow(clippy::suspicious_arithmetic_impl)]
    fn div(self, other: Self) -> Self {
        self * other.invert()
    }
}

impl<Factor: Power + Clone + Canonicalize + Placed, const CANONICAL: bool> std::iter::Product
    for Product<Factor, CANONICAL>
{
    fn product<I: Iterator<Item = Self>>(products: I) -> Self {
        products.fold(Self::unity(), |joined, next| joined * next)
    }
}

impl<Factor, const CANONICAL: bool> IntoIterator for Product<Factor, CANONICAL> {
    type Item = Factor;
    type IntoIter = std::vec::IntoIter<Factor>;

    fn into_iter(self) -> Self::IntoIter {
        self.factors.into_iter()
    }
}

/// "Two lists are equal if their canonical forms are."
impl<Factor, const CANONICAL: bool> PartialEq for Product<Factor, CANONICAL>
where
    Factor: Power + Clone + Canonicalize + Placed + PartialEq,
{
    fn eq(&self, other: &Self) -> bool {
        self.canonicalized().factors == other.canonicalized().factors
    }
}

impl<Factor, const CANONICAL: bool> Eq for Product<Factor, CANONICAL> where
    Factor: Power + Clone + Canonicalize + Placed + Eq
{
}
