// The calls on knots: as they arrive, each in its sender's unit, brought to one and merged where they lie together.
use crate::bytes::{self, VALUE_BYTES, VECTOR_BYTES};
use crate::calls::{Table, answered};
use crate::exports;
use crate::records::{KnotRule, KnotVector, Quantity};
use crate::refusal::Refusal;

/// The calls on knots.
impl Table {
    /// The knots in the rule's unit, merged in runs from the lowest on: each next knot joins the run if it lies at most
    /// the tolerance above the run's first, whose value stands for all.
    ///
    /// ARGUMENT for no knot or over 512, a degree other than 1 to 9, a tolerance that is a NaN, infinite or below zero:
    /// before anything else. Then what the lowest knot that isn't converted is refused for; ORDER if the converted
    /// values fall, or one is a NaN or infinite; MULTIPLE for a run of more knots than the degree plus one.
    pub fn knot_vector(&self, knots: &[Quantity], rule: &KnotRule) -> Result<KnotVector, Refusal> {
        let (knots, rule) = (bytes::knots(knots), bytes::rule(rule));
        answered::<VECTOR_BYTES>(|out| exports::knot_vector(self.bytes(), &knots, &rule, out))
            .map(|out| bytes::read_vector(&out))
    }

    /// How far x lies into the span behind the knot at a place, counted from 0: (x - left) / (right - left), where left
    /// and right are the values of their runs, and 0 if both ends are in one run. x is in the rule's unit; it may be
    /// outside of the span, and a NaN.
    ///
    /// What [`Table::knot_vector`] refuses is refused here as well, then ARGUMENT for a place without a span behind it.
    pub fn span_quotient(&self, knots: &[Quantity], rule: &KnotRule, place: usize, x: f64) -> Result<f64, Refusal> {
        let (knots, rule) = (bytes::knots(knots), bytes::span_rule(rule, place, x));
        answered::<VALUE_BYTES>(|out| exports::span_quotient(self.bytes(), &knots, &rule, out))
            .map(|out| bytes::read_value(&out))
    }
}
