// What 02 says of every answer, tested without a second reading.
use generator::knots::Vector;
use wire::bytes::{distinct, u32_at};

/// Multiplicities add up to the knots given and keep to degree plus one; values rise, by more than the tolerance.
pub fn of_vector(vector: &Vector, answer: &[u8]) -> bool {
    let all = distinct(&answer[8..]);
    let together: u32 = all.iter().map(|one| one.multiplicity).sum();
    let kept = all.iter().all(|one| (1..=vector.rule.degree + 1).contains(&one.multiplicity));
    let values: Vec<f64> = all.iter().map(|one| f64::from_bits(one.bits)).collect();
    let rise = values.windows(2).all(|pair| pair[0] < pair[1] && pair[1] - pair[0] > vector.tolerance());
    u32_at(answer, 0) as usize == all.len() && together as usize == vector.knots.len() && kept && rise
}

/// A merged span gives 0; an x between the ends of another a number from 0 to 1, 0 at the left one and 1 at the right.
pub fn of_span((left, right): (f64, f64), x: f64, quotient: f64) -> bool {
    if left == right {
        return quotient.to_bits() == 0;
    }
    let between = left <= x && x <= right && (right - left).is_finite();
    let at_ends = (x != left || quotient == 0.0) && (x != right || quotient == 1.0);
    !between || (0.0..=1.0).contains(&quotient) && at_ends
}
