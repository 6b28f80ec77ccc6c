// What an answered vector or span is like, so that it can be told how often each sort was met.
use generator::knots::Vector;
use wire::bytes::distinct;

pub const APART: &str = "apart";
pub const MERGED: &str = "merged";
pub const ENDLESS: &str = "divisor infinite";

pub fn of_span((left, right): (f64, f64)) -> &'static str {
    match right - left {
        _ if left == right => MERGED,
        wide if wide.is_infinite() => ENDLESS,
        _ => APART,
    }
}

pub fn of_vector(vector: &Vector, answer: &[u8]) -> Vec<&'static str> {
    let (all, knots, tolerance) = (distinct(&answer[8..]), vector.knots.len(), vector.tolerance());
    let values = vector.values().unwrap_or_default();
    let beside = values.windows(2).filter(|pair| pair[1] - pair[0] <= tolerance).count();
    let met = [
        ("some knots merged", all.len() < knots),
        ("a multiplicity of degree + 1", all.iter().any(|one| one.multiplicity == vector.rule.degree + 1)),
        ("a run that ends although the next knot is near its last", beside > knots - all.len()),
        ("a value -0", all.iter().any(|one| one.bits == 1 << 63)),
    ];
    let met = met.into_iter().filter(|(_, is)| *is).map(|(what, _)| what);
    [length(knots), tolerance_sort(tolerance)].into_iter().chain(met).collect()
}

fn length(knots: usize) -> &'static str {
    match knots {
        1 => "1 knot",
        2..=10 => "2 to 10 knots",
        11..=510 => "11 to 510 knots",
        511 => "511 knots",
        _ => "512 knots",
    }
}

fn tolerance_sort(tolerance: f64) -> &'static str {
    match tolerance.classify() {
        std::num::FpCategory::Zero if tolerance.is_sign_negative() => "tolerance -0",
        std::num::FpCategory::Zero => "tolerance 0",
        std::num::FpCategory::Subnormal => "a subnormal tolerance",
        _ => "a tolerance above",
    }
}
