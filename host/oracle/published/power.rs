// 01's power rule at the three places where the published Rust leaves the precision to `powi` and `powf`.
//
// Each place hands over its published expression as a closure: the switch `unaltered` runs that instead.
use std::sync::atomic::{AtomicBool, Ordering};

static UNALTERED: AtomicBool = AtomicBool::new(false);
static FRACTION: AtomicBool = AtomicBool::new(false);

/// Gives `powi` and `powf` back.
pub fn unaltered() {
    UNALTERED.store(true, Ordering::Relaxed);
}

/// Whether a non-whole exponent met a scale other than 1 since the last call of this function.
pub fn fraction_met() -> bool {
    FRACTION.swap(false, Ordering::Relaxed)
}

/// A prefix's factor.
pub fn of_prefix(base: f64, n: i32, published: impl Fn() -> f64) -> f64 {
    if UNALTERED.load(Ordering::Relaxed) { published() } else { whole(base, n as i128) }
}

/// `Number`'s pow, where scales meet exponents.
pub fn by_value(base: f64, exponent: f64, published: impl Fn() -> f64) -> f64 {
    if exponent.trunc() != exponent && base != 1.0 {
        FRACTION.store(true, Ordering::Relaxed);
    }
    of_quantity(base, exponent, published)
}

/// `checked_power`'s value; an exponent that is not whole has no rule in 01 and keeps the published expression.
pub fn of_quantity(base: f64, exponent: f64, published: impl Fn() -> f64) -> f64 {
    let ruled = exponent.is_finite() && exponent.trunc() == exponent && exponent.abs() < 1e38;
    if !ruled || UNALTERED.load(Ordering::Relaxed) { published() } else { whole(base, exponent as i128) }
}

/// "Power to a whole n": the bits of |n| from the lowest.
fn whole(base: f64, n: i128) -> f64 {
    let (mut r, mut a, mut bits) = (1.0, base, n.unsigned_abs());
    while bits > 0 {
        if bits & 1 == 1 {
            r *= a;
        }
        bits >>= 1;
        if bits > 0 {
            a *= a;
        }
    }
    if n < 0 { 1.0 / r } else { r }
}
