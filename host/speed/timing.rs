// The time of one call: that of the best of many batches, so that other work on the machine counts little.
use std::hint::black_box;
use std::time::{Duration, Instant};

/// A batch lasts at least so long, so that reading the clock does not count.
const LEAST: Duration = Duration::from_micros(500);
/// But it holds at most so many calls, whose operands are made beforehand.
const MOST: usize = 4096;

/// Nanoseconds a call, from one round of batches. Operands are made outside the time; dropping the answer is inside it.
pub fn per_call<T, R>(round: Duration, make: impl Fn() -> T, mut call: impl FnMut(T) -> R) -> f64 {
    let (mut spent, mut best, mut batch) = (Duration::ZERO, f64::MAX, 1);
    while spent < round {
        let operands: Vec<T> = (0..batch).map(|_| make()).collect();
        let from = Instant::now();
        for operand in operands {
            black_box(call(black_box(operand)));
        }
        let took = from.elapsed();
        if took < LEAST && batch < MOST {
            batch *= 2;
            continue;
        }
        spent += took;
        best = best.min(took.as_nanos() as f64 / batch as f64);
    }
    best
}
