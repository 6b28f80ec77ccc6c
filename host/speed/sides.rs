// The two sides of the comparison: one request to the archive and to the Rust, checked to agree, then timed by turns.
use std::hint::black_box;
use std::time::Duration;

use wire::stream::{Answer, Request};

use crate::by_code::{answer_bytes, call};
use crate::cases::Case;
use crate::original;
use crate::timing::per_call;

/// Each side has so many rounds, by turns, and the best one counts.
pub const ROUNDS: usize = 5;

/// Nanoseconds a call.
#[derive(Clone, Copy)]
pub struct Times {
    pub library: f64,
    pub rust: f64,
}

/// Small numbers with more places.
fn short(number: f64) -> String {
    match number {
        0.0..0.1 => format!("{number:.3}"),
        0.1..10.0 => format!("{number:.2}"),
        _ => format!("{number:.1}"),
    }
}

pub fn micros(nanoseconds: f64) -> String {
    short(nanoseconds / 1e3)
}

impl Times {
    /// Above 1 where the library is faster.
    pub fn ratio(self) -> String {
        short(self.rust / self.library)
    }
}

fn archive(request: &Request) -> Answer {
    let mut out = vec![0; answer_bytes(request)];
    match call(request, &mut out) {
        0 => Answer::given(out),
        number => Answer::refused(number),
    }
}

/// Whether the archive, the Rust and 01's reading answer alike, so that the times are those of one piece of work.
fn agree(case: &Case) -> bool {
    let ours = archive(&case.request);
    let inside = scope::domain::outside(&case.request).is_none();
    inside && ours == published::answers::answer(&case.request) && ours == scope::calls::answer(&case.request)
}

/// The exported call over arguments made beforehand; the table is checked in it, as always.
pub fn library(request: &Request, round: Duration) -> f64 {
    let mut out = vec![0; answer_bytes(request)];
    per_call(round, || (), |()| call(black_box(request), black_box(&mut out)))
}

pub fn times(case: &Case, round: Duration) -> Result<Times, String> {
    if !agree(case) {
        let name = wire::calls::of_code(case.request.code).map_or("", |call| call.name);
        return Err(format!("{name}, {}: the answers differ, or the Rust has none", case.what));
    }
    let mut best = Times { library: f64::MAX, rust: f64::MAX };
    for _ in 0..ROUNDS {
        best.library = best.library.min(library(&case.request, round));
        best.rust = best.rust.min(original::time(&case.request, round));
    }
    Ok(best)
}
