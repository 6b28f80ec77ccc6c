// 01's refusal numbers and 02's, and the numbers by which the oracle says that a request lies outside the equality domain.
pub const TABLE: u32 = 1;
pub const SHAPE: u32 = 2;
pub const UNKNOWN: u32 = 3;
pub const ROOM: u32 = 4;
pub const RANGE: u32 = 5;
pub const UNITS: u32 = 6;
pub const FRACTION: u32 = 7;
pub const DIVZERO: u32 = 8;
pub const ZERONEG: u32 = 9;
pub const NONWHOLE: u32 = 10;
pub const NAN: u32 = 11;
pub const FORMAT: u32 = 12;
pub const DENOMINATOR: u32 = 13;
pub const ORDER: u32 = 14;
pub const MULTIPLE: u32 = 15;
pub const ARGUMENT: u32 = 16;

/// Ends a stream that cannot be read on.
pub const END: u32 = 0xffff_ffff;
/// 01 answers TABLE, SHAPE, UNKNOWN, ROOM, or NONWHOLE for a fraction.
pub const OUTSIDE: u32 = 0xffff_fffe;
/// 01 answers FRACTION: a scale other than 1 met an exponent that isn't whole.
pub const OUTSIDE_FRACTION: u32 = 0xffff_fffd;
/// 01 answers RANGE or 02 DENOMINATOR, or an exponent of the Rust's answer does not fit the byte form.
pub const OUTSIDE_RANGE: u32 = 0xffff_fffc;
/// The Rust panicked where 01 answers or refuses otherwise.
pub const OUTSIDE_PANIC: u32 = 0xffff_fffb;
/// Not run: the Rust's trees for the rows in use would be too large.
pub const OUTSIDE_COST: u32 = 0xffff_fffa;

pub fn is_outside(number: u32) -> bool {
    (OUTSIDE_COST..=OUTSIDE).contains(&number)
}

pub fn name(number: u32) -> String {
    const NAMES: [&str; 17] = [
        "answered",
        "TABLE",
        "SHAPE",
        "UNKNOWN",
        "ROOM",
        "RANGE",
        "UNITS",
        "FRACTION",
        "DIVZERO",
        "ZERONEG",
        "NONWHOLE",
        "NAN",
        "FORMAT",
        "DENOMINATOR",
        "ORDER",
        "MULTIPLE",
        "ARGUMENT",
    ];
    match number {
        0..=ARGUMENT => NAMES[number as usize].to_string(),
        OUTSIDE => "outside".to_string(),
        OUTSIDE_FRACTION => "outside: FRACTION".to_string(),
        OUTSIDE_RANGE => "outside: RANGE".to_string(),
        OUTSIDE_PANIC => "outside: panic".to_string(),
        OUTSIDE_COST => "outside: cost".to_string(),
        END => "end of stream".to_string(),
        other => format!("refusal {other}"),
    }
}
