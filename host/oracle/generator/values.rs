// Values of quantities: plain numbers, zeros of both signs, NaNs, infinities, subnormals, the ends of the range.
use crate::random::Random;

const ENDS: [f64; 6] = [f64::MAX, f64::MIN, f64::MIN_POSITIVE, 1e308, 1e-308, 9007199254740993.0];
const NANS: [u64; 4] = [0x7ff8_0000_0000_0000, 0xfff8_0000_0000_0001, 0x7ff0_0000_0000_0001, 0xffff_ffff_ffff_ffff];

fn decimal(random: &mut Random) -> f64 {
    let digits = random.within(-9_999_999, 9_999_999) as f64;
    digits / random.pick(&[1.0, 10.0, 100.0, 1000.0, 1e5, 1e-3, 7.0])
}

fn spread(random: &mut Random) -> f64 {
    let exponent = random.within(1, 2045) as u64;
    f64::from_bits((random.bits() & !(0x7ff << 52)) | (exponent << 52))
}

/// A value's bits, as a NaN may have any.
pub fn bits(random: &mut Random) -> u64 {
    match random.weighted(&[35, 25, 12, 5, 4, 3, 3, 3, 3, 3]) {
        0 => (random.within(-20, 200) as f64).to_bits(),
        1 => decimal(random).to_bits(),
        2 => random.pick(&[1.0f64, -1.0, 0.1, 0.3, 1e-3, 1e6, 3.5, 1.0 / 3.0]).to_bits(),
        3 => spread(random).to_bits(),
        4 => 0.0f64.to_bits(),
        5 => (-0.0f64).to_bits(),
        6 => random.pick(&NANS),
        7 => random.pick(&[f64::INFINITY, f64::NEG_INFINITY]).to_bits(),
        8 => random.bits() & 0x800f_ffff_ffff_ffff,
        _ => random.pick(&ENDS).to_bits(),
    }
}

/// A whole number, for powers: mostly small, sometimes at the ends of an exponent's range.
pub fn whole(random: &mut Random) -> f64 {
    match random.weighted(&[80, 12, 5, 3]) {
        0 => random.within(-5, 5) as f64,
        1 => random.within(-400, 400) as f64,
        2 => random.pick(&[2147483647.0, -2147483647.0, 65536.0, -0.0]),
        _ => random.pick(&[2147483648.0, -2147483648.0, 1e10, 1e300]),
    }
}

/// What no power takes: fractions, NaN, infinities.
pub fn unwhole(random: &mut Random) -> f64 {
    random.pick(&[0.5, -0.5, 1.5, 1e-300, f64::NAN, f64::INFINITY, f64::NEG_INFINITY, f64::NAN, -2.25])
}
