// The conversions with their multiplications counted (02, order 5).
use super::*;
use crate::bytes::{self, COUNTED_BYTES, QUANTITY_BYTES};
use crate::{Counted, Refusal, exports};

const MOST: i32 = i32::MAX;

fn under(prefix: Prefix, row: u32, n: i32) -> Factor {
    power(row, n).under(prefix)
}

/// What is counted by 01's rule and by the other one, after both quantities were held against those without a count.
fn both(t: &Table, value: f64, own: impl Into<List>, target: impl Into<List>) -> [Result<u32, Refusal>; 2] {
    let (q, target) = (Quantity::new(value, own), target.into());
    let plain = [t.convert_to(&q, &target), t.convert_merged(&q, &target)];
    let counted = [t.convert_to_counted(&q, &target), t.convert_merged_counted(&q, &target)];
    for (plain, counted) in plain.iter().zip(&counted) {
        let bits = |q: &Quantity| (q.value.to_bits(), q.mark, q.unit.clone());
        assert_eq!(plain.as_ref().map(bits), counted.as_ref().map(|c| bits(&c.quantity)));
    }
    counted.map(|answer| answer.map(|c| c.count))
}

/// The rows have no base exponents and these scales.
fn bare(scales: &[f64]) -> Table {
    Table::new(&(0..).zip(scales).map(|(rank, scale)| Row::derived(rank, *scale, Vec::new())).collect::<Vec<_>>())
}

/// Each row under each of the four prefixes that take the most.
fn sixteen(rows: [u32; 4], n: i32) -> List {
    let prefixes = [Prefix::Metric(1023), Prefix::Metric(-1023), Prefix::Binary(1023), Prefix::Binary(-1023)];
    rows.into_iter().flat_map(|row| prefixes.map(|prefix| under(prefix, row, n))).collect()
}

#[test]
fn the_example() {
    let own = [Factor::of(MINUTE), under(Prefix::Metric(3), METRE, 0)];
    assert_eq!(both(&table(), 5.0, own, one(SECOND)), [Ok(5), Ok(2)]);
    let answer = table().convert_to_counted(&of(6.0, HOUR), &one(MINUTE));
    assert_eq!(answer, Ok(Counted { quantity: of(360.0, MINUTE), count: 2 }));
}

#[test]
fn set_bits_plus_bit_length_minus_one() {
    let t = bare(&[1.000000000465661]);
    for (n, count) in [(1, 1), (2, 2), (3, 3), (4, 3), (7, 5), (100, 9), (65536, 17), (MOST - 1, 60), (MOST, 61)] {
        for n in [n, -n] {
            assert_eq!(both(&t, 1.0, power(0, n), List::SCALAR), [Ok(count); 2]);
            assert_eq!(both(&t, 1.0, List::SCALAR, power(0, n)), [Ok(count); 2]);
        }
    }
    for (n, count) in [(0, 0), (1, 1), (3, 3), (10, 5), (24, 6), (1022, 18), (1023, 19), (1024, 11), (1100, 14)] {
        for prefix in [Prefix::Metric(n), Prefix::Metric(-n), Prefix::Binary(n), Prefix::Binary(-n)] {
            assert_eq!(both(&t, 1.0, under(prefix, 0, 1), List::SCALAR), [Ok(count + 1); 2]);
        }
    }
}

#[test]
fn a_prefix_is_raised_where_its_power_is_not() {
    let t = bare(&[2.0, 0.001]);
    assert_eq!(both(&t, 1.0, [Factor::of(0), under(Prefix::Metric(1023), 0, 0)], List::SCALAR), [Ok(20), Ok(1)]);
    let root = |prefix| Factor::of(1).under(prefix).to(Exponent::new(MOST, 2));
    assert_eq!(both(&t, 1.0, root(Prefix::Metric(3)), List::SCALAR), [Ok(3); 2]);
    assert_eq!(both(&t, 1.0, root(Prefix::NONE), List::SCALAR), [Err(Refusal::Fraction); 2]);
    assert_eq!(both(&t, 1.0, under(Prefix::Metric(3), 1, 2), List::SCALAR), [Ok(5); 2]);
}

#[test]
fn factors_in_common() {
    let t = table();
    let speeds = ([kilo(METRE), power(HOUR, -1)], [Factor::of(METRE), power(HOUR, -1)]);
    assert_eq!(both(&t, 1.0, speeds.0, speeds.1), [Ok(7), Ok(5)]);
    assert_eq!(both(&t, 1.0, power(HOUR, 3), [power(HOUR, 2), Factor::of(MINUTE)]), [Ok(6), Ok(2)]);
    assert_eq!(both(&t, 1.0, power(MINUTE, -1), [Factor::of(MINUTE), power(SECOND, -2)]), [Ok(4); 2]);
}

#[test]
fn row_scales_are_in_hand() {
    let deep = vec![Row::derived(0, 1.5, Vec::new()), Row::derived(1, 2.0, vec![power(0, MOST)])];
    assert_eq!(both(&Table::new(&deep), 1.0, one(1), List::SCALAR), [Ok(1); 2]);
    let base = [kilo(GRAM), Factor::of(METRE), power(SECOND, -2)];
    assert_eq!(both(&table(), 1.0, one(NEWTON), base), [Ok(8); 2]);
}

#[test]
fn the_most() {
    let t = bare(&[1.0; 8]);
    let half = (1 << 30) - 1;
    assert_eq!(both(&t, 1.0, sixteen([0, 1, 2, 3], half), sixteen([0, 1, 2, 3], 2 * half)), [Ok(3744), Ok(1248)]);
    assert_eq!(both(&t, 1.0, sixteen([0, 1, 2, 3], -half), sixteen([0, 1, 2, 3], -2 * half)), [Ok(3744), Ok(1248)]);
    assert_eq!(both(&t, 1.0, sixteen([0, 1, 2, 3], MOST), sixteen([4, 5, 6, 7], -MOST)), [Ok(2560); 2]);
    assert_eq!(both(&t, 1.0, sixteen([0, 1, 2, 3], MOST), sixteen([3, 2, 1, 0], MOST)), [Ok(0); 2]);
    assert_eq!(both(&t, 0.0, sixteen([0, 1, 2, 3], MOST), sixteen([4, 5, 6, 7], MOST)), [Ok(0); 2]);
}

#[test]
fn shortcuts_count_nothing() {
    let (t, root) = (table(), Factor::of(HOUR).to(Exponent::new(1, 2)));
    for zero in [0.0, -0.0] {
        assert_eq!(both(&t, zero, root, one(METRE)), [Ok(0); 2]);
    }
    for value in [0.1, f64::NAN, f64::INFINITY] {
        assert_eq!(both(&t, value, [root, kilo(METRE)], [kilo(METRE), root]), [Ok(0); 2]);
        assert_eq!(both(&t, value, one(HOUR), one(MINUTE)), [Ok(2); 2]);
    }
    assert_eq!(both(&t, 1.0, [power(HOUR, 3), power(HOUR, -3)], List::SCALAR), [Ok(0); 2]);
}

#[test]
fn refusals_are_the_conversion_s() {
    let (t, root) = (table(), |row| Factor::of(row).to(Exponent::new(1, 2)));
    assert_eq!(both(&t, 1.0, one(HOUR), one(METRE)), [Err(Refusal::Units); 2]);
    assert_eq!(both(&t, 1.0, one(99), one(HOUR)), [Err(Refusal::Unknown); 2]);
    assert_eq!(both(&t, 1.0, [Factor::of(HOUR); 17], one(99)), [Err(Refusal::Shape); 2]);
    assert_eq!(both(&t, 1.0, [power(HOUR, MOST), Factor::of(HOUR)], one(HOUR)), [Err(Refusal::Range); 2]);
    // In the target, behind an own scale that was counted.
    let own = [power(BYTE, 255), power(BIT, -255), root(SECOND)];
    assert_eq!(both(&t, 1.0, own, root(HOUR)), [Err(Refusal::Fraction); 2]);
    let roots = ([kilo(METRE), root(HOUR)], [Factor::of(METRE), root(HOUR)]);
    assert_eq!(both(&t, 1.0, roots.0, roots.1), [Err(Refusal::Fraction), Ok(5)]);
    assert_eq!(both(&Table::new(&[Row::base(0), Row::base(0)]), 1.0, one(0), one(0)), [Err(Refusal::Table); 2]);
}

#[test]
fn the_record_and_its_room() {
    let (t, q, target) = (table(), bytes::quantity(&of(6.0, HOUR)), bytes::list(&one(MINUTE)));
    for call in [exports::convert_to_counted, exports::convert_merged_counted] {
        let mut out = [0x5a; COUNTED_BYTES + 9];
        assert_eq!(call(t.bytes(), &q, &target, &mut out), 0);
        assert_eq!(out[..QUANTITY_BYTES], bytes::quantity(&of(360.0, MINUTE)));
        assert_eq!(out[QUANTITY_BYTES..COUNTED_BYTES], [2, 0, 0, 0, 0, 0, 0, 0]);
        assert_eq!(out[COUNTED_BYTES..], [0x5a; 9]);
        for room in 0..COUNTED_BYTES {
            let mut out = vec![0x5a; room];
            assert_eq!(call(t.bytes(), &q, &target, &mut out), Refusal::Room.number());
            assert!(out.iter().all(|b| *b == 0x5a));
        }
        let mut out = [0x5a; COUNTED_BYTES];
        assert_eq!(call(t.bytes(), &q, &target[1..], &mut out[..7]), Refusal::Shape.number());
        assert_eq!(call(t.bytes(), &q, &bytes::list(&one(METRE)), &mut out), Refusal::Units.number());
        assert_eq!(out, [0x5a; COUNTED_BYTES]);
    }
}
