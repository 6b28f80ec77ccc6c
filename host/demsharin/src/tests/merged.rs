// The conversion in which factors cancel on both sides (02, order 3), beside 01's.
use super::*;
use crate::Refusal;

const MOST: i32 = i32::MAX;

fn root(row: u32) -> Factor {
    Factor::of(row).to(Exponent::new(1, 2))
}

/// What 01's conversion and the other one answer for a value; a new quantity in the target as it is spelled.
fn both(t: &Table, value: f64, own: impl Into<List>, target: impl Into<List>) -> [Result<f64, Refusal>; 2] {
    let (q, target) = (Quantity::new(value, own), target.into());
    [t.convert_to(&q, &target), t.convert_merged(&q, &target)].map(|answer| {
        let answer = answer?;
        assert_eq!((answer.mark, &answer.unit), (true, &target));
        Ok(answer.value)
    })
}

#[test]
fn a_factor_that_cancels_is_not_there() {
    let answers = both(&table(), 1.0, [kilo(METRE), root(HOUR)], [Factor::of(METRE), root(HOUR)]);
    assert_eq!(answers, [Err(Refusal::Fraction), Ok(1000.0)]);
    let answers = both(&table(), 1.0, [kilo(METRE), power(MINUTE, -1)], [Factor::of(METRE), power(MINUTE, -1)]);
    assert_eq!(answers, [Ok(1000.0000000000001), Ok(1000.0)]);
}

#[test]
fn it_is_not_read() {
    let (own, target) = ([kilo(METRE), power(HOUR, -1)], [Factor::of(METRE), power(HOUR, -1)]);
    for hour in [60.0, 59.9, 0.1, 1e300, f64::MIN_POSITIVE] {
        let mut rows = rows();
        rows[HOUR as usize] = Row::derived(4, hour, vec![Factor::of(MINUTE)]);
        let [_, merged] = both(&Table::new(&rows), 0.3, own, target);
        assert_eq!(merged, Ok(300.0));
    }
}

#[test]
fn what_is_left_of_it_is() {
    let t = table();
    assert_eq!(both(&t, 2.0, power(HOUR, 3), [power(HOUR, 2), Factor::of(MINUTE)])[1], Ok(120.0));
    assert_eq!(both(&t, 2.0, power(HOUR, -3), [power(HOUR, -2), power(MINUTE, -1)])[1], Ok(2.0 / 60.0));
    let roots = ([root(HOUR), Factor::of(HOUR)], [root(HOUR), Factor::of(SECOND)]);
    assert_eq!(both(&t, 2.0, roots.0, roots.1), [Err(Refusal::Fraction), Ok(7200.0)]);
    // Under opposite signs nothing is common.
    assert_eq!(both(&t, 7200.0, power(MINUTE, -1), [Factor::of(MINUTE), power(SECOND, -2)])[1], Ok(2.0));
    assert_eq!(both(&t, 2.0, root(HOUR), [root(MINUTE)]), [Err(Refusal::Fraction); 2]);
    assert_eq!(both(&t, 2.0, [root(HOUR), kilo(METRE)], [root(HOUR), power(METRE, 2)]), [Err(Refusal::Units); 2]);
}

/// Merged means canonical, so what is multiplied stands in canonical order, with nothing in common too.
#[test]
fn the_own_scale_in_canonical_order() {
    let part = |rank, factor| Row::derived(rank, factor, vec![Factor::of(0)]);
    let t = Table::new(&[Row::base(0), part(1, 0.1), part(2, 0.3), part(3, 0.7)]);
    let answers = both(&t, 1.0, [3, 2, 1].map(Factor::of), power(0, 3));
    assert_eq!(answers, [Ok(0.021), Ok(0.020999999999999998)]);
    assert_eq!(both(&t, 1.0, [1, 2, 3].map(Factor::of), power(0, 3)), [Ok(0.020999999999999998); 2]);
}

#[test]
fn where_only_one_of_them_leaves_the_range() {
    let cancelled = [power(MINUTE, MOST), Factor::of(HOUR), power(HOUR, -1)];
    assert_eq!(both(&table(), 1.0, cancelled, power(SECOND, MOST)), [Err(Refusal::Range), Ok(f64::INFINITY)]);
    let to = |row, denominator| Factor::of(row).to(Exponent::new(1, denominator));
    let t = Table::new(&[Row::base(0), Row::derived(1, 1.0, vec![power(0, 65536)])]);
    let answers = both(&t, 3.0, to(1, 65536), [to(1, 65537), to(0, 65537)]);
    assert_eq!(answers, [Ok(3.0), Err(Refusal::Denominator)]);
    // By its canonical order: A^max B^-1 C, where C comes before B.
    let one = |rank| Row::derived(rank, 1.0, vec![Factor::of(0)]);
    let t = Table::new(&[Row::base(0), one(2), one(1), one(3)]);
    let own = [power(0, MOST), power(1, -1), Factor::of(2)];
    assert_eq!(both(&t, 3.0, own, power(3, MOST)), [Ok(3.0), Err(Refusal::Range)]);
}

#[test]
fn shortcuts() {
    let t = table();
    let zeros = both(&t, -0.0, root(METRE), [root(HOUR)]);
    assert_eq!(zeros.map(|zero| zero.map(f64::to_bits)), [Ok(1 << 63); 2]);
    let (one, other) =
        ([root(HOUR), kilo(METRE)], [kilo(METRE), Factor::of(HOUR), root(HOUR).to(Exponent::new(-1, 2))]);
    assert_eq!(both(&t, 0.1, one, other), [Ok(0.1); 2]);
    assert_eq!(both(&t, f64::INFINITY, one, other), [Ok(f64::INFINITY); 2]);
    let merged = |value: f64, own: Factor, target: u32| both(&t, value, own, Factor::of(target))[1];
    assert!(merged(f64::NAN, Factor::of(HOUR), HOUR).is_ok_and(f64::is_nan));
    assert!(merged(f64::NAN, Factor::of(HOUR), MINUTE).is_ok_and(f64::is_nan));
    assert_eq!(merged(f64::NAN, Factor::of(HOUR), METRE), Err(Refusal::Units));
    assert_eq!(merged(f64::NEG_INFINITY, Factor::of(HOUR), MINUTE), Ok(f64::NEG_INFINITY));
    // A zero has a canonical form to work out all the same.
    let beyond = [power(METRE, MOST), Factor::of(METRE)];
    assert_eq!(both(&t, 0.0, beyond, Factor::of(SECOND)), [Err(Refusal::Range); 2]);
}

#[test]
fn the_answer_is_new() {
    let unmarked = Quantity { mark: false, ..of(6.0, HOUR) };
    assert_eq!(table().convert_merged(&unmarked, &one(MINUTE)), Ok(Quantity::new(360.0, one(MINUTE))));
    let spelled = List::from([power(SECOND, 2), power(SECOND, -1)]);
    assert_eq!(table().convert_merged(&of(6.0, MINUTE), &spelled), Ok(Quantity::new(360.0, spelled)));
}

#[test]
fn refusals_in_their_order() {
    let (faulty, seventeen) = (Table::new(&[Row::base(0), Row::base(0)]), List::from([Factor::of(HOUR); 17]));
    let merged = |t: &Table, own: List, target: &List| t.convert_merged(&Quantity::new(1.0, own), target).err();
    assert_eq!(merged(&faulty, seventeen.clone(), &one(99)), Some(Refusal::Table));
    assert_eq!(merged(&table(), seventeen.clone(), &one(99)), Some(Refusal::Shape));
    assert_eq!(merged(&table(), one(99), &seventeen), Some(Refusal::Unknown));
    assert_eq!(merged(&table(), one(HOUR), &seventeen), Some(Refusal::Shape));
    assert_eq!(merged(&table(), one(HOUR), &one(99)), Some(Refusal::Unknown));
    // UNITS comes before FRACTION.
    assert_eq!(merged(&table(), root(HOUR).into(), &root(METRE).into()), Some(Refusal::Units));
}
