// Each of the sixteen refusals, and their numbers.
use super::*;
use crate::{KnotRule, Refusal, prefix_factor};

#[test]
fn of_tables_and_lists() {
    let broken = Table::new(&[Row::base(1), Row::base(1)]);
    assert_eq!(broken.canonical(&List::SCALAR), Err(Refusal::Table));
    assert_eq!(prefix_factor(Prefix::Binary(1101)), Err(Refusal::Shape));
    assert_eq!(table().canonical(&one(8)), Err(Refusal::Unknown));
    let nine = List { factors: vec![Factor::of(METRE); 9] };
    let eight = List { factors: vec![Factor::of(METRE); 8] };
    assert_eq!(table().product(&nine, &eight), Err(Refusal::Room));
    assert_eq!(table().list_power(&power(METRE, i32::MAX).into(), Exponent::whole(2)), Err(Refusal::Range));
    let root = List::from(Factor::of(METRE).to(Exponent::new(1, 65536)));
    assert_eq!(table().list_power(&root, Exponent::new(1, 65536)), Err(Refusal::Denominator));
}

#[test]
fn of_quantities() {
    let t = table();
    let scalar = |value| Quantity::new(value, List::SCALAR);
    assert_eq!(t.compare(&of(0.0, SECOND), &of(5.0, METRE)), Err(Refusal::Units));
    let root = List::from(Factor::of(NEWTON).to(Exponent::new(1, 2)));
    assert_eq!(t.reduce_list(&root), Err(Refusal::Fraction));
    assert_eq!(t.checked_div(&of(1.0, METRE), &of(-0.0, METRE)), Err(Refusal::DivZero));
    assert_eq!(t.checked_power(&of(0.0, METRE), &scalar(-1.0)), Err(Refusal::ZeroNeg));
    assert_eq!(t.checked_power(&of(2.0, METRE), &scalar(0.5)), Err(Refusal::NonWhole));
    assert_eq!(t.compare(&of(f64::NAN, METRE), &of(5.0, METRE)), Err(Refusal::Nan));
}

#[test]
fn of_files() {
    assert_eq!(Table::from_file(&[]), Err(Refusal::Format));
}

#[test]
fn of_knots() {
    let vector = |knots: &[Quantity]| table().knot_vector(knots, &KnotRule::new(one(METRE), 0.0, 1)).err();
    assert_eq!(vector(&[of(2.0, METRE), of(1.0, METRE)]), Some(Refusal::Order));
    assert_eq!(vector(&[of(1.0, METRE), of(1.0, METRE), of(1.0, METRE)]), Some(Refusal::Multiple));
    assert_eq!(vector(&[]), Some(Refusal::Argument));
}

#[test]
fn the_table_comes_before_the_arguments() {
    let broken = Table::new(&[Row::base(1), Row::base(1)]);
    assert_eq!(broken.product(&one(200), &one(200)), Err(Refusal::Table));
    let wrong = List::from(Factor::of(METRE).to(Exponent::new(2, 4)));
    assert_eq!(table().product(&wrong, &one(200)), Err(Refusal::Shape));
    assert_eq!(table().product(&one(200), &wrong), Err(Refusal::Unknown));
}

#[test]
fn numbers_and_names() {
    for (at, refusal) in Refusal::ALL.into_iter().enumerate() {
        assert_eq!(refusal.number(), at as u32 + 1);
        assert_eq!(Refusal::of(refusal.number()), Some(refusal));
        assert_eq!(format!("{refusal:?}").to_uppercase(), refusal.name());
    }
    assert_eq!((Refusal::of(0), Refusal::of(17), Refusal::of(u32::MAX)), (None, None, None));
}
