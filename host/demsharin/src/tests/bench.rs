// The bench list, and for every call what it answers.
use std::cmp::Ordering;

use super::*;
use crate::{Candidate, Reduced, Refusal, prefix_factor};

fn marked(value: f64, unit: impl Into<List>) -> Result<Quantity, Refusal> {
    Ok(Quantity::new(value, unit))
}

#[test]
fn conversions() {
    let t = table();
    let kibi = Factor::of(BYTE).under(Prefix::Binary(10));
    assert_eq!(t.convert_to(&of(6.0, HOUR), &one(MINUTE)), marked(360.0, one(MINUTE)));
    assert_eq!(t.convert_to(&Quantity::new(1.0, kibi), &one(BIT)), marked(8192.0, one(BIT)));
    assert_eq!(t.convert_to(&of(5.0, METRE), &one(SECOND)), Err(Refusal::Units));
    let zero = t.convert_to(&of(-0.0, METRE), &one(SECOND)).unwrap();
    assert_eq!((zero.value.to_bits(), zero.unit), (1 << 63, one(SECOND)));
}

#[test]
fn roots_of_a_scale_are_refused() {
    let half = |row| Factor::of(row).to(Exponent::new(1, 2));
    let roots = List::from([half(GRAM), half(METRE), power(SECOND, -1)]);
    assert_eq!(table().convert_to(&Quantity::new(4.0, half(NEWTON)), &roots), Err(Refusal::Fraction));
}

#[test]
fn prefixes_that_mean_none_differ() {
    let (t, bare) = (table(), List::from(Factor::of(METRE).under(Prefix::Binary(0))));
    assert_eq!(t.same_list(&one(METRE), &bare), Ok(false));
    assert_eq!(t.same_list(&bare, &bare), Ok(true));
    assert_eq!(t.convert_to(&of(7.0, METRE), &bare), marked(7.0, bare.clone()));
    assert_eq!(prefix_factor(Prefix::NONE), prefix_factor(Prefix::Binary(0)));
    assert_eq!(prefix_factor(Prefix::Metric(-3)), Ok(1.0 / 1000.0));
}

#[test]
fn reduction() {
    let t = table();
    let bases = List::from([Factor::of(GRAM), Factor::of(METRE), power(SECOND, -2)]);
    assert_eq!(t.reduce_list(&one(NEWTON)), Ok(Reduced { scale: 1000.0, unit: bases.clone() }));
    assert_eq!(t.reduce(&of(2.5, NEWTON)), marked(2500.0, bases));
    assert_eq!(t.smaller_unit(&one(HOUR), &one(MINUTE)), Ok(one(MINUTE)));
    assert_eq!(t.is_multiple_of(&power(HOUR, 3).into(), &one(SECOND)), Ok(Some(Exponent::whole(3))));
    assert_eq!(t.is_multiple_of(&one(METRE), &power(METRE, 2).into()), Ok(Some(Exponent::new(1, 2))));
    assert_eq!(t.is_multiple_of(&one(METRE), &one(SECOND)), Ok(None));
}

#[test]
fn lists() {
    let t = table();
    let speed = List::from([kilo(METRE), power(HOUR, -1)]);
    let joined = List::from([kilo(METRE), power(HOUR, -1), Factor::of(HOUR)]);
    assert_eq!(t.product(&speed, &one(HOUR)), Ok(joined.clone()));
    assert_eq!(t.quotient(&speed, &power(HOUR, -1).into()), Ok(joined.clone()));
    assert_eq!(t.canonical(&joined), Ok(kilo(METRE).into()));
    let squared = List::from([kilo(METRE).to(Exponent::whole(2)), power(HOUR, -2)]);
    assert_eq!(t.list_power(&speed, Exponent::whole(2)), Ok(squared));
}

#[test]
fn sums() {
    let t = table();
    let five = t.no_simplify(&of(5.0, SECOND)).unwrap();
    assert!(!five.mark);
    assert_eq!(t.add(&of(0.0, METRE), &five), Ok(five.clone()));
    assert_eq!(t.subtract(&of(0.0, METRE), &five), marked(-5.0, one(SECOND)));
    assert_eq!(t.add(&of(1.0, HOUR), &of(30.0, MINUTE)), marked(90.0, one(MINUTE)));
    assert_eq!(t.subtract(&of(1.0, HOUR), &of(30.0, MINUTE)), marked(30.0, one(MINUTE)));
}

#[test]
fn products() {
    let t = table();
    let (way, time) = (of(-6.0, METRE), of(2.0, SECOND));
    assert_eq!(t.multiply(&way, &time), marked(-12.0, [Factor::of(METRE), Factor::of(SECOND)]));
    assert_eq!(t.checked_div(&way, &time), marked(-3.0, [Factor::of(METRE), power(SECOND, -1)]));
    assert_eq!(t.checked_power(&way, &Quantity::new(3.0, List::SCALAR)), marked(-216.0, power(METRE, 3)));
    assert_eq!(t.negate(&way), marked(6.0, one(METRE)));
    assert_eq!(t.abs(&way), marked(6.0, one(METRE)));
}

#[test]
fn comparison() {
    let t = table();
    assert_eq!(t.compare(&of(5.0, METRE), &of(0.0, SECOND)), Ok(Ordering::Greater));
    assert_eq!(t.compare(&of(59.0, MINUTE), &of(1.0, HOUR)), Ok(Ordering::Less));
    assert_eq!(t.compare(&of(60.0, MINUTE), &of(1.0, HOUR)), Ok(Ordering::Equal));
    assert_eq!(t.equal(&of(60.0, MINUTE), &of(1.0, HOUR)), Ok(true));
    assert_eq!(t.equal(&of(60.0, MINUTE), &of(1.0, METRE)), Ok(false));
}

#[test]
fn simplification() {
    let t = table();
    let both = Quantity::new(2.0, [Factor::of(MINUTE), Factor::of(HOUR)]);
    assert_eq!(t.full_simplify(&both), marked(120.0, power(MINUTE, 2)));
    let kept = t.no_simplify(&both).unwrap();
    assert_eq!(t.full_simplify(&kept), Ok(kept));
    let force = Quantity::new(2.0, [kilo(GRAM), Factor::of(METRE), power(SECOND, -2)]);
    let candidate = Candidate { rank: 6, unit: one(NEWTON) };
    assert_eq!(t.full_simplify_with(&force, &[candidate]), marked(2.0, one(NEWTON)));
    let as_it_was = t.canonical(&force.unit).unwrap();
    assert_eq!(t.full_simplify_with(&force, &[]), marked(2.0, as_it_was));
}
