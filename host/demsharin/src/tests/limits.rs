// What the records can hold beyond the rules is handed over, and refused by the library.
use super::*;
use crate::{Candidate, Refusal, prefix_factor};

/// The bench table, filled up with rows of the scalar.
fn filled(len: u16) -> Table {
    let more = (8..len).map(|rank| Row::derived(rank, 1.0, Vec::new()));
    Table::new(&rows().into_iter().chain(more).collect::<Vec<_>>())
}

fn many(len: usize) -> List {
    List { factors: vec![Factor::of(METRE); len] }
}

#[test]
fn rows_of_a_table() {
    assert_eq!(filled(128).canonical(&one(127)), Ok(one(127)));
    assert_eq!(filled(129).canonical(&one(127)), Err(Refusal::Table));
    assert_eq!(Table::new(&[]).canonical(&List::SCALAR), Ok(List::SCALAR));
    let bases = |n: u16| Table::new(&(0..n).map(Row::base).collect::<Vec<_>>());
    assert_eq!(bases(16).canonical(&one(15)), Ok(one(15)));
    assert_eq!(bases(17).canonical(&one(15)), Err(Refusal::Table));
}

#[test]
fn definitions() {
    let with = |factor, definition| Table::new(&[Row::base(0), Row::derived(1, factor, definition)]);
    let one_of = |table: Table| table.canonical(&one(1));
    assert_eq!(one_of(with(1.0, vec![Factor::of(0); 8])), Ok(one(1)));
    assert_eq!(one_of(with(1.0, vec![Factor::of(0); 9])), Err(Refusal::Table));
    assert_eq!(one_of(with(1.0, vec![Factor::of(1)])), Err(Refusal::Table));
    for factor in [0.0, -1.0, f64::INFINITY, f64::NAN] {
        assert_eq!(one_of(with(factor, Vec::new())), Err(Refusal::Table));
    }
    assert_eq!(one_of(with(1.0, vec![Factor::of(0).to(Exponent::new(2, 4))])), Err(Refusal::Shape));
}

#[test]
fn factors_of_a_list() {
    let t = table();
    assert_eq!(t.canonical(&many(16)), Ok(power(METRE, 16).into()));
    assert_eq!(t.canonical(&many(17)), Err(Refusal::Shape));
    assert_eq!(t.negate(&Quantity::new(1.0, many(1000))), Err(Refusal::Shape));
    assert_eq!(t.product(&many(8), &many(8)), Ok(many(16)));
}

#[test]
fn prefixes_and_exponents() {
    let t = table();
    for kind in [Prefix::Metric, Prefix::Binary] {
        assert!(prefix_factor(kind(1100)).is_ok() && prefix_factor(kind(-1100)).is_ok());
        for n in [1101, -1101, i32::MAX, i32::MIN] {
            assert_eq!(prefix_factor(kind(n)), Err(Refusal::Shape));
            assert_eq!(t.canonical(&Factor::of(METRE).under(kind(n)).into()), Err(Refusal::Shape));
        }
    }
    for (numerator, denominator) in [(1, 0), (2, 4), (0, 2), (i32::MIN, 1), (1, 1 << 31)] {
        let wrong = Exponent::new(numerator, denominator);
        assert_eq!(t.list_power(&one(METRE), wrong), Err(Refusal::Shape));
        assert_eq!(t.canonical(&Factor::of(METRE).to(wrong).into()), Err(Refusal::Shape));
    }
}

#[test]
fn candidates() {
    let t = table();
    let q = Quantity::new(1.0, [Factor::of(METRE), Factor::of(SECOND)]);
    let all = |n: u16| (0..n).map(|rank| Candidate { rank, unit: one(BIT) }).collect::<Vec<_>>();
    assert_eq!(t.full_simplify_with(&q, &all(32)), Ok(q.clone()));
    assert_eq!(t.full_simplify_with(&q, &all(33)), Err(Refusal::Shape));
    let twice = [all(1), all(1)].concat();
    assert_eq!(t.full_simplify_with(&q, &twice), Err(Refusal::Shape));
}

#[test]
fn any_value_goes_there_and_back() {
    let t = table();
    for value in [0.0, -0.0, 5e-324, f64::MAX, f64::INFINITY, f64::NEG_INFINITY] {
        let back = t.convert_to(&of(value, METRE), &one(METRE)).unwrap();
        assert_eq!(back.value.to_bits(), value.to_bits());
    }
    let other = f64::from_bits(0xfff8_0000_0000_1234);
    let back = t.convert_to(&of(other, METRE), &one(METRE)).unwrap();
    assert_eq!(back.value.to_bits(), 0x7ff8_0000_0000_0000);
}
