// Which half of a fraction leaves its range first: the worked examples of 02's order 2, and near ones.
use super::*;
use crate::{Refusal, salvage};

const MOST: i32 = i32::MAX;
const A: u32 = 0;
const B: u32 = 1;
const C: u32 = 2;
/// B², A^(1/2), A².
const P: u32 = 3;
const Q: u32 = 4;
const X: u32 = 5;

fn to(row: u32, numerator: i32, denominator: u32) -> Factor {
    Factor::of(row).to(Exponent::new(numerator, denominator))
}

/// Three base rows of these ranks and three over them.
fn ranked(ranks: [u16; 3]) -> Vec<Row> {
    let derived = [(3, to(B, 2, 1)), (4, to(A, 1, 2)), (5, to(A, 2, 1))];
    let derived = derived.map(|(rank, factor)| Row::derived(rank, 1.0, vec![factor]));
    ranks.map(Row::base).into_iter().chain(derived).collect()
}

fn units() -> Table {
    Table::new(&ranked([0, 1, 2]))
}

/// What the table with one row more is refused for.
fn with_row(definition: Vec<Factor>) -> Option<Refusal> {
    let more = [Row::derived(6, 1.0, definition)];
    Table::new(&[ranked([0, 1, 2]), more.into()].concat()).canonical(&List::SCALAR).err()
}

/// A list whose merging leaves the numerator's range, and one whose merging leaves the denominator's.
fn powers() -> List {
    [to(A, MOST, 1), to(A, 1, 1)].into()
}

fn roots() -> List {
    [to(A, 1, 65536), to(A, 1, 65537)].into()
}

fn refused<T>(answer: Result<T, Refusal>) -> Option<Refusal> {
    answer.err()
}

const RANGE: Option<Refusal> = Some(Refusal::Range);
const DENOMINATOR: Option<Refusal> = Some(Refusal::Denominator);

#[test]
fn the_numerator_first() {
    let merged = |a, b| refused(units().canonical(&[a, b].into()));
    assert_eq!(merged(to(A, 1, 65536), to(A, 1, 65537)), DENOMINATOR);
    assert_eq!(merged(to(A, MOST, 1), to(A, 1, 2)), RANGE);
    assert_eq!(merged(to(A, MOST, 65536), to(A, 1, 65537)), RANGE);
    assert_eq!(merged(to(A, -MOST, 65536), to(A, -1, 65537)), RANGE);
    assert_eq!(merged(to(A, 1, 65536), to(A, 1, 32767)), None);
}

#[test]
fn of_products_and_quotients() {
    let power = |a: Factor, by| refused(units().list_power(&[to(B, 1, 1), a, to(C, MOST, 1)].into(), by));
    assert_eq!(power(to(A, 1, 65536), Exponent::new(3, 32768)), DENOMINATOR);
    assert_eq!(power(to(A, 1, 32767), Exponent::new(3, 65536)), RANGE);
    assert_eq!(power(to(A, 65537, 32768), Exponent::new(32769, 65536)), RANGE);
    let multiple = |a: Factor, b: Factor| refused(units().is_multiple_of(&a.into(), &b.into()));
    assert_eq!(multiple(to(A, 1, 65536), to(A, 65537, 1)), DENOMINATOR);
    assert_eq!(multiple(to(A, 2, 1), to(A, 1, MOST as u32)), RANGE);
    let products = |n, d| refused(units().is_multiple_of(&one(A), &[to(A, d, 2), to(B, n, 1)].into()));
    assert_eq!(products(MOST, 1), RANGE);
    assert_eq!(products(1, MOST), None);
    let whole = |value| Quantity::new(value, List::SCALAR);
    assert_eq!(refused(units().checked_power(&whole(2.0), &whole(2147483648.0))), RANGE);
    assert_eq!(refused(units().checked_power(&of(2.0, A), &Quantity::new(1.0, roots()))), DENOMINATOR);
}

#[test]
fn a_row_and_its_key() {
    assert_eq!(with_row(vec![to(A, 1, 65536), to(B, 1, 32767)]), None);
    assert_eq!(with_row(vec![to(A, 1, 65536), to(B, 1, 65537)]), DENOMINATOR);
    let at_the_last = vec![to(A, 1, 65536), to(B, 1, 65537), to(C, MOST, 1), to(C, 1, 1)];
    assert_eq!(with_row(at_the_last), RANGE);
    assert_eq!(with_row(vec![to(Q, 1, MOST as u32)]), DENOMINATOR);
    assert_eq!(with_row(vec![to(P, MOST, 1), to(Q, 1, MOST as u32)]), DENOMINATOR);
}

#[test]
fn the_lowest_base_row_decides() {
    let list = List::from([to(P, MOST, 1), to(Q, 1, MOST as u32)]);
    assert_eq!(refused(units().reduce_list(&list)), DENOMINATOR);
    assert_eq!(refused(Table::new(&ranked([1, 0, 2])).reduce_list(&list)), RANGE);
    let at_one = List::from([to(X, MOST, 1), to(Q, 1, MOST as u32)]);
    assert_eq!(refused(units().reduce_list(&at_one)), RANGE);
}

#[test]
fn a_conversion_step_by_step() {
    let convert = |own: List, target: List| refused(units().convert_to(&Quantity::new(1.0, own), &target));
    assert_eq!(convert(powers(), roots()), RANGE);
    assert_eq!(convert(roots(), powers()), DENOMINATOR);
    // Both canonical forms come before the own base exponents.
    assert_eq!(convert(to(X, MOST, 1).into(), roots()), DENOMINATOR);
    // These come before the target over the common list.
    assert_eq!(convert([to(X, MOST, 1), to(B, 1, 65537)].into(), to(B, 1, 65536).into()), RANGE);
    assert_eq!(convert([to(A, 1, 1), to(B, 1, 65537)].into(), to(B, 1, 65536).into()), DENOMINATOR);
    // Its base exponents are the last.
    assert_eq!(convert(one(A), to(X, MOST, 1).into()), RANGE);
    assert_eq!(convert(one(A), to(Q, 1, MOST as u32).into()), DENOMINATOR);
    assert_eq!(convert(one(A), one(B)), Some(Refusal::Units));
    assert_eq!(refused(units().convert_to(&of(0.0, B), &roots())), DENOMINATOR);
}

#[test]
fn the_second_quantity_is_the_own_one() {
    let (first, second) = (Quantity::new(1.0, roots()), Quantity::new(1.0, powers()));
    assert_eq!(refused(units().compare(&first, &second)), RANGE);
    assert_eq!(refused(units().equal(&first, &second)), RANGE);
    assert_eq!(refused(units().compare(&second, &first)), DENOMINATOR);
    assert_eq!(refused(units().equal(&second, &first)), DENOMINATOR);
    // A sum looks at its first list first.
    assert_eq!(refused(units().add(&first, &second)), DENOMINATOR);
}

#[test]
fn neither_half_is_unlike_units() {
    assert_eq!(refused(units().equal(&of(1.0, B), &Quantity::new(1.0, roots()))), DENOMINATOR);
    let simplified = |unit: [Factor; 2]| refused(units().full_simplify(&Quantity::new(5.0, unit)));
    assert_eq!(simplified([to(Q, 1, MOST as u32), to(B, 1, 1)]), DENOMINATOR);
    assert_eq!(simplified([to(X, MOST, 1), to(B, 1, 1)]), RANGE);
}

#[test]
fn a_row_of_a_file() {
    let base = [3, 0, 0, 1, 0];
    let mut file = [&base[..], &[2, 1], &1f64.to_bits().to_le_bytes(), &[2]].concat();
    file.extend([0, 0, 0, 2, 0x80, 0x80, 4, 1, 0, 0, 2, 0x81, 0x80, 4]);
    assert_eq!(refused(Table::from_file(&file)), DENOMINATOR);
    let left = salvage(&file);
    assert_eq!((left.kept, left.byte), (2, base.len()));
}
