// The wrapper's tests, each over the archive: the bench list, table files, the halves of fractions, the conversion that
// cancels on both sides, knot vectors, counted multiplications, the limits, the refusals, the bytes.
mod bench;
mod counted;
mod files;
mod halves;
mod knots;
mod layout;
mod limits;
mod merged;
mod refusals;

use crate::{Exponent, Factor, List, Prefix, Quantity, Row, Table};

pub const GRAM: u32 = 0;
pub const METRE: u32 = 1;
pub const SECOND: u32 = 2;
pub const BIT: u32 = 3;
pub const MINUTE: u32 = 4;
pub const HOUR: u32 = 5;
pub const BYTE: u32 = 6;
pub const NEWTON: u32 = 7;

/// The rows of the bench list, ranked by their names but that minute ranks below hour.
pub fn rows() -> Vec<Row> {
    vec![
        Row::base(2),
        Row::base(5),
        Row::base(7),
        Row::base(0),
        Row::derived(3, 60.0, vec![Factor::of(SECOND)]),
        Row::derived(4, 60.0, vec![Factor::of(MINUTE)]),
        Row::derived(1, 8.0, vec![Factor::of(BIT)]),
        Row::derived(6, 1.0, vec![kilo(GRAM), Factor::of(METRE), power(SECOND, -2)]),
    ]
}

pub fn table() -> Table {
    Table::new(&rows())
}

pub fn kilo(row: u32) -> Factor {
    Factor::of(row).under(Prefix::Metric(3))
}

pub fn power(row: u32, n: i32) -> Factor {
    Factor::of(row).to(Exponent::whole(n))
}

/// The row as a list.
pub fn one(row: u32) -> List {
    Factor::of(row).into()
}

/// So much of a row.
pub fn of(value: f64, row: u32) -> Quantity {
    Quantity::new(value, Factor::of(row))
}
