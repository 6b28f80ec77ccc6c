// Requests made by hand: records in few words, and their bytes.
use crate::bytes::*;
use crate::records::*;
use crate::stream::Request;

pub fn factor(row: u32, num: i32, den: u32) -> Factor {
    Factor { row, prefix: METRIC, exponent: Exponent { num, den } }
}

pub fn metric(n: i32, f: Factor) -> Factor {
    Factor { prefix: Prefix { kind: 0, n }, ..f }
}

pub fn binary(n: i32, f: Factor) -> Factor {
    Factor { prefix: Prefix { kind: 1, n }, ..f }
}

pub fn base(rank: u16) -> Row {
    Row { rank, kind: 0, len: 0, bits: 0, def: Vec::new() }
}

pub fn derived(rank: u16, factor: f64, def: Vec<Factor>) -> Row {
    Row { rank, kind: 1, len: def.len() as u32, bits: factor.to_bits(), def }
}

/// A row to the first power.
pub fn one(row: u32) -> List {
    List::of(vec![factor(row, 1, 1)])
}

fn bytes(put: impl FnOnce(&mut Vec<u8>)) -> Vec<u8> {
    let mut out = Vec::new();
    put(&mut out);
    out
}

pub fn table(rows: &[Row]) -> Vec<u8> {
    bytes(|out| rows.iter().for_each(|row| put_row(out, row)))
}

pub fn list(l: List) -> Vec<u8> {
    bytes(|out| put_list(out, &l))
}

pub fn quantity(value: f64, unit: List) -> Vec<u8> {
    bytes(|out| put_quantity(out, &Quantity::of(value, unit)))
}

pub fn unmarked(value: f64, unit: List) -> Vec<u8> {
    bytes(|out| put_quantity(out, &Quantity { mark: 0, ..Quantity::of(value, unit) }))
}

pub fn prefix(kind: u32, n: i32) -> Vec<u8> {
    bytes(|out| put_prefix(out, Prefix { kind, n }))
}

/// A request of any call but prefix_factor.
pub fn over(rows: &[Row], code: u32, arguments: Vec<Vec<u8>>) -> Request {
    Request { code, arguments: std::iter::once(table(rows)).chain(arguments).collect() }
}
