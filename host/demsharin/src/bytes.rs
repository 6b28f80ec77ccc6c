//! Arguments to bytes, and answers from bytes, for [`exports`](crate::exports). Numbers are little-endian.
use std::iter::repeat;

use crate::records::{
    Candidate, Counted, Distinct, Exponent, Factor, Kind, KnotRule, KnotVector, List, Multiple, Prefix, Quantity,
    Reduced, Row,
};

/// Bytes of an exponent: numerator, denominator.
pub const EXPONENT_BYTES: usize = 8;
/// Bytes of a prefix: kind (0 metric, 1 binary), power.
pub const PREFIX_BYTES: usize = 8;
/// Bytes of a factor: row, prefix, exponent.
pub const FACTOR_BYTES: usize = 20;
/// Bytes of a list: length, 16 factors.
pub const LIST_BYTES: usize = 324;
/// Bytes of a quantity: the value's bits, the mark, its list.
pub const QUANTITY_BYTES: usize = 336;
/// Bytes of a counted quantity: the quantity, the count, four bytes of zero.
pub const COUNTED_BYTES: usize = 344;
/// Bytes of a row: rank, kind, the definition's length, the factor's bits, 8 factors.
pub const ROW_BYTES: usize = 176;
/// Bytes of a candidate: rank, two bytes never read, its list.
pub const CANDIDATE_BYTES: usize = 328;
/// Bytes of a multiple: whether there is one, the exponent.
pub const MULTIPLE_BYTES: usize = 12;
/// Bytes of a reduced list: the scale's bits, the list.
pub const REDUCED_BYTES: usize = 332;
/// Bytes of an answer that is a yes, a no or an order.
pub const NUMBER_BYTES: usize = 4;
/// Bytes of an answer that is a value.
pub const VALUE_BYTES: usize = 8;
/// Bytes before a file, rows or distinct values: how many there are, and the byte where a salvage stopped.
pub const HEAD_BYTES: usize = 8;
/// Bytes of the longest file.
pub const FILE_BYTES: usize = 15_890;
/// Bytes that hold the answer of every write.
pub const WRITTEN_BYTES: usize = HEAD_BYTES + FILE_BYTES;
/// Bytes that hold the answer of every read and of every salvage: the head, 128 rows.
pub const ROWS_BYTES: usize = HEAD_BYTES + 128 * ROW_BYTES;
/// Bytes of a rule for knots: the tolerance's bits, the degree, the unit.
pub const RULE_BYTES: usize = 336;
/// Bytes of a rule for a span: that for its knots, x's bits, the place of the left knot, four bytes never read.
pub const SPAN_RULE_BYTES: usize = 352;
/// Bytes of a distinct value: its bits, its multiplicity, four bytes of zero.
pub const DISTINCT_BYTES: usize = 16;
/// Bytes that hold every knot vector: the head, 512 distinct values.
pub const VECTOR_BYTES: usize = HEAD_BYTES + 512 * DISTINCT_BYTES;

const BLANK: Factor = Factor { row: 0, prefix: Prefix::NONE, exponent: Exponent::whole(0) };

/// An exponent as an argument.
pub fn exponent(e: Exponent) -> [u8; EXPONENT_BYTES] {
    let mut out = [0; EXPONENT_BYTES];
    out[..4].copy_from_slice(&e.numerator.to_le_bytes());
    out[4..].copy_from_slice(&e.denominator.to_le_bytes());
    out
}

/// A prefix as an argument.
pub fn prefix(p: Prefix) -> [u8; PREFIX_BYTES] {
    let (kind, n) = match p {
        Prefix::Metric(n) => (0u32, n),
        Prefix::Binary(n) => (1, n),
    };
    let mut out = [0; PREFIX_BYTES];
    out[..4].copy_from_slice(&kind.to_le_bytes());
    out[4..].copy_from_slice(&n.to_le_bytes());
    out
}

/// Fills the places; factors that have none are only counted by the length beside them.
fn put_factors(places: &mut [u8], factors: &[Factor]) {
    let all = factors.iter().chain(repeat(&BLANK));
    for (place, factor) in places.chunks_exact_mut(FACTOR_BYTES).zip(all) {
        place[..4].copy_from_slice(&factor.row.to_le_bytes());
        place[4..12].copy_from_slice(&prefix(factor.prefix));
        place[12..].copy_from_slice(&exponent(factor.exponent));
    }
}

/// A length that 32 bits don't hold must stay too long.
fn length(factors: &[Factor]) -> [u8; 4] {
    u32::try_from(factors.len()).unwrap_or(u32::MAX).to_le_bytes()
}

fn put_list(out: &mut [u8], list: &List) {
    out[..4].copy_from_slice(&length(&list.factors));
    put_factors(&mut out[4..LIST_BYTES], &list.factors);
}

/// A list as an argument.
pub fn list(list: &List) -> [u8; LIST_BYTES] {
    let mut out = [0; LIST_BYTES];
    put_list(&mut out, list);
    out
}

/// A quantity as an argument.
pub fn quantity(q: &Quantity) -> [u8; QUANTITY_BYTES] {
    let mut out = [0; QUANTITY_BYTES];
    out[..8].copy_from_slice(&q.value.to_bits().to_le_bytes());
    out[8..12].copy_from_slice(&u32::from(q.mark).to_le_bytes());
    put_list(&mut out[12..], &q.unit);
    out
}

fn row(row: &Row) -> [u8; ROW_BYTES] {
    let (kind, factor, definition): (u16, f64, &[Factor]) = match &row.kind {
        Kind::Base => (0, 0.0, &[]),
        Kind::Derived { factor, definition } => (1, *factor, definition),
    };
    let mut out = [0; ROW_BYTES];
    out[..2].copy_from_slice(&row.rank.to_le_bytes());
    out[2..4].copy_from_slice(&kind.to_le_bytes());
    out[4..8].copy_from_slice(&length(definition));
    out[8..16].copy_from_slice(&factor.to_bits().to_le_bytes());
    put_factors(&mut out[16..], definition);
    out
}

/// Rows as a table.
pub fn rows(rows: &[Row]) -> Vec<u8> {
    rows.iter().flat_map(row).collect()
}

/// The row of an answer or of a table: a kind other than 0 is derived, and factors that have no place are left out.
fn read_row(bytes: &[u8]) -> Row {
    let word = |at: usize| u16::from_le_bytes([bytes[at], bytes[at + 1]]);
    let length = read_u32(bytes, 4) as usize;
    let definition = bytes[16..].chunks_exact(FACTOR_BYTES).take(length).map(read_factor).collect();
    let kind = match word(2) {
        0 => Kind::Base,
        _ => Kind::Derived { factor: read_value_in(&bytes[8..]), definition },
    };
    Row { rank: word(0), kind }
}

/// A table's rows.
pub fn read_rows(bytes: &[u8]) -> Vec<Row> {
    bytes.chunks_exact(ROW_BYTES).map(read_row).collect()
}

/// The two numbers before a file, rows or distinct values.
pub fn read_head(bytes: &[u8]) -> (usize, usize) {
    (read_u32(bytes, 0) as usize, read_u32(bytes, 4) as usize)
}

/// Candidates as an argument.
pub fn candidates(all: &[Candidate]) -> Vec<u8> {
    let mut out = vec![0; CANDIDATE_BYTES * all.len()];
    for (place, candidate) in out.chunks_exact_mut(CANDIDATE_BYTES).zip(all) {
        place[..2].copy_from_slice(&candidate.rank.to_le_bytes());
        put_list(&mut place[4..], &candidate.unit);
    }
    out
}

/// Knots as an argument; any number of them.
pub fn knots(all: &[Quantity]) -> Vec<u8> {
    all.iter().map(quantity).collect::<Vec<_>>().concat()
}

fn put_rule(out: &mut [u8], rule: &KnotRule) {
    out[..8].copy_from_slice(&rule.tolerance.to_bits().to_le_bytes());
    out[8..12].copy_from_slice(&rule.degree.to_le_bytes());
    put_list(&mut out[12..], &rule.unit);
}

/// A rule for knots as an argument.
pub fn rule(rule: &KnotRule) -> [u8; RULE_BYTES] {
    let mut out = [0; RULE_BYTES];
    put_rule(&mut out, rule);
    out
}

/// A rule for a span as an argument. A place that 32 bits don't hold must stay too high.
pub fn span_rule(rule: &KnotRule, place: usize, x: f64) -> [u8; SPAN_RULE_BYTES] {
    let mut out = [0; SPAN_RULE_BYTES];
    put_rule(&mut out, rule);
    out[336..344].copy_from_slice(&x.to_bits().to_le_bytes());
    out[344..348].copy_from_slice(&u32::try_from(place).unwrap_or(u32::MAX).to_le_bytes());
    out
}

fn read_u32(bytes: &[u8], at: usize) -> u32 {
    u32::from_le_bytes(bytes[at..at + 4].try_into().expect("four bytes"))
}

/// A yes, a no or an order.
pub fn read_number(bytes: &[u8; NUMBER_BYTES]) -> u32 {
    read_u32(bytes, 0)
}

fn read_value_in(bytes: &[u8]) -> f64 {
    f64::from_bits(u64::from_le_bytes(bytes[..VALUE_BYTES].try_into().expect("eight bytes")))
}

/// A prefix's factor, or a span's quotient.
pub fn read_value(bytes: &[u8; VALUE_BYTES]) -> f64 {
    read_value_in(bytes)
}

fn read_exponent(bytes: &[u8]) -> Exponent {
    Exponent { numerator: read_u32(bytes, 0) as i32, denominator: read_u32(bytes, 4) }
}

fn read_factor(bytes: &[u8]) -> Factor {
    let n = read_u32(bytes, 8) as i32;
    let prefix = if read_u32(bytes, 4) == 0 { Prefix::Metric(n) } else { Prefix::Binary(n) };
    Factor { row: read_u32(bytes, 0), prefix, exponent: read_exponent(&bytes[12..]) }
}

/// A list of an answer, whose length is always one that has places.
fn read_list_in(bytes: &[u8]) -> List {
    let length = read_u32(bytes, 0) as usize;
    bytes[4..LIST_BYTES].chunks_exact(FACTOR_BYTES).take(length).map(read_factor).collect()
}

/// A list.
pub fn read_list(bytes: &[u8; LIST_BYTES]) -> List {
    read_list_in(bytes)
}

fn read_quantity_in(bytes: &[u8]) -> Quantity {
    Quantity { value: read_value_in(bytes), mark: read_u32(bytes, 8) != 0, unit: read_list_in(&bytes[12..]) }
}

/// A quantity.
pub fn read_quantity(bytes: &[u8; QUANTITY_BYTES]) -> Quantity {
    read_quantity_in(bytes)
}

/// A counted quantity.
pub fn read_counted(bytes: &[u8; COUNTED_BYTES]) -> Counted {
    Counted { quantity: read_quantity_in(bytes), count: read_u32(bytes, QUANTITY_BYTES) }
}

/// A multiple, if there is one.
pub fn read_multiple(bytes: &[u8; MULTIPLE_BYTES]) -> Multiple {
    (read_u32(bytes, 0) != 0).then(|| read_exponent(&bytes[4..]))
}

/// A reduced list.
pub fn read_reduced(bytes: &[u8; REDUCED_BYTES]) -> Reduced {
    Reduced { scale: read_value_in(bytes), unit: read_list_in(&bytes[8..]) }
}

fn read_distinct(bytes: &[u8]) -> Distinct {
    Distinct { value: read_value_in(bytes), multiplicity: read_u32(bytes, 8) }
}

/// A knot vector.
pub fn read_vector(bytes: &[u8; VECTOR_BYTES]) -> KnotVector {
    let (number, _) = read_head(bytes);
    let distinct = bytes[HEAD_BYTES..].chunks_exact(DISTINCT_BYTES).take(number).map(read_distinct).collect();
    KnotVector { distinct }
}
