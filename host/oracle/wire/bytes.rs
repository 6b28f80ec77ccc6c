// Records from bytes and to bytes, little-endian, as wire.md lays them out.
use crate::records::*;

pub const EXPONENT: usize = 8;
pub const PREFIX: usize = 8;
pub const LIST: usize = 324;
pub const QUANTITY: usize = 336;
pub const COUNTED: usize = 344;
pub const ROW: usize = 176;
pub const CANDIDATE: usize = 328;
pub const RULE: usize = 336;
pub const SPAN_RULE: usize = 352;
pub const DISTINCT: usize = 16;

fn u16_at(b: &[u8], at: usize) -> u16 {
    u16::from_le_bytes(b[at..at + 2].try_into().unwrap())
}

pub fn u32_at(b: &[u8], at: usize) -> u32 {
    u32::from_le_bytes(b[at..at + 4].try_into().unwrap())
}

pub fn u64_at(b: &[u8], at: usize) -> u64 {
    u64::from_le_bytes(b[at..at + 8].try_into().unwrap())
}

pub fn exponent(b: &[u8]) -> Option<Exponent> {
    (b.len() == EXPONENT).then(|| Exponent { num: u32_at(b, 0) as i32, den: u32_at(b, 4) })
}

pub fn prefix(b: &[u8]) -> Option<Prefix> {
    (b.len() == PREFIX).then(|| Prefix { kind: u32_at(b, 0), n: u32_at(b, 4) as i32 })
}

fn factor(b: &[u8]) -> Factor {
    Factor { row: u32_at(b, 0), prefix: prefix(&b[4..12]).unwrap(), exponent: exponent(&b[12..20]).unwrap() }
}

fn factors(b: &[u8], len: u32) -> Vec<Factor> {
    b.chunks_exact(20).take(len as usize).map(factor).collect()
}

pub fn list(b: &[u8]) -> Option<List> {
    (b.len() == LIST).then(|| List { len: u32_at(b, 0), factors: factors(&b[4..], u32_at(b, 0)) })
}

pub fn quantity(b: &[u8]) -> Option<Quantity> {
    let unit = list(b.get(12..)?)?;
    Some(Quantity { bits: bits_of(f64::from_bits(u64_at(b, 0))), mark: u32_at(b, 8), unit })
}

pub fn counted(b: &[u8]) -> Option<Counted> {
    let (first, rest) = b.split_at_checked(QUANTITY)?;
    let quantity = quantity(first).filter(|_| b.len() == COUNTED)?;
    Some(Counted { quantity, count: u32_at(rest, 0) })
}

fn row(b: &[u8]) -> Row {
    let len = u32_at(b, 4);
    Row { rank: u16_at(b, 0), kind: u16_at(b, 2), len, bits: u64_at(b, 8), def: factors(&b[16..], len) }
}

/// None for a length that no run of rows has.
pub fn table(b: &[u8]) -> Option<Vec<Row>> {
    b.len().is_multiple_of(ROW).then(|| b.chunks_exact(ROW).map(row).collect())
}

pub fn candidates(b: &[u8]) -> Option<Vec<Candidate>> {
    let one = |b: &[u8]| Candidate { rank: u16_at(b, 0), unit: list(&b[4..]).unwrap() };
    b.len().is_multiple_of(CANDIDATE).then(|| b.chunks_exact(CANDIDATE).map(one).collect())
}

/// None for a length that no run of quantities has.
pub fn knots(b: &[u8]) -> Option<Vec<Quantity>> {
    let one = |b: &[u8]| quantity(b).expect("a quantity's bytes");
    b.len().is_multiple_of(QUANTITY).then(|| b.chunks_exact(QUANTITY).map(one).collect())
}

pub fn rule(b: &[u8]) -> Option<Rule> {
    let target = list(b.get(12..)?)?;
    Some(Rule { tolerance: u64_at(b, 0), degree: u32_at(b, 8), target })
}

pub fn span_rule(b: &[u8]) -> Option<SpanRule> {
    let (first, rest) = b.split_at_checked(RULE)?;
    let rule = rule(first).filter(|_| b.len() == SPAN_RULE)?;
    Some(SpanRule { rule, x: u64_at(rest, 0), place: u32_at(rest, 8) })
}

pub fn distinct(b: &[u8]) -> Vec<Distinct> {
    b.chunks_exact(DISTINCT).map(|b| Distinct { bits: u64_at(b, 0), multiplicity: u32_at(b, 8) }).collect()
}

/// Room or places; a wrong length reads as 0.
pub fn lent(b: &[u8]) -> u32 {
    if b.len() == 4 { u32_at(b, 0) } else { 0 }
}

pub fn put_u32(out: &mut Vec<u8>, n: u32) {
    out.extend(n.to_le_bytes());
}

pub fn put_u64(out: &mut Vec<u8>, n: u64) {
    out.extend(n.to_le_bytes());
}

pub fn put_prefix(out: &mut Vec<u8>, p: Prefix) {
    put_u32(out, p.kind);
    put_u32(out, p.n as u32);
}

pub fn put_exponent(out: &mut Vec<u8>, e: Exponent) {
    put_u32(out, e.num as u32);
    put_u32(out, e.den);
}

fn put_factors(out: &mut Vec<u8>, factors: &[Factor], places: usize) {
    for f in factors.iter().chain(std::iter::repeat(&BLANK)).take(places) {
        put_u32(out, f.row);
        put_prefix(out, f.prefix);
        put_exponent(out, f.exponent);
    }
}

pub fn put_list(out: &mut Vec<u8>, list: &List) {
    put_u32(out, list.len);
    put_factors(out, &list.factors, LIST_PLACES);
}

pub fn put_quantity(out: &mut Vec<u8>, q: &Quantity) {
    put_u64(out, q.bits);
    put_u32(out, q.mark);
    put_list(out, &q.unit);
}

pub fn put_counted(out: &mut Vec<u8>, counted: &Counted) {
    put_quantity(out, &counted.quantity);
    put_u32(out, counted.count);
    put_u32(out, 0);
}

pub fn put_row(out: &mut Vec<u8>, row: &Row) {
    out.extend(row.rank.to_le_bytes());
    out.extend(row.kind.to_le_bytes());
    put_u32(out, row.len);
    put_u64(out, row.bits);
    put_factors(out, &row.def, DEF_PLACES);
}

pub fn put_rule(out: &mut Vec<u8>, rule: &Rule) {
    put_u64(out, rule.tolerance);
    put_u32(out, rule.degree);
    put_list(out, &rule.target);
}

pub fn put_span_rule(out: &mut Vec<u8>, span: &SpanRule) {
    put_rule(out, &span.rule);
    put_u64(out, span.x);
    put_u32(out, span.place);
    put_u32(out, 0);
}

pub fn put_distinct(out: &mut Vec<u8>, distinct: &Distinct) {
    put_u64(out, distinct.bits);
    put_u32(out, distinct.multiplicity);
    put_u32(out, 0);
}

pub fn put_candidate(out: &mut Vec<u8>, c: &Candidate) {
    out.extend(c.rank.to_le_bytes());
    out.extend([0, 0]);
    put_list(out, &c.unit);
}
