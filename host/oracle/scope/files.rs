// The table file: written, read, salvaged (02, "Order 1: unit tables between sites"; its readings 1 to 8).
//
// Written from 02's sentences, by division and remainder; a file is taken byte by byte, each number tested alone.
use wire::bytes::{self, put_row, put_u32};
use wire::records::{DEF_PLACES, Exponent, Factor, Prefix, Row};
use wire::refusals::{FORMAT, ROOM};

use crate::Checked;
use crate::tables::{ROWS, admitted, admitted_row};

const MOST: u64 = 4_294_967_295;
const MOST_RANK: u32 = 65_535;

/// What stands in a file, in the order of its places. Each is a number but for the factor, which has eight bytes.
#[derive(Debug, Clone, Copy, PartialEq, Eq)]
pub enum Field {
    Count,
    Rank,
    Kind,
    Factor,
    Length,
    Row,
    PrefixKind,
    PrefixPower,
    Numerator,
    Denominator,
}

/// "Groups of seven bits, low group first, the high bit set on all but the last."
pub fn number_bytes(mut n: u64) -> Vec<u8> {
    let mut out = Vec::new();
    while n > 127 {
        out.push((128 + n % 128) as u8);
        n /= 128;
    }
    out.push(n as u8);
    out
}

pub fn field_bytes((field, value): (Field, u64)) -> Vec<u8> {
    if field == Field::Factor { value.to_le_bytes().to_vec() } else { number_bytes(value) }
}

/// "0, −1, 1, −2 become 0, 1, 2, 3."
fn folded(n: i32) -> u64 {
    let n = n as i64;
    (if n < 0 { -2 * n - 1 } else { 2 * n }) as u64
}

fn unfolded(n: u32) -> i32 {
    let n = n as i64;
    (if n % 2 == 1 { -(n + 1) / 2 } else { n / 2 }) as i32
}

fn factor_fields(f: &Factor) -> [(Field, u64); 5] {
    [
        (Field::Row, f.row as u64),
        (Field::PrefixKind, f.prefix.kind as u64),
        (Field::PrefixPower, folded(f.prefix.n)),
        (Field::Numerator, folded(f.exponent.num)),
        (Field::Denominator, f.exponent.den as u64),
    ]
}

/// What rows are written as, admitted or not.
pub fn fields(rows: &[Row]) -> Vec<(Field, u64)> {
    let mut out = vec![(Field::Count, rows.len() as u64)];
    for row in rows {
        out.extend([(Field::Rank, row.rank as u64), (Field::Kind, row.kind as u64)]);
        if row.kind != 0 {
            out.extend([(Field::Factor, row.bits), (Field::Length, row.len as u64)]);
            out.extend(row.def.iter().flat_map(factor_fields));
        }
    }
    out
}

/// The file of rows, admitted or not.
pub fn file(rows: &[Row]) -> Vec<u8> {
    fields(rows).into_iter().flat_map(field_bytes).collect()
}

struct Reader<'a> {
    bytes: &'a [u8],
    at: usize,
}

impl Reader<'_> {
    fn byte(&mut self) -> Option<u8> {
        let byte = *self.bytes.get(self.at)?;
        self.at += 1;
        Some(byte)
    }

    /// "The shortest form only": the last group is not 0 unless it is the only one. A sixth group is always too much.
    fn number(&mut self) -> Option<u32> {
        let (mut n, mut weight) = (0, 1);
        while weight <= MOST {
            let byte = self.byte()? as u64;
            n += byte % 128 * weight;
            if byte < 128 {
                let shortest = byte != 0 || weight == 1;
                return (shortest && n <= MOST).then_some(n as u32);
            }
            weight *= 128;
        }
        None
    }

    fn up_to(&mut self, most: u32) -> Option<u32> {
        self.number().filter(|n| *n <= most)
    }

    fn factor(&mut self) -> Option<Factor> {
        let row = self.number()?;
        let prefix = Prefix { kind: self.up_to(1)?, n: unfolded(self.number()?) };
        let exponent = Exponent { num: unfolded(self.number()?), den: self.number()? };
        Some(Factor { row, prefix, exponent })
    }

    fn row(&mut self) -> Option<Row> {
        let rank = self.up_to(MOST_RANK)? as u16;
        if self.up_to(1)? == 0 {
            return Some(Row { rank, kind: 0, len: 0, bits: 0, def: Vec::new() });
        }
        let mut bits = 0;
        for place in 0..8 {
            bits += (self.byte()? as u64) << (8 * place);
        }
        let len = self.up_to(DEF_PLACES as u32)?;
        let def = (0..len).map(|_| self.factor()).collect::<Option<_>>()?;
        Some(Row { rank, kind: 1, len, bits, def })
    }
}

/// How many rows a file says it has.
pub fn counted(file: &[u8]) -> Option<u32> {
    Reader { bytes: file, at: 0 }.number()
}

/// "Nothing follows the last row."
fn whole(file: &[u8]) -> Option<Vec<Row>> {
    let mut reader = Reader { bytes: file, at: 0 };
    let count = reader.number()?;
    let rows = (0..count).map(|_| reader.row()).collect::<Option<_>>()?;
    (reader.at == file.len()).then_some(rows)
}

/// Admission's refusals, then ROOM (reading 5).
pub fn write(table: &[u8], room: usize) -> Checked<Vec<u8>> {
    let rows = bytes::table(table);
    admitted(rows.clone())?;
    let file = file(&rows.expect("admitted"));
    if file.len() > room { Err(ROOM) } else { Ok(file) }
}

/// The whole file first, then admission (reading 1).
pub fn read(file: &[u8], places: usize) -> Checked<Vec<Row>> {
    let rows = whole(file).filter(|rows| rows.len() <= places).ok_or(FORMAT)?;
    admitted(Some(rows.clone()))?;
    Ok(rows)
}

pub struct Salvaged {
    pub rows: Vec<Row>,
    pub byte: usize,
}

/// "The whole, admitted rows before the first fault": a row not whole, not admitted or without a place (reading 7).
pub fn salvage(file: &[u8], places: usize) -> Salvaged {
    let mut reader = Reader { bytes: file, at: 0 };
    let Some(count) = reader.number() else { return Salvaged { rows: Vec::new(), byte: 0 } };
    let (mut kept, mut known) = (Salvaged { rows: Vec::new(), byte: reader.at }, Vec::new());
    let most = places.min(ROWS).min(count as usize);
    while kept.rows.len() < most {
        let Some(row) = reader.row() else { break };
        let Ok(next) = admitted_row(&known, &row) else { break };
        known.push(next);
        kept.rows.push(row);
        kept.byte = reader.at;
    }
    kept
}

/// The answer of a write: length, reserved, the file.
pub fn written_bytes(file: &[u8]) -> Vec<u8> {
    let mut out = Vec::new();
    put_u32(&mut out, file.len() as u32);
    put_u32(&mut out, 0);
    out.extend(file);
    out
}

/// The answer of a read and of a salvage: rows, reserved or the byte, the rows.
pub fn rows_bytes(rows: &[Row], second: u32) -> Vec<u8> {
    let mut out = Vec::new();
    put_u32(&mut out, rows.len() as u32);
    put_u32(&mut out, second);
    rows.iter().for_each(|row| put_row(&mut out, row));
    out
}
