// Table files: the worked cases of 02's readings, and the limits.
use super::*;
use crate::bytes::{HEAD_BYTES, ROW_BYTES, ROWS_BYTES, WRITTEN_BYTES};
use crate::{Refusal, exports, salvage};

const PAINT: u8 = 0x5a;

/// Two rows: of rank 7, base; of rank 300, 60 times the first.
fn file() -> Vec<u8> {
    vec![2, 7, 0, 0xac, 2, 1, 0, 0, 0, 0, 0, 0, 0x4e, 0x40, 1, 0, 0, 0, 2, 1]
}

fn two() -> Table {
    Table::new(&[Row::base(7), Row::derived(300, 60.0, vec![Factor::of(0)])])
}

/// So many rows are lent: the refusal's number, and what the room holds afterwards.
fn lent(call: fn(&[u8], &mut [u8]) -> u32, file: &[u8], places: usize) -> (u32, Vec<u8>) {
    let mut out = vec![PAINT; HEAD_BYTES + places * ROW_BYTES];
    (call(file, &mut out), out)
}

fn read_into(file: &[u8], places: usize) -> u32 {
    let (number, out) = lent(exports::read_table, file, places);
    assert!(number == 0 || out.iter().all(|b| *b == PAINT));
    number
}

fn kept_in(file: &[u8], places: usize) -> (u32, u32) {
    let (number, out) = lent(exports::salvage_table, file, places);
    let word = |at: usize| u32::from_le_bytes(out[at..at + 4].try_into().unwrap());
    assert_eq!(number, 0);
    assert!(out[HEAD_BYTES + word(0) as usize * ROW_BYTES..].iter().all(|b| *b == PAINT));
    (word(0), word(4))
}

/// So many rows of the scalar.
fn scalars(count: u16) -> Vec<Row> {
    (0..count).map(|rank| Row::derived(rank, 1.0, Vec::new())).collect()
}

/// The file of any number of such rows, by hand.
fn scalar_file(count: u16) -> Vec<u8> {
    let number = |n: u16| if n < 128 { vec![n as u8] } else { vec![n as u8 | 128, (n >> 7) as u8] };
    let row = |rank: u16| [number(rank), vec![1], 1f64.to_bits().to_le_bytes().to_vec(), vec![0]].concat();
    [number(count)].into_iter().chain((0..count).map(row)).flatten().collect()
}

#[test]
fn there_and_back() {
    assert_eq!(two().to_file(), Ok(file()));
    assert_eq!(Table::from_file(&file()), Ok(two()));
    assert_eq!(Table::from_file(&file()).unwrap().rows(), two().rows());
    assert_eq!(Table::from_file(&table().to_file().unwrap()), Ok(table()));
    assert_eq!(Table::new(&[]).to_file(), Ok(vec![0]));
    assert_eq!(Table::from_file(&[0]), Ok(Table::new(&[])));
}

#[test]
fn unread_places_are_not_in_the_file() {
    let mut other = two().bytes().to_vec();
    other[8..16].fill(0xff);
    other[16..ROW_BYTES].fill(3);
    other[ROW_BYTES + 36..].fill(7);
    let mut out = [PAINT; WRITTEN_BYTES];
    assert_eq!(exports::write_table(&other, &mut out), 0);
    assert_eq!(out[..HEAD_BYTES], [20, 0, 0, 0, 0, 0, 0, 0]);
    assert_eq!(out[HEAD_BYTES..HEAD_BYTES + 20], file());
    assert!(out[HEAD_BYTES + 20..].iter().all(|b| *b == PAINT));
}

#[test]
fn form_before_admission() {
    let zero = [&[5, 1][..], &0f64.to_le_bytes(), &[0]].concat();
    assert_eq!(read_into(&[&[2][..], &zero, &[6, 2]].concat(), 2), Refusal::Format.number());
    assert_eq!(read_into(&[&[1][..], &zero, &[0]].concat(), 1), Refusal::Format.number());
    assert_eq!(read_into(&[&[1][..], &zero].concat(), 1), Refusal::Table.number());
}

#[test]
fn form() {
    let wrong: [&[u8]; 14] = [
        &[],
        &[0x80],
        &[0x80, 0],
        &[0x81, 0, 0, 0],
        &[0, 0x55],
        &[1],
        &[1, 0],
        &[2, 0, 0],
        &[1, 0x80, 0, 0],
        &[1, 0, 2],
        &[1, 0x80, 0x80, 4, 0],
        &[1, 0xff, 0xff, 0xff, 0xff, 0x1f, 0],
        &[1, 0x80, 0x80, 0x80, 0x80, 0x80, 0, 0],
        &[1, 0, 1, 0, 0, 0, 0, 0, 0, 0xf0, 0x3f, 9],
    ];
    for file in wrong {
        assert_eq!(read_into(file, 4), Refusal::Format.number(), "{file:02x?}");
    }
    assert_eq!(read_into(&[1, 0xff, 0xff, 3, 0], 1), 0);
    for at in 0..file().len() {
        assert_eq!(Table::from_file(&file()[..at]), Err(Refusal::Format));
        assert_eq!(salvage(&file()[..at]).kept, usize::from(at >= 3));
    }
}

#[test]
fn the_rest_is_admissions() {
    // the second row's factor, row, prefix power, numerator, denominator
    let changed = |at: usize, bytes: &[u8]| [&file()[..at], bytes, &file()[at + 1..]].concat();
    let factor = |f: f64| [&file()[..6], &f.to_le_bytes(), &file()[14..]].concat();
    for f in [0.0, -0.0, -1.0, f64::NAN, f64::INFINITY, f64::NEG_INFINITY] {
        assert_eq!(Table::from_file(&factor(f)), Err(Refusal::Table));
    }
    assert_eq!(Table::from_file(&changed(15, &[1])), Err(Refusal::Table));
    assert_eq!(Table::from_file(&changed(15, &[0xff, 0xff, 0xff, 0xff, 0x0f])), Err(Refusal::Table));
    assert_eq!(Table::from_file(&changed(17, &[0x9a, 0x11])), Err(Refusal::Shape));
    assert_eq!(Table::from_file(&changed(18, &[0xff, 0xff, 0xff, 0xff, 0x0f])), Err(Refusal::Shape));
    assert_eq!(Table::from_file(&changed(19, &[0])), Err(Refusal::Shape));
    assert_eq!(Table::from_file(&changed(18, &[0xff, 0xff, 0xff, 0xff, 0x1f])), Err(Refusal::Format));
    assert_eq!(salvage(&changed(19, &[0])), salvage(&file()[..19]));
}

#[test]
fn rows_and_places() {
    assert!(Table::new(&scalars(128)).to_file() == Ok(scalar_file(128)));
    assert_eq!(Table::new(&scalars(129)).to_file(), Err(Refusal::Table));
    assert_eq!(read_into(&scalar_file(128), 128), 0);
    assert_eq!(read_into(&scalar_file(128), 127), Refusal::Format.number());
    assert_eq!(read_into(&scalar_file(129), 129), Refusal::Table.number());
    assert_eq!(read_into(&scalar_file(129), 128), Refusal::Format.number());
}

#[test]
fn salvage_tells_where_a_row_begins() {
    let cases: [(&[u8], usize, (u32, u32)); 16] = [
        (&[], 2, (0, 0)),
        (&[0x80], 2, (0, 0)),
        (&[0x81, 0, 0, 0], 2, (0, 0)),
        (&[0], 2, (0, 1)),
        (&[0], 0, (0, 1)),
        (&[0, 0x55], 2, (0, 1)),
        (&[1, 0x80, 0, 0], 1, (0, 1)),
        (&[2, 0, 0], 2, (1, 3)),
        (&[2, 0, 0, 1], 2, (1, 3)),
        (&[2, 0, 0, 0, 0], 2, (1, 3)),
        (&[2, 0, 0, 1, 0], 2, (2, 5)),
        (&[2, 0, 0, 1, 0], 1, (1, 3)),
        (&[2, 0, 0, 1, 0], 0, (0, 1)),
        (&[1, 0, 0, 7], 1, (1, 3)),
        (&[0xff, 0xff, 0xff, 0xff, 0x0f, 0, 0], 9, (1, 7)),
        (&[0xff, 0xff, 0xff, 0xff, 0x1f, 0, 0], 9, (0, 0)),
    ];
    for (file, places, said) in cases {
        assert_eq!(kept_in(file, places), said, "{file:02x?} into {places}");
    }
    let whole = scalar_file(200);
    let start = 2 + 128 * 11;
    assert_eq!(kept_in(&whole, 200), (128, start));
    let kept = salvage(&whole);
    assert_eq!((kept.kept, kept.byte), (128, start as usize));
    assert!(kept.table == Table::new(&scalars(128)));
}

#[test]
fn room() {
    for room in 0..HEAD_BYTES + 20 {
        let mut out = vec![PAINT; room];
        assert_eq!(exports::write_table(two().bytes(), &mut out), Refusal::Room.number());
        assert!(out.iter().all(|b| *b == PAINT));
    }
    let mut out = [PAINT; HEAD_BYTES + 20];
    assert_eq!(exports::write_table(two().bytes(), &mut out), 0);
    let twice = Table::new(&[Row::base(1), Row::base(1)]);
    assert_eq!(exports::write_table(twice.bytes(), &mut []), Refusal::Table.number());
    // Below eight bytes there is no place; ROOM comes after every other refusal.
    let mut out = [PAINT; HEAD_BYTES - 1];
    assert_eq!(exports::read_table(&file(), &mut out), Refusal::Format.number());
    assert_eq!(exports::read_table(&[0], &mut out), Refusal::Room.number());
    assert_eq!(exports::salvage_table(&file(), &mut out), Refusal::Room.number());
    assert_eq!(out, [PAINT; HEAD_BYTES - 1]);
}

/// A root takes a scale of exactly 1, so Binary(64) stands before rows of 2^-64.
#[test]
fn the_longest_file() {
    let root = Factor::of(0).under(Prefix::Binary(64)).to(Exponent::new(-2147483647, 2147483646));
    let scale = 1.0 / 18446744073709551616.0;
    let row = |at: u16| Row::derived(u16::MAX - at, scale, vec![root; if at == 0 { 0 } else { 8 }]);
    let table = Table::new(&(0..128).map(row).collect::<Vec<_>>());
    let file = table.to_file().unwrap();
    assert_eq!((HEAD_BYTES + file.len(), ROWS_BYTES), (WRITTEN_BYTES, 22_536));
    assert!(Table::from_file(&file) == Ok(table));
}
