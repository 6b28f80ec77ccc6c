// Table files: of rows in order, and damaged in ways that have names, from the rows down to the bytes.
use scope::files::{self, Field, field_bytes, fields};
use wire::records::{Exponent, Factor, METRIC, Prefix, Row};

use crate::lists::plain;
use crate::random::Random;
use crate::tables::{base_row, derived_row, unused_rank};

type Fields = Vec<(Field, u64)>;

/// Where a file is damaged: in the rows it is written from, in one of its fields, or in its bytes.
enum Way {
    Rows(fn(&mut Random, &mut Vec<Row>)),
    Fields(fn(&mut Random, &mut Fields)),
    Padded,
    Bytes(fn(&mut Random, &mut Vec<u8>)),
}

/// Every way with its name, and how often it is gone.
const WAYS: [(&str, usize, Way); 30] = [
    ("as written", 12, Way::Bytes(|_, _| {})),
    ("a bit flipped", 8, Way::Bytes(bit_flipped)),
    ("a byte changed", 6, Way::Bytes(byte_changed)),
    ("a byte removed", 5, Way::Bytes(byte_removed)),
    ("a byte inserted", 5, Way::Bytes(byte_inserted)),
    ("cut", 8, Way::Bytes(cut)),
    ("a stretch doubled", 4, Way::Bytes(stretch_doubled)),
    ("bytes behind", 4, Way::Bytes(bytes_behind)),
    ("random bytes", 3, Way::Bytes(random_bytes)),
    ("a number padded", 5, Way::Padded),
    ("a number too large", 4, Way::Fields(too_large)),
    ("another number", 4, Way::Fields(another_number)),
    ("another count", 5, Way::Fields(another_count)),
    ("a rank over 65535", 2, Way::Fields(|random, all| one_of(random, all, Field::Rank, &[65_536, 65_537, 131_071]))),
    ("another kind", 2, Way::Fields(|random, all| one_of(random, all, Field::Kind, &[0, 1, 2, 127, 128]))),
    ("another length", 2, Way::Fields(|random, all| one_of(random, all, Field::Length, &[0, 1, 8, 9, 255]))),
    ("another prefix kind", 2, Way::Fields(|random, all| one_of(random, all, Field::PrefixKind, &[0, 1, 2, 3]))),
    ("over 8 factors", 2, Way::Rows(many_factors)),
    ("a rank again", 3, Way::Rows(rank_again)),
    ("a 17th base row", 2, Way::Rows(many_bases)),
    ("a row not before", 2, Way::Rows(row_not_before)),
    ("a factor that is none", 3, Way::Rows(factor_none)),
    ("a prefix beyond 1100", 2, Way::Rows(prefix_beyond)),
    ("a denominator 0", 2, Way::Rows(|random, rows| exponents(random, rows, &[(1, 0), (0, 0)]))),
    ("a fraction not lowest", 2, Way::Rows(|random, rows| exponents(random, rows, &[(2, 4), (0, 2), (-3, 3)]))),
    ("an exponent beyond", 2, Way::Rows(|random, rows| exponents(random, rows, &[(i32::MIN, 1), (1, 1 << 31)]))),
    ("RANGE", 2, Way::Rows(|random, rows| defined(random, rows, [(0, i32::MAX, 1), (0, 1, 1)]))),
    ("DENOMINATOR", 1, Way::Rows(|random, rows| keyed(random, rows))),
    ("FRACTION", 2, Way::Rows(|random, rows| defined(random, rows, [(3, 1, 2), (0, 1, 1)]))),
    ("over 128 rows", 1, Way::Rows(|random, rows| grow(random, rows, 129))),
];

pub fn names() -> impl Iterator<Item = &'static str> {
    WAYS.iter().map(|(name, _, _)| *name)
}

/// A file of the rows in one of the ways, with the rows that it was written from and the way's place among the names.
pub fn damaged(random: &mut Random, rows: &[Row]) -> (usize, Vec<Row>, Vec<u8>) {
    let weights = WAYS.map(|(_, weight, _)| weight);
    let at = random.weighted(&weights);
    let (mut rows, mut file) = (rows.to_vec(), Vec::new());
    match &WAYS[at].2 {
        Way::Rows(put) => {
            put(random, &mut rows);
            file = files::file(&rows);
        }
        Way::Fields(put) => {
            let mut all = fields(&rows);
            put(random, &mut all);
            file = all.into_iter().flat_map(field_bytes).collect();
        }
        Way::Padded => padded(random, &rows, &mut file),
        Way::Bytes(put) => {
            file = files::file(&rows);
            put(random, &mut file);
        }
    }
    (at, rows, file)
}

/// How many rows may be lent for a file of so many: too few, as many, more, and what a table may have.
pub fn places(random: &mut Random, rows: usize) -> u32 {
    let few = random.below(rows + 1);
    let all = [few, rows, rows, rows, rows.saturating_sub(1), rows + 1, 128, 128, 129, 200, 0];
    random.pick(&all) as u32
}

/// How many bytes may be lent for a file.
pub fn room(random: &mut Random, file: usize) -> u32 {
    let few = random.below(file + 1);
    let all = [file, file, file, file + 1, file + few, 15_890, 15_890, file - 1, few, 0];
    random.pick(&all) as u32
}

// ---- the bytes

/// A place among so many, or the end if there is none.
fn place(random: &mut Random, bytes: &[u8]) -> usize {
    random.below(bytes.len().max(1))
}

fn any_byte(random: &mut Random) -> u8 {
    let any = random.bits() as u8;
    random.pick(&[any, any, 0, 1, 2, 9, 0x7f, 0x80, 0xff])
}

fn bit_flipped(random: &mut Random, file: &mut Vec<u8>) {
    let at = place(random, file);
    file[at] ^= 1 << random.below(8);
}

fn byte_changed(random: &mut Random, file: &mut Vec<u8>) {
    let at = place(random, file);
    file[at] = any_byte(random);
}

fn byte_removed(random: &mut Random, file: &mut Vec<u8>) {
    let at = place(random, file);
    file.remove(at);
}

fn byte_inserted(random: &mut Random, file: &mut Vec<u8>) {
    let at = random.below(file.len() + 1);
    file.insert(at, any_byte(random));
}

fn cut(random: &mut Random, file: &mut Vec<u8>) {
    let at = place(random, file);
    file.truncate(at);
}

fn stretch_doubled(random: &mut Random, file: &mut Vec<u8>) {
    let from = place(random, file);
    let to = (from + 1 + random.below(40)).min(file.len());
    let stretch = file[from..to].to_vec();
    file.splice(to..to, stretch);
}

fn bytes_behind(random: &mut Random, file: &mut Vec<u8>) {
    let more = 1 + random.below(20);
    file.extend((0..more).map(|_| any_byte(random)));
}

/// Any, or mostly small ones, so that numbers and rows come about.
fn random_bytes(random: &mut Random, file: &mut Vec<u8>) {
    let (length, most) = (random.below(200), random.pick(&[2, 3, 8, 256]));
    *file = (0..length).map(|_| random.below(most) as u8).collect();
    if random.percent(10) {
        file.resize(random.below(65_536), any_byte(random));
    }
}

// ---- the fields

fn number_at(random: &mut Random, all: &Fields) -> usize {
    let numbers: Vec<usize> = (0..all.len()).filter(|at| all[*at].0 != Field::Factor).collect();
    random.pick(&numbers)
}

/// `80 00` for `00`: one number with groups of zeros behind, one or more.
fn padded(random: &mut Random, rows: &[Row], file: &mut Vec<u8>) {
    let all = fields(rows);
    let chosen = number_at(random, &all);
    for (at, field) in all.into_iter().enumerate() {
        file.extend(field_bytes(field));
        if at == chosen {
            *file.last_mut().expect("a number has bytes") |= 128;
            file.extend(std::iter::repeat_n(128, random.pick(&[0, 0, 1, 3, 9])));
            file.push(0);
        }
    }
}

fn too_large(random: &mut Random, all: &mut Fields) {
    let at = number_at(random, all);
    all[at].1 = random.pick(&[1 << 32, (1 << 32) + all[at].1, (1 << 35) - 1, 1 << 35, 1 << 63, u64::MAX]);
}

/// One that a number can hold; what it means decides.
fn another_number(random: &mut Random, all: &mut Fields) {
    let at = number_at(random, all);
    let (any, own) = (random.bits() as u32 as u64, all[at].1);
    all[at].1 =
        random.pick(&[any, any >> 20, own + 1, own.saturating_sub(1), 127, 128, 2200, 2201, 2202, 4_294_967_295]);
}

fn another_count(random: &mut Random, all: &mut Fields) {
    let own = all[0].1;
    all[0].1 = random.pick(&[0, own.saturating_sub(1), own + 1, own + 1, 128, 129, 200, 4_294_967_295]);
}

/// One of the fields of a kind gets one of the values; a file without them stays.
fn one_of(random: &mut Random, all: &mut Fields, wanted: Field, values: &[u64]) {
    let found: Vec<usize> = (0..all.len()).filter(|at| all[*at].0 == wanted).collect();
    if !found.is_empty() {
        all[random.pick(&found)].1 = random.pick(values);
    }
}

// ---- the rows

fn rank_again(random: &mut Random, rows: &mut Vec<Row>) {
    if rows.is_empty() {
        return;
    }
    let (at, other) = (random.below(rows.len()), random.below(rows.len()));
    rows[at].rank = rows[other].rank;
    if at == other {
        rows.push(base_row(rows[at].rank));
    }
}

/// A definition of more factors than there are places, all of them in the file.
fn many_factors(random: &mut Random, rows: &mut Vec<Row>) {
    let length = random.pick(&[9, 9, 10, 17]);
    let found: Vec<usize> = (0..rows.len()).filter(|at| !rows[*at].def.is_empty()).collect();
    if !found.is_empty() {
        let row = &mut rows[random.pick(&found)];
        row.def = row.def.iter().cycle().take(length).copied().collect();
        row.len = length as u32;
    }
}

fn many_bases(random: &mut Random, rows: &mut Vec<Row>) {
    while rows.iter().filter(|row| row.kind == 0).count() < 17 {
        let rank = unused_rank(random, rows);
        rows.push(base_row(rank));
    }
}

/// A factor of some definition, with its row's place; None if no definition has any.
fn some_factor<'a>(random: &mut Random, rows: &'a mut [Row]) -> Option<(usize, &'a mut Factor)> {
    let found: Vec<usize> = (0..rows.len()).filter(|at| !rows[*at].def.is_empty()).collect();
    let at = (!found.is_empty()).then(|| random.pick(&found))?;
    let factor = random.below(rows[at].def.len());
    Some((at, &mut rows[at].def[factor]))
}

fn row_not_before(random: &mut Random, rows: &mut Vec<Row>) {
    let any = random.bits() as u32;
    if let Some((at, factor)) = some_factor(random, rows) {
        factor.row = random.pick(&[at as u32, at as u32 + 1, 128, 4_294_967_295, any | 128]);
    }
}

fn factor_none(random: &mut Random, rows: &mut Vec<Row>) {
    let bits = random.pick(&[f64::NAN, 0.0, -0.0, -1.0, f64::INFINITY, f64::NEG_INFINITY]).to_bits();
    let bits = if random.percent(15) { random.pick(&[u64::MAX, 0x7ff0_0000_0000_0001, 1 << 63 | 1]) } else { bits };
    let found: Vec<usize> = (0..rows.len()).filter(|at| rows[*at].kind == 1).collect();
    if !found.is_empty() {
        rows[random.pick(&found)].bits = bits;
    }
}

fn prefix_beyond(random: &mut Random, rows: &mut Vec<Row>) {
    let (kind, n) = (random.below(2) as u32, random.pick(&[1101, -1101, i32::MAX, i32::MIN]));
    if let Some((_, factor)) = some_factor(random, rows) {
        factor.prefix = Prefix { kind, n };
    }
}

fn exponents(random: &mut Random, rows: &mut [Row], all: &[(i32, u32)]) {
    let (num, den) = random.pick(all);
    if let Some((_, factor)) = some_factor(random, rows) {
        factor.exponent = Exponent { num, den };
    }
}

/// A row behind one or more base rows is defined by these factors; a table of nothing else gets one more.
fn replaced(random: &mut Random, rows: &mut Vec<Row>, def: impl Fn(u32, u32) -> Vec<Factor>) {
    let bases: Vec<usize> = (0..rows.len()).filter(|at| rows[*at].kind == 0).collect();
    let (Some(first), Some(last)) = (bases.first(), bases.last()) else { return };
    let at = last + 1 + random.below(rows.len() - last);
    let rank = rows.get(at).map_or_else(|| unused_rank(random, rows), |row| row.rank);
    rows.truncate(rows.len().max(at));
    let row = derived_row(rank, 1.0, def(*first as u32, *last as u32));
    if at == rows.len() { rows.push(row) } else { rows[at] = row }
}

/// Two factors of one base row: prefix, numerator, denominator.
fn defined(random: &mut Random, rows: &mut Vec<Row>, parts: [(i32, i32, u32); 2]) {
    let factor = |row, (n, num, den)| Factor { row, prefix: Prefix { n, ..METRIC }, exponent: Exponent { num, den } };
    replaced(random, rows, |first, _| parts.map(|part| factor(first, part)).to_vec());
}

/// Two base rows whose denominators have too large a common multiple; over one base row a sum whose denominator is.
fn keyed(random: &mut Random, rows: &mut Vec<Row>) {
    let to = |row, den| Factor { exponent: Exponent { num: 1, den }, ..plain(row) };
    replaced(random, rows, |first, last| vec![to(first, 65_536), to(last, 65_537)]);
}

/// Rows that are admissible each, up to so many.
pub fn grow(random: &mut Random, rows: &mut Vec<Row>, len: usize) {
    while rows.len() < len {
        let rank = unused_rank(random, rows);
        let named = random.below(rows.len() + 1);
        let def = if named == rows.len() { Vec::new() } else { vec![plain(named as u32)] };
        rows.push(derived_row(rank, 1.5, def));
    }
}
