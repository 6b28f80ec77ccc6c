// The rows that files are made of: small tables, units in use, full tables, and more rows than a table may have.
use generator::random::Random;
use generator::{files, tables};
use wire::bytes::{ROW, put_row};
use wire::records::{DEF_PLACES, Row};

/// Large tables are made once and used again, each time with another damage.
const LARGE: usize = 12;
const ROWS: usize = 128;
/// How often each is taken: no row, about three, up to 19, large ones, over 128 rows.
const WEIGHTS: [usize; 5] = [1, 50, 42, 5, 2];

pub struct Source {
    large: Vec<Vec<Row>>,
}

impl Source {
    /// Half of the large ones are full.
    pub fn new(random: &mut Random) -> Source {
        let length = |at: usize, random: &mut Random| if at % 2 == 0 { ROWS } else { 20 + random.below(ROWS - 20) };
        let mut one = |at| {
            let rows = length(at, random);
            tables::random_table(random, rows).rows
        };
        Source { large: (0..LARGE).map(&mut one).collect() }
    }

    pub fn rows(&self, random: &mut Random) -> Vec<Row> {
        match random.weighted(&WEIGHTS) {
            0 => Vec::new(),
            1 => tables::table(random, 3).rows,
            2 => tables::table(random, 19).rows,
            3 => self.large[random.below(LARGE)].clone(),
            _ => {
                let mut rows = self.large[0].clone();
                let length = random.pick(&[129, 129, 130, 200]);
                files::grow(random, &mut rows, length);
                rows
            }
        }
    }
}

/// The rows as a table whose unread places hold anything: they are in no file.
pub fn bytes(random: &mut Random, rows: &[Row]) -> Vec<u8> {
    let mut out = Vec::with_capacity(rows.len() * ROW);
    for row in rows {
        let from = out.len();
        put_row(&mut out, row);
        let read = if row.kind == 0 { 8 } else { 16 + 20 * row.def.len().min(DEF_PLACES) };
        let (any, step) = (random.bits(), random.bits() | 1);
        for (at, byte) in out[from + read..].iter_mut().enumerate() {
            *byte = (any.wrapping_add(step.wrapping_mul(at as u64)) >> 32) as u8;
        }
    }
    out
}
