// The conversions of a seed as bytes: unread places filled with anything, now and then an argument of a wrong length.
use generator::counted;
use generator::random::Random;
use wire::bytes::{put_list, put_quantity, put_row};
use wire::stream::Request;

use crate::unread;

/// The most rows of a table (a few more where definitions need them), and how often.
const ROWS: [usize; 20] = [19, 19, 19, 19, 19, 19, 19, 19, 19, 19, 19, 3, 3, 3, 3, 3, 3, 3, 3, 128];
const WRONG_LENGTH: &str = "a wrong length";

pub struct Asked {
    /// How the conversion was made.
    pub way: &'static str,
    /// The table, the quantity, the target.
    arguments: Vec<Vec<u8>>,
}

pub fn ways() -> impl Iterator<Item = &'static str> {
    counted::names().chain([WRONG_LENGTH])
}

pub fn next(random: &mut Random) -> Asked {
    let limit = random.pick(&ROWS);
    let (at, conversion) = counted::conversion(random, limit);
    let (mut table, mut own, mut target) = (Vec::new(), Vec::new(), Vec::new());
    conversion.made.rows.iter().for_each(|row| put_row(&mut table, row));
    put_quantity(&mut own, &conversion.own);
    put_list(&mut target, &conversion.target);
    if random.percent(25) {
        unread::fill(random, &mut own[12..]);
        unread::fill(random, &mut target);
    }
    let way = ways().nth(at).expect("one of the ways");
    let mut asked = Asked { way, arguments: vec![table, own, target] };
    if random.percent(2) {
        asked.way = WRONG_LENGTH;
        let argument = random.below(3);
        other_length(random, &mut asked.arguments[argument]);
    }
    asked
}

/// Some bytes more or less, none, or as many as a record beside it.
fn other_length(random: &mut Random, argument: &mut Vec<u8>) {
    let by = random.pick(&[1, 1, 8, 12, 20]);
    let length = match random.below(4) {
        0 => argument.len() - by,
        1 => argument.len() + by,
        2 => random.pick(&[324, 336, 344]),
        _ => 0,
    };
    argument.resize(length, 0);
}

impl Asked {
    pub fn request(&self, code: u32) -> Request {
        Request { code, arguments: self.arguments.clone() }
    }
}
