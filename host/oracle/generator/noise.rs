// Requests of right framing whose arguments are random bytes: of the right length, beside it, or of any.
use wire::bytes::{CANDIDATE, EXPONENT, LIST, PREFIX, QUANTITY, ROW, RULE, SPAN_RULE};
use wire::calls::{self, Kind};
use wire::stream::Request;

use crate::random::Random;

/// At least one argument becomes random; the others may stay as they were, so that it is reached behind a good table.
pub fn filled(random: &mut Random, mut request: Request) -> Request {
    let kinds = calls::of_code(request.code).expect("a known code").arguments;
    let chosen = random.below(kinds.len());
    for (at, kind) in kinds.iter().enumerate() {
        if at == chosen || random.percent(15) {
            request.arguments[at] = argument(random, *kind);
        }
    }
    request
}

fn argument(random: &mut Random, kind: Kind) -> Vec<u8> {
    let (right, limit) = (right_length(random, kind), calls::limit(kind) as usize);
    let length = match random.weighted(&[60, 15, 10, 13, 2]) {
        0 => right,
        1 => right.saturating_add_signed(random.within(-9, 9) as isize),
        2 => random.pick(&[0, 1, PREFIX, LIST, CANDIDATE, QUANTITY, ROW, 2 * ROW]),
        3 => random.below(5000),
        _ => limit - random.pick(&[0, 0, 1, 64]),
    };
    let mut bytes = bytes(random, length.min(limit));
    if kind == Kind::Table && random.percent(60) {
        spread_ranks(&mut bytes);
    }
    bytes
}

fn right_length(random: &mut Random, kind: Kind) -> usize {
    match kind {
        Kind::Table => {
            let few = random.below(20);
            ROW * random.pick(&[0, 1, 2, 3, few, few, few, 127, 128, 129])
        }
        Kind::Candidates => CANDIDATE * random.pick(&[0, 1, 2, 3, 31, 32, 33]),
        Kind::Prefix => PREFIX,
        Kind::Exponent => EXPONENT,
        Kind::List => LIST,
        Kind::File => random.below(300),
        Kind::Lent => 4,
        Kind::Knots => {
            let few = random.below(12);
            QUANTITY * random.pick(&[0, 1, 2, 3, few, few, few, few, few, 511, 512, 513])
        }
        Kind::Rule => RULE,
        Kind::SpanRule => SPAN_RULE,
        _ => QUANTITY,
    }
}

/// Any bytes, one byte throughout, or words that are mostly small and so keep the rules of lengths, rows and kinds.
fn bytes(random: &mut Random, length: usize) -> Vec<u8> {
    let mut out = Vec::with_capacity(length + 8);
    let way = random.weighted(&[40, 10, 50]);
    let (same, most) = (random.bits() as u8, random.pick(&[2, 3, 8, 20]));
    while out.len() < length {
        match way {
            0 => out.extend(random.bits().to_le_bytes()),
            1 => out.push(same),
            _ => out.extend(word(random, most).to_le_bytes()),
        }
    }
    out.truncate(length);
    out
}

fn word(random: &mut Random, most: usize) -> u32 {
    match random.weighted(&[94, 3, 2, 1]) {
        0 => random.below(most) as u32,
        1 => (random.below(most) as u32).wrapping_neg(),
        2 => random.pick(&[16, 17, 127, 128, 1100, 1101, 0x3ff0_0000, 0x7ff0_0000, i32::MAX as u32, 1 << 31]),
        _ => random.bits() as u32,
    }
}

/// Each row gets a rank of its own, so that not every table ends at a rank met before.
fn spread_ranks(bytes: &mut [u8]) {
    for (at, row) in bytes.chunks_exact_mut(ROW).enumerate() {
        row[..2].copy_from_slice(&(at as u16).to_le_bytes());
    }
}
