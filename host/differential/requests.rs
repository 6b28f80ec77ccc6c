// The requests of a seed: the oracle's generator in several of its ways.
use generator::random::Random;
use generator::{faults, halves, noise, requests, wild};
use wire::calls::{CODES, CONVERT_MERGED, CONVERT_TO};
use wire::stream::Request;

/// How often each way is gone: as they come, over about three rows, over up to 128, mostly with a fault, with bytes
/// damaged, with random bytes for at least one argument, with exponents that leave their range by either half.
const WEIGHTS: [usize; 7] = [34, 20, 8, 13, 5, 5, 15];

/// Of conversions in order: with factors that cancel, the same over about three rows and over up to 128, as those of 01
/// come, with exponents that leave their range by one rule or by both.
const CONVERSIONS: [usize; 5] = [41, 26, 4, 15, 14];

/// Half are conversions in order, the others requests of any call.
pub fn next(random: &mut Random) -> Request {
    if random.percent(50) { conversion(random) } else { any(random) }
}

fn conversion(random: &mut Random) -> Request {
    let draft = match random.weighted(&CONVERSIONS) {
        0 => requests::draft(random, CONVERT_MERGED, 19),
        1 => requests::draft(random, CONVERT_MERGED, 3),
        2 => requests::draft(random, CONVERT_MERGED, 128),
        3 => requests::draft(random, CONVERT_TO, 19),
        _ => halves::draft(random, CONVERT_MERGED),
    };
    draft.request()
}

fn any(random: &mut Random) -> Request {
    let code = 1 + random.below(*CODES.end() as usize) as u32;
    let way = random.weighted(&WEIGHTS);
    let (rows, share) = match way {
        1 => (3, 4),
        2 => (128, 4),
        3 => (19, 60),
        _ => (19, 8),
    };
    let mut draft = match way {
        6 => halves::draft(random, code),
        _ => requests::draft(random, code, rows),
    };
    if random.percent(share) {
        faults::put(random, &mut draft);
    }
    match way {
        4 => wild::damaged(random, draft.request()),
        5 => noise::filled(random, draft.request()),
        _ => draft.request(),
    }
}
