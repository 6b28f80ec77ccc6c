// Requests whose arguments are damaged copies of good ones or plain random bytes. The stream itself stays readable.
use wire::stream::Request;

use crate::random::Random;

/// Lengths around those of the records and of whole tables.
const LENGTHS: [usize; 14] = [0, 1, 7, 8, 12, 175, 176, 324, 336, 328, 352, 129 * 176, 33 * 328, 4096];

pub fn damaged(random: &mut Random, mut request: Request) -> Request {
    for _ in 0..1 + random.below(3) {
        let at = random.below(request.arguments.len());
        damage(random, &mut request.arguments[at]);
    }
    request
}

fn damage(random: &mut Random, bytes: &mut Vec<u8>) {
    match random.weighted(&[40, 20, 12, 10, 10, 8]) {
        0 if !bytes.is_empty() => {
            let at = random.below(bytes.len());
            bytes[at] ^= 1 << random.below(8);
        }
        1 if !bytes.is_empty() => {
            let at = random.below(bytes.len());
            bytes[at] = random.pick(&[0, 1, 2, 16, 17, 0x7f, 0x80, 0xff]);
        }
        2 => bytes.truncate(bytes.len() - bytes.len().min(random.below(40))),
        3 => bytes.extend(std::iter::repeat_n(random.bits() as u8, random.below(400))),
        4 => {
            let half = bytes.len() / 2;
            bytes.rotate_left(half);
        }
        _ => *bytes = (0..random.pick(&LENGTHS)).map(|_| random.bits() as u8).collect(),
    }
}
