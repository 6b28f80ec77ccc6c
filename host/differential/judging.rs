// One request answered by the archive, and held against the Rust, 01's reading and the byte form's rules for lent room.
use std::panic::{self, AssertUnwindSafe};

use demsharin::bytes::HEAD_BYTES;
use generator::random::Random;
use wire::calls::{CONVERT_MERGED, CONVERT_TO, FILES};
use wire::refusals::{self, OUTSIDE_PANIC, ROOM, is_outside};
use wire::stream::{Answer, Request};
use wire::text;

use crate::by_code::{answer_bytes, call};
use crate::counts::{Counts, DIFFERENT, UNJUDGED};
use crate::pairs::{Pairs, is_a_half};
use crate::steps::Steps;

/// What stands in lent room before a call.
const PAINT: u8 = 0x5a;
/// At most so many differences are shown in full.
const SHOWN: u64 = 5;

pub struct Judge {
    random: Random,
    pub counts: Counts,
    pub steps: Steps,
    pub pairs: Pairs,
    held: u64,
    by_the_rust: u64,
    untouched: u64,
    longer: u64,
    short: u64,
    different: u64,
}

/// The Rust's answer inside the equality domain, or why there is none.
fn by_the_rust(request: &Request) -> Answer {
    if let Some(number) = scope::domain::outside(request) {
        return Answer::refused(number);
    }
    panic::catch_unwind(AssertUnwindSafe(|| published::answers::answer(request)))
        .unwrap_or_else(|_| Answer::refused(OUTSIDE_PANIC))
}

/// The archive's answer with the whole room after the call.
fn answered(request: &Request, room: usize) -> (u32, Vec<u8>) {
    let mut out = vec![PAINT; room];
    let number = call(request, &mut out);
    (number, out)
}

/// Below the head of an answer with rows or a file there is no room for one.
fn with_nothing_lent(request: &Request) -> Request {
    Request { code: request.code, arguments: vec![request.arguments[0].clone(), Vec::new()] }
}

/// What the room must hold: the answer and behind it the paint, or the paint alone.
fn expected(reading: &Answer, room: usize) -> Vec<u8> {
    let mut out = vec![PAINT; room];
    out[..reading.bytes.len()].copy_from_slice(&reading.bytes);
    out
}

impl Judge {
    pub fn new(seed: u64) -> Judge {
        let random = Random::new(!seed);
        let (counts, steps, pairs) = (Counts::default(), Steps::default(), Pairs::default());
        Judge { random, counts, steps, pairs, held: 0, by_the_rust: 0, untouched: 0, longer: 0, short: 0, different: 0 }
    }

    /// A conversion is held by both rules, and the two answers against each other.
    pub fn hold(&mut self, request: &Request) {
        let rules = [CONVERT_TO, CONVERT_MERGED];
        if !rules.contains(&request.code) {
            self.held_alone(request);
            return;
        }
        let asked = rules.map(|code| Request { code, arguments: request.arguments.clone() });
        let [old, new] = [self.held_alone(&asked[0]), self.held_alone(&asked[1])];
        if !self.pairs.add(&old, &new) && self.pairs.broken <= SHOWN {
            println!("a pair not as 02 says: {}", text::request(&asked[0]));
            println!("  by 01's rule: {}", text::answer(CONVERT_TO, &old));
            println!("  by order 3's: {}", text::answer(CONVERT_MERGED, &new));
        }
    }

    /// The archive's answer, after it was compared.
    fn held_alone(&mut self, request: &Request) -> Answer {
        let reading = scope::calls::answer(request);
        let rust = by_the_rust(request);
        let spare = self.random.pick(&[0, 0, 1, 7, 40]);
        // What a write is lent says whether it has room, so no more may be lent.
        let spare = if request.code == *FILES.start() { 0 } else { spare };
        let room = answer_bytes(request) + spare;
        let (number, out) = answered(request, room);
        let judged = !is_outside(rust.number);
        let alike = number == reading.number && out == expected(&reading, room) && (!judged || rust == reading);
        let fits = self.fits_short_room(request, &reading);
        self.held += 1;
        self.by_the_rust += u64::from(judged);
        self.untouched += u64::from(alike && number != 0);
        self.longer += u64::from(alike && number == 0 && spare > 0);
        let outcome = if alike && fits { refusals::name(number) } else { DIFFERENT.to_string() };
        self.counts.add(request.code, &outcome, 1);
        if !judged {
            self.counts.add(request.code, UNJUDGED, 1);
        }
        if is_a_half(reading.number)
            && let Some(place) = scope::places::of(request)
        {
            self.steps.add(&place);
        }
        let ours = Answer { number, bytes: out };
        if !(alike && fits) {
            self.show(request, [&reading, &rust, &ours], fits);
        }
        let answer = if number == 0 { answer_bytes(request) } else { 0 };
        Answer { bytes: ours.bytes[..answer].to_vec(), ..ours }
    }

    /// For one request in eight: too short a room gets ROOM, or the refusal that comes before, and keeps its bytes.
    fn fits_short_room(&mut self, request: &Request, reading: &Answer) -> bool {
        if !self.random.percent(12) {
            return true;
        }
        let (room, number) = match FILES.contains(&request.code) {
            true => (self.random.below(HEAD_BYTES), scope::calls::answer(&with_nothing_lent(request)).number),
            // Knots that merge need less room than all of them.
            false if reading.number == 0 => (self.random.below(reading.bytes.len()), 0),
            false => (self.random.below(answer_bytes(request).max(1)), reading.number),
        };
        let wanted = if number == 0 { ROOM } else { number };
        let fits = answered(request, room) == (wanted, vec![PAINT; room]);
        self.short += u64::from(fits);
        fits
    }

    fn show(&mut self, request: &Request, [reading, rust, ours]: [&Answer; 3], fits: bool) {
        self.different += 1;
        if self.different > SHOWN {
            return;
        }
        println!("difference: {}", text::request(request));
        let named = [("the reading", reading), ("the Rust", rust)];
        named.iter().for_each(|(who, a)| println!("  {who}: {}", text::answer(request.code, a)));
        println!("  the archive: {}, the room after it: {:02x?}", refusals::name(ours.number), ours.bytes);
        if !fits {
            println!("  too short a room was not refused, or has changed");
        }
    }

    pub fn summary(&self) -> String {
        format!(
            "{} compared with 01's reading, {} of them with the Rust too; {} different; {} refusals left the room as it \
             was, {} longer rooms kept their end, {} short ones were refused",
            self.held, self.by_the_rust, self.different, self.untouched, self.longer, self.short
        )
    }
}
