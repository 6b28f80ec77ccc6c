// One conversion answered by the archive with a count, by both rules, each held against the plain reading and against the
// same conversion without a count.
use generator::random::Random;
use wire::bytes::{COUNTED, counted};
use wire::calls::{CONVERT_MERGED, CONVERT_MERGED_COUNTED, CONVERT_TO, CONVERT_TO_COUNTED};
use wire::refusals::{self, ROOM};
use wire::stream::{Answer, Request};
use wire::text;

use crate::asking::Asked;
use crate::by_code::{answer_bytes, call};
use crate::met::Met;

/// What stands in lent room before a call.
const PAINT: u8 = 0x5a;
/// At most so many differences are shown in full.
const SHOWN: u64 = 5;

/// A conversion, the same with a count, and the most that it can count, which both reach: three powers of 59 and three
/// prefixes for each of sixteen factors; a power of 61 and a prefix for each of 32.
pub struct Rule {
    pub name: &'static str,
    plain: u32,
    counted: u32,
    pub most: u32,
}

pub const RULES: [Rule; 2] = [
    Rule { name: "01's rule", plain: CONVERT_TO, counted: CONVERT_TO_COUNTED, most: 3744 },
    Rule { name: "order 3's", plain: CONVERT_MERGED, counted: CONVERT_MERGED_COUNTED, most: 2560 },
];

#[derive(Default)]
pub struct Judge {
    pub met: Met,
    /// Rooms that a refusal left as they were, longer rooms that kept their further bytes, short rooms that were refused.
    untouched: u64,
    longer: u64,
    short: u64,
}

/// The number that a call answers with, and its whole room afterwards.
fn answered(request: &Request, room: usize) -> (u32, Vec<u8>) {
    let mut out = vec![PAINT; room];
    (call(request, &mut out), out)
}

/// The same by the reading: the answer and behind it the paint, or the paint alone; ROOM, after every other refusal, if
/// the answer is longer.
fn wanted(reading: &Answer, room: usize) -> (u32, Vec<u8>) {
    let mut out = vec![PAINT; room];
    match reading.number {
        0 if reading.bytes.len() > room => (ROOM, out),
        number => {
            out[..reading.bytes.len()].copy_from_slice(&reading.bytes);
            (number, out)
        }
    }
}

/// Whether the conversion without a count is refused by the same number, or answers the same quantity.
fn as_without(request: &Request, plain: u32, (number, out): &(u32, Vec<u8>)) -> bool {
    let request = Request { code: plain, ..request.clone() };
    let (other, quantity) = answered(&request, answer_bytes(&request));
    other == *number && (other != 0 || out.starts_with(&quantity))
}

impl Judge {
    pub fn hold(&mut self, random: &mut Random, asked: &Asked) {
        self.met.add_asked();
        RULES.iter().for_each(|rule| self.hold_by(random, asked, rule));
    }

    fn hold_by(&mut self, random: &mut Random, asked: &Asked, rule: &Rule) {
        let request = asked.request(rule.counted);
        let reading = scope::calls::answer(&request);
        let spare = random.pick(&[0, 0, 1, 8, 40]);
        let ours = answered(&request, COUNTED + spare);
        let count = counted(&ours.1[..COUNTED]).expect("a record's bytes").count;
        let problems = [
            ("otherwise than the reading", ours != wanted(&reading, COUNTED + spare)),
            ("otherwise than without a count", !as_without(&request, rule.plain, &ours)),
            ("more than it can count", ours.0 == 0 && count > rule.most),
            ("too short a room not refused, or changed", !self.fits_short_room(random, rule, &request, &reading)),
        ];
        self.untouched += u64::from(ours.0 != 0);
        self.longer += u64::from(ours.0 == 0 && spare > 0);
        self.met.add(rule.name, asked.way, ours.0, count);
        for (problem, _) in problems.iter().filter(|(_, met)| *met) {
            self.show(asked.way, &request, &reading, &ours, problem);
        }
    }

    /// For one call in eight.
    fn fits_short_room(&mut self, random: &mut Random, rule: &Rule, request: &Request, reading: &Answer) -> bool {
        if !random.percent(12) {
            return true;
        }
        let room = random.below(COUNTED);
        let ours = answered(request, room);
        self.short += 1;
        if ours.0 == ROOM {
            self.met.add_short(rule.name);
        }
        ours == wanted(reading, room)
    }

    fn show(&mut self, way: &str, request: &Request, reading: &Answer, ours: &(u32, Vec<u8>), problem: &str) {
        self.met.add_different();
        if self.met.different() > SHOWN {
            return;
        }
        println!("{problem}, {way}: {}", text::request(request));
        println!("  the reading: {}", text::answer(request.code, reading));
        let bytes = if ours.0 == 0 { ours.1[..COUNTED].to_vec() } else { Vec::new() };
        println!("  the archive: {}", text::answer(request.code, &Answer { number: ours.0, bytes }));
        println!("  the room after it: {:02x?}, {}", ours.1, refusals::name(ours.0));
    }

    pub fn summary(&self) -> String {
        format!(
            "{} different; {} refusals left the room as it was, {} longer rooms kept their end, {} short rooms tried",
            self.met.different(),
            self.untouched,
            self.longer,
            self.short
        )
    }
}
