// One vector and its spans answered by the archive, each held against the plain reading and 02's word on every answer.
use demsharin::exports;
use generator::random::Random;
use scope::knots;
use wire::records::bits_of;
use wire::refusals::{self, ROOM};
use wire::stream::Request;
use wire::text;

use crate::asking::{Asked, Span};
use crate::counts::{Counts, SPANS, VECTORS};
use crate::{laws, sorts};

/// What stands in lent room before a call.
const PAINT: u8 = 0x5a;
/// At most so many differences are shown in full.
const SHOWN: u64 = 5;

type Call = fn(&[u8], &[u8], &[u8], &mut [u8]) -> u32;
/// An answer's bytes, or the number of its refusal.
type Wanted = Result<Vec<u8>, u32>;

#[derive(Default)]
pub struct Judge {
    pub counts: Counts,
    /// Rooms that a refusal left as they were, bytes behind an answer that stayed, short rooms that were refused.
    untouched: u64,
    behind: u64,
    short: u64,
}

impl Judge {
    pub fn hold(&mut self, random: &mut Random, asked: &Asked) {
        let rule = asked.rule(random);
        let wanted = knots::vector(&asked.table, &asked.knots, &rule).map(|all| knots::vector_bytes(&all));
        let answer = self.compared(random, VECTORS, asked, &rule, wanted);
        if let Some(answer) = &answer {
            sorts::of_vector(&asked.vector, answer).into_iter().for_each(|sort| self.counts.add_sort(sort));
            if !laws::of_vector(&asked.vector, answer) {
                self.show("a vector not as 02 says", VECTORS, asked, &rule, "");
            }
        }
        for span in asked.spans(random, answer.as_deref()) {
            self.hold_span(random, asked, &span);
        }
    }

    fn hold_span(&mut self, random: &mut Random, asked: &Asked, span: &Span) {
        let wanted = knots::span(&asked.table, &asked.knots, &span.rule).map(|q| bits_of(q).to_le_bytes().to_vec());
        let Some(answer) = self.compared(random, SPANS, asked, &span.rule, wanted) else { return };
        let Some(ends) = span.ends else { return };
        self.counts.add_span(span.sort, sorts::of_span(ends));
        let quotient = f64::from_bits(u64::from_le_bytes(answer.try_into().expect("eight bytes")));
        if !laws::of_span(ends, span.x, quotient) {
            self.show("a span not as 02 says", SPANS, asked, &span.rule, &format!("place {}", span.place));
        }
    }

    /// The archive's answer in room that is enough, after it was compared; for one call in eight in too little as well.
    fn compared(
        &mut self,
        random: &mut Random,
        name: &str,
        asked: &Asked,
        rule: &[u8],
        wanted: Wanted,
    ) -> Option<Vec<u8>> {
        let answer = wanted.as_ref().map_or(8, Vec::len);
        let room = answer + random.pick(&[0, 0, 1, 8, 40]);
        let (number, out) = self.called(name, asked, rule, &wanted, room);
        self.counts.add(name, asked.way, number);
        self.untouched += u64::from(number != 0);
        self.behind += if number == 0 { (room - answer) as u64 } else { 0 };
        if random.percent(12) {
            let (number, _) = self.called(name, asked, rule, &wanted, random.below(answer));
            self.short += 1;
            if number == ROOM {
                self.counts.add(name, "short room", number);
            }
        }
        (number == 0).then(|| out[..answer].to_vec())
    }

    /// The number and the whole room afterwards: the answer and behind it the paint, or the paint alone; ROOM, after every
    /// other refusal, if the answer is longer.
    fn called(&mut self, name: &str, asked: &Asked, rule: &[u8], wanted: &Wanted, room: usize) -> (u32, Vec<u8>) {
        let call: Call = if name == VECTORS { exports::knot_vector } else { exports::span_quotient };
        let mut expected = vec![PAINT; room];
        let mut out = expected.clone();
        let right = match wanted {
            Ok(bytes) if bytes.len() > room => ROOM,
            Ok(bytes) => {
                expected[..bytes.len()].copy_from_slice(bytes);
                0
            }
            Err(number) => *number,
        };
        let number = call(&asked.table, &asked.knots, rule, &mut out);
        if (number, &out) != (right, &expected) {
            let names = [right, number].map(refusals::name);
            let at = expected.iter().zip(&out).position(|(a, b)| a != b);
            let told = format!("room {room}, wanted {}, came {}, first byte that differs {at:?}", names[0], names[1]);
            self.show("difference", name, asked, rule, &told);
        }
        (number, out)
    }

    fn show(&mut self, what: &str, name: &str, asked: &Asked, rule: &[u8], told: &str) {
        self.counts.add_different();
        if self.counts.different() <= SHOWN {
            let code = if name == VECTORS { wire::calls::KNOT_VECTOR } else { wire::calls::SPAN_QUOTIENT };
            let arguments = vec![asked.table.clone(), asked.knots.clone(), rule.to_vec()];
            println!("{what}, {}: {}\n  {told}", asked.way, text::request(&Request { code, arguments }));
        }
    }

    pub fn summary(&self) -> String {
        format!(
            "{} different; {} refusals left the room as it was, {} bytes behind answers stayed, {} short rooms tried",
            self.counts.different(),
            self.untouched,
            self.behind,
            self.short
        )
    }
}
