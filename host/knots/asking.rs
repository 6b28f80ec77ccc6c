// The vectors of a seed as bytes, unread places filled with anything; and the spans that are asked of each.
use generator::knots::{self, SORTS, Vector};
use generator::random::Random;
use generator::troubles;
use wire::bytes::{QUANTITY, RULE, distinct, put_quantity, put_row, put_rule, put_span_rule};
use wire::records::SpanRule;

use crate::unread;

/// The most rows of a table (a few more where definitions need them), and how often.
const ROWS: [usize; 20] = [19, 19, 19, 19, 19, 19, 19, 19, 19, 19, 19, 3, 3, 3, 3, 3, 3, 3, 3, 128];
/// A vector of at most so many knots is asked at every place.
const SHORT: usize = 10;
const WRONG_LENGTH: &str = "a wrong length";

pub struct Asked {
    /// How the vector was made.
    pub way: &'static str,
    pub vector: Vector,
    pub table: Vec<u8>,
    pub knots: Vec<u8>,
    /// The bytes of its rules, where they aren't as many as they should be.
    length: Option<usize>,
}

pub struct Span {
    pub place: usize,
    /// The first values of its ends' runs, as the vector's answer has them; none if it has no answer or no such span.
    pub ends: Option<(f64, f64)>,
    pub sort: &'static str,
    pub x: f64,
    pub rule: Vec<u8>,
}

pub fn ways() -> impl Iterator<Item = &'static str> {
    troubles::names().chain([WRONG_LENGTH])
}

pub fn next(random: &mut Random) -> Asked {
    let limit = random.pick(&ROWS);
    let (at, vector) = troubles::vector(random, limit);
    let way = ways().nth(at).expect("one of the ways");
    let (mut table, mut knots) = (Vec::new(), Vec::new());
    vector.made.rows.iter().for_each(|row| put_row(&mut table, row));
    vector.knots.iter().for_each(|knot| put_quantity(&mut knots, knot));
    if random.percent(25) {
        knots.chunks_exact_mut(QUANTITY).for_each(|knot| unread::fill(random, &mut knot[12..]));
    }
    let mut asked = Asked { way, vector, table, knots, length: None };
    if random.percent(3) {
        asked.way = WRONG_LENGTH;
        let any = random.below(400);
        match random.percent(50) {
            true => asked.length = Some(random.pick(&[0, 8, 324, 335, 336, 337, 344, 351, 352, 353, any])),
            false => no_run(random, &mut asked.knots),
        }
    }
    asked
}

/// Some bytes more or less, so that it is no run of knots.
fn no_run(random: &mut Random, knots: &mut Vec<u8>) {
    let by = random.pick(&[1, 8, 168, 335]);
    let less = knots.len().saturating_sub(by);
    let length = if random.percent(50) && less > 0 { less } else { knots.len() + by };
    knots.resize(length, 0);
}

/// Of each knot the first value of its run, from the distinct values with their multiplicities.
fn firsts(answer: &[u8]) -> Vec<f64> {
    let all = distinct(&answer[8..]).into_iter();
    all.flat_map(|one| std::iter::repeat_n(f64::from_bits(one.bits), one.multiplicity as usize)).collect()
}

impl Asked {
    fn lengthened(&self, mut rule: Vec<u8>) -> Vec<u8> {
        rule.resize(self.length.unwrap_or(rule.len()), 0);
        rule
    }

    pub fn rule(&self, random: &mut Random) -> Vec<u8> {
        let mut rule = Vec::new();
        put_rule(&mut rule, &self.vector.rule);
        if random.percent(25) {
            unread::fill(random, &mut rule[12..]);
        }
        self.lengthened(rule)
    }

    /// The last four bytes are never read.
    fn span_rule(&self, random: &mut Random, x: u64, place: u32) -> Vec<u8> {
        let mut rule = Vec::new();
        put_span_rule(&mut rule, &SpanRule { rule: self.vector.rule.clone(), x, place });
        rule[RULE + 12..].copy_from_slice(&(random.bits() as u32).to_le_bytes());
        self.lengthened(rule)
    }

    /// Of every place of a short vector, of the ends and of some places of a long one, each for three x; of one place if
    /// the vector is refused; and past the end.
    pub fn spans(&self, random: &mut Random, answer: Option<&[u8]>) -> Vec<Span> {
        let firsts: Vec<f64> = answer.map(firsts).unwrap_or_default();
        let knots = self.vector.knots.len();
        let spans = knots.saturating_sub(1);
        let some: Vec<usize> = match answer.is_some() && spans > 0 {
            false => vec![random.below(knots + 1)],
            true if knots <= SHORT => (0..spans).collect(),
            true => (0..6).map(|_| random.below(spans)).chain([0, spans - 1]).collect(),
        };
        let times = if answer.is_some() { 3 } else { 1 };
        let past = random.pick(&[spans, spans, knots, 511, 512, u32::MAX as usize]).max(spans);
        let all = some.into_iter().flat_map(|place| [place; 3].into_iter().take(times)).chain([past]);
        let first = random.below(SORTS.len());
        all.enumerate().map(|(at, place)| self.span(random, &firsts, place, (first + at) % SORTS.len())).collect()
    }

    fn span(&self, random: &mut Random, firsts: &[f64], place: usize, sort: usize) -> Span {
        let ends = firsts.get(place).copied().zip(firsts.get(place + 1).copied());
        let (left, right) = ends.unwrap_or((0.0, 1.0));
        let x = knots::x(random, sort, left, right);
        let rule = self.span_rule(random, x, place as u32);
        Span { place, ends, sort: SORTS[sort], x: f64::from_bits(x), rule }
    }
}
