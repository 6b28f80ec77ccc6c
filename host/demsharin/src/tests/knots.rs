// Knot vectors and span quotients (02, order 4): the worked cases of its readings, every refusal, the bytes, the room.
use super::*;
use crate::bytes::{
    self as records, DISTINCT_BYTES, HEAD_BYTES, LIST_BYTES, QUANTITY_BYTES, RULE_BYTES, SPAN_RULE_BYTES, VALUE_BYTES,
    VECTOR_BYTES,
};
use crate::{Distinct, KnotRule, KnotVector, Refusal, exports};

const PAINT: u8 = 0x5a;
const MOST: usize = 512;

fn metres(values: &[f64]) -> Vec<Quantity> {
    values.iter().map(|value| of(*value, METRE)).collect()
}

/// A rule for metres.
fn within(tolerance: f64, degree: u32) -> KnotRule {
    KnotRule::new(one(METRE), tolerance, degree)
}

fn vector(values: &[f64], tolerance: f64) -> Result<Vec<(f64, u32)>, Refusal> {
    runs(table().knot_vector(&metres(values), &within(tolerance, 3)))
}

fn runs(answer: Result<KnotVector, Refusal>) -> Result<Vec<(f64, u32)>, Refusal> {
    answer.map(|v| v.distinct.iter().map(|run| (run.value, run.multiplicity)).collect())
}

fn quotient(values: &[f64], tolerance: f64, place: usize, x: f64) -> Result<f64, Refusal> {
    table().span_quotient(&metres(values), &within(tolerance, 3), place, x)
}

/// What both calls are refused for, which is the same where the span is there.
fn refused(table: &Table, knots: &[Quantity], rule: &KnotRule) -> Option<Refusal> {
    let of_vector = table.knot_vector(knots, rule).err();
    assert_eq!(of_vector, table.span_quotient(knots, rule, 0, 0.5).err());
    of_vector
}

fn faulty() -> Table {
    Table::new(&[Row::base(0), Row::base(0)])
}

fn root(row: u32) -> Factor {
    Factor::of(row).to(Exponent::new(1, 2))
}

fn seventeen() -> List {
    [Factor::of(METRE); 17].into()
}

#[test]
fn units_by_turns_come_to_one() {
    let knots = [of(0.0, SECOND), of(1.0, MINUTE), of(60.0, SECOND), of(1.0, HOUR), of(60.0, MINUTE), of(2.0, HOUR)];
    let made = table().knot_vector(&knots, &KnotRule::new(one(MINUTE), 0.0, 3)).unwrap();
    assert_eq!(made.values(), [0.0, 1.0, 60.0, 120.0]);
    assert_eq!(made.multiplicities(), [1, 2, 2, 1]);
    assert_eq!(made.knots(), [0.0, 1.0, 1.0, 60.0, 60.0, 120.0]);
    assert_eq!(made.distinct[1], Distinct { value: 1.0, multiplicity: 2 });
}

/// The conversion is 02's: km/minute are exact, where 01's rule has 1000.0000000000001 for the first.
#[test]
fn knots_convert_by_the_merged_rule() {
    let speed = |value, length: Factor| Quantity::new(value, [length, power(MINUTE, -1)]);
    let knots = [speed(1.0, kilo(METRE)), speed(1000.0, Factor::of(METRE))];
    let rule = KnotRule::new([Factor::of(METRE), power(MINUTE, -1)], 0.0, 1);
    assert_eq!(runs(table().knot_vector(&knots, &rule)), Ok(vec![(1000.0, 2)]));
    let roots = [[kilo(METRE), root(HOUR)], [Factor::of(METRE), root(HOUR)]].map(|unit| Quantity::new(1000.0, unit));
    let rule = KnotRule::new([kilo(METRE), root(HOUR)], 0.0, 1);
    assert_eq!(refused(&table(), &roots, &rule), Some(Refusal::Order));
    let risen = [roots[1].clone(), roots[0].clone()];
    assert_eq!(table().knot_vector(&risen, &rule).unwrap().values(), [1.0, 1000.0]);
}

#[test]
fn arguments_come_before_everything() {
    let (t, knot) = (table(), metres(&[1.0]));
    let many = |count: usize| vec![of(1.0, METRE); count];
    for count in [0, MOST + 1, MOST + 2, 2000] {
        assert_eq!(refused(&t, &many(count), &within(0.0, 9)), Some(Refusal::Argument));
        assert_eq!(refused(&faulty(), &many(count), &within(0.0, 9)), Some(Refusal::Argument));
    }
    for degree in [0, 10, u32::MAX] {
        assert_eq!(refused(&faulty(), &knot, &within(0.0, degree)), Some(Refusal::Argument));
    }
    for tolerance in [f64::NAN, -f64::NAN, f64::INFINITY, f64::NEG_INFINITY, -1.0, -5e-324] {
        assert_eq!(refused(&faulty(), &knot, &within(tolerance, 3)), Some(Refusal::Argument));
        assert_eq!(refused(&t, &knot, &KnotRule::new(seventeen(), tolerance, 3)), Some(Refusal::Argument));
    }
    for tolerance in [0.0, -0.0, 5e-324, f64::MAX] {
        assert_eq!(t.knot_vector(&knot, &within(tolerance, 1)).unwrap().knots(), [1.0]);
    }
    for degree in 1..=9 {
        assert_eq!(t.knot_vector(&knot, &within(0.0, degree)).unwrap().knots(), [1.0]);
    }
    let tenfold: Vec<Quantity> = (0..MOST).map(|at| of((at / 10) as f64, METRE)).collect();
    let made = t.knot_vector(&tenfold, &within(-0.0, 9)).unwrap();
    assert_eq!((made.distinct.len(), made.knots().len()), (52, MOST));
    assert_eq!(made.distinct[51], Distinct { value: 51.0, multiplicity: 2 });
}

#[test]
fn the_lowest_knot_refused_decides() {
    let (t, rule) = (table(), within(0.0, 3));
    let fraction = KnotRule::new(root(MINUTE), 0.0, 3);
    let knots = [Quantity::new(1.0, root(HOUR)), Quantity::new(1.0, seventeen())];
    assert_eq!(refused(&t, &knots, &fraction), Some(Refusal::Fraction));
    assert_eq!(refused(&t, &[knots[1].clone(), knots[0].clone()], &fraction), Some(Refusal::Shape));
    // All conversions come before ORDER and MULTIPLE.
    let mut falling = vec![of(2.0, METRE); MOST];
    falling[1] = of(1.0, METRE);
    assert_eq!(refused(&t, &falling, &rule), Some(Refusal::Order));
    falling[MOST - 1] = of(1.0, SECOND);
    assert_eq!(refused(&t, &falling, &rule), Some(Refusal::Units));
    falling[MOST - 2] = of(1.0, 99);
    assert_eq!(refused(&t, &falling, &rule), Some(Refusal::Unknown));
    // Zero converts to any unit.
    assert_eq!(t.knot_vector(&[of(0.0, SECOND), of(1.0, METRE)], &rule).unwrap().values(), [0.0, 1.0]);
}

/// The table, the knot's own list, the target's list, what leaves the range, UNITS, FRACTION.
#[test]
fn a_conversion_is_refused_as_alone() {
    let t = table();
    let beyond = |a: Factor, b: Factor| Quantity::new(1.0, [a, b]);
    let wide = beyond(power(METRE, i32::MAX), Factor::of(METRE));
    let odd = beyond(Factor::of(METRE).to(Exponent::new(1, 65536)), Factor::of(METRE).to(Exponent::new(1, 65537)));
    let units = [one(METRE), one(99), seventeen(), root(HOUR).into()];
    let knots =
        [of(1.0, METRE), of(1.0, 99), Quantity::new(1.0, seventeen()), wide, odd, Quantity::new(1.0, root(HOUR))];
    let mut met = Vec::new();
    for (unit, knot) in units.iter().flat_map(|unit| knots.iter().map(move |knot| (unit, knot))) {
        let alone = t.convert_merged(knot, unit).err();
        assert_eq!(refused_with_one(&t, knot, unit), alone, "{knot:?} to {unit:?}");
        assert_eq!(refused_with_one(&faulty(), knot, unit), Some(Refusal::Table));
        met.extend(alone);
    }
    met.push(refused_with_one(&t, &Quantity::new(1.0, root(HOUR)), &root(MINUTE).into()).unwrap());
    met.sort();
    met.dedup();
    use Refusal::*;
    assert_eq!(met, [Shape, Unknown, Range, Units, Fraction, Denominator]);
}

fn refused_with_one(table: &Table, knot: &Quantity, unit: &List) -> Option<Refusal> {
    let knots = [knot.clone(), knot.clone()];
    refused(table, &knots, &KnotRule::new(unit.clone(), 0.0, 1))
}

#[test]
fn order_is_of_the_values_before_merging() {
    assert_eq!(vector(&[1.0, 0.5], 1.0), Err(Refusal::Order));
    assert_eq!(vector(&[1.0, 1.0 - f64::EPSILON / 2.0], 1.0), Err(Refusal::Order));
    for value in [f64::NAN, f64::INFINITY, f64::NEG_INFINITY] {
        for values in [&[value][..], &[value, 1.0], &[0.0, value], &[0.0, value, 1.0]] {
            assert_eq!(refused(&table(), &metres(values), &within(1.0, 3)), Some(Refusal::Order));
        }
    }
    assert_eq!(vector(&[0.0, -0.0], 0.0), Ok(vec![(0.0, 2)]));
    // Too large only in the unit asked for; and ORDER before MULTIPLE.
    let far = Quantity::new(1e306, kilo(METRE));
    assert_eq!(table().knot_vector(&[far], &within(0.0, 3)), Err(Refusal::Order));
    assert_eq!(vector(&[1.0, 1.0, 1.0, 1.0, 1.0, 0.0], 0.0), Err(Refusal::Order));
    assert_eq!(vector(&[1.0, 1.0, 1.0, 1.0, 1.0, f64::INFINITY], 0.0), Err(Refusal::Order));
    let turned = [of(2.0, MINUTE), of(100.0, SECOND)];
    assert_eq!(refused(&table(), &turned, &KnotRule::new(one(HOUR), 1.0, 3)), Some(Refusal::Order));
}

#[test]
fn runs_are_held_against_their_first() {
    assert_eq!(vector(&[0.0, 0.6, 1.2], 1.0), Ok(vec![(0.0, 2), (1.2, 1)]));
    assert_eq!(vector(&[0.0, 0.6, 1.2, 1.8, 2.4], 1.2), Ok(vec![(0.0, 3), (1.8, 2)]));
    assert_eq!(vector(&[0.0, 1.0, 2.0, 3.0], 1.0), Ok(vec![(0.0, 2), (2.0, 2)]));
    // By one rounded subtraction: exactly the tolerance joins, the next float doesn't.
    assert_eq!(vector(&[1.0, 1.0 + f64::EPSILON], f64::EPSILON), Ok(vec![(1.0, 2)]));
    assert_eq!(vector(&[1.0, 1.0 + f64::EPSILON], f64::EPSILON.next_down()).map(|v| v.len()), Ok(2));
    let first = f64::EPSILON / 4.0;
    assert_eq!(vector(&[-first, 1.0], 1.0), Ok(vec![(-first, 2)]));
    assert_eq!(vector(&[5e-324, 1e-323], 0.0).map(|v| v.len()), Ok(2));
    assert_eq!(vector(&[5e-324, 1e-323], 5e-324), Ok(vec![(5e-324, 2)]));
    // A difference that overflows begins a run.
    assert_eq!(vector(&[-1e308, 1e308], f64::MAX), Ok(vec![(-1e308, 1), (1e308, 1)]));
    assert_eq!(vector(&[0.0, f64::MAX], f64::MAX), Ok(vec![(0.0, 2)]));
}

#[test]
fn the_bits_of_the_first_stand() {
    let bits = |values: &[f64]| {
        let knots = table().knot_vector(&metres(values), &within(0.0, 3)).unwrap().knots();
        knots.into_iter().map(f64::to_bits).collect::<Vec<_>>()
    };
    assert_eq!(bits(&[-0.0, 0.0]), [1 << 63, 1 << 63]);
    assert_eq!(bits(&[0.0, -0.0]), [0, 0]);
}

#[test]
fn at_most_one_more_than_the_degree() {
    for degree in 1..=9 {
        let knots = |count: u32| vec![of(0.25, METRE); count as usize];
        let made = table().knot_vector(&knots(degree + 1), &within(0.0, degree));
        assert_eq!(runs(made), Ok(vec![(0.25, degree + 1)]));
        assert_eq!(refused(&table(), &knots(degree + 2), &within(0.0, degree)), Some(Refusal::Multiple));
    }
    assert_eq!(vector(&[0.0, 0.1, 0.2, 0.3, 0.4], 1.0), Err(Refusal::Multiple));
    assert_eq!(vector(&[0.0, 0.1, 0.2, 0.3, 0.4], 0.3), Ok(vec![(0.0, 4), (0.4, 1)]));
    // Behind MULTIPLE comes a span that isn't there.
    let five = [1.0; 5];
    assert_eq!(quotient(&five, 0.0, 4, 0.0), Err(Refusal::Multiple));
    assert_eq!(quotient(&five[1..], 0.0, 3, 0.0), Err(Refusal::Argument));
    assert_eq!(quotient(&five[1..], 0.0, 2, 0.0), Ok(0.0));
}

#[test]
fn spans() {
    let knots = [0.0, 1.0, 1.0, 4.0];
    for (place, x, answer) in
        [(0, 0.25, 0.25), (0, -1.0, -1.0), (2, 1.0, 0.0), (2, 4.0, 1.0), (2, 2.5, 0.5), (2, 7.0, 2.0)]
    {
        assert_eq!(quotient(&knots, 0.0, place, x), Ok(answer));
    }
    for place in [3, 4, 511, u32::MAX as usize, 1 << 32, usize::MAX] {
        assert_eq!(quotient(&knots, 0.0, place, 0.5), Err(Refusal::Argument));
    }
    assert_eq!(quotient(&[1.0], 0.0, 0, 1.0), Err(Refusal::Argument));
    // Ends are taken at their runs' firsts: {0, 0.5}, {2, 2.5}, {9}.
    let merged = [0.0, 0.5, 2.0, 2.5, 9.0];
    assert_eq!(quotient(&merged, 0.5, 1, 0.5), Ok(0.25));
    assert_eq!(quotient(&merged, 0.5, 3, 5.5), Ok(0.5));
    // In other units than the knots were sent in.
    let times = [of(1.0, MINUTE), of(1.0, HOUR)];
    assert_eq!(table().span_quotient(&times, &KnotRule::new(one(SECOND), 0.0, 1), 0, 1830.0), Ok(0.5));
    let all: Vec<f64> = (0..MOST).map(|at| at as f64).collect();
    assert_eq!(quotient(&all, 0.0, MOST - 2, 510.5), Ok(0.5));
    assert_eq!(quotient(&all, 0.0, MOST - 1, 510.5), Err(Refusal::Argument));
}

#[test]
fn a_merged_span_is_zero() {
    for x in [0.0, -0.0, 1.0, -1.0, f64::NAN, f64::INFINITY, f64::NEG_INFINITY] {
        assert_eq!(quotient(&[1.0, 1.0], 0.0, 0, x).map(f64::to_bits), Ok(0));
        assert_eq!(quotient(&[1.0, 1.5, 9.0], 0.5, 0, x).map(f64::to_bits), Ok(0));
    }
}

#[test]
fn three_rounded_operations() {
    let wide = [-1e308, 1e308];
    assert_eq!(quotient(&wide, 0.0, 0, 0.0), Ok(0.0));
    assert!(quotient(&wide, 0.0, 0, 1e308).is_ok_and(f64::is_nan));
    for place in [0, 1] {
        let answer = quotient(&[0.0, 1.0, 2.0], 0.0, place, -f64::NAN).map(f64::to_bits);
        assert_eq!(answer, Ok(0x7ff8_0000_0000_0000));
    }
    assert_eq!(quotient(&[0.0, 1.0], 0.0, 0, f64::INFINITY), Ok(f64::INFINITY));
    assert_eq!(quotient(&[0.1, 0.3], 0.0, 0, 0.2), Ok((0.2 - 0.1) / (0.3 - 0.1)));
    // A span of a last place.
    let next = 0.0762f64;
    assert_eq!(quotient(&[next.next_down(), next], 0.0, 0, next), Ok(1.0));
    assert_eq!(quotient(&[next.next_down(), next], 1e-17, 0, 0.08).map(|q| q > 1e13), Ok(true));
    assert_eq!(quotient(&[next.next_down(), next], 2e-17, 0, 0.08), Ok(0.0));
}

#[test]
fn the_layout_of_rules() {
    let rule = KnotRule::new([Factor::of(7), power(METRE, -2)], 0.25, 3);
    let list = records::list(&rule.unit);
    let head = [&0.25f64.to_bits().to_le_bytes()[..], &[3, 0, 0, 0]].concat();
    let expected = [&head[..], &list].concat();
    assert_eq!(records::rule(&rule)[..], expected);
    assert_eq!((expected.len(), 12 + LIST_BYTES), (RULE_BYTES, RULE_BYTES));
    let span = [&expected[..], &1.5f64.to_bits().to_le_bytes(), &[2, 1, 0, 0], &[0; 4]].concat();
    assert_eq!(records::span_rule(&rule, 258, 1.5)[..], span);
    assert_eq!(span.len(), SPAN_RULE_BYTES);
    let knots = [of(1.0, METRE), of(2.0, HOUR)];
    assert_eq!(records::knots(&knots), knots.each_ref().map(records::quantity).concat());
}

/// Two metres twice and three once, in bytes.
fn three_knots() -> [Vec<u8>; 3] {
    let rule = within(0.0, 1);
    [table().bytes().to_vec(), records::knots(&metres(&[2.0, 2.0, 3.0])), records::rule(&rule).to_vec()]
}

#[test]
fn the_layout_of_answers() {
    let [table, knots, rule] = three_knots();
    let two = |value: f64, times: u8| [&value.to_bits().to_le_bytes()[..], &[times, 0, 0, 0], &[0; 4]].concat();
    let expected = [&[2, 0, 0, 0, 0, 0, 0, 0][..], &two(2.0, 2), &two(3.0, 1)].concat();
    let mut out = [PAINT; VECTOR_BYTES];
    assert_eq!(exports::knot_vector(&table, &knots, &rule, &mut out), 0);
    assert_eq!(out[..expected.len()], expected);
    assert!(out[expected.len()..].iter().all(|b| *b == PAINT));
    assert_eq!((expected.len(), VECTOR_BYTES), (HEAD_BYTES + 2 * DISTINCT_BYTES, 8200));
    // The four bytes behind a place are never read.
    let mut span = [&rule[..], &2.5f64.to_bits().to_le_bytes(), &[1, 0, 0, 0], &[PAINT; 4]].concat();
    let mut out = [PAINT; VALUE_BYTES + 3];
    assert_eq!(exports::span_quotient(&table, &knots, &span, &mut out), 0);
    assert_eq!(out[..VALUE_BYTES], 0.5f64.to_bits().to_le_bytes());
    assert_eq!(out[VALUE_BYTES..], [PAINT; 3]);
    span[344] = 0;
    assert_eq!(exports::span_quotient(&table, &knots, &span, &mut out), 0);
    assert_eq!(out[..VALUE_BYTES], [0; VALUE_BYTES]);
}

#[test]
fn room() {
    let [table, knots, rule] = three_knots();
    let span = records::span_rule(&within(0.0, 1), 1, 2.5);
    for room in 0..HEAD_BYTES + 2 * DISTINCT_BYTES {
        let mut out = vec![PAINT; room];
        assert_eq!(exports::knot_vector(&table, &knots, &rule, &mut out), Refusal::Room.number());
        assert!(out.iter().all(|b| *b == PAINT));
    }
    for room in 0..VALUE_BYTES {
        let mut out = vec![PAINT; room];
        assert_eq!(exports::span_quotient(&table, &knots, &span, &mut out), Refusal::Room.number());
        assert!(out.iter().all(|b| *b == PAINT));
    }
    let mut out = [PAINT; HEAD_BYTES + 2 * DISTINCT_BYTES];
    assert_eq!(exports::knot_vector(&table, &knots, &rule, &mut out), 0);
    // The longest answer, and a room that is one byte too short for it.
    let all = records::knots(&metres(&(0..MOST).map(|at| at as f64).collect::<Vec<_>>()));
    let mut out = [PAINT; VECTOR_BYTES];
    assert_eq!(exports::knot_vector(&table, &all, &rule, &mut out[1..]), Refusal::Room.number());
    assert!(out.iter().all(|b| *b == PAINT));
    assert_eq!(exports::knot_vector(&table, &all, &rule, &mut out), 0);
    assert_eq!(records::read_vector(&out).values()[MOST - 1], 511.0);
}

/// ROOM comes after every other refusal, ARGUMENT about the span too; and a refusal writes nothing.
#[test]
fn room_comes_last() {
    let [table, knots, rule] = three_knots();
    let said = |table: &[u8], knots: &[u8], rule: &[u8]| {
        let call = if rule.len() == RULE_BYTES { exports::knot_vector } else { exports::span_quotient };
        let mut out = [PAINT; VECTOR_BYTES];
        let number = call(table, knots, rule, &mut []);
        assert_eq!(call(table, knots, rule, &mut out), number);
        assert!(out.iter().all(|b| *b == PAINT));
        Refusal::of(number)
    };
    let span = |place| records::span_rule(&within(0.0, 1), place, 2.5).to_vec();
    let turned = records::knots(&metres(&[3.0, 2.0]));
    let often = records::knots(&metres(&[2.0; 3]));
    for (rule, there) in [(rule, true), (span(1), true), (span(2), false)] {
        assert_eq!(said(&table[1..], &knots, &rule), Some(Refusal::Table));
        assert_eq!(said(&table, &records::knots(&[of(1.0, 99)]), &rule), Some(Refusal::Unknown));
        assert_eq!(said(&table, &turned, &rule), Some(Refusal::Order));
        assert_eq!(said(&table, &often, &rule), Some(Refusal::Multiple));
        assert_eq!(said(&table, &knots[1..], &rule), Some(Refusal::Argument));
        if !there {
            assert_eq!(said(&table, &knots, &rule), Some(Refusal::Argument));
        }
    }
}

#[test]
fn wrong_lengths_are_arguments() {
    let [table, knots, rule] = three_knots();
    let span = records::span_rule(&within(0.0, 1), 0, 2.5);
    let mut out = [PAINT; VECTOR_BYTES];
    let argument = Refusal::Argument.number();
    let longer = |bytes: &[u8]| [bytes, &[0]].concat();
    // A length that no run of rows has is TABLE, which comes later.
    let table = longer(&table);
    for wrong in [vec![], longer(&knots), knots[1..].to_vec(), vec![0; (MOST + 1) * QUANTITY_BYTES]] {
        assert_eq!(exports::knot_vector(&table, &wrong, &rule, &mut out), argument);
        assert_eq!(exports::span_quotient(&table, &wrong, &span, &mut out), argument);
    }
    for wrong in [vec![], rule[1..].to_vec(), longer(&rule), span.to_vec()] {
        assert_eq!(exports::knot_vector(&table, &knots, &wrong, &mut out), argument);
    }
    for wrong in [vec![], span[1..].to_vec(), longer(&span), rule.clone()] {
        assert_eq!(exports::span_quotient(&table, &knots, &wrong, &mut out), argument);
    }
    assert_eq!(exports::knot_vector(&table, &knots, &rule, &mut out), Refusal::Table.number());
    assert_eq!(exports::span_quotient(&table, &knots, &span, &mut out), Refusal::Table.number());
    assert_eq!(out, [PAINT; VECTOR_BYTES]);
}

/// Units of time that differ from each other by little: in a prefix, a row, an exponent, the order, what cancels.
fn times() -> [List; 9] {
    [
        one(SECOND),
        one(MINUTE),
        one(HOUR),
        kilo(SECOND).into(),
        Factor::of(SECOND).under(Prefix::Binary(3)).into(),
        [Factor::of(MINUTE), power(SECOND, 0)].into(),
        [power(MINUTE, 2), power(HOUR, -1)].into(),
        [power(HOUR, -1), power(MINUTE, 2)].into(),
        [power(HOUR, 2), power(MINUTE, -1)].into(),
    ]
}

/// Knots in turning units, against the runs found plainly in what each knot converts to alone.
#[test]
fn as_each_knot_converts_alone() {
    let (t, unit, units) = (table(), one(MINUTE), times());
    let mut state = 7u64;
    let mut next = |below: usize| {
        state = state.wrapping_mul(6364136223846793005).wrapping_add(1442695040888963407);
        (state >> 33) as usize % below
    };
    for _ in 0..400 {
        let count = 1 + next(60);
        let mut knots: Vec<(f64, Quantity)> = (0..count)
            .map(|_| {
                let in_unit = t.convert_to(&of(next(30) as f64 * 0.3, MINUTE), &units[next(units.len())]).unwrap();
                let knot = if in_unit.value == 0.0 { of(0.0, METRE) } else { in_unit };
                (t.convert_merged(&knot, &unit).unwrap().value, knot)
            })
            .collect();
        knots.sort_by(|(a, _), (b, _)| a.total_cmp(b));
        let tolerance = [0.0, 1e-16, 1e-15, 0.3, 0.7][next(5)];
        let mut expected: Vec<(f64, u32)> = Vec::new();
        for (value, _) in &knots {
            match expected.last_mut() {
                Some((first, times)) if value - *first <= tolerance => *times += 1,
                _ => expected.push((*value, 1)),
            }
        }
        let knots: Vec<Quantity> = knots.into_iter().map(|(_, knot)| knot).collect();
        let answer = runs(t.knot_vector(&knots, &KnotRule::new(unit.clone(), tolerance, 9)));
        let often = expected.iter().any(|(_, times)| *times > 10);
        assert_eq!(answer, if often { Err(Refusal::Multiple) } else { Ok(expected) });
    }
}
