// The byte layouts, written out by hand once; and what the exported functions do with the room they are lent.
use super::*;
use crate::bytes::{self as records, CANDIDATE_BYTES, FACTOR_BYTES, LIST_BYTES, QUANTITY_BYTES, ROW_BYTES};
use crate::{Candidate, Refusal, exports};

const FACTOR: [u8; FACTOR_BYTES] = [7, 0, 0, 0, 1, 0, 0, 0, 0xfe, 0xff, 0xff, 0xff, 0xfd, 0xff, 0xff, 0xff, 4, 0, 0, 0];
const BLANK: [u8; FACTOR_BYTES] = [0, 0, 0, 0, 0, 0, 0, 0, 0, 0, 0, 0, 0, 0, 0, 0, 1, 0, 0, 0];

/// Row 7 under Binary(-2), to -3/4.
fn factor() -> Factor {
    Factor::of(7).under(Prefix::Binary(-2)).to(Exponent::new(-3, 4))
}

fn expected_list() -> Vec<u8> {
    [&[2, 0, 0, 0][..], &FACTOR, &FACTOR, &BLANK.repeat(14)].concat()
}

#[test]
fn of_lists_and_quantities() {
    let list = List::from([factor(), factor()]);
    assert_eq!(records::list(&list)[..], expected_list());
    assert_eq!(records::read_list(&records::list(&list)), list);
    let q = Quantity { value: 1.5, mark: true, unit: list };
    let expected = [&1.5f64.to_bits().to_le_bytes()[..], &[1, 0, 0, 0], &expected_list()].concat();
    assert_eq!(records::quantity(&q)[..], expected);
    assert_eq!(records::read_quantity(&records::quantity(&q)), q);
    assert_eq!((expected.len(), expected_list().len()), (QUANTITY_BYTES, LIST_BYTES));
}

#[test]
fn of_rows_and_candidates() {
    let derived = Table::new(&[Row::derived(0x0102, 60.0, vec![factor()])]);
    let head = [&[2, 1, 1, 0, 1, 0, 0, 0][..], &60f64.to_bits().to_le_bytes()].concat();
    assert_eq!(derived.bytes(), [&head[..], &FACTOR, &BLANK.repeat(7)].concat());
    let base = Table::new(&[Row::base(3)]);
    assert_eq!(base.bytes()[..16], [3, 0, 0, 0, 0, 0, 0, 0, 0, 0, 0, 0, 0, 0, 0, 0]);
    assert_eq!(base.bytes().len(), ROW_BYTES);
    let candidate = Candidate { rank: 9, unit: [factor(), factor()].into() };
    let expected = [&[9, 0, 0, 0][..], &expected_list()].concat();
    assert_eq!(records::candidates(&[candidate]), expected);
    assert_eq!(expected.len(), CANDIDATE_BYTES);
}

#[test]
fn a_longer_room_keeps_its_further_bytes() {
    let (t, list) = (table(), records::list(&one(METRE)));
    let mut out = [0x5a; LIST_BYTES + 9];
    assert_eq!(exports::canonical(t.bytes(), &list, &mut out), 0);
    assert_eq!((&out[..LIST_BYTES], &out[LIST_BYTES..]), (&list[..], &[0x5a; 9][..]));
}

#[test]
fn a_refusal_writes_nothing() {
    let (t, list) = (table(), records::list(&one(METRE)));
    for room in 0..LIST_BYTES {
        let mut out = vec![0x5a; room];
        assert_eq!(exports::canonical(t.bytes(), &list, &mut out), Refusal::Room.number());
        assert!(out.iter().all(|b| *b == 0x5a));
    }
    let mut out = [0x5a; LIST_BYTES];
    assert_eq!(exports::canonical(t.bytes(), &records::list(&one(9)), &mut out), Refusal::Unknown.number());
    assert_eq!(exports::canonical(&t.bytes()[1..], &list, &mut out), Refusal::Table.number());
    assert_eq!(exports::canonical(t.bytes(), &list[1..], &mut out), Refusal::Shape.number());
    assert_eq!(exports::canonical(&[], &[], &mut out), Refusal::Shape.number());
    assert_eq!(out, [0x5a; LIST_BYTES]);
}
