//! Single log lines: every value of every byte, every length; arguments that are far too long.

use crate::pair::Pair;
use crate::quota::Quota;
use crate::shared::driven::Driven;
use crate::shared::log::line;
use dillplatter_second::{Fed, Pulled, Refusal};

const RULE: &str = "events a b; notes t; t(a[i]) > 0";

/// A fresh checker with W 1, as a caller may hand it in.
fn fresh() -> Pair {
    let state = Pair::of_text(RULE, 1).state().clone();
    Pair::summed(state, vec![9; 32])
}

#[test]
fn every_value_of_every_byte() {
    let quota = Quota::begin("bytes of a line");
    let good = line(0, [0x0123_4567, -1, 0x0BAD_CAFE, i32::MIN]);
    let (mut accepted, mut ignored) = (0, 0);
    for place in 0..good.len() {
        for value in 0..=255_u8 {
            let mut bytes = good.clone();
            bytes[place] = value;
            let answer = fresh().feed(&bytes);
            let digit = b"0123456789ABCDEFabcdef".contains(&value);
            match answer {
                Fed::Accepted => accepted += 1,
                Fed::Ignored => ignored += 1,
                Fed::Refused(refusal) => assert_eq!(refusal, Refusal::at(15, place)),
            }
            assert_eq!(digit, !matches!(answer, Fed::Refused(_)));
        }
    }
    // Of the first two digits, one spelling each leaves event 0.
    assert_eq!((accepted, ignored), (32 * 22 + 2, 2 * 21));
    quota.end();
}

#[test]
fn both_cases_leave_the_same_state_and_window() {
    let capitals = line(0, [0x0123_4567, -1, 0x0BAD_CAFE, 0x89AB_CDEF_u32 as i32]);
    let fed = |bytes: &[u8]| {
        let mut pair = fresh();
        assert_eq!(pair.feed(bytes), Fed::Accepted);
        (pair.state().clone(), pair.window().to_vec())
    };
    let expected = fed(&capitals);
    assert_eq!(expected.1[3], 0x89AB_CDEF_u32 as i32);
    assert_eq!(fed(&capitals.to_ascii_lowercase()), expected);
    // One letter small, each in turn.
    for place in (0..34).filter(|place| capitals[*place].is_ascii_uppercase()) {
        let mut bytes = capitals.clone();
        bytes[place].make_ascii_lowercase();
        assert_eq!(fed(&bytes), expected, "{place}");
    }
}

#[test]
fn every_length() {
    for length in 0..=100 {
        for (place, byte) in [(0, b'G'), (33, b'g'), (34, b'\r'), (35, b' '), (200, b'!')] {
            let mut bytes = vec![b'0'; length];
            if let Some(there) = bytes.get_mut(place) {
                *there = byte;
            }
            let bad = if place < length { place } else { length };
            let expected = match length {
                34 if place >= 34 => Fed::Accepted,
                _ => Fed::Refused(Refusal::at(15, bad.min(34))),
            };
            assert_eq!(fresh().feed(&bytes), expected, "{length} {place}");
        }
    }
}

#[test]
fn arguments_far_too_long() {
    const LONG: usize = 1 << 20;
    assert_eq!(Pair::frames_of(&vec![b'a'; LONG]), Err(Refusal::of(2)));
    let opened = Pair::open(&vec![3; LONG], 1, &[0; 32]);
    assert_eq!(opened.err(), Some(Refusal::of(9)));
    let opened = Pair::open(
        &Pair::frames_of(RULE.as_bytes()).unwrap(),
        1,
        &vec![4; LONG],
    );
    assert_eq!(opened.err(), Some(Refusal::of(11)));
    let mut pair = fresh();
    let refused = pair.feed(&vec![b'0'; LONG]);
    assert_eq!(refused, Fed::Refused(Refusal::at(15, 34)));
    assert_eq!(pair.pull(&mut vec![0xA5; LONG]), Pulled::Waiting);
    let refused = pair.with_window(vec![0; LONG]).feed(&line(0, [1; 4]));
    assert_eq!(refused, Fed::Refused(Refusal::of(13)));
}
