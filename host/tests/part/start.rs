//! Where verdicts begin: states that opening gives and that 12 lets pass, every factor, a refused opening.

use crate::pair::{state_of, tariff_of, Pair};
use crate::quota::Quota;
use crate::shared::driven::Driven;
use crate::shared::start::{self, by_division};
use crate::shared::tariff::example;
use dillplatter_host::part;
use dillplatter_second::frames::check;
use dillplatter_second::State;

#[test]
fn opened_at_the_start() {
    start::opened_at_the_start::<Pair>();
}

#[test]
fn the_first_of_32_references() {
    start::the_first_of_32_references::<Pair>();
}

#[test]
fn waiting_without_a_line() {
    start::waiting_without_a_line::<Pair>();
}

#[test]
fn first_report_is_that_of_the_start() {
    start::first_report_is_that_of_the_start::<Pair>();
}

#[test]
fn states_around_the_start() {
    let quota = Quota::begin("states around the start");
    start::p_below_the_start::<Pair>();
    start::totals_sum_to_p_less_the_start::<Pair>();
    quota.end();
}

/// The frames of a rule with one reference.
fn frames(factor: u8, offset: i32) -> Vec<u8> {
    let [a, b, c, d] = offset.to_be_bytes();
    let literal = [1, 0, 0, 0, 0, 0, 0, 5];
    let relation = [0x21, 0, 0, 0, 0, 0, 0, 0];
    [[3, 0, 0, factor, a, b, c, d], literal, relation].concat()
}

#[test]
fn every_factor_and_offset() {
    let quota = Quota::begin("factors and offsets");
    for factor in 1..=9 {
        for offset in (-9_999..=9_999)
            .step_by(13)
            .chain(-9_999..=-9_940)
            .chain(-60..=20)
        {
            let frames = frames(factor, offset);
            let pair = Pair::open(&frames, 1, &[7; 32]).expect("the frames open");
            let start = by_division(&check(&frames).unwrap().references);
            assert_eq!(pair.state().p, start, "{factor} {offset}");
        }
    }
    quota.end();
}

#[test]
fn a_refused_opening_has_no_start() {
    let right = frames(1, -9_999);
    // 10 at the end, and 11 by W and by the window.
    let longer = [&right[..], &right[..8]].concat();
    for (frames, w, words, number) in [
        (&longer, 1, 32, 10),
        (&right, 0, 0, 11),
        (&right, 257, 32 * 257, 11),
        (&right, 1, 31, 11),
    ] {
        let window = &mut vec![7; words];
        let (mut state, opened) = part::State::open(frames, w, window);
        assert_eq!(opened.map_err(|refusal| refusal.number), Err(number));
        assert_eq!(state, state_of(&State::zero()));
        assert_eq!(state.next, 0);
        // 12 refuses it, at 0 and at the start.
        for next in [0, 9_999] {
            state.next = next;
            let twelve = part::Refusal {
                number: 12,
                place: 0,
            };
            assert_eq!(state.feed(window, b""), part::Fed::Refused(twelve));
            let pulled = state.pull(window, &mut []);
            assert_eq!(pulled, part::Pulled::Refused(twelve));
            let charged = part::charge(&state, &tariff_of(&example()));
            assert_eq!(charged, Err(twelve));
        }
    }
}
