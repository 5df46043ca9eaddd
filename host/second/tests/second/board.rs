//! The second checker on the board inside the plotter.

use crate::shared::board;
use crate::shared::documents::{document, rows};
use crate::shared::driven::{Driven, Twin};
use crate::shared::forged::number;
use dillplatter_second::{Profile, Refusal, State, Totals};

#[test]
fn both_sides_of_each_limit() {
    board::both_sides_of_each_limit::<Twin>();
}

#[test]
fn eleven_before_26() {
    board::eleven_before_26::<Twin>();
}

#[test]
fn others_before_26() {
    board::others_before_26::<Twin>();
}

#[test]
fn states_of_a_desk() {
    board::states_of_a_desk::<Twin>();
}

#[test]
fn states_of_a_board() {
    board::states_of_a_board::<Twin>();
}

#[test]
fn no_call_changes_the_profile() {
    board::no_call_changes_the_profile::<Twin>();
}

#[test]
fn answers_as_a_desk() {
    board::answers_as_a_desk::<Twin>();
}

#[test]
fn profiles_have_their_numbers() {
    for number in (0..1_000).chain([1 << 16, 1 << 31, (1 << 31) + 1, u32::MAX]) {
        let expected = match number {
            0 => Some(Profile::Desk),
            1 => Some(Profile::Board),
            _ => None,
        };
        assert_eq!(Profile::of(number), expected, "{number}");
        assert!(expected.is_none_or(|profile| profile.number() == number));
    }
}

#[test]
fn the_state_of_a_refused_opening_is_zero_throughout() {
    let zero = State::zero();
    assert_eq!([zero.len, zero.w, zero.profile, zero.p, zero.sum], [0; 5]);
    assert!(zero.frames == [0; 512] && zero.counts == [0; 8]);
    assert_eq!(zero.totals, Totals::default());
    // 12 refuses it, with another profile too.
    for profile in [0, 1, 2] {
        let state = State {
            profile,
            ..zero.clone()
        };
        assert_eq!(number::<Twin>(&state, 0), 12, "{profile}");
    }
}

#[test]
fn the_rules_for_makers_have_the_frames_that_are_said() {
    let (mut fit, mut too_long) = (0, 0);
    for [rule, said] in rows(&document("docs/MAKERS.md"), ["Rule", "Frames"]) {
        let frames = Twin::frames_of(rule.trim_matches('`').as_bytes()).expect("it is read");
        let (number, rest) = said.split_once(':').unwrap_or((&said, ""));
        assert_eq!(number, (frames.len() / 8).to_string(), "{rule}");
        let refusal = Twin::open_as(Profile::Board, &frames, 32, &[0; 32 * 32]).err();
        match rest {
            "" => {
                assert_eq!(refusal, None, "{rule}");
                fit += 1;
            }
            _ => {
                assert_eq!(refusal, Some(Refusal::of(26)), "{rule}");
                too_long += 1;
            }
        }
    }
    assert!(fit > 0 && too_long > 0, "{fit} {too_long}");
}
