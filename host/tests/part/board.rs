//! The part on the board inside the plotter.

use crate::pair::{refusal, state_of, tariff_of, Pair};
use crate::quota::Quota;
use crate::shared::board::{self, long_sum, refused_frames, short_sum};
use crate::shared::log::line;
use crate::shared::tariff::example;
use dillplatter_host::part::{self, Checker, BOARD, DESK};
use dillplatter_second::{Refusal, State};

#[test]
fn both_sides_of_each_limit() {
    let quota = Quota::begin("limits of a board");
    board::both_sides_of_each_limit::<Pair>();
    quota.end();
}

#[test]
fn eleven_before_26() {
    board::eleven_before_26::<Pair>();
}

#[test]
fn others_before_26() {
    board::others_before_26::<Pair>();
}

#[test]
fn states_of_a_desk_and_of_a_board() {
    let quota = Quota::begin("states of either profile");
    board::states_of_a_desk::<Pair>();
    board::states_of_a_board::<Pair>();
    quota.end();
}

#[test]
fn no_call_changes_the_profile() {
    board::no_call_changes_the_profile::<Pair>();
}

#[test]
fn answers_as_a_desk() {
    let quota = Quota::begin("desk and board");
    board::answers_as_a_desk::<Pair>();
    quota.end();
}

#[test]
fn a_refused_opening_hands_back_zero() {
    let by_frames = refused_frames().into_iter();
    let by_frames = by_frames.map(|(frames, expected)| (frames, 33, 32 * 33, expected));
    let others = [
        (short_sum(17), 257, 32 * 257, Refusal::of(11)),
        (short_sum(17), 33, 32 * 33 + 1, Refusal::of(11)),
        (short_sum(3), 33, 32 * 33, Refusal::of(26)),
        (short_sum(17), 32, 32 * 32, Refusal::of(26)),
        (long_sum(64), 256, 32 * 256, Refusal::of(26)),
    ];
    for (frames, w, words, expected) in by_frames.chain(others) {
        let window = &mut vec![7; words];
        let (state, opened) = part::State::open_board(&frames, w, window);
        assert_eq!(opened.map_err(refusal), Err(expected));
        assert_eq!(state, state_of(&State::zero()));
        let words = [state.len, state.width, state.profile, state.next, state.sum];
        assert_eq!(words, [0; 5]);
        assert!(window.iter().all(|word| *word == 7));
        refused_with_12(state, window);
    }
}

/// 12 refuses the zero state, with any profile, and each call hands the profile on.
fn refused_with_12(zero: part::State, window: &mut [i32]) {
    let twelve = part::Refusal {
        number: 12,
        place: 0,
    };
    for profile in [DESK, BOARD, 2, u32::MAX] {
        let before = part::State { profile, ..zero };
        let mut state = before;
        let fed = state.feed(window, &line(0, [1; 4]));
        assert_eq!((fed, state), (part::Fed::Refused(twelve), before));
        let pulled = state.pull(window, &mut [0; 166]);
        assert_eq!((pulled, state), (part::Pulled::Refused(twelve), before));
        let charged = part::charge(&state, &tariff_of(&example()));
        assert_eq!(charged, Err(twelve));
    }
}

#[test]
fn a_checker_opens_on_a_board() {
    for w in [1, 31, 32] {
        for frames in [short_sum(3), short_sum(16), long_sum(16)] {
            let board = Checker::open_board(&frames, w).unwrap();
            let desk = Checker::open(&frames, w).unwrap();
            assert_eq!((board.state().profile, desk.state().profile), (BOARD, DESK));
        }
    }
    let refused = |frames: &[u8], w: u32| Checker::open_board(frames, w).err().map(refusal);
    for w in [33, 34, 64, 255, 256] {
        assert_eq!(refused(&short_sum(16), w), Some(Refusal::of(26)), "W {w}");
        assert!(Checker::open(&short_sum(16), w).is_ok());
    }
    for w in [0, 257, 258, 1 << 27, u32::MAX] {
        assert_eq!(refused(&short_sum(16), w), Some(Refusal::of(11)), "W {w}");
    }
    assert_eq!(refused(&short_sum(17), 1), Some(Refusal::of(26)));
}
