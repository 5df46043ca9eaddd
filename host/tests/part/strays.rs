//! The part with a window that somebody wrote into.

use crate::pair::Pair;
use crate::quota::Quota;
use crate::shared::log::line;
use crate::shared::strays::{self, signed_sum};
use dillplatter_host::part::{read_rule, Fed, Pulled, Refusal, State};
use dillplatter_second::Profile;

#[test]
fn every_word_at_every_moment() {
    let quota = Quota::begin("every word at every moment");
    strays::every_word_at_every_moment::<Pair>(Profile::Desk);
    quota.end();
}

#[test]
fn every_word_at_every_moment_on_a_board() {
    let quota = Quota::begin("every word at every moment on a board");
    strays::every_word_at_every_moment::<Pair>(Profile::Board);
    quota.end();
}

#[test]
fn only_a_stored_line_changes_the_sum() {
    strays::only_a_stored_line_changes_the_sum::<Pair>();
}

#[test]
fn two_words_that_keep_the_sum() {
    let quota = Quota::begin("two words");
    strays::two_words_that_keep_the_sum::<Pair>();
    quota.end();
}

#[test]
fn words_that_change_places() {
    strays::words_that_change_places::<Pair>();
}

#[test]
fn other_sums() {
    let quota = Quota::begin("other sums");
    strays::other_sums::<Pair>();
    quota.end();
}

#[test]
fn order() {
    let quota = Quota::begin("12, 13 and 27 in order");
    strays::order::<Pair>();
    quota.end();
}

#[test]
fn sums_that_come_round() {
    strays::sums_that_come_round::<Pair>();
}

#[test]
fn lines_whose_sums_come_round() {
    let quota = Quota::begin("sums that come round");
    strays::lines_whose_sums_come_round::<Pair>();
    quota.end();
}

/// By the part alone, without the second checker: the state carries the sum, one strange word is refused, two that keep the sum
/// are not.
#[test]
fn the_state_carries_the_sum() {
    let frames = read_rule(b"events in out; notes t; t(out[i]) - t(in[i]) <= 25").unwrap();
    let stray = Refusal {
        number: 27,
        place: 0,
    };
    for opening in [State::open, State::open_board] {
        let mut window = vec![9; 64];
        let (mut state, opened) = opening(&frames, 2, &mut window);
        assert_eq!((opened, state.sum), (Ok(()), 0));
        assert_eq!(state.feed(&mut window, &line(0, [-1; 4])), Fed::Accepted);
        assert_eq!(state.sum, u32::MAX - 3);
        let notes = [i32::MIN, 5, 6, i32::MIN];
        assert_eq!(state.feed(&mut window, &line(1, notes)), Fed::Accepted);
        assert_eq!((state.sum, signed_sum(&window)), (7, 7));
        let before = state;
        window[63] += 1;
        let fed = state.feed(&mut window, &line(0, [1; 4]));
        assert_eq!((fed, state), (Fed::Refused(stray), before));
        let pulled = state.pull(&window, &mut [0; 166]);
        assert_eq!((pulled, state), (Pulled::Refused(stray), before));
        window[62] -= 1;
        assert_eq!(state.pull(&window, &mut [0; 166]), Pulled::True);
        assert_eq!(state.sum, 7);
    }
}
