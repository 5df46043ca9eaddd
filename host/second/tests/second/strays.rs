//! The second checker with a window that somebody wrote into.

use crate::shared::driven::{Driven, Twin};
use crate::shared::random::Random;
use crate::shared::strays::{self, signed_sum};
use dillplatter_second::{sum_of, Profile};

#[test]
fn every_word_at_every_moment() {
    strays::every_word_at_every_moment::<Twin>(Profile::Desk);
    strays::every_word_at_every_moment::<Twin>(Profile::Board);
}

#[test]
fn only_a_stored_line_changes_the_sum() {
    strays::only_a_stored_line_changes_the_sum::<Twin>();
}

#[test]
fn two_words_that_keep_the_sum() {
    strays::two_words_that_keep_the_sum::<Twin>();
}

#[test]
fn words_that_change_places() {
    strays::words_that_change_places::<Twin>();
}

#[test]
fn other_sums() {
    strays::other_sums::<Twin>();
}

#[test]
fn order() {
    strays::order::<Twin>();
}

#[test]
fn sums_that_come_round() {
    strays::sums_that_come_round::<Twin>();
}

#[test]
fn lines_whose_sums_come_round() {
    strays::lines_whose_sums_come_round::<Twin>();
}

#[test]
fn sums_of_some_windows() {
    for (window, sum) in [
        (&[][..], 0),
        (&[5], 5),
        (&[-1], u32::MAX),
        (&[-1, 1], 0),
        (&[-1, -1, -1], u32::MAX - 2),
        (&[i32::MIN, i32::MIN], 0),
        (&[i32::MIN, i32::MAX], u32::MAX),
        (&[i32::MAX, i32::MAX, 2], 0),
    ] {
        assert_eq!(sum_of(window), sum, "{window:?}");
        assert_eq!(signed_sum(window), sum, "{window:?}");
    }
    let random = &mut Random::new(520_000_000);
    for words in [32, 96, 32 * 256] {
        let word = |_| random.below(1 << 32) as u32 as i32;
        let window: Vec<i32> = (0..words).map(word).collect();
        assert_eq!(sum_of(&window), signed_sum(&window), "{words} words");
    }
}

#[test]
fn a_machine_lends_its_state_the_sum_of_a_window() {
    let twin = Twin::of_text("events a; notes t; t(a[i]) > 0", 1);
    for word in [0, 1, -1, i32::MIN] {
        let mut window = [0; 32];
        window[31] = word;
        assert_eq!(twin.machine().state(&window).sum, word as u32);
    }
}
