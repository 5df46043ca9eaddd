//! The marked examples M1 to M13, from their texts, and the frames that docs/RULES.md works out.

use crate::pair::Pair;
use crate::shared::{examples, frames};

#[test]
fn m1_m2_m3_the_first_rule() {
    examples::m1::<Pair>();
    examples::m2::<Pair>();
    examples::m3::<Pair>();
}

#[test]
fn m4_one_true_side_decides_while_the_other_is_pending() {
    examples::m4::<Pair>();
}

#[test]
fn m5_m6_m7_a_void_side() {
    examples::m5::<Pair>();
    examples::m6::<Pair>();
    examples::m7::<Pair>();
}

#[test]
fn m8_waiting_where_all_is_void() {
    examples::m8::<Pair>();
}

#[test]
fn m9_nothing_present_waits_though_true() {
    examples::m9::<Pair>();
}

#[test]
fn m10_abs_of_the_least_note() {
    examples::m10::<Pair>();
}

#[test]
fn m11_product_of_two_notes_but_not_plus_1() {
    examples::m11::<Pair>();
}

#[test]
fn m12_m13_a_window_of_1() {
    examples::m12::<Pair>();
    examples::m13::<Pair>();
}

#[test]
fn each_kind_of_frame_is_that_of_its_example() {
    frames::kinds::<Pair>();
}

#[test]
fn the_frames_of_the_first_rule() {
    frames::first_rule::<Pair>();
}
