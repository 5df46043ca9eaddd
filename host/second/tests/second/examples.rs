//! The marked examples M1 to M13.

use crate::shared::driven::Twin;
use crate::shared::examples;
use dillplatter_second::{open, Refusal};

#[test]
fn m1_difference_25_is_true() {
    examples::m1::<Twin>();
}

#[test]
fn m2_difference_26_is_false() {
    examples::m2::<Twin>();
}

#[test]
fn m3_out_absent_is_waiting() {
    examples::m3::<Twin>();
}

#[test]
fn m4_one_true_side_decides_while_the_other_is_pending() {
    examples::m4::<Twin>();
}

#[test]
fn m5_a_void_side_leaves_a_true_one() {
    examples::m5::<Twin>();
}

#[test]
fn m6_a_void_side_leaves_no_false() {
    examples::m6::<Twin>();
}

#[test]
fn m7_a_void_and_a_pending_side_wait() {
    examples::m7::<Twin>();
}

#[test]
fn m8_waiting_where_all_is_void() {
    examples::m8::<Twin>();
}

#[test]
fn m9_nothing_present_waits_though_true() {
    examples::m9::<Twin>();
}

#[test]
fn m10_abs_of_the_least_note() {
    examples::m10::<Twin>();
}

#[test]
fn m11_product_of_two_notes_but_not_plus_1() {
    examples::m11::<Twin>();
}

#[test]
fn m11_opening_refuses_8_too() {
    // t(a[i]) * t(b[i]) + 1 > 0
    let frames = [
        [3, 0, 0, 1, 0, 0, 0, 0],
        [3, 1, 0, 1, 0, 0, 0, 0],
        [0x13, 0, 0, 0, 0, 0, 0, 0],
        [1, 0, 0, 0, 0, 0, 0, 1],
        [0x11, 0, 0, 0, 0, 0, 0, 0],
        [1, 0, 0, 0, 0, 0, 0, 0],
        [0x25, 0, 0, 0, 0, 0, 0, 0],
    ];
    assert_eq!(open(&frames.concat(), 1, 32).err(), Some(Refusal::of(8)));
}

#[test]
fn m12_window_of_1_is_full() {
    examples::m12::<Twin>();
}

#[test]
fn m13_a_pull_makes_room() {
    examples::m13::<Twin>();
}
