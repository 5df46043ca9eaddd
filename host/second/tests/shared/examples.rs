//! The marked examples M1 to M13, from their texts, by any checker.

use super::driven::{Driven, FALSE, FULL, TRUE, UNKNOWN};
use super::log::line;
use dillplatter_second::{Fed, Pulled, Refusal, Totals, Truth};

const FIRST: &str = "events in out; notes t; t(out[i]) - t(in[i]) <= 25";
const AFTER_003: &str = "events a b; notes t; t(a[i+10]) > 100 || t(b[i-5]) < 300";
const WAITING: Pulled = Pulled::Waiting;

fn feed(checker: &mut impl Driven, event: u8, note: i32) -> Fed {
    checker.feed(&line(event, [note, 0, 0, 0]))
}

fn pulls(checker: &mut impl Driven, times: usize) -> Vec<Pulled> {
    (0..times).map(|_| checker.pull(&mut [0; 166])).collect()
}

/// A checker that has accepted lines of two events.
fn after<C: Driven>(text: &str, w: u32, first: &[i32], other: &[i32]) -> C {
    let mut checker = C::of_text(text, w);
    for (event, notes) in [(0, first), (1, other)] {
        for note in notes {
            assert_eq!(feed(&mut checker, event, *note), Fed::Accepted);
        }
    }
    checker
}

/// A checker of the rule AFTER_003 that has accepted a[0] to a[last], all of note 200 but the last.
fn up_to<C: Driven>(last: usize, note: i32) -> C {
    let mut notes = vec![200; last + 1];
    notes[last] = note;
    after(AFTER_003, 64, &notes, &[])
}

/// M1: a difference of 25 is true.
pub fn m1<C: Driven>() {
    assert_eq!(pulls(&mut after::<C>(FIRST, 64, &[10], &[35]), 1), [TRUE]);
}

/// M2: 26 is false.
pub fn m2<C: Driven>() {
    assert_eq!(pulls(&mut after::<C>(FIRST, 64, &[10], &[36]), 1), [FALSE]);
}

/// M3: waiting while `out` is absent.
pub fn m3<C: Driven>() {
    let mut checker: C = after(FIRST, 64, &[10], &[]);
    assert_eq!(pulls(&mut checker, 1), [WAITING]);
    let state = checker.state();
    assert_eq!((state.p, state.counts[..2].to_vec()), (0, vec![1, 0]));
}

/// M4: one true side decides while the other is pending.
pub fn m4<C: Driven>() {
    let mut checker: C = up_to(20, 200);
    assert_eq!(pulls(&mut checker, 10), [TRUE; 10]);
    assert_eq!((checker.state().p, checker.state().counts[1]), (10, 0));
    assert_eq!(pulls(&mut checker, 1), [TRUE]);
    assert_eq!(checker.state().p, 11);
}

/// M5: a void side leaves a true one.
pub fn m5<C: Driven>() {
    let mut checker: C = up_to(14, 200);
    assert_eq!(checker.machine().verdict_of(4), Some(Truth::True));
    assert_eq!(pulls(&mut checker, 5), [TRUE; 5]);
    assert_eq!(checker.state().p, 5);
}

/// M6: a void side leaves no false.
pub fn m6<C: Driven>() {
    let mut checker: C = up_to(14, 100);
    assert_eq!(checker.machine().verdict_of(4), Some(Truth::Unknown));
    let expected = [TRUE, TRUE, TRUE, TRUE, UNKNOWN];
    assert_eq!(pulls(&mut checker, 5), expected);
    assert_eq!(checker.state().totals.unknown, 1);
}

/// M7: a void and a pending side wait.
pub fn m7<C: Driven>() {
    let mut checker: C = up_to(13, 200);
    let expected = [TRUE, TRUE, TRUE, TRUE, WAITING];
    assert_eq!(pulls(&mut checker, 5), expected);
    assert_eq!(checker.state().p, 4);
}

/// M8: where all is void there is no instance, so it is waiting.
pub fn m8<C: Driven>() {
    let mut checker = C::of_text("events a b; notes t; t(a[i-2]) > 0", 64);
    assert_eq!(pulls(&mut checker, 4), [WAITING; 4]);
    assert_eq!(checker.state().totals, Totals::default());
    assert_eq!(checker.state().p, 2);
    assert_eq!(feed(&mut checker, 0, 1), Fed::Accepted);
    assert_eq!(pulls(&mut checker, 2), [TRUE, WAITING]);
    assert_eq!(checker.state().p, 3);
}

/// M9: nothing present waits, though the value is true.
pub fn m9<C: Driven>() {
    let mut checker = C::of_text("events a b; notes t; t(a[i]) > 0 || 0 = 0", 64);
    assert_eq!(pulls(&mut checker, 1), [WAITING]);
    assert_eq!(feed(&mut checker, 0, -1), Fed::Accepted);
    assert_eq!(pulls(&mut checker, 2), [TRUE, WAITING]);
}

/// M10: `abs` of the least note.
pub fn m10<C: Driven>() {
    let text = "events a b; notes t; abs(t(a[i])) > 2147483647";
    let mut checker: C = after(text, 64, &[i32::MIN, i32::MAX, -i32::MAX], &[]);
    assert_eq!(pulls(&mut checker, 3), [TRUE, FALSE, FALSE]);
}

/// M11: the product of two notes is read, but not with 1 added.
pub fn m11<C: Driven>() {
    let product = "events a b; notes t; t(a[i]) * t(b[i]) > 0";
    let frames = C::frames_of(product.as_bytes());
    assert_eq!(frames.map(|frames| frames.len()), Ok(40));
    let more = "events a b; notes t; t(a[i]) * t(b[i]) + 1 > 0";
    assert_eq!(C::frames_of(more.as_bytes()), Err(Refusal::of(8)));
    let mut checker: C = after(product, 1, &[i32::MIN], &[i32::MIN]);
    assert_eq!(pulls(&mut checker, 1), [TRUE]);
}

/// M12: a window of 1 is full after one line.
pub fn m12<C: Driven>() {
    let mut checker: C = after(FIRST, 1, &[10], &[]);
    assert_eq!(feed(&mut checker, 0, 20), FULL);
    assert_eq!(checker.state().counts[0], 1);
}

/// M13: a pull makes room.
pub fn m13<C: Driven>() {
    let mut checker: C = after(FIRST, 1, &[10], &[]);
    assert_eq!(feed(&mut checker, 0, 20), FULL);
    assert_eq!(feed(&mut checker, 1, 30), Fed::Accepted);
    assert_eq!(feed(&mut checker, 0, 20), FULL);
    assert_eq!(pulls(&mut checker, 1), [TRUE]);
    assert_eq!(feed(&mut checker, 0, 20), Fed::Accepted);
    let list = checker.machine().list(0);
    assert_eq!(list, [[10, 0, 0, 0], [20, 0, 0, 0]]);
}
