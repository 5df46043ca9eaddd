//! Every refusal, 1 to 18 and 23 to 29, by the call that has it.

use crate::common::{feed, machine, pull, reads};
use crate::shared::driven::Twin;
use crate::shared::refusals;
use dillplatter_second::{open, Fed, Pulled, Refusal, State};

const RULE: &str = "events a b; notes t; t(a[i]) > 0";

#[test]
fn each_number_is_seen() {
    refusals::each_number_is_seen::<Twin>();
}

#[test]
fn refusals_of_a_call_come_in_order() {
    let frames = reads(RULE).unwrap();
    // 9 before 11, 10 before 7 and 8 and 11.
    assert_eq!(open(&[], 0, 0).err(), Some(Refusal::of(9)));
    assert_eq!(open(&[0; 520], 0, 0).err(), Some(Refusal::of(9)));
    assert_eq!(open(&[0; 8], 0, 0).err(), Some(Refusal::at(10, 0)));
    let no_reference = [[2, 0, 0, 0, 0, 0, 0, 0]; 2].concat();
    let relation = [0x21, 0, 0, 0, 0, 0, 0, 0];
    let wrong_end = [&no_reference[..], &relation, &relation].concat();
    assert_eq!(open(&wrong_end, 0, 0).err(), Some(Refusal::at(10, 3)));
    let whole = [&no_reference[..], &relation].concat();
    assert_eq!(open(&whole, 0, 0).err(), Some(Refusal::of(7)));
    // 12 before 13, 13 before 27, 27 before 14 and 15, 15 before ignored.
    let mut state = State::open(&frames, 1, &mut [5; 32]).unwrap();
    assert_eq!(
        State::zero().feed(&mut [], b""),
        Fed::Refused(Refusal::of(12))
    );
    assert_eq!(state.feed(&mut [], b""), Fed::Refused(Refusal::of(13)));
    assert_eq!(state.pull(&[], &mut []), Pulled::Refused(Refusal::of(13)));
    let strange = &mut [1; 32];
    assert_eq!(state.feed(strange, b""), Fed::Refused(Refusal::of(27)));
    assert_eq!(
        state.pull(strange, &mut []),
        Pulled::Refused(Refusal::of(27))
    );
    assert_eq!(
        state.pull(&[0; 32], &mut []),
        Pulled::Refused(Refusal::of(14))
    );
    let mut machine = machine(RULE, 1);
    assert_eq!(machine.feed(b"FF0"), Fed::Refused(Refusal::at(15, 3)));
    assert_eq!(feed(&mut machine, 0xFF, 0), Fed::Ignored);
    assert_eq!(pull(&mut machine), Pulled::Waiting);
}

#[test]
fn refused_ignored_and_waiting_change_nothing() {
    let mut machine = machine("events a b; notes t; t(a[i]) > t(b[i])", 1);
    assert_eq!(feed(&mut machine, 0, 7), Fed::Accepted);
    let before = machine.state(&[]);
    assert_eq!(feed(&mut machine, 0, 8), Fed::Refused(Refusal::of(17)));
    assert_eq!(machine.feed(b"00"), Fed::Refused(Refusal::at(15, 2)));
    assert_eq!(feed(&mut machine, 2, 8), Fed::Ignored);
    let mut report = [9; 200];
    assert_eq!(machine.pull(&mut report), Pulled::Waiting);
    assert_eq!(
        machine.pull(&mut report[..165]),
        Pulled::Refused(Refusal::of(14))
    );
    assert_eq!(report, [9; 200]);
    assert_eq!(machine.state(&[]), before);
    assert_eq!(machine.list(0), [[7, 0, 0, 0]]);
}

#[test]
fn window_of_a_refused_opening_keeps_its_words() {
    let frames = reads(RULE).unwrap();
    let mut window = [3; 33];
    assert_eq!(State::open(&frames, 1, &mut window), Err(Refusal::of(11)));
    assert_eq!(window, [3; 33]);
    assert!(State::open(&frames, 1, &mut window[..32]).is_ok());
    assert_eq!((window[..32].to_vec(), window[32]), (vec![0; 32], 3));
}
