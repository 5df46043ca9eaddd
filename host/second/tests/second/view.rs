//! The second checker's view of a report.

use crate::common::{feed_all, machine};
use crate::shared::driven::FALSE;
use crate::shared::log::{events, random_line};
use crate::shared::random::{frames, Random};
use crate::shared::vectors::hex;
use dillplatter_second::{open, view, Machine, Refusal, Reported, Truth, View};

#[test]
fn the_example_of_document_01() {
    let mut machine = machine("events in out; notes t; t(out[i]) - t(in[i]) <= 25", 64);
    feed_all(&mut machine, 0, &[10]);
    feed_all(&mut machine, 1, &[40]);
    assert_eq!(machine.reported(), []);
    let mut report = [0xA5; 166];
    assert_eq!(machine.pull(&mut report), FALSE);
    assert_eq!(hex(&report[..16]), "0000000000020000000028000000000a");
    let (i, verdict) = (0, Truth::False);
    assert_eq!(machine.reported(), [Reported { i, verdict }]);
    assert_eq!(hex(&machine.reported()[0].view()), "0000000000");
    assert_eq!(view(&report), Ok([0; 5]));
}

#[test]
fn instance_and_verdict_in_5_bytes() {
    let seen = |i| {
        let verdict = Truth::False;
        hex(&Reported { i, verdict }.view())
    };
    assert_eq!(seen(1), "0000000100");
    assert_eq!(seen(0x0102_0304), "0102030400");
    assert_eq!(seen(1_009_998), "000f694e00");
    assert_eq!(seen(u32::MAX), "ffffffff00");
}

#[test]
fn buffers_around_166_bytes() {
    for byte in [0, 1, 0xFF] {
        for length in (0..=165).chain([166, 167, 221, 1_000]) {
            let expected = if length < 166 {
                Err(Refusal::of(14))
            } else {
                Ok([byte; 5])
            };
            assert_eq!(view(&vec![byte; length]), expected, "{length} bytes");
        }
    }
    let mut buffer = [9; 166];
    buffer[..6].copy_from_slice(&[1, 2, 3, 4, 5, 6]);
    assert_eq!(view(&buffer), Ok([1, 2, 3, 4, 5]));
}

/// A machine after random calls, and one view of the buffer after each report.
fn after_calls(random: &mut Random) -> (Machine, Vec<View>) {
    let frames = frames(random);
    let w = random.pick(&[1, 2, 5, 64]);
    let mut machine = open(&frames, w, 32 * w as usize).unwrap();
    let events = events(&machine);
    let mut views = Vec::new();
    let mut report = [0xA5; 166];
    for _ in 0..200 {
        if random.once_in(2) {
            machine.feed(&random_line(random, &events));
        } else if machine.pull(&mut report) == FALSE {
            views.push(view(&report).expect("the buffer holds a report"));
        }
    }
    (machine, views)
}

#[test]
fn reported_are_the_false_instances() {
    let mut reports = 0;
    for seed in 0..400 {
        let (machine, views) = after_calls(&mut Random::new(seed + 4_000_000));
        // By the lists after the last call.
        let failed = |i: &u32| machine.verdict_of(*i) == Some(Truth::False);
        let verdict = Truth::False;
        let expected: Vec<Reported> = (machine.rule().start()..machine.p())
            .filter(failed)
            .map(|i| Reported { i, verdict })
            .collect();
        assert_eq!(machine.reported(), expected, "seed {seed}");
        let seen: Vec<View> = machine.reported().iter().map(|one| one.view()).collect();
        assert_eq!(views, seen, "seed {seed}");
        reports += views.len();
    }
    assert!(reports >= 4_000, "{reports}");
}
