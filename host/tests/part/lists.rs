//! Random lists of calls on one checker, refused ones in between.

use crate::pair::Pair;
use crate::quota::Quota;
use crate::shared::driven::Driven;
use crate::shared::log::{events, random_line};
use crate::shared::random::{board_frames, frames, late_frames, width, Random};
use crate::shared::seen::Seen;
use crate::shared::start::start_of;
use crate::shared::strays::stray;
use dillplatter_second::{Fed, Profile, Pulled, Truth};
use std::ops::Range;

/// A window of another length, with whatever in it.
fn wrong_window(random: &mut Random, w: u32) -> Vec<i32> {
    let right = 32 * w as usize;
    let length = random.pick(&[0, 1, right - 1, right + 1, right + 32, 2 * right]);
    vec![random.below(1_000) as i32; length]
}

/// One random call; its answer is counted.
fn call(random: &mut Random, pair: &mut Pair, events: &[usize], seen: &mut Seen) {
    if random.once_in(40) {
        // The state goes on from where it was.
        let window = wrong_window(random, pair.state().w);
        let mut other = pair.with_window(window);
        if random.once_in(2) {
            seen.fed(other.feed(&random_line(random, events)));
        } else {
            seen.pulled(other.pull(&mut [random.below(256) as u8; 166]));
        }
    } else if random.once_in(30) {
        stray(random, pair, events, seen);
    } else if random.once_in(2) {
        seen.fed(pair.feed(&random_line(random, events)));
    } else {
        let length = random.pick(&[166, 166, 166, 166, 200, 167, 165, 0]);
        let mut report: Vec<u8> = (0..length).map(|_| random.below(256) as u8).collect();
        seen.pulled(pair.pull(&mut report));
    }
}

/// Makes a random rule.
type Maker = fn(&mut Random) -> Vec<u8>;

/// Some lists of calls with random rules; each answer is counted. The answer is how many rules start after 0 and get a verdict.
fn lists(seeds: Range<u64>, profile: Profile, rule: Maker, seen: &mut Seen) -> usize {
    let mut late = 0;
    for seed in seeds {
        let random = &mut Random::new(seed);
        let frames = rule(random);
        let w = width(random, profile);
        let mut pair = Pair::of_frames(profile, &frames, w);
        let start = start_of(pair.state());
        assert_eq!(pair.state().p, start, "seed {seed}");
        assert_eq!(pair.pull(&mut [0; 166]), Pulled::Waiting, "seed {seed}");
        let events = events(pair.machine());
        for _ in 0..220 {
            call(random, &mut pair, &events, seen);
            assert_eq!(pair.state().profile, profile.number(), "seed {seed}");
        }
        stays_settled(&pair, start);
        late += usize::from(0 < start && start < pair.state().p);
    }
    late
}

#[test]
fn random_lists_of_calls() {
    let quota = Quota::begin("random lists of calls");
    let mut seen = Seen::default();
    lists(50_000_000..50_001_000, Profile::Desk, frames, &mut seen);
    // Accepted, ignored, 13, 27, 15, 17; three verdicts, waiting, 13, 27, 14.
    seen.more_than(13, 500);
    quota.end();
}

#[test]
fn random_lists_of_calls_for_rules_that_start_late() {
    let quota = Quota::begin("lists of late rules");
    let mut seen = Seen::default();
    let seeds = 370_000_000..370_001_000;
    let late = lists(seeds, Profile::Desk, late_frames, &mut seen);
    // The same answers.
    seen.more_than(13, 500);
    assert!(late > 850, "{late}");
    quota.end();
}

#[test]
fn random_lists_of_calls_on_a_board() {
    let quota = Quota::begin("lists on a board");
    let mut seen = Seen::default();
    let seeds = 420_000_000..420_001_000;
    let late = lists(seeds, Profile::Board, board_frames, &mut seen);
    // The same answers.
    seen.more_than(13, 500);
    assert!(late > 200, "{late}");
    quota.end();
}

/// The totals are the sums over the verdicts by the lists after the last call, from the start on.
fn stays_settled(pair: &Pair, start: u32) {
    let state = pair.state();
    let verdicts: Vec<Truth> = (start..state.p)
        .map(|i| pair.machine().verdict_of(i).expect("it stays settled"))
        .collect();
    let count = |value| verdicts.iter().filter(|verdict| **verdict == value).count() as u32;
    let totals = [state.totals.held, state.totals.failed, state.totals.unknown];
    assert_eq!(
        totals,
        [Truth::True, Truth::False, Truth::Unknown].map(count)
    );
}

#[test]
fn lines_below_base_are_counted() {
    // The factor is 2: instance 3 asks for lines 6 and 7, and nothing before.
    let mut pair = Pair::of_text(
        "events a b; notes t; t(b[i]) > 0 || t(a[2*i]) > t(a[2*i+1])",
        2,
    );
    for _ in 0..2 {
        for _ in 0..2 {
            assert_eq!(
                pair.feed(b"0100000001000000000000000000000000"),
                Fed::Accepted
            );
        }
        for _ in 0..2 {
            assert_eq!(pair.pull(&mut [0; 166]), Pulled::Verdict(Truth::True));
        }
    }
    // Lines 0 to 7 of a come below base 8, then two more fit.
    for k in 0..10 {
        let line = format!("00{k:08X}000000000000000000000000");
        assert_eq!(pair.feed(line.as_bytes()), Fed::Accepted, "line {k}");
    }
    let full = pair.feed(b"0000000009000000000000000000000000");
    assert!(matches!(full, Fed::Refused(refusal) if refusal.number == 17));
    assert_eq!(pair.pull(&mut [0; 166]), Pulled::Waiting);
    assert_eq!(
        pair.feed(b"0180000000000000000000000000000000"),
        Fed::Accepted
    );
    let mut report = [0xEE; 166];
    assert_eq!(pair.pull(&mut report), Pulled::Verdict(Truth::False));
    let expected = [
        0, 0, 0, 4, 0, 3, 0, 0x80, 0, 0, 0, 0, 0, 0, 0, 8, 0, 0, 0, 0, 9,
    ];
    assert_eq!(report[..21], expected);
}
