//! One rule and one log for several W, in several orders between events, at a desk and on a board: where two give a verdict, it
//! is the same.
//! Where an occurrence lies in the window, for every W.

use crate::pair::Pair;
use crate::quota::Quota;
use crate::shared::driven::Driven;
use crate::shared::log::{events, line, note};
use crate::shared::random::{board_frames, frames, late_frames, Random};
use dillplatter_second::Profile::{self, Board, Desk};
use dillplatter_second::{Fed, Pulled, State, Truth};
use std::ops::Range;

/// The lines of each event.
type Log = Vec<Vec<Vec<u8>>>;

fn random_log(random: &mut Random) -> Log {
    let mut lines = |event| {
        (0..60)
            .map(|_| line(event, [0; 4].map(|_: i32| note(random))))
            .collect()
    };
    (0..8).map(&mut lines).collect()
}

/// Feeds the lines of a log to a fresh checker in some order, with pulls in between, until nothing moves; the verdicts in order.
fn run(random: &mut Random, mut pair: Pair, log: &Log) -> Vec<Truth> {
    let events = events(pair.machine());
    let mut next = [0; 8];
    let mut verdicts = Vec::new();
    for _ in 0..40 + 20 * events.len() {
        let event = random.pick(&events);
        // A run of one event's lines, as long as it is accepted.
        for _ in 0..random.below(8) {
            let Some(line) = log[event].get(next[event]) else {
                break;
            };
            if pair.feed(line) != Fed::Accepted {
                break;
            }
            next[event] += 1;
        }
        for _ in 0..random.below(6) {
            let Pulled::Verdict(verdict) = pair.pull(&mut [0; 166]) else {
                break;
            };
            verdicts.push(verdict);
        }
    }
    verdicts
}

/// A desk of several W.
const DESKS: [(Profile, u32); 7] = [
    (Desk, 1),
    (Desk, 2),
    (Desk, 3),
    (Desk, 7),
    (Desk, 16),
    (Desk, 64),
    (Desk, 256),
];

/// A board of several W, and a desk.
const BOARDS: [(Profile, u32); 9] = [
    (Board, 1),
    (Desk, 1),
    (Board, 2),
    (Board, 7),
    (Desk, 16),
    (Board, 16),
    (Board, 32),
    (Desk, 64),
    (Desk, 256),
];

/// Random rules, each for several profiles and W. The answer is the most verdicts of one, and how many runs had a verdict with one
/// before.
fn widths(
    seeds: Range<u64>,
    opened: &[(Profile, u32)],
    rule: fn(&mut Random) -> Vec<u8>,
) -> (usize, usize) {
    let (mut longest, mut several) = (0, 0);
    for seed in seeds {
        let random = &mut Random::new(seed);
        let frames = rule(random);
        let log = random_log(random);
        let mut most: Vec<Truth> = Vec::new();
        for (profile, w) in opened.iter().copied() {
            let verdicts = run(random, Pair::of_frames(profile, &frames, w), &log);
            let both = verdicts.len().min(most.len());
            assert_eq!(verdicts[..both], most[..both], "seed {seed}, W {w}");
            several += usize::from(both > 0);
            if verdicts.len() > most.len() {
                most = verdicts;
            }
        }
        longest = longest.max(most.len());
    }
    (longest, several)
}

#[test]
fn widths_and_orders_agree() {
    let quota = Quota::begin("several widths");
    let (longest, several) = widths(60_000_000..60_000_120, &DESKS, frames);
    assert!(longest >= 30 && several >= 300, "{longest} {several}");
    quota.end();
}

#[test]
fn widths_and_orders_agree_for_rules_that_start_late() {
    let quota = Quota::begin("several widths of late rules");
    let (longest, several) = widths(380_000_000..380_000_120, &DESKS, late_frames);
    assert!(longest >= 30 && several >= 600, "{longest} {several}");
    quota.end();
}

#[test]
fn widths_and_orders_agree_at_a_desk_and_on_a_board() {
    let quota = Quota::begin("several widths of boards");
    let (longest, several) = widths(430_000_000..430_000_120, &BOARDS, board_frames);
    assert!(longest >= 30 && several >= 600, "{longest} {several}");
    quota.end();
}

/// A rule that sees all four notes of the first and the last event; every instance is false where the notes are not negative.
const EIGHT: &str = "events a b c d e f g h; notes q r s t; \
    q(a[i]) + r(a[i]) + s(a[i]) + t(a[i]) + q(h[i]) + r(h[i]) + s(h[i]) + t(h[i]) < 0";

/// Occurrence `k` of the first and the last event, both from base on, goes to its words and comes back from them.
#[track_caller]
fn stored_and_seen(opened: &State, k: u32) {
    let mut state = opened.clone();
    (state.counts[0], state.counts[7], state.p, state.totals.held) = (k, k, k, k);
    let w = state.w as usize;
    let mut pair = Pair::summed(state, vec![-1; 32 * w]);
    let notes = [[1, 2, 3, 4], [5, 6, 7, 8]];
    let mut words = vec![-1; 32 * w];
    for (event, notes) in [0, 7].into_iter().zip(notes) {
        assert_eq!(pair.feed(&line(event, notes)), Fed::Accepted);
        let word = (usize::from(event) * w + k as usize % w) * 4;
        words[word..word + 4].copy_from_slice(&notes);
    }
    assert!(*pair.window() == words[..], "W {w}, occurrence {k}");
    let mut report = [0; 166];
    assert_eq!(pair.pull(&mut report), Pulled::Verdict(Truth::False));
    let seen: Vec<u8> = report[6..46].chunks(5).map(|entry| entry[4]).collect();
    assert_eq!(seen, [1, 2, 3, 4, 5, 6, 7, 8], "W {w}, occurrence {k}");
}

#[test]
fn every_width_has_its_places() {
    let quota = Quota::begin("places of every width");
    for w in 1..=256 {
        let opened = Pair::of_text(EIGHT, w).state().clone();
        // The first and the last places of the ring, early, around 2^8 and 2^16, and at the end.
        for near in [0, 256, 65_536, 999_999] {
            let turn = near / w * w;
            for k in [turn.saturating_sub(1), turn, turn + w - 1, near] {
                stored_and_seen(&opened, k.min(999_999));
            }
        }
    }
    quota.end();
}
