//! Random lists of calls: whole lists against state and window, and what document 01 says of such a list.

use crate::shared::driven::{Driven, Twin};
use crate::shared::log::{events, line, random_line};
use crate::shared::random::{board_frames, frames, late_frames, width, Random};
use crate::shared::seen::Seen;
use crate::shared::start::start_of;
use crate::shared::strays::stray;
use dillplatter_second::line::read_line;
use dillplatter_second::{open, Fed, Machine, Profile, Pulled, Truth};
use std::ops::Range;

/// Each accepted occurrence from base on is in its words.
fn window_holds_the_lists(machine: &Machine, window: &[i32]) {
    let w = machine.w() as usize;
    for event in 0..8 {
        let Some(base) = machine.base(event) else {
            assert!(machine.list(event).is_empty());
            continue;
        };
        for (k, notes) in machine.list(event).iter().enumerate().skip(base as usize) {
            let word = (event * w + k % w) * 4;
            assert_eq!(window[word..word + 4], *notes);
        }
    }
}

/// One random call; its answer is counted, and a verdict is added to a list.
fn call(random: &mut Random, twin: &mut Twin, seen: &mut Seen, verdicts: &mut Vec<Truth>) {
    if random.once_in(30) {
        let events = events(twin.machine());
        stray(random, twin, &events, seen);
    } else if random.once_in(2) {
        let line = random_line(random, &events(twin.machine()));
        let answer = twin.feed(&line);
        if answer == Fed::Accepted {
            let (event, notes) = read_line(&line).unwrap();
            assert_eq!(twin.machine().list(event).last(), Some(&notes));
        }
        seen.fed(answer);
    } else {
        let length = random.pick(&[166, 166, 166, 166, 200, 165, 0]);
        let answer = twin.pull(&mut vec![0xA5; length]);
        if let Pulled::Verdict(verdict) = answer {
            verdicts.push(verdict);
        }
        seen.pulled(answer);
    }
}

/// Makes a random rule.
type Maker = fn(&mut Random) -> Vec<u8>;

/// Some lists of calls with random rules; each answer is counted. The answer is how many rules start after 0 and get a verdict.
fn lists(seeds: Range<u64>, profile: Profile, rule: Maker, seen: &mut Seen) -> usize {
    let mut late = 0;
    for seed in seeds {
        let random = &mut Random::new(seed);
        let frames = rule(random);
        let w = width(random, profile);
        let mut twin = Twin::of_frames(profile, &frames, w);
        let start = start_of(twin.state());
        assert_eq!(twin.state().p, start, "{seed}");
        assert_eq!(twin.pull(&mut [0; 166]), Pulled::Waiting, "{seed}");
        let mut verdicts = Vec::new();
        for turn in 0..200 {
            call(random, &mut twin, seen, &mut verdicts);
            let refusal = twin.state().refusal(twin.window());
            assert_eq!(refusal, None, "{seed} {turn}");
            assert_eq!(twin.state().profile, profile.number(), "{seed} {turn}");
        }
        let machine = twin.machine();
        window_holds_the_lists(machine, twin.window());
        // The verdicts handed out are those by the lists after the last call, from the start on.
        let last: Vec<Truth> = (start..machine.p())
            .map(|i| machine.verdict_of(i).expect("it stays settled"))
            .collect();
        assert_eq!(verdicts, last, "{seed}");
        assert!((0..start).all(|i| machine.verdict_of(i).is_none()));
        other_orders_agree(random, &frames, machine, &verdicts);
        late += usize::from(start > 0 && !verdicts.is_empty());
    }
    late
}

#[test]
fn whole_lists_and_window_agree() {
    let mut seen = Seen::default();
    lists(2_000_000..2_001_250, Profile::Desk, frames, &mut seen);
    // Accepted, ignored, 27, 15, 17; three verdicts, waiting, 27, 14.
    seen.more_than(11, 500);
}

#[test]
fn whole_lists_and_window_agree_for_rules_that_start_late() {
    let mut seen = Seen::default();
    let seeds = 360_000_000..360_001_000;
    let late = lists(seeds, Profile::Desk, late_frames, &mut seen);
    // The same answers.
    seen.more_than(11, 500);
    assert!(late > 850, "{late}");
}

#[test]
fn whole_lists_and_window_agree_on_a_board() {
    let mut seen = Seen::default();
    let seeds = 450_000_000..450_001_000;
    let late = lists(seeds, Profile::Board, board_frames, &mut seen);
    // The same answers.
    seen.more_than(11, 500);
    assert!(late > 200, "{late}");
}

/// The same lines in another order between events, with other pulls and a wider window, at a desk, give the same verdicts
/// wherever both give one.
fn other_orders_agree(random: &mut Random, frames: &[u8], first: &Machine, verdicts: &[Truth]) {
    let mut machine = open(frames, 256, 32 * 256).unwrap();
    let mut next = [0; 8];
    let mut others = Vec::new();
    let mut report = [0; 166];
    for _ in 0..400 {
        let event = random.below(8);
        if let Some(notes) = first.list(event).get(next[event]) {
            let answer = machine.feed(&line(event as u8, *notes));
            assert_eq!(answer, Fed::Accepted);
            next[event] += 1;
        }
        if random.once_in(3) {
            if let Pulled::Verdict(verdict) = machine.pull(&mut report) {
                others.push(verdict);
            }
        }
    }
    let both = verdicts.len().min(others.len());
    assert_eq!(verdicts[..both], others[..both]);
}
