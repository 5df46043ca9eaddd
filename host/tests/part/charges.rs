//! Charges: states that 12 lets pass and that it refuses, lists of calls, forged states, random tariffs, every count.

use crate::forged;
use crate::pair::{state_of, tariff_of, Pair};
use crate::quota::{count, Quota};
use crate::shared::driven::{Driven, FALSE};
use crate::shared::log::{events, line, random_line};
use crate::shared::random::{frames, Random};
use crate::shared::seen::Seen;
use crate::shared::tariff::{damage, example, random_tariff, violations};
use crate::shared::tariff::{with_failed, with_totals, MOST_VERDICTS};
use crate::tariff::{cents, charge, refused, rounded, WRONG_STATES};
use dillplatter_host::part::{self, read_rule, Checker};
use dillplatter_second::{Refusal, State, Tariff};

#[test]
fn only_false_verdicts_cost() {
    for (failed, expected) in [(0, 0), (5, 241), (12, 546), (40, 1_445)] {
        for others in [[0, 5], [7, 0], [12, 40], [40, 12], [500, 400_000]] {
            let [held, unknown] = others;
            let state = with_totals([held, failed, unknown]);
            assert_eq!(charge(&example(), state), Ok(expected), "{others:?}");
        }
    }
}

#[test]
fn the_most_violations() {
    let dearest = Tariff::of(&[], 10_000, 100);
    assert_eq!(cents(&dearest, 0), Ok(0));
    assert_eq!(cents(&dearest, 1_009_998), Ok(20_199_960_000));
    assert_eq!(cents(&dearest, 1_009_999), Ok(20_199_980_000));
    for failed in [1_010_000, 1_010_001, 1 << 31, u32::MAX] {
        assert_eq!(cents(&dearest, failed), refused(12));
        // The totals do not sum to a p that is within its limit.
        let mut state = with_totals([0, 7, 0]);
        state.totals.failed = failed;
        assert_eq!(charge(&dearest, state), refused(12));
    }
    let mut round = with_totals([0, 7, 0]);
    (round.totals.held, round.totals.failed) = (u32::MAX, 8);
    assert_eq!(charge(&dearest, round), refused(12));
}

/// Sets p, and the unknown ones so that the totals sum to it.
fn move_to(state: &mut State, p: u32) {
    state.p = p;
    state.totals.unknown = p - state.totals.held - state.totals.failed;
}

/// What a state with 12 violations is charged once it is changed. Its base of event 0 is p, 62 at first, and W is 1.
#[track_caller]
fn changed(change: impl Fn(&mut State)) -> Result<u64, Refusal> {
    let mut state = with_totals([20, 12, 30]);
    change(&mut state);
    charge(&example(), state)
}

#[test]
fn states_that_12_lets_pass() {
    let passes: [fn(&mut State); 9] = [
        |_| {},
        |state| state.w = 256,
        |state| state.profile = 1,
        |state| (state.profile, state.w) = (1, 32),
        |state| state.counts[0] = 63,
        |state| (state.counts[0], state.w) = (62 + 256, 256),
        |state| state.frames[24..].fill(0xFF),
        |state| move_to(state, 1_009_999),
        |state| {
            move_to(state, 1_000_001);
            state.counts[0] = 1_000_000;
        },
    ];
    for change in passes {
        assert_eq!(changed(change), Ok(546));
    }
}

#[test]
fn states_that_12_refuses() {
    for change in WRONG_STATES {
        assert_eq!(changed(change), refused(12));
    }
    for len in [0, 1, 2, 4, 64, 65, (1 << 29) + 3, u32::MAX] {
        assert_eq!(changed(|state| state.len = len), refused(12), "len {len}");
    }
    for w in [0, 257, 1 << 31, u32::MAX] {
        assert_eq!(changed(|state| state.w = w), refused(12), "W {w}");
    }
    for profile in [2, 3, 255, 256, u32::MAX] {
        let wrong = changed(|state| state.profile = profile);
        assert_eq!(wrong, refused(12), "profile {profile}");
    }
    for w in [33, 64, 256] {
        let wrong = changed(|state| (state.profile, state.w) = (1, w));
        assert_eq!(wrong, refused(12), "board, W {w}");
    }
    for (event, count) in [(0, 64), (1, 1), (2, 1), (7, 1), (0, u32::MAX)] {
        let wrong = changed(|state| state.counts[event] = count);
        assert_eq!(wrong, refused(12), "{count} of {event}");
    }
    // One line too many of an event, far below base plus W.
    let lines = changed(|state| {
        move_to(state, 1_009_000);
        state.counts[0] = 1_000_001;
    });
    assert_eq!(lines, refused(12));
    for p in [1_010_000, 1_010_001, 1 << 31, u32::MAX] {
        assert_eq!(changed(|state| move_to(state, p)), refused(12), "p {p}");
    }
    for more in [1, u32::MAX] {
        let sums: [fn(&mut State) -> &mut u32; 4] = [
            |state| &mut state.p,
            |state| &mut state.totals.held,
            |state| &mut state.totals.failed,
            |state| &mut state.totals.unknown,
        ];
        for word in sums {
            let wrong = changed(|state| *word(state) = word(state).wrapping_add(more));
            assert_eq!(wrong, refused(12));
        }
    }
}

#[test]
fn states_with_frames_that_opening_refuses() {
    // 10, and 7: no reference.
    for (byte, value) in [
        (0, 4),
        (1, 8),
        (2, 4),
        (3, 0),
        (8, 3),
        (12, 0x80),
        (16, 0x27),
    ] {
        let wrong = changed(|state| state.frames[byte] = value);
        assert_eq!(wrong, refused(12), "byte {byte}");
    }
    let instance = [2, 0, 0, 0, 0, 0, 0, 0];
    let wrong = changed(|state| state.frames[..8].copy_from_slice(&instance));
    assert_eq!(wrong, refused(12));
    // 8: a magnitude over 2^62, by the literal in the fourth frame.
    let text = "events a; notes t; t(a[i]) * t(a[i]) * 1 = 1";
    let mut state = Pair::of_text(text, 4).state().clone();
    assert_eq!(charge(&example(), state.clone()), Ok(0));
    state.frames[31] = 2;
    assert_eq!(charge(&example(), state), refused(12));
}

#[test]
fn the_state_of_a_refused_opening() {
    let (state, opened) = part::State::open(&[], 1, &mut [0; 32]);
    assert!(opened.is_err());
    let told = |tariff: &Tariff| {
        let charged = part::charge(&state, &tariff_of(tariff));
        charged.map_err(|refusal| refusal.number)
    };
    assert_eq!(told(&example()), Err(12));
    assert_eq!(told(&Tariff::of(&[], 0, 0)), Err(12));
    assert_eq!(told(&Tariff::of(&[], 10_001, 0)), Err(29));
    assert_eq!(told(&Tariff::of(&[(0, 10_001)], 10_001, 0)), Err(28));
    assert_eq!(charge(&example(), State::zero()), refused(12));
}

#[test]
fn a_checker_charges_for_its_log() {
    let frames = read_rule(b"events in out; notes t; t(out[i]) - t(in[i]) <= 25").unwrap();
    let mut checker = Checker::open(&frames, 2).unwrap();
    let tariff = tariff_of(&Tariff::of(&[(1, 100)], 1, 0));
    assert_eq!(checker.charge(&tariff), Ok(0));
    for (delay, expected) in [(25, 0), (26, 100), (24, 100), (99, 101), (30, 102)] {
        for (event, time) in [(0, 7), (1, 7 + delay)] {
            let fed = checker.feed(&line(event, [time, 0, 0, 0]));
            assert_eq!(fed, part::Fed::Accepted);
        }
        checker.pull(&mut [0; 166]);
        assert_eq!(checker.charge(&tariff), Ok(expected));
        assert_eq!(part::charge(checker.state(), &tariff), Ok(expected));
    }
}

/// A random tariff, sometimes damaged.
fn any_tariff(random: &mut Random, limit: u32) -> Tariff {
    let mut tariff = random_tariff(random, limit);
    for _ in 0..random.pick(&[0, 0, 1, 2]) {
        damage(random, &mut tariff);
    }
    tariff
}

/// One random call on a checker that has handed out some false verdicts; its answer is counted.
fn call(random: &mut Random, pair: &mut Pair, failed: &mut u32, seen: &mut Seen) {
    match random.below(3) {
        0 => {
            let line = random_line(random, &events(pair.machine()));
            seen.fed(pair.feed(&line));
        }
        1 => {
            let length = random.pick(&[166, 166, 166, 165]);
            let answer = pair.pull(&mut vec![7; length]);
            *failed += u32::from(answer == FALSE);
            seen.pulled(answer);
        }
        _ => {
            let tariff = any_tariff(random, 20);
            let answer = pair.charge(&tariff);
            assert_eq!(answer, tariff.cents(*failed), "{tariff:?}");
            seen.charged(answer);
        }
    }
}

#[test]
fn charges_between_feeds_and_pulls() {
    let quota = Quota::begin("charges in lists of calls");
    let mut seen = Seen::default();
    let mut violations = 0;
    for seed in 0..1_000 {
        let random = &mut Random::new(seed + 280_000_000);
        let frames = frames(random);
        let w = random.pick(&[1, 2, 5, 64]);
        let mut pair = Pair::open(&frames, w, &vec![-1; 32 * w as usize]).unwrap();
        let mut failed = 0;
        for _ in 0..200 {
            call(random, &mut pair, &mut failed, &mut seen);
        }
        violations += failed;
    }
    // Accepted, ignored, 15, 17; three verdicts, waiting, 14; cents, 28, 29.
    seen.more_than(12, 1_000);
    assert!(violations > 5_000, "{violations}");
    quota.end();
}

#[test]
fn charges_of_forged_states() {
    let quota = Quota::begin("charges of forged states");
    let mut seen = Seen::default();
    for seed in 0..20_200 {
        let random = &mut Random::new(seed + 290_000_000);
        let (mut state, events) = forged::honest(random);
        if random.once_in(8) {
            forged::move_on(random, &mut state, &events);
        }
        match random.below(8) {
            0 | 1 => {}
            2 => state = forged::noise(random),
            _ => forged::change(random, &mut state),
        }
        for _ in 0..2 {
            let tariff = any_tariff(random, 20);
            seen.charged(charge(&tariff, state.clone()));
        }
    }
    // Cents, 12, 28, 29.
    seen.more_than(4, 2_000);
    quota.end();
}

#[test]
fn random_tariffs() {
    let quota = Quota::begin("random tariffs");
    let mut seen = Seen::default();
    let random = &mut Random::new(300_000_000);
    for (limit, tariffs) in [
        (5, 100_000),
        (20, 100_000),
        (1_000, 50_000),
        (1_010_000, 3_000),
    ] {
        for _ in 0..tariffs {
            let tariff = any_tariff(random, limit);
            let failed = violations(random, &tariff, limit.min(MOST_VERDICTS));
            let mut state = with_failed(random, failed);
            if random.once_in(8) {
                random.pick(&WRONG_STATES)(&mut state);
            }
            seen.charged(charge(&tariff, state));
        }
    }
    // Cents, 12, 28, 29.
    seen.more_than(4, 10_000);
    quota.end();
}

/// By one random tariff, no count up to a few, and none of some others up to a limit, costs less than one below it.
fn never_less(random: &mut Random, limit: u32, few: u32) {
    let tariff = random_tariff(random, limit);
    let mut counts: Vec<u32> = (0..=few).collect();
    let most = limit.min(MOST_VERDICTS);
    counts.extend((0..6).map(|_| violations(random, &tariff, most)));
    counts.sort();
    let mut before = 0;
    for failed in counts {
        let state = with_failed(random, failed);
        let cents = charge(&tariff, state).expect("the tariff is taken");
        assert!(before <= cents && cents <= 20_200_000_000, "{tariff:?}");
        before = cents;
    }
}

#[test]
fn more_violations_never_cost_less() {
    let quota = Quota::begin("more violations");
    let random = &mut Random::new(310_000_000);
    for (limit, few, tariffs) in [
        (5, 20, 2_000),
        (20, 40, 1_000),
        (1_000, 1_100, 50),
        (1_010_000, 2, 100),
    ] {
        for _ in 0..tariffs {
            never_less(random, limit, few);
        }
    }
    quota.end();
}

#[test]
fn every_count_of_a_state() {
    let quota = Quota::begin("every count");
    let bands = [(1_000, 9_999), (65_536, 0), (500_000, 1), (1_000_000, 77)];
    let tariff = tariff_of(&Tariff::of(&bands, 10_000, 33));
    let (mut state, mut sum) = (state_of(&with_totals([0; 3])), 0);
    for failed in 0..=MOST_VERDICTS {
        (state.next, state.totals.failed) = (failed, failed);
        let charged = part::charge(&state, &tariff);
        count();
        assert_eq!(charged, Ok(rounded(sum * 133)), "{failed}");
        // What the next one costs.
        sum += match failed {
            0..1_000 => 9_999,
            1_000..65_536 => 0,
            65_536..500_000 => 1,
            500_000..1_000_000 => 77,
            _ => 10_000,
        };
    }
    quota.end();
}
