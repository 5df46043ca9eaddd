//! States and windows that no opening gave: each field changed, random bytes, random words.

use crate::pair::Pair;
use crate::quota::Quota;
use crate::shared::damage::{damage_decimals, damage_frames};
use crate::shared::driven::Driven;
use crate::shared::forged::number;
use crate::shared::log::{events, random_line};
use crate::shared::random::{board_frames, frames, late_frames, Random};
use crate::shared::seen::Seen;
use crate::shared::start::start_of;
use dillplatter_second::{sum_of, Profile, Refusal, State, Totals};

fn word(random: &mut Random) -> u32 {
    let any = (random.below(1 << 32)) as u32;
    random.pick(&[
        0,
        1,
        2,
        16,
        17,
        32,
        33,
        63,
        64,
        65,
        255,
        256,
        257,
        999_999,
        1_000_000,
        1_000_001,
        1_009_998,
        1_009_999,
        1_010_000,
        1 << 31,
        u32::MAX,
        any,
    ])
}

fn near(random: &mut Random, value: u32) -> u32 {
    let step = random.pick(&[1, 1, 2, 3, 8, 64]);
    match random.below(3) {
        0 => value.wrapping_add(step),
        1 => value.wrapping_sub(step),
        _ => word(random),
    }
}

/// A state that calls on a fresh checker gave.
pub fn honest(random: &mut Random) -> (State, Vec<usize>) {
    let profile = random.pick(&[Profile::Desk, Profile::Desk, Profile::Board]);
    let frames = match profile {
        Profile::Board => board_frames(random),
        Profile::Desk if random.once_in(2) => late_frames(random),
        Profile::Desk => frames(random),
    };
    let w = match profile {
        Profile::Board => random.pick(&[1, 2, 3, 16, 31, 32]),
        Profile::Desk => random.pick(&[1, 2, 3, 5, 16, 64]),
    };
    let mut pair = Pair::of_frames(profile, &frames, w);
    let events = events(pair.machine());
    for _ in 0..random.below(30) {
        if random.once_in(3) {
            pair.pull(&mut [0; 166]);
        } else {
            pair.feed(&random_line(random, &events));
        }
    }
    (pair.state().clone(), events)
}

/// Moves p, and the totals and counts with it, so that the state may still pass.
pub fn move_on(random: &mut Random, state: &mut State, events: &[usize]) {
    let start = start_of(state);
    let p = random.pick(&[
        0, 1, 7, 1_000, 9_999, 10_000, 111_111, 500_000, 999_999, 1_000_000, 1_009_998, 1_009_999,
    ]);
    state.p = p.max(start);
    let pulled = state.p - start;
    let failed = random.below(pulled as usize + 1) as u32;
    let unknown = random.below((pulled - failed) as usize + 1) as u32;
    state.totals = Totals {
        held: pulled - failed - unknown,
        failed,
        unknown,
    };
    for event in events {
        let far = u64::from(state.p) * random.pick(&[1, 1, 1, 2, 3, 9]);
        let count =
            far as i64 + random.pick(&[-10_000, -9_999, -3, -2, -1, 0, 1, 2, 3, 4, 9_999, 10_003]);
        state.counts[*event] = count.clamp(0, 1_000_000) as u32;
    }
}

/// A number of a profile, or one of none.
fn profile(random: &mut Random) -> u32 {
    let any = word(random);
    random.pick(&[0, 1, 1, 1, 2, 3, 255, any])
}

/// Changes one field, or two that go together.
pub fn change(random: &mut Random, state: &mut State) {
    match random.below(14) {
        0 => state.frames[random.below(512)] = random.below(256) as u8,
        1 => {
            let mut frames = state.frames[..8 * state.len.min(64) as usize].to_vec();
            damage_frames(random, &mut frames);
            frames.resize(512, 0);
            state.frames.copy_from_slice(&frames);
        }
        2 => state.len = near(random, state.len),
        3 => state.w = near(random, state.w),
        4 => {
            let event = random.below(8);
            state.counts[event] = near(random, state.counts[event]);
        }
        5 => state.p = near(random, state.p),
        6 => state.totals.held = near(random, state.totals.held),
        7 => state.totals.failed = near(random, state.totals.failed),
        8 => state.totals.unknown = near(random, state.totals.unknown),
        9 => state.profile = profile(random),
        10 => (state.profile, state.w) = (1, random.pick(&[31, 32, 33, 33, 34])),
        11 => state.sum = near(random, state.sum),
        12 => {
            // All frames, so that the state may still pass.
            let mut frames = state.frames[..8 * state.len.min(64) as usize].to_vec();
            damage_decimals(random, &mut frames);
            state.len = frames.len() as u32 / 8;
            frames.resize(512, 0);
            state.frames.copy_from_slice(&frames);
        }
        _ => {
            // p and a total together, so that the sum may stay right.
            let less = random.pick(&[1, 2, 3, 9, 300, 9_999]);
            state.p = state.p.wrapping_sub(less);
            state.totals.unknown = state.totals.unknown.wrapping_sub(less);
        }
    }
}

/// A state of random bytes.
pub fn noise(random: &mut Random) -> State {
    let mut state = State::zero();
    for byte in &mut state.frames {
        *byte = random.below(256) as u8;
    }
    state.len = word(random);
    state.w = word(random);
    state.profile = profile(random);
    state.counts = [0; 8].map(|_: u32| word(random));
    state.p = word(random);
    state.totals = Totals {
        held: word(random),
        failed: word(random),
        unknown: word(random),
    };
    state.sum = word(random);
    state
}

/// A window of random words, mostly of the right length.
fn window(random: &mut Random, w: u32) -> Vec<i32> {
    let right = 32 * w.min(300) as i32;
    let length = right + random.pick(&[0, 0, 0, 0, 0, 0, 0, 0, 0, 0, -1, 1, 32, -32]);
    (0..length.max(0))
        .map(|_| {
            let small = random.below(9) as i32 - 4;
            let any = random.below(1 << 32) as u32 as i32;
            random.pick(&[small, small, small, any, i32::MIN, i32::MAX])
        })
        .collect()
}

/// The sum of a window, or one that is near, or the one that the state has.
fn sum(random: &mut Random, state: &State, window: &[i32]) -> u32 {
    let right = sum_of(window);
    let other = near(random, right);
    random.pick(&[
        right, right, right, right, right, right, right, other, state.sum,
    ])
}

/// Some calls on a state, mostly with the window's sum; each answer is counted. Sometimes somebody writes into the window.
fn calls(random: &mut Random, mut state: State, events: &[usize], seen: &mut Seen) {
    let window = window(random, state.w);
    state.sum = sum(random, &state, &window);
    let mut pair = Pair::forged(state, window);
    for _ in 0..4 {
        if random.once_in(20) && !pair.window().is_empty() {
            let word = random.below(pair.window().len());
            pair.write(word, near(random, pair.window()[word] as u32) as i32);
        }
        if random.once_in(2) {
            seen.fed(pair.feed(&random_line(random, events)));
        } else {
            let length = random.pick(&[166, 166, 166, 300, 165]);
            seen.pulled(pair.pull(&mut vec![0xA5; length]));
        }
    }
}

/// Whether 12 refuses a state, and would not if a desk had opened it.
fn refused_by_profile(state: &State) -> bool {
    let at_a_desk = State {
        profile: 0,
        ..state.clone()
    };
    let twelve = |state: &State| state.refusal(&[]) == Some(Refusal::of(12));
    twelve(state) && !twelve(&at_a_desk)
}

#[test]
fn forged_states_and_windows() {
    let quota = Quota::begin("forged states");
    let mut seen = Seen::default();
    // States that 12 refuses for their profile alone: those above a board's limits, and those of no profile.
    let (mut above, mut none) = (0, 0);
    // States with the frame of a scale that 12 lets through, and that it refuses.
    let mut scaled = [0; 2];
    for seed in 0..20_000 {
        let random = &mut Random::new(seed + 70_000_000);
        let (mut state, events) = honest(random);
        if random.once_in(2) {
            move_on(random, &mut state, &events);
        }
        match random.below(5) {
            0 => {}
            1 => {
                change(random, &mut state);
                change(random, &mut state);
            }
            2 if random.once_in(4) => state = noise(random),
            _ => change(random, &mut state),
        }
        if refused_by_profile(&state) {
            above += usize::from(state.profile == 1);
            none += usize::from(state.profile > 1);
        }
        if state.frames[0] == 4 {
            let refused = state.refusal(&[]) == Some(Refusal::of(12));
            scaled[usize::from(refused)] += 1;
        }
        calls(random, state, &events, &mut seen);
    }
    // Accepted, ignored, 12, 13, 27, 15, 16, 17; three verdicts, waiting, 12, 13, 27, 14.
    seen.more_than(16, 100);
    assert!(above > 100 && none > 100, "{above} {none}");
    assert!(scaled.iter().all(|times| *times > 500), "{scaled:?}");
    quota.end();
}

const RULE: &str = "events a b c; notes t; t(a[2*i+1]) > 0 || t(c[i-3]) > 0";

/// An honest state of the rule at some p, with counts of a, b and c.
fn state(p: u32, counts: [u32; 3]) -> State {
    let mut state = Pair::of_text(RULE, 4).state().clone();
    state.counts[..3].copy_from_slice(&counts);
    state.p = p;
    state.totals.held = p;
    state
}

/// A state at p 7, where the bases are a 15 and c 4.
fn good() -> State {
    state(7, [19, 0, 8])
}

/// The good state is refused once it is changed.
#[track_caller]
fn refused(change: impl Fn(&mut State)) {
    let mut state = good();
    change(&mut state);
    assert_eq!(number::<Pair>(&state, 128), 12);
}

#[test]
fn counts_p_and_totals() {
    assert_eq!(number::<Pair>(&good(), 128), 0);
    refused(|state| state.counts[0] = 20);
    refused(|state| state.counts[2] = 9);
    for event in [1, 3, 4, 5, 6, 7] {
        refused(|state| state.counts[event] = 1);
    }
    for count in [1_000_001, 1 << 31, u32::MAX] {
        refused(|state| state.counts[0] = count);
    }
    for value in [0, 6, 8, 1 << 31, u32::MAX] {
        refused(|state| state.p = value);
        refused(|state| state.totals.held = value);
        refused(|state| state.totals.failed = value.max(1));
        refused(|state| state.totals.unknown = value.max(1));
    }
    // The sum comes round to 7.
    refused(|state| (state.totals.held, state.totals.failed) = (u32::MAX, 8));
}

#[test]
fn frames_width_and_window() {
    for len in [0, 1, 6, 8, 64, 65, 1 << 29, (1 << 29) + 7, u32::MAX] {
        refused(|state| state.len = len);
    }
    for w in [0, 257, 1 << 27, (1 << 27) + 4, u32::MAX] {
        refused(|state| state.w = w);
    }
    // A kind, an event, a note, a factor, or the sign of a word.
    for byte in (0..56).filter(|byte| byte % 8 <= 4) {
        refused(|state| state.frames[byte] ^= 0x80);
    }
    // Bytes after the last frame are not looked at.
    for byte in 56..512 {
        let mut state = good();
        state.frames[byte] = 0xFF;
        assert_eq!(number::<Pair>(&state, 128), 0, "byte {byte}");
    }
    for words in (0..=300).filter(|words| *words != 128) {
        assert_eq!(number::<Pair>(&good(), words), 13, "{words} words");
    }
    assert_eq!(number::<Pair>(&State::zero(), 0), 12);
    assert_eq!(number::<Pair>(&State::zero(), 128), 12);
}
