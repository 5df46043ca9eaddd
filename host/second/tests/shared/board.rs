//! The board inside the plotter, by any checker: its limits at opening and in a state, where 26 comes in the order, and that it
//! answers as a desk does.

use super::driven::{Driven, FALSE, FULL, TRUE, UNKNOWN};
use super::forged::number;
use super::log::{events, line, random_line};
use super::random::{board_frames, width, Random};
use super::seen::Seen;
use super::tariff::example;
use dillplatter_second::Profile::{self, Board, Desk};
use dillplatter_second::{Fed, Pulled, Refusal, State};

const REFERENCE: [u8; 8] = [3, 0, 0, 1, 0, 0, 0, 0];
const LITERAL: [u8; 8] = [1, 0, 0, 0, 0, 0, 0, 5];
const INSTANCE: [u8; 8] = [2, 0, 0, 0, 0, 0, 0, 0];

fn operator(kind: u8) -> [u8; 8] {
    [kind, 0, 0, 0, 0, 0, 0, 0]
}

/// Frames of a rule, made so many by 'not'.
fn with_nots(mut rule: Vec<[u8; 8]>, frames: usize) -> Vec<u8> {
    rule.resize(frames, operator(0x31));
    rule.concat()
}

/// A rule of so many frames, 3 or more, with one reference.
pub fn short_sum(frames: usize) -> Vec<u8> {
    with_nots(vec![REFERENCE, LITERAL, operator(0x25)], frames)
}

/// A rule of so many frames, 3 or more, with as many references as they hold.
pub fn long_sum(frames: usize) -> Vec<u8> {
    let mut rule = vec![REFERENCE];
    for _ in 1..(frames - 1) / 2 {
        rule.extend([REFERENCE, operator(0x11)]);
    }
    rule.extend([LITERAL, operator(0x25)]);
    with_nots(rule, frames)
}

/// What an opening is refused with.
#[track_caller]
fn refusal<C: Driven>(profile: Profile, frames: &[u8], w: u32, words: usize) -> Option<Refusal> {
    C::open_as(profile, frames, w, &vec![-1; words]).err()
}

/// A state with another profile.
fn with_profile(state: &State, profile: u32) -> State {
    State {
        profile,
        ..state.clone()
    }
}

/// A board's state is a desk's but for the profile.
#[track_caller]
fn as_a_desk(desk: &State, board: &State) {
    assert_eq!((desk.profile, board.profile), (0, 1));
    assert_eq!(*desk, with_profile(board, 0));
}

/// Every W with some numbers of frames, and every number of frames with some W: a desk opens all, a board those up to W 32 and
/// 16 frames.
pub fn both_sides_of_each_limit<C: Driven>() {
    let every_w = (1..=256).flat_map(|w| [3, 15, 16, 17, 64].map(|frames| (w, frames)));
    let every_frames = (3..=64).flat_map(|frames| [1, 31, 32, 33, 34, 256].map(|w| (w, frames)));
    let (mut opened, mut refused) = (0, 0);
    for (w, frames) in every_w.chain(every_frames) {
        for rule in [short_sum(frames), long_sum(frames)] {
            let desk = C::of_frames(Desk, &rule, w);
            let window = vec![-1; 32 * w as usize];
            match C::open_as(Board, &rule, w, &window) {
                Ok(board) => {
                    assert!(w <= 32 && frames <= 16, "W {w}, {frames} frames");
                    as_a_desk(desk.state(), board.state());
                    assert!(board.window().iter().all(|word| *word == 0));
                    opened += 1;
                }
                Err(refusal) => {
                    assert!(w > 32 || frames > 16, "W {w}, {frames} frames");
                    assert_eq!(refusal, Refusal::of(26));
                    refused += 1;
                }
            }
        }
    }
    assert_eq!((opened, refused), (276, 3_028));
}

/// 26 comes after 11: after a W outside 1 to 256, and after a window of another length.
pub fn eleven_before_26<C: Driven>() {
    for frames in [
        short_sum(3),
        short_sum(16),
        long_sum(16),
        short_sum(17),
        long_sum(17),
        long_sum(64),
    ] {
        let long = frames.len() > 8 * 16;
        // 32 x W comes round to few words in some.
        for (w, words) in [
            (0, 0),
            (0, 32),
            (257, 32 * 257),
            (257, 32 * 33),
            (1 << 27, 0),
            ((1 << 27) + 32, 32 * 32),
            ((1 << 27) + 33, 32 * 33),
            (u32::MAX, 32),
        ] {
            let eleven = Some(Refusal::of(11));
            assert_eq!(refusal::<C>(Board, &frames, w, words), eleven, "W {w}");
        }
        for w in [1, 2, 31, 32, 33, 34, 64, 255, 256] {
            let right = 32 * w as usize;
            let above = (long || w > 32).then_some(Refusal::of(26));
            assert_eq!(refusal::<C>(Desk, &frames, w, right), None, "W {w}");
            assert_eq!(refusal::<C>(Board, &frames, w, right), above, "W {w}");
            let others = [0, 1, right - 1, right + 1, right + 32, 32 * 32, 32 * 33];
            for words in others.into_iter().filter(|words| *words != right) {
                let seen = refusal::<C>(Board, &frames, w, words);
                assert_eq!(seen, Some(Refusal::of(11)), "W {w}, {words} words");
            }
        }
    }
}

/// Frames that 9, 10, 7 and 8 refuse, with their refusal: of more than 16 frames, and of fewer.
pub fn refused_frames() -> Vec<(Vec<u8>, Refusal)> {
    let right = short_sum(17);
    let changed = |place: usize, frame: [u8; 8]| {
        let mut frames = right.clone();
        frames[8 * place..8 * place + 8].copy_from_slice(&frame);
        frames
    };
    let product = vec![REFERENCE, REFERENCE, operator(0x13), REFERENCE];
    let end = [operator(0x13), LITERAL, operator(0x25)];
    let large = [product, end.to_vec()].concat();
    vec![
        (Vec::new(), Refusal::of(9)),
        (right[..127].to_vec(), Refusal::of(9)),
        (right[..135].to_vec(), Refusal::of(9)),
        ([&right[..], &[0]].concat(), Refusal::of(9)),
        (short_sum(65), Refusal::of(9)),
        (right[..16].to_vec(), Refusal::at(10, 2)),
        (changed(3, operator(0x32)), Refusal::at(10, 3)),
        (changed(15, operator(0x35)), Refusal::at(10, 15)),
        (changed(16, operator(0x35)), Refusal::at(10, 16)),
        (changed(16, REFERENCE), Refusal::at(10, 17)),
        (changed(0, INSTANCE)[..24].to_vec(), Refusal::of(7)),
        (changed(0, INSTANCE), Refusal::of(7)),
        (with_nots(large.clone(), 7), Refusal::of(8)),
        (with_nots(large, 17), Refusal::of(8)),
    ]
}

/// 9, 10, 7 and 8 come before 26, and before 11, with either profile.
pub fn others_before_26<C: Driven>() {
    for (frames, expected) in refused_frames() {
        for (w, words) in [
            (1, 32),
            (32, 32 * 32),
            (33, 32 * 33),
            (33, 32 * 33 - 1),
            (256, 32 * 256),
            (257, 32 * 257),
            (0, 0),
        ] {
            for profile in [Desk, Board] {
                let seen = refusal::<C>(profile, &frames, w, words);
                assert_eq!(seen, Some(expected), "W {w}, {words} words, {frames:?}");
            }
        }
    }
}

/// The state of a checker after one line and one verdict.
fn after_a_line<C: Driven>(profile: Profile, frames: &[u8], w: u32) -> State {
    let mut checker = C::of_frames(profile, frames, w);
    assert_eq!(checker.feed(&line(0, [9; 4])), Fed::Accepted);
    assert!(matches!(checker.pull(&mut [0; 166]), Pulled::Verdict(_)));
    checker.state().clone()
}

/// What the three calls make of a state, with right arguments: they go on, or they refuse it with 12, whatever the window. Either way
/// the state keeps its profile.
#[track_caller]
fn passes<C: Driven>(state: &State, expected: bool) {
    let words = 32 * state.w as usize;
    let [right, other] = if expected { [0, 13] } else { [12, 12] };
    assert_eq!(number::<C>(state, words), right);
    assert_eq!(number::<C>(state, words + 1), other);
    assert_eq!(number::<C>(state, 0), other);
    let mut checker = C::summed(state.clone(), vec![1; words]);
    let before = checker.state().clone();
    let fed = checker.feed(&line(0, [9; 4]));
    assert_eq!(checker.state().profile, state.profile);
    let pulled = checker.pull(&mut [0; 166]);
    assert_eq!(checker.state().profile, state.profile);
    let charged = checker.charge(&example());
    if expected {
        assert_eq!(fed, Fed::Accepted);
        assert!(matches!(pulled, Pulled::Verdict(_)), "{pulled:?}");
        assert!(charged.is_ok(), "{charged:?}");
        assert_eq!(checker.state().counts[0], state.counts[0] + 1);
        assert_eq!(checker.state().p, state.p + 1);
    } else {
        let twelve = Refusal::of(12);
        assert_eq!(fed, Fed::Refused(twelve));
        assert_eq!(pulled, Pulled::Refused(twelve));
        assert_eq!(charged, Err(twelve));
        assert_eq!(*checker.state(), before);
        assert!(checker.window().iter().all(|word| *word == 1));
    }
}

/// Numbers of no profile.
const NO_PROFILE: [u32; 9] = [2, 3, 128, 255, 256, 257, 1 << 31, (1 << 31) + 1, u32::MAX];

/// A desk's state, fresh or not, with other numbers for its profile. As a board's it passes where W and frames are within the
/// board's limits.
pub fn states_of_a_desk<C: Driven>() {
    for w in [1, 2, 31, 32, 33, 34, 64, 256] {
        for frames in [3, 15, 16, 17, 18, 64] {
            for rule in [short_sum(frames), long_sum(frames)] {
                let fresh = C::of_frames(Desk, &rule, w).state().clone();
                for state in [fresh, after_a_line::<C>(Desk, &rule, w)] {
                    passes::<C>(&state, true);
                    passes::<C>(&with_profile(&state, 1), w <= 32 && frames <= 16);
                    for profile in NO_PROFILE {
                        passes::<C>(&with_profile(&state, profile), false);
                    }
                }
            }
        }
    }
}

/// A board's state, fresh or not, passes as a desk's too. A wider W and a frame more are above its limits, and not above the desk's.
pub fn states_of_a_board<C: Driven>() {
    for w in [1, 2, 31, 32] {
        for frames in [3, 15, 16] {
            for rule in [short_sum(frames), long_sum(frames)] {
                let fresh = C::of_frames(Board, &rule, w).state().clone();
                for state in [fresh, after_a_line::<C>(Board, &rule, w)] {
                    assert_eq!(state.profile, 1);
                    passes::<C>(&state, true);
                    passes::<C>(&with_profile(&state, 0), true);
                    for profile in NO_PROFILE {
                        passes::<C>(&with_profile(&state, profile), false);
                    }
                    changed_beyond::<C>(&state);
                }
            }
        }
    }
}

/// Such a state with another W, and with more frames.
fn changed_beyond<C: Driven>(state: &State) {
    for w in [state.w, 32, 33, 256] {
        let wider = State { w, ..state.clone() };
        passes::<C>(&wider, w <= 32);
        passes::<C>(&with_profile(&wider, 0), true);
    }
    let end = 8 * state.len as usize;
    let mut longer = state.clone();
    for frame in longer.frames[end..].chunks_mut(8) {
        frame.copy_from_slice(&operator(0x31));
    }
    // Bytes after the last frame are not looked at: they are no frames.
    passes::<C>(&longer, true);
    for len in [state.len + 1, 16, 17, 64] {
        longer.len = len;
        passes::<C>(&longer, len <= 16);
        passes::<C>(&with_profile(&longer, 0), true);
    }
}

/// Each answer of feeding and pulling, refused or not, leaves the profile.
pub fn no_call_changes_the_profile<C: Driven>() {
    let good = |event: u8, note: i32| line(event, [note, 0, 0, 0]);
    let text = b"events a b; notes t; t(a[i]) > t(b[i]) && t(b[i-1]) >= 0";
    let frames = C::frames_of(text).expect("the text is read");
    for (profile, told) in [(Desk, 0), (Board, 1)] {
        let mut checker = C::of_frames(profile, &frames, 1);
        let feeds = |checker: &mut C, line: &[u8], expected: Fed| {
            assert_eq!(checker.feed(line), expected);
            assert_eq!(checker.state().profile, told, "{expected:?}");
        };
        let pulls = |checker: &mut C, length: usize, expected: Pulled| {
            assert_eq!(checker.pull(&mut vec![0; length]), expected);
            assert_eq!(checker.state().profile, told, "{expected:?}");
        };
        let bad_line = Fed::Refused(Refusal::at(15, 33));
        pulls(&mut checker, 166, Pulled::Waiting);
        feeds(&mut checker, &good(0, 7), Fed::Accepted);
        feeds(&mut checker, &good(0, 7), FULL);
        feeds(&mut checker, &good(0, 7)[..33], bad_line);
        feeds(&mut checker, &good(9, 7), Fed::Ignored);
        pulls(&mut checker, 165, Pulled::Refused(Refusal::of(14)));
        feeds(&mut checker, &good(1, 6), Fed::Accepted);
        // b[-1] is void, then b[1] is pending.
        pulls(&mut checker, 166, UNKNOWN);
        feeds(&mut checker, &good(0, -1), Fed::Accepted);
        pulls(&mut checker, 166, Pulled::Waiting);
        the_other_answers::<C>(profile, told);
    }
}

/// True, false, 16 and 13.
fn the_other_answers<C: Driven>(profile: Profile, told: u32) {
    let mut checker = C::of_frames(profile, &short_sum(3), 1);
    for (note, expected) in [(9, TRUE), (1, FALSE)] {
        assert_eq!(checker.feed(&line(0, [note; 4])), Fed::Accepted);
        assert_eq!(checker.pull(&mut [0; 166]), expected);
        assert_eq!(checker.state().profile, told, "{expected:?}");
    }
    let mut state = checker.state().clone();
    (state.counts[0], state.p, state.totals.held) = (1_000_000, 1_000_000, 999_999);
    let mut last = C::summed(state.clone(), vec![0; 32]);
    state = last.state().clone();
    assert_eq!(last.feed(&line(0, [1; 4])), Fed::Refused(Refusal::of(16)));
    assert_eq!(*last.state(), state);
    assert_eq!(number::<C>(&state, 33), 13);
}

/// One rule, one W and one list of calls, at a desk and on a board: answers, reports and windows are equal, and the states but for
/// the profile.
pub fn answers_as_a_desk<C: Driven>() {
    let mut seen = Seen::default();
    // Rules of 16 frames, and W 32.
    let (mut longest, mut widest) = (0, 0);
    for seed in 0..500 {
        let random = &mut Random::new(seed + 440_000_000);
        let frames = board_frames(random);
        let w = width(random, Board);
        longest += usize::from(frames.len() == 8 * 16);
        widest += usize::from(w == 32);
        let [mut desk, mut board] = [Desk, Board].map(|profile| C::of_frames(profile, &frames, w));
        let events = events(desk.machine());
        for _ in 0..150 {
            match random.below(9) {
                0..=3 => {
                    let line = random_line(random, &events);
                    let answer = board.feed(&line);
                    assert_eq!(answer, desk.feed(&line), "seed {seed}");
                    seen.fed(answer);
                }
                4..=7 => {
                    let length = random.pick(&[166, 166, 166, 166, 200, 165, 0]);
                    let [mut one, mut other] = [0; 2].map(|_| vec![seed as u8; length]);
                    let answer = board.pull(&mut one);
                    assert_eq!(answer, desk.pull(&mut other), "seed {seed}");
                    assert!(one == other, "seed {seed}: the reports differ");
                    seen.pulled(answer);
                }
                _ => {
                    let answer = board.charge(&example());
                    assert_eq!(answer, desk.charge(&example()), "seed {seed}");
                    seen.charged(answer);
                }
            }
            as_a_desk(desk.state(), board.state());
            assert!(desk.window() == board.window(), "seed {seed}");
        }
    }
    // Accepted, ignored, 15, 17; three verdicts, waiting, 14; cents.
    seen.more_than(10, 500);
    assert!(longest > 10 && widest > 100, "{longest} {widest}");
}
