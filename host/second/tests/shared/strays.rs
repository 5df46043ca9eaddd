//! A window that somebody wrote into, by any checker: 27, what it comes before and after, and how the sum goes with the window.

use super::driven::{Driven, FALSE, FULL, STRAY, TRUE};
use super::log::{line, random_line};
use super::random::Random;
use super::seen::Seen;
use super::tariff::example;
use dillplatter_second::Profile::{self, Board, Desk};
use dillplatter_second::{Fed, Pulled, Refusal, State};

/// The rule of the script: h has a factor of 2.
const RULE: &str = "events a b c d e f g h; notes q r s t; t(a[i]) - q(h[2*i]) <= 25";

/// The sum of a window's words in a way of its own: with their signs, and the remainder at the end.
pub fn signed_sum(window: &[i32]) -> u32 {
    let whole: i64 = window.iter().copied().map(i64::from).sum();
    whole.rem_euclid(1 << 32) as u32
}

/// A call with its answer.
enum Step {
    Feed(Vec<u8>, Fed),
    Pull(usize, Pulled),
}

impl Step {
    /// Makes the call; what it left of the report buffer.
    #[track_caller]
    fn make<C: Driven>(&self, checker: &mut C) -> Vec<u8> {
        let mut report = Vec::new();
        match self {
            Step::Feed(line, answer) => assert_eq!(checker.feed(line), *answer),
            Step::Pull(length, answer) => {
                report = vec![0xA5; *length];
                assert_eq!(checker.pull(&mut report), *answer);
            }
        }
        report
    }
}

/// A list of calls for the rule and W 3, with each kind of answer.
fn script() -> Vec<Step> {
    let a = |t: i32, answer| Step::Feed(line(0, [-1, i32::MIN, 7, t]), answer);
    let h = |q: i32| Step::Feed(line(7, [q, i32::MAX, -9, 1]), Fed::Accepted);
    let bad_line = Fed::Refused(Refusal::at(15, 33));
    let short = Pulled::Refused(Refusal::of(14));
    vec![
        Step::Pull(166, Pulled::Waiting),
        a(40, Fed::Accepted),
        Step::Feed(line(3, [8; 4]), Fed::Ignored),
        h(10),
        Step::Pull(166, FALSE),
        // h[1] comes below base 2 and is not stored.
        h(11),
        h(-12),
        a(13, Fed::Accepted),
        a(-14, Fed::Accepted),
        a(0, Fed::Accepted),
        a(15, FULL),
        Step::Pull(200, TRUE),
        // The pull made room; a[4] goes where a[1] was.
        a(16, Fed::Accepted),
        Step::Feed(line(0, [1; 4])[..33].to_vec(), bad_line),
        Step::Pull(165, short),
        Step::Pull(166, Pulled::Waiting),
    ]
}

/// A checker for the script.
#[track_caller]
fn opened<C: Driven>(profile: Profile) -> C {
    let frames = C::frames_of(RULE.as_bytes()).expect("the text is read");
    C::of_frames(profile, &frames, 3)
}

/// Lines that are good, ignored and bad.
fn lines() -> [Vec<u8>; 9] {
    let good = line(0, [1, -2, 3, 4]);
    [
        line(7, [-1, 0, 0, 0]),
        line(0, [0; 4]),
        line(3, [5; 4]),
        line(0xFF, [5; 4]),
        good[..33].to_vec(),
        [&good[..], b"0"].concat(),
        [b"g", &good[1..]].concat(),
        good,
        Vec::new(),
    ]
}

/// Lengths of report buffers, long enough or not.
const LENGTHS: [usize; 5] = [166, 200, 167, 165, 0];

/// Each feed and each pull is refused with 27, whatever it is given, and changes nothing.
#[track_caller]
fn refused<C: Driven>(checker: &mut C, lines: &[Vec<u8>]) {
    let state = checker.state().clone();
    let window = checker.window().to_vec();
    for line in lines {
        assert_eq!(checker.feed(line), Fed::Refused(STRAY));
        assert!(*checker.state() == state && *checker.window() == window[..]);
    }
    for length in LENGTHS {
        let mut report = vec![0xA5; length];
        assert_eq!(checker.pull(&mut report), Pulled::Refused(STRAY));
        assert!(report.iter().all(|byte| *byte == 0xA5));
        assert!(*checker.state() == state && *checker.window() == window[..]);
    }
}

/// Other values of a word.
fn others(word: i32) -> impl Iterator<Item = i32> {
    let all = [
        word.wrapping_add(1),
        word.wrapping_sub(1),
        word ^ i32::MIN,
        word ^ 1 << 16,
        0,
        i32::MIN,
        i32::MAX,
        !word,
    ];
    all.into_iter().filter(move |other| *other != word)
}

/// Each word changed in turn, by several values, before each call of the script and after the last: all calls are refused. With the
/// word put back the script goes on as in a checker whose window nobody wrote into.
pub fn every_word_at_every_moment<C: Driven>(profile: Profile) {
    let [mut checker, mut left_alone] = [0; 2].map(|_| opened::<C>(profile));
    let lines = lines();
    let steps = script();
    for step in steps.iter().map(Some).chain([None]) {
        for word in 0..96 {
            let left = checker.window()[word];
            for value in others(left) {
                checker.write(word, value);
                refused(&mut checker, &lines);
            }
            checker.write(word, left);
        }
        let Some(step) = step else { break };
        assert_eq!(step.make(&mut checker), step.make(&mut left_alone));
        assert_eq!(checker.state(), left_alone.state());
        assert_eq!(checker.window(), left_alone.window());
    }
}

/// The sum is that of the window before and after each call of the script, and only a line that is stored changes it.
pub fn only_a_stored_line_changes_the_sum<C: Driven>() {
    let mut checker: C = opened(Desk);
    assert_eq!(checker.state().sum, 0);
    let mut changes = Vec::new();
    for (k, step) in script().into_iter().enumerate() {
        let before = checker.state().sum;
        step.make(&mut checker);
        let after = checker.state().sum;
        assert_eq!(after, signed_sum(checker.window()), "step {k}");
        if after != before {
            assert!(matches!(step, Step::Feed(_, Fed::Accepted)), "step {k}");
            changes.push(k);
        }
    }
    assert_eq!(changes, [1, 3, 6, 7, 8, 9, 12]);
}

/// A checker of the latency rule with W 1, after a line of each event. Its words 0 and 4 have the notes of the rule.
fn latency<C: Driven>() -> C {
    let mut checker = C::of_text("events in out; notes t; t(out[i]) - t(in[i]) <= 25", 1);
    for (event, t) in [(0, 10), (1, 35)] {
        assert_eq!(checker.feed(&line(event, [t, -1, 6, 9])), Fed::Accepted);
    }
    checker
}

/// Every two words of a window of W 1, changed so that the sum stays: the call passes and sees the changed words, so that a verdict
/// may be wrong.
pub fn two_words_that_keep_the_sum<C: Driven>() {
    let (mut right, mut wrong) = (0, 0);
    for one in 0..32 {
        for other in (0..32).filter(|other| *other != one) {
            for more in [1, -20, i32::MIN, 0x1234_5678] {
                let mut checker: C = latency();
                let [a, b] = [one, other].map(|word| checker.window()[word]);
                checker.write(one, a.wrapping_add(more));
                // One of the two alone is refused.
                refused(&mut checker, &lines()[..1]);
                checker.write(other, b.wrapping_sub(more));
                let notes = [0, 4].map(|word| i64::from(checker.window()[word]));
                let holds = notes[1] - notes[0] <= 25;
                let answer = checker.pull(&mut [0; 166]);
                assert_eq!(answer, if holds { TRUE } else { FALSE });
                assert_eq!(checker.feed(&line(0, [7; 4])), Fed::Accepted);
                assert_eq!(checker.state().sum, signed_sum(checker.window()));
                *(if holds { &mut right } else { &mut wrong }) += 1;
            }
        }
    }
    assert!(right > 3_000 && wrong > 100, "{right} {wrong}");
}

/// Any two words changing places, and three words changed so that the sum stays, pass too.
pub fn words_that_change_places<C: Driven>() {
    let mut passed = 0;
    for seed in 0..300 {
        let random = &mut Random::new(seed + 500_000_000);
        let mut checker: C = latency();
        let [one, other, third] = [0; 3].map(|_: usize| random.below(32));
        let [a, b, c] = [one, other, third].map(|word| checker.window()[word]);
        checker.write(one, b);
        checker.write(other, a);
        if one != third && other != third && random.once_in(2) {
            let more = random.below(1 << 32) as u32 as i32;
            checker.write(third, c.wrapping_add(more));
            let changed = checker.window()[one].wrapping_sub(more);
            checker.write(one, changed);
        }
        assert_eq!(checker.feed(&line(9, [0; 4])), Fed::Ignored, "seed {seed}");
        let answer = checker.pull(&mut [0; 166]);
        assert!(matches!(answer, Pulled::Verdict(_)), "seed {seed}");
        passed += usize::from(a != b);
    }
    assert!(passed > 100, "{passed}");
}

/// Other sums, with the window as the calls of the script left it: feeding and pulling refuse them, charging does not look at them.
pub fn other_sums<C: Driven>() {
    for profile in [Desk, Board] {
        let mut checker: C = opened(profile);
        let steps = script();
        for step in steps.iter().map(Some).chain([None]) {
            let right = checker.state().sum;
            let charged = checker.charge(&example());
            assert!(charged.is_ok());
            let near = [right.wrapping_add(1), right.wrapping_sub(1), !right];
            let far = [right ^ 1 << 31, right ^ 1 << 16, 0, 1, 1 << 31, u32::MAX];
            for sum in near.into_iter().chain(far).filter(|sum| *sum != right) {
                let state = State {
                    sum,
                    ..checker.state().clone()
                };
                let mut other = C::forged(state, checker.window().to_vec());
                refused(&mut other, &lines());
                assert_eq!(other.charge(&example()), charged);
            }
            let Some(step) = step else { break };
            step.make(&mut checker);
        }
    }
}

/// States that 12 refuses, by one change of a right one.
const WRONG: [fn(&mut State); 9] = [
    |state| state.len = 0,
    |state| state.frames[0] = 0xFF,
    |state| state.w = 0,
    |state| state.w = 257,
    |state| state.profile = 2,
    |state| state.counts[1] = 1,
    |state| state.counts[0] = 1_000_001,
    |state| state.p += 1,
    |state| state.totals.unknown = u32::MAX,
];

/// What feeding a line answers, and what pulling with a buffer, where none of 12, 13 and 27 refuses.
type Own = (Vec<(Vec<u8>, Fed)>, Vec<(usize, Pulled)>);

/// A state with W 1 whose window is full, with its own answers.
fn full<C: Driven>(profile: Profile) -> (State, Own) {
    let frames = C::frames_of(b"events a b; notes t; t(a[i]) > 0");
    let mut checker = C::of_frames(profile, &frames.expect("the text is read"), 1);
    let good = line(0, [1; 4]);
    assert_eq!(checker.feed(&good), Fed::Accepted);
    let fed = vec![
        (good[..33].to_vec(), Fed::Refused(Refusal::at(15, 33))),
        (Vec::new(), Fed::Refused(Refusal::at(15, 0))),
        (line(2, [1; 4]), Fed::Ignored),
        (good, FULL),
    ];
    let pulled = vec![(165, Pulled::Refused(Refusal::of(14))), (166, TRUE)];
    (checker.state().clone(), (fed, pulled))
}

/// The same after all lines of the event.
fn last<C: Driven>(profile: Profile) -> (State, Own) {
    let (mut state, (mut fed, mut pulled)) = full::<C>(profile);
    (state.counts[0], state.p, state.totals.held) = (1_000_000, 1_000_000, 1_000_000);
    fed[3].1 = Fed::Refused(Refusal::of(16));
    pulled[1].1 = Pulled::Waiting;
    (state, (fed, pulled))
}

/// 12, 13 and 27 come in this order, and before what a call says of its own arguments: each of them, every two and all three hold,
/// or none.
pub fn order<C: Driven>() {
    // How often 12, 13, 27 and none of them came.
    let mut seen = [0; 4];
    for profile in [Desk, Board] {
        for (right, own) in [full::<C>(profile), last::<C>(profile)] {
            for wrong in WRONG.into_iter().map(Some).chain([None]) {
                let mut state = right.clone();
                wrong.into_iter().for_each(|change| change(&mut state));
                for words in [32, 31, 33, 64, 0] {
                    for off in [0, 1, 1 << 31, u32::MAX] {
                        let all = [(wrong.is_some(), 12), (words != 32, 13), (off != 0, 27)];
                        let first = all.iter().position(|(holds, _)| *holds);
                        seen[first.unwrap_or(3)] += 1;
                        let barred = first.map(|first| Refusal::of(all[first].1));
                        state.sum = signed_sum(&vec![5; words]).wrapping_add(off);
                        answers::<C>(&state, words, &own, barred);
                    }
                }
            }
        }
    }
    assert_eq!(seen, [4 * 180, 4 * 16, 4 * 3, 4]);
}

/// What feeding and pulling answer with a window of so many times 5: the refusal if there is one, else their own.
#[track_caller]
fn answers<C: Driven>(state: &State, words: usize, own: &Own, barred: Option<Refusal>) {
    let checker = || C::forged(state.clone(), vec![5; words]);
    for (line, answer) in &own.0 {
        let expected = barred.map_or(*answer, Fed::Refused);
        assert_eq!(checker().feed(line), expected, "{words} words");
    }
    for (length, answer) in &own.1 {
        let expected = barred.map_or(*answer, Pulled::Refused);
        assert_eq!(checker().pull(&mut vec![0; *length]), expected);
    }
    let charged = checker().charge(&example()).err();
    assert_eq!(charged, barred.filter(|barred| barred.number == 12));
}

/// A rule that sees a note of the first and one of the last event.
const ENDS: &str = "events a b c d e f g h; notes q r s t; q(a[i]) >= t(h[i])";

/// Windows whose bits add up past 2^32, mostly many times; the first has not one turn.
fn windows(w: u32) -> Vec<Vec<i32>> {
    let words = 32 * w as usize;
    let random = &mut Random::new(u64::from(w) + 510_000_000);
    let taking_turns = |ends: [i32; 2]| ends.into_iter().cycle().take(words).collect();
    let any = (0..words).map(|_| random.below(1 << 32) as u32 as i32);
    vec![
        vec![1; words],
        vec![-1; words],
        vec![i32::MIN; words],
        vec![i32::MAX; words],
        taking_turns([i32::MIN, -1]),
        taking_turns([i32::MAX, 1]),
        taking_turns([i32::MIN, i32::MAX]),
        taking_turns([0x5555_5555, -0x5555_5556]),
        any.collect(),
    ]
}

/// Windows of W 1, 3, 32 and 256 whose sums come round: the remainder passes, and no other sum.
pub fn sums_that_come_round<C: Driven>() {
    for w in [1, 3, 32, 256] {
        let fresh = C::of_text(ENDS, w).state().clone();
        for (k, window) in windows(w).into_iter().enumerate() {
            let bits: u64 = window.iter().map(|word| u64::from(*word as u32)).sum();
            let (turns, sum) = ((bits >> 32) as u32, signed_sum(&window));
            assert_eq!(turns >= 8, k > 0, "W {w}, window {k}: {turns} turns");
            let with = |sum| {
                C::forged(
                    State {
                        sum,
                        ..fresh.clone()
                    },
                    window.clone(),
                )
            };
            let mut checker = with(sum);
            assert_eq!(checker.pull(&mut [0; 166]), Pulled::Waiting);
            assert_eq!(checker.feed(&line(0, [-3; 4])), Fed::Accepted);
            assert_eq!(checker.feed(&line(7, [i32::MIN; 4])), Fed::Accepted);
            assert_eq!(checker.state().sum, signed_sum(checker.window()));
            assert_eq!(checker.pull(&mut [0; 166]), TRUE, "W {w}, window {k}");
            let near = [sum.wrapping_add(1), sum.wrapping_sub(1), sum ^ 1 << 31];
            let far = [
                turns,
                sum.wrapping_add(turns),
                sum >> 1,
                sum & 0xFFFF,
                u32::MAX,
            ];
            for other in near.into_iter().chain(far).filter(|other| *other != sum) {
                refused(&mut with(other), &lines()[..1]);
            }
        }
    }
}

/// Lines of large and of negative notes: the rings of the first and the last event are filled four times and freed each time, for W 1
/// and 256. The sum is that of the window after each line.
pub fn lines_whose_sums_come_round<C: Driven>() {
    for w in [1, 256] {
        let mut checker = C::of_text(ENDS, w);
        let mut below = 0;
        for notes in [[-1; 4], [i32::MIN, -2, i32::MAX, -1], [3; 4], [-1; 4]] {
            for event in [0, 7] {
                for _ in 0..w {
                    let before = checker.state().sum;
                    assert_eq!(checker.feed(&line(event, notes)), Fed::Accepted);
                    let after = checker.state().sum;
                    assert_eq!(after, signed_sum(checker.window()), "W {w}");
                    below += usize::from(after < before);
                }
                assert_eq!(checker.feed(&line(event, notes)), FULL);
            }
            let sum = checker.state().sum;
            for _ in 0..w {
                let answer = checker.pull(&mut [0; 166]);
                assert!(matches!(answer, Pulled::Verdict(_)), "W {w}");
            }
            assert_eq!(checker.pull(&mut [0; 166]), Pulled::Waiting);
            assert_eq!(checker.state().sum, sum);
        }
        // Every word of two events is -1, so the sum is 8 x W below a turn.
        assert_eq!(checker.state().sum, 0_u32.wrapping_sub(8 * w));
        assert!(below >= w as usize, "{below}");
    }
}

/// A random call; its answer is counted.
fn call<C: Driven>(random: &mut Random, checker: &mut C, events: &[usize], seen: &mut Seen) {
    if random.once_in(2) {
        seen.fed(checker.feed(&random_line(random, events)));
    } else {
        let length = random.pick(&[166, 166, 166, 200, 165, 0]);
        seen.pulled(checker.pull(&mut vec![0xA5; length]));
    }
}

/// Changes some words of a window, 2 to 5 of them, or fewer that differ; in half of the cases so that the sum stays.
fn several(random: &mut Random, window: &mut [i32]) {
    let sum = signed_sum(window);
    let mut word = 0;
    for _ in 0..2 + random.below(4) {
        word = random.below(window.len());
        let any = random.below(1 << 32) as u32 as i32;
        window[word] = random.pick(&[any, any, 0, 1, -1, i32::MIN, i32::MAX]);
    }
    if random.once_in(2) {
        let more = signed_sum(window).wrapping_sub(sum);
        window[word] = window[word].wrapping_sub(more as i32);
    }
}

/// Somebody writes into the window within a list of calls; the answers are counted. With one strange word each call is refused with
/// 27, and with the word put back the list goes on. With several a copy of the checker goes on as far as it does.
pub fn stray<C: Driven>(random: &mut Random, checker: &mut C, events: &[usize], seen: &mut Seen) {
    if random.once_in(2) {
        let word = random.below(checker.window().len());
        let left = checker.window()[word];
        let others: Vec<i32> = others(left).collect();
        checker.write(word, random.pick(&others));
        let line = random_line(random, events);
        let fed = checker.feed(&line);
        let length = random.pick(&LENGTHS);
        let pulled = checker.pull(&mut vec![0xA5; length]);
        assert_eq!((fed, pulled), (Fed::Refused(STRAY), Pulled::Refused(STRAY)));
        seen.fed(fed);
        seen.pulled(pulled);
        checker.write(word, left);
    } else {
        let mut window = checker.window().to_vec();
        several(random, &mut window);
        let passes = signed_sum(&window) == checker.state().sum;
        let mut copy = C::forged(checker.state().clone(), window);
        let refused = copy.feed(&line(9, [0; 4])) == Fed::Refused(STRAY);
        assert_eq!(refused, !passes);
        for _ in 0..4 {
            call(random, &mut copy, events, seen);
        }
    }
}
