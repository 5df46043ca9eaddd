//! Where verdicts begin, by any checker: the first i with a reference that isn't void.

use super::driven::{Driven, FALSE};
use super::forged::number;
use super::log::line;
use dillplatter_second::frames::{check, Reference};
use dillplatter_second::{Fed, Pulled, State, Totals};

/// Conditions with their start.
const STARTS: [(&str, u32); 28] = [
    ("t(a[i]) > 0", 0),
    ("t(a[i+1]) > 0", 0),
    ("t(a[9*i+3]) > 0", 0),
    ("t(a[i-0]) > 0", 0),
    ("t(a[i-1]) > 0", 1),
    ("t(a[i-2]) > 0", 2),
    ("t(a[2*i-1]) > 0", 1),
    ("t(a[2*i-2]) > 0", 1),
    ("t(a[2*i-3]) > 0", 2),
    ("t(a[2*i-4]) > 0", 2),
    ("t(a[2*i-5]) > 0", 3),
    ("t(a[9*i-1]) > 0", 1),
    ("t(a[9*i-9]) > 0", 1),
    ("t(a[9*i-10]) > 0", 2),
    ("t(a[i-9999]) > 0", 9_999),
    ("t(a[i-9998]) > 0", 9_998),
    ("t(a[2*i-9999]) > 0", 5_000),
    ("t(a[7*i-9999]) > 0", 1_429),
    ("t(a[8*i-9999]) > 0", 1_250),
    ("t(a[9*i-9999]) > 0", 1_111),
    ("t(a[9*i-9998]) > 0", 1_111),
    ("t(a[9*i-9990]) > 0", 1_110),
    ("t(a[i-5]) > 0 || t(b[i-2]) > 0", 2),
    ("t(a[i-2]) > 0 || t(b[i-5]) > 0", 2),
    ("t(a[i-5]) > 0 && t(a[2*i-8]) > 0", 4),
    ("t(a[i-9999]) > 0 -> t(b[3*i-7]) > t(b[i-9])", 3),
    ("t(a[i-9999]) > t(b[i])", 0),
    ("t(b[i+9]) > t(a[i-4])", 0),
];

fn text(condition: &str) -> String {
    format!("events a b; notes t; {condition}")
}

/// The start of some references, by division: -offset / factor rounded up, and the smallest of these.
pub fn by_division(references: &[Reference]) -> u32 {
    let start = |reference: &Reference| match reference.offset {
        0.. => 0,
        offset => (-offset + reference.factor - 1) / reference.factor,
    };
    let smallest = references.iter().map(start).min();
    smallest.expect("a rule has a reference") as u32
}

/// The start of a state's rule, which opening takes.
pub fn start_of(state: &State) -> u32 {
    let frames = &state.frames[..8 * state.len as usize];
    by_division(&check(frames).expect("the frames open").references)
}

/// A fresh checker is at the start and has no totals.
pub fn opened_at_the_start<C: Driven>() {
    for (condition, start) in STARTS {
        for w in [1, 4, 256] {
            let checker = C::of_text(&text(condition), w);
            let state = checker.state();
            assert_eq!(state.p, start, "{condition}");
            assert_eq!((state.counts, state.totals), ([0; 8], Totals::default()));
            assert_eq!(start_of(state), start, "{condition}");
        }
    }
}

/// Of 32 references the one that begins first decides, wherever it stands.
pub fn the_first_of_32_references<C: Driven>() {
    for place in 0..32 {
        for (first, others, start) in [
            ("t(b[i-4])", "t(a[i-9])", 4),
            ("t(b[2*i-9])", "t(a[i-6])", 5),
            ("t(b[i-9998])", "t(a[i-9999])", 9_998),
            ("t(b[i])", "t(a[i-9999])", 0),
        ] {
            let mut references = [others; 32];
            references[place] = first;
            let (left, right) = references.split_at(16);
            let condition = format!("{} > {}", left.join("+"), right.join("-"));
            let checker = C::of_text(&text(&condition), 1);
            assert_eq!(checker.state().p, start, "{first} at {place}");
        }
    }
}

/// Without a line there is no verdict: each pull answers waiting and changes nothing.
pub fn waiting_without_a_line<C: Driven>() {
    for (condition, start) in STARTS {
        // The first is false and the second true where nothing is present.
        for condition in [
            format!("i < 0 && {{{condition}}}"),
            format!("i >= 0 || {{{condition}}}"),
            condition.into(),
        ] {
            let mut checker = C::of_text(&text(&condition), 4);
            let fresh = checker.state().clone();
            assert_eq!(fresh.p, start, "{condition}");
            let mut report = [0xA5; 166];
            for _ in 0..3 {
                assert_eq!(checker.pull(&mut report), Pulled::Waiting, "{condition}");
                assert_eq!(checker.feed(&line(2, [1; 4])), Fed::Ignored);
            }
            assert_eq!(report, [0xA5; 166]);
            assert_eq!(*checker.state(), fresh, "{condition}");
        }
    }
}

/// The first verdict is that of the start, and its report says so; the next is that of the instance after it.
pub fn first_report_is_that_of_the_start<C: Driven>() {
    for (condition, start) in STARTS {
        // It is false where a reference is present.
        let condition = format!("i < 0 && {{{condition}}}");
        let mut checker = C::of_text(&text(&condition), 16);
        for i in [start, start + 1] {
            let mut report = [0xA5; 166];
            let mut lines = 0;
            let answer = loop {
                match checker.pull(&mut report) {
                    Pulled::Waiting if lines < 20 => lines += 1,
                    other => break other,
                }
                for event in [0, 1] {
                    checker.feed(&line(event, [7; 4]));
                }
            };
            assert_eq!(answer, FALSE, "{condition}");
            assert_eq!(report[..4], i.to_be_bytes(), "{condition}");
        }
        let state = checker.state();
        assert_eq!((state.p, state.totals.failed), (start + 2, 2));
    }
}

/// A state of a rule with some p and some totals, true, false and unknown.
fn state<C: Driven>(condition: &str, p: u32, totals: [u32; 3]) -> State {
    let [held, failed, unknown] = totals;
    State {
        p,
        totals: Totals {
            held,
            failed,
            unknown,
        },
        ..C::of_text(&text(condition), 1).state().clone()
    }
}

/// The three totals that have a sum in one of them, and nothing in the others.
fn alone(sum: u32) -> [[u32; 3]; 3] {
    [[sum, 0, 0], [0, sum, 0], [0, 0, sum]]
}

/// 12 refuses a p below the start, whatever the totals: those of a fresh state, some that sum to p, and one that p less the start
/// comes round to.
pub fn p_below_the_start<C: Driven>() {
    for (condition, start) in STARTS {
        let number = |p, totals| number::<C>(&state::<C>(condition, p, totals), 32);
        assert_eq!(number(start, [0; 3]), 0, "{condition}");
        for below in [1, 2, start / 2, start] {
            let (Some(p), 1..) = (start.checked_sub(below), below) else {
                continue;
            };
            assert_eq!(number(p, [0; 3]), 12, "{condition}, p {p}");
            for totals in alone(p).into_iter().chain(alone(0_u32.wrapping_sub(below))) {
                assert_eq!(number(p, totals), 12, "{condition}, p {p}, {totals:?}");
            }
        }
    }
}

/// 12 refuses totals that do not sum to p less the start.
pub fn totals_sum_to_p_less_the_start<C: Driven>() {
    for (condition, start) in STARTS {
        let number = |p, totals| number::<C>(&state::<C>(condition, p, totals), 32);
        assert_eq!(number(start, [0; 3]), 0, "{condition}");
        for p in [start, start + 1, start + 7, 1_009_999] {
            let sum = p - start;
            let fit = alone(sum).into_iter().chain([[sum / 2, 0, sum - sum / 2]]);
            for totals in fit {
                assert_eq!(number(p, totals), 0, "{condition}, p {p}, {totals:?}");
            }
            // One more, one less, and p itself.
            let one_less = sum.checked_sub(1);
            let others = [Some(sum + 1), one_less, (start > 0).then_some(p)];
            for totals in others.into_iter().flatten().flat_map(alone) {
                assert_eq!(number(p, totals), 12, "{condition}, p {p}, {totals:?}");
            }
            // The sum comes round to p less the start, once and twice.
            let most = u32::MAX;
            for totals in [
                [most, sum + 1, 0],
                [0, most, sum + 1],
                [sum + 1, 0, most],
                [1 << 31, sum, 1 << 31],
                [most, sum + 2, most],
            ] {
                assert_eq!(number(p, totals), 12, "{condition}, p {p}, {totals:?}");
            }
        }
        // The limit of p is as it was, whatever the start.
        for p in [1_010_000, u32::MAX] {
            for totals in alone(p - start) {
                assert_eq!(number(p, totals), 12, "{condition}, p {p}, {totals:?}");
            }
        }
    }
}
