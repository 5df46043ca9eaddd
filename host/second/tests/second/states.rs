//! States that a caller hands in: 12, 13, 27, and calls on them.

use crate::common::{feed_all, machine, pull, reads};
use crate::shared::log::line;
use dillplatter_second::{sum_of, Fed, Pulled, Refusal, State, Totals, Truth};

const RULE: &str = "events a b c; notes t; t(a[2*i+1]) > 0 || t(c[i-3]) > 0";

fn totals(held: u32, failed: u32, unknown: u32) -> Totals {
    Totals {
        held,
        failed,
        unknown,
    }
}

/// A state for a rule, with W, counts of a, b, c, and p; all verdicts before it held. All words of its window are 0.
fn state(rule: &str, w: u32, counts: [u32; 3], p: u32) -> State {
    let mut state = machine(rule, w).state(&[]);
    state.counts[..3].copy_from_slice(&counts);
    state.totals = totals(p - state.p, 0, 0);
    state.p = p;
    state
}

/// The number of the refusal that both calls give before they look at their own arguments, with a window of so many times 0.
fn number(state: &State, words: usize) -> Option<u8> {
    let mut window = vec![0; words];
    let refusal = state.refusal(&window);
    let fed = state.clone().feed(&mut window, b"");
    let pulled = state.clone().pull(&window, &mut []);
    match refusal {
        Some(refusal) => {
            assert_eq!(fed, Fed::Refused(refusal));
            assert_eq!(pulled, Pulled::Refused(refusal));
            assert_eq!(refusal.place, 0);
        }
        None => {
            assert_eq!(fed, Fed::Refused(Refusal::of(15)));
            assert_eq!(pulled, Pulled::Refused(Refusal::of(14)));
        }
    }
    refusal.map(|refusal| refusal.number)
}

#[test]
fn state_of_a_machine_passes() {
    let mut machine = machine(RULE, 4);
    assert_eq!(number(&machine.state(&[]), 128), None);
    feed_all(&mut machine, 0, &[1, 1, 1, 1]);
    assert_eq!(pull(&mut machine), Pulled::Verdict(Truth::True));
    assert_eq!(pull(&mut machine), Pulled::Verdict(Truth::True));
    assert_eq!(machine.state(&[]), state(RULE, 4, [4, 0, 0], 2));
    assert_eq!(number(&machine.state(&[]), 128), None);
}

#[test]
fn zero_state_is_refused() {
    assert_eq!(number(&State::zero(), 0), Some(12));
    assert_eq!(number(&State::zero(), 32), Some(12));
}

#[test]
fn frames_of_a_state() {
    let good = state(RULE, 4, [0, 0, 0], 0);
    assert_eq!(good.len, 7);
    for len in [0, 1, 6, 8, 64, 65, 1 << 29, (1 << 29) + 7, u32::MAX] {
        let forged = State {
            len,
            ..good.clone()
        };
        assert_eq!(number(&forged, 128), Some(12), "len {len}");
    }
    let mut forged = good.clone();
    forged.frames[3] = 10;
    assert_eq!(number(&forged, 128), Some(12));
    // Bytes after the last frame are not looked at.
    let mut forged = good.clone();
    forged.frames[56..].fill(0xFF);
    assert_eq!(number(&forged, 128), None);
    // No reference, and a magnitude.
    let mut forged = good.clone();
    for place in [0, 24] {
        forged.frames[place..place + 8].copy_from_slice(&[2, 0, 0, 0, 0, 0, 0, 0]);
    }
    assert_eq!(number(&forged, 128), Some(12));
    let over = "events a; notes t; t(a[i]) * t(a[i]) * 1 = 1";
    let mut forged = state(over, 4, [0, 0, 0], 0);
    assert_eq!(number(&forged, 128), None);
    forged.frames[31] = 2;
    assert_eq!(forged.frames[24..32], [1, 0, 0, 0, 0, 0, 0, 2]);
    assert_eq!(number(&forged, 128), Some(12));
}

#[test]
fn width_of_a_state() {
    for w in [0, 257, 1 << 27, u32::MAX] {
        let forged = State {
            w,
            ..state(RULE, 4, [0, 0, 0], 0)
        };
        assert_eq!(number(&forged, 0), Some(12), "W {w}");
        assert_eq!(number(&forged, 128), Some(12), "W {w}");
    }
}

#[test]
fn window_of_a_state() {
    for w in [1, 4, 256] {
        let good = state(RULE, w, [0, 0, 0], 0);
        let words = 32 * w as usize;
        assert_eq!(number(&good, words), None);
        for other in [0, words - 1, words + 1, 32 * 257] {
            assert_eq!(number(&good, other), Some(13), "W {w}, {other} words");
        }
    }
}

#[test]
fn totals_of_a_state() {
    let good = state(RULE, 4, [0, 0, 0], 7);
    let number = |totals| {
        let forged = State {
            totals,
            ..good.clone()
        };
        number(&forged, 128)
    };
    for (held, failed, unknown) in [(7, 0, 0), (0, 7, 0), (0, 0, 7), (1, 2, 4)] {
        assert_eq!(number(totals(held, failed, unknown)), None);
    }
    let wrapping = totals(u32::MAX, 7, 1);
    for totals in [totals(0, 0, 0), totals(7, 1, 0), totals(3, 3, 0), wrapping] {
        assert_eq!(number(totals), Some(12));
    }
}

#[test]
fn counts_of_a_state() {
    // Bases at p 7: a 15, c 4.
    let number = |counts| number(&state(RULE, 4, counts, 7), 128);
    assert_eq!(number([19, 0, 8]), None);
    assert_eq!(number([20, 0, 8]), Some(12));
    assert_eq!(number([19, 0, 9]), Some(12));
    assert_eq!(number([0, 1, 0]), Some(12));
    assert_eq!(number([u32::MAX, 0, 0]), Some(12));
    // The other five events are unreferenced too.
    for event in 3..8 {
        let mut forged = state(RULE, 4, [19, 0, 8], 7);
        forged.counts[event] = 1;
        assert_eq!(
            forged.refusal(&[0; 128]),
            Some(Refusal::of(12)),
            "event {event}"
        );
    }
}

#[test]
fn a_count_over_1_000_000() {
    // Base is far above.
    let number = |count| number(&state(RULE, 4, [count, 0, 0], 1_000_000), 128);
    assert_eq!(number(1_000_000), None);
    assert_eq!(number(1_000_001), Some(12));
}

#[test]
fn p_up_to_1_009_999() {
    // Verdicts begin at 9,999.
    let rule = "events a; notes t; t(a[i-9999]) > 0";
    let last = state(rule, 1, [1_000_000, 0, 0], 1_009_999);
    assert_eq!(last.totals, totals(1_000_000, 0, 0));
    assert_eq!(number(&last, 32), None);
    let more = state(rule, 1, [1_000_000, 0, 0], 1_010_000);
    assert_eq!(number(&more, 32), Some(12));
    let far = state(rule, 1, [0, 0, 0], u32::MAX);
    assert_eq!(number(&far, 32), Some(12));
    // The last instance that can be settled is 1,009,998.
    let mut window = vec![0; 32];
    window[0] = 5;
    let mut before = state(rule, 1, [1_000_000, 0, 0], 1_009_998);
    before.sum = 5;
    assert_eq!(
        before.pull(&window, &mut [0; 166]),
        Pulled::Verdict(Truth::True)
    );
    assert_eq!(before, State { sum: 5, ..last });
    assert_eq!(before.pull(&window, &mut [0; 166]), Pulled::Waiting);
    assert_eq!(
        before.feed(&mut window, &line(0, [1; 4])),
        Fed::Refused(Refusal::of(16))
    );
}

#[test]
fn a_pull_reads_the_window_that_it_is_given() {
    // Events a and b, W 3: a[4] in word (0 + 1) * 4 + 1, b[8] in word (3 + 2) * 4.
    let rule = "events a b; notes t u; u(a[i]) < t(b[2*i])";
    let mut forged = state(rule, 3, [5, 9, 0], 4);
    let mut window = vec![-7; 96];
    window[5] = 10;
    window[20] = 9;
    forged.sum = sum_of(&window);
    let mut report = [0xA5; 170];
    assert_eq!(
        forged.pull(&window, &mut report),
        Pulled::Verdict(Truth::False)
    );
    assert_eq!(
        report[..16],
        [0, 0, 0, 4, 0, 2, 0, 0, 0, 0, 10, 0, 0, 0, 0, 9]
    );
    assert_eq!(report[16..], [0xA5; 154]);
    assert_eq!((forged.p, forged.totals), (5, totals(4, 1, 0)));
}

#[test]
fn a_report_has_each_mark_and_value_at_its_place() {
    // Instance 9,998, which is 270E: a[9999] has come, b[10000] has not, and c[-1] is void.
    let rule = "events a b c; notes t; 0 > 0 && t(a[i+1]) + t(b[i+2]) > t(c[i-9999])";
    let mut forged = state(rule, 1, [10_000, 0, 0], 9_998);
    let mut window = vec![7; 32];
    window[0] = i32::MIN + 0x0A0B0C;
    forged.sum = sum_of(&window);
    let mut report = [0xA5; 170];
    let verdict = forged.pull(&window, &mut report);
    assert_eq!(verdict, Pulled::Verdict(Truth::False));
    let expected = [
        0, 0, 0x27, 0x0E, 0, 3, 0, 0x80, 0x0A, 0x0B, 0x0C, 1, 0, 0, 0, 0, 2, 0, 0, 0, 0,
    ];
    assert_eq!(report[..21], expected);
    assert_eq!(report[21..], [0xA5; 149]);
}

#[test]
fn a_feed_changes_four_words_or_none() {
    let rule = "events a b; notes t; t(b[2*i]) > 0";
    // Base of b is 8; count 7 comes below it, 8 does not.
    let mut forged = state(rule, 3, [0, 7, 0], 4);
    let mut window = vec![-7; 96];
    forged.sum = sum_of(&window);
    assert_eq!(
        forged.feed(&mut window, &line(1, [1, 2, 3, 4])),
        Fed::Accepted
    );
    assert_eq!(window, [-7; 96]);
    assert_eq!(
        forged.feed(&mut window, &line(1, [1, 2, 3, 4])),
        Fed::Accepted
    );
    let mut expected = [-7; 96];
    expected[20..24].copy_from_slice(&[1, 2, 3, 4]);
    assert_eq!(window, expected);
    assert_eq!(forged.counts[..3], [0, 9, 0]);
    assert_eq!(
        forged.feed(&mut window, &line(0, [1, 2, 3, 4])),
        Fed::Ignored
    );
    assert_eq!(window, expected);
}

#[test]
fn opening_gives_the_state_of_a_fresh_machine() {
    let frames = reads(RULE).unwrap();
    let mut window = [9; 64];
    let opened = State::open(&frames, 2, &mut window).unwrap();
    assert_eq!(opened, machine(RULE, 2).state(&window));
    assert_eq!((opened.counts, opened.p), ([0; 8], 0));
    assert_eq!(opened.totals, totals(0, 0, 0));
    assert_eq!(opened.frames[..56], frames);
    assert_eq!(opened.frames[56..], [0; 456]);
    assert_eq!(window, [0; 64]);
}
