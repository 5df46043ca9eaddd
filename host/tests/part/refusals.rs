//! Every refusal, 1 to 18 and 23 to 29, by a call of the part; the last line of an event.

use crate::pair::{refusal, Pair};
use crate::quota::{count, Quota};
use crate::shared::driven::Driven;
use crate::shared::log::line;
use crate::shared::refusals;
use dillplatter_host::part::{self, Checker};
use dillplatter_second::{Fed, Pulled, Refusal, Truth};

#[test]
fn each_number_is_seen() {
    refusals::each_number_is_seen::<Pair>();
}

#[test]
fn a_million_lines_of_one_event() {
    let quota = Quota::begin("a million lines");
    let frames = Pair::frames_of(b"events a b; notes t; t(a[i]) - i < 7").unwrap();
    let mut checker = Checker::open(&frames, 1).unwrap();
    let mut report = [0; 166];
    let (mut held, mut failed) = (0, 0);
    for k in 0..1_000_000 {
        let more = k * 7 % 11;
        assert_eq!(
            checker.feed(&line(0, [k + more, 0, 0, 0])),
            part::Fed::Accepted
        );
        count();
        let verdict = checker.pull(&mut report);
        count();
        if more < 7 {
            held += 1;
            assert_eq!(verdict, part::Pulled::True);
        } else {
            failed += 1;
            assert_eq!(verdict, part::Pulled::False);
            assert_eq!(report[..4], k.to_be_bytes());
            assert_eq!(report[7..11], (k + more).to_be_bytes());
        }
    }
    let before = *checker.state();
    assert_eq!((before.counts[0], before.next), (1_000_000, 1_000_000));
    assert_eq!((before.totals.held, before.totals.failed), (held, failed));
    let part::Fed::Refused(told) = checker.feed(&line(0, [1; 4])) else {
        panic!("the event has all its lines");
    };
    assert_eq!(refusal(told), Refusal::of(16));
    assert_eq!(checker.pull(&mut report), part::Pulled::Waiting);
    assert_eq!(*checker.state(), before);
    quota.end();
}

#[test]
fn the_last_instance() {
    // a[i-9999] lets p go to 1,009,999, and no further. Verdicts begin at 9,999.
    let text = "events a; notes t; t(a[i-9999]) > 0";
    let mut state = Pair::of_text(text, 1).state().clone();
    (state.counts[0], state.p, state.totals.unknown) = (1_000_000, 1_009_998, 999_999);
    let mut pair = Pair::summed(state.clone(), vec![5; 32]);
    assert_eq!(pair.pull(&mut [0; 166]), Pulled::Verdict(Truth::True));
    assert_eq!(pair.pull(&mut [0; 166]), Pulled::Waiting);
    assert_eq!(pair.feed(&line(0, [1; 4])), Fed::Refused(Refusal::of(16)));
    assert_eq!(pair.state().p, 1_009_999);
    (state.p, state.totals.unknown) = (1_010_000, 1_000_001);
    let mut pair = Pair::summed(state, vec![5; 32]);
    let refused = Pulled::Refused(Refusal::of(12));
    assert_eq!(pair.pull(&mut [0; 166]), refused);
}
