//! The view of a report: buffers with whatever in them, one view after each report, two logs under one rule.

use crate::pair::{Lent, Pair};
use crate::quota::Quota;
use crate::shared::driven::{Driven, FALSE};
use crate::shared::log::{events, line, note, random_line};
use crate::shared::random::{frames, Random};
use dillplatter_host::part::{self, read_rule, Checker, Viewed};
use dillplatter_second::{open, Pulled, Refusal, Reported, Truth, View};
use std::panic::catch_unwind;

const FIRST: &str = "events in out; notes t; t(out[i]) - t(in[i]) <= 25";

/// What viewing tells of a buffer under 166 bytes.
const SHORT: part::Refusal = part::Refusal {
    number: 14,
    place: 0,
};

fn random_bytes(random: &mut Random, length: usize) -> Vec<u8> {
    (0..length).map(|_| random.below(256) as u8).collect()
}

#[test]
fn every_length_of_a_buffer() {
    let quota = Quota::begin("views of buffers");
    let random = &mut Random::new(100_000_000);
    // Some of the long ones are 165 more than a power of 2.
    let long = [1_189, 4_261, 65_535, 65_536, 65_701, 1 << 20];
    for length in (0..=600).chain(long) {
        for report in [
            random_bytes(random, length),
            random_bytes(random, length),
            vec![0; length],
            vec![0xFF; length],
        ] {
            let expected = match report[..] {
                [a, b, c, d, e, ..] if length >= 166 => Ok([a, b, c, d, e]),
                _ => Err(Refusal::of(14)),
            };
            assert_eq!(Pair::view(&report), expected, "{length} bytes");
        }
    }
    quota.end();
}

#[test]
fn an_empty_buffer() {
    for report in [&[][..], &Vec::new(), &[7; 166][166..]] {
        let viewed = Viewed {
            number: 14,
            begin: report.as_ptr(),
            len: 0,
        };
        assert_eq!(Viewed::of(report), viewed);
        assert_eq!(part::view(report), Err(SHORT));
    }
}

#[test]
fn a_part_of_a_larger_buffer() {
    let whole = random_bytes(&mut Random::new(100_000_001), 400);
    for at in 0..=234 {
        let view = part::view(&whole[at..at + 166]).expect("the part has 166 bytes");
        assert_eq!(view, &whole[at..at + 5]);
        assert_eq!(view.as_ptr(), whole[at..].as_ptr());
        for length in [0, 1, 5, 6, 165] {
            assert_eq!(part::view(&whole[at..at + length]), Err(SHORT));
        }
    }
}

#[test]
fn a_wrong_answer_is_caught() {
    let whole = [9; 400];
    let report = &whole[100..300];
    let told = |number, at: usize, len| {
        let begin = whole[at..].as_ptr();
        let viewed = Viewed { number, begin, len };
        catch_unwind(|| viewed.within(report)).ok()
    };
    assert_eq!(told(0, 100, 5), Some(Ok(&report[..5])));
    assert_eq!(told(14, 100, 0), Some(Err(SHORT)));
    // Another length, also one past the end; another beginning.
    for (at, len) in [
        (100, 4),
        (100, 6),
        (100, 200),
        (100, 201),
        (99, 5),
        (101, 5),
    ] {
        assert_eq!(told(0, at, len), None, "{len} bytes from {at}");
        assert_eq!(told(14, at, len), None, "{len} bytes from {at}");
    }
    // The right length for the other number; a refusal elsewhere.
    assert_eq!([told(0, 100, 0), told(14, 100, 5)], [None; 2]);
    assert_eq!([told(14, 99, 0), told(14, 300, 0)], [None; 2]);
}

/// Lines of the first rule: each `out` comes some time after its `in`. Two logs that have the same delays and begin
/// apart differ in every note.
fn lines_of(begin: i32, delays: &[i32]) -> Vec<Vec<u8>> {
    let both = |(k, delay): (i32, &i32)| {
        let time = begin + 100 * k;
        [line(0, [time; 4]), line(1, [time + delay; 4])]
    };
    (0..).zip(delays).flat_map(both).collect()
}

/// The views of such a log.
fn views_of(delays: &[i32]) -> Vec<View> {
    let false_ones = (0..).zip(delays).filter(|(_, delay)| **delay > 25);
    false_ones.map(|(k, _)| [0, 0, 0, k, 0]).collect()
}

#[test]
fn a_later_report_shows_in_the_memory_of_the_view() {
    let frames = read_rule(FIRST.as_bytes()).unwrap();
    let mut checker = Checker::open(&frames, 8).unwrap();
    for line in lines_of(1_000, &[26, 25, 27]) {
        assert_eq!(checker.feed(&line), part::Fed::Accepted);
    }
    let mut report = [0xA5; 200];
    assert_eq!(checker.pull(&mut report), part::Pulled::False);
    let viewed = Viewed::of(&report);
    // Where the view lies in the report buffer, by its address.
    let place = viewed.begin.addr() - report.as_ptr().addr();
    let memory = place..place + viewed.len;
    assert_eq!(report[memory.clone()], [0, 0, 0, 0, 0]);
    assert_eq!(checker.pull(&mut report), part::Pulled::True);
    assert_eq!(report[memory.clone()], [0, 0, 0, 0, 0]);
    assert_eq!(checker.pull(&mut report), part::Pulled::False);
    assert_eq!(report[memory], [0, 0, 0, 2, 0]);
    assert_eq!(Viewed::of(&report), viewed);
    assert_eq!(part::view(&report).unwrap(), [0, 0, 0, 2, 0]);
}

#[test]
fn instances_up_to_the_last() {
    // Each instance is false: one reference is present, the other is void at first and pending at last.
    let rule = "events a b; notes t; t(a[i-9999]) + t(b[i]) < 0 && i < 0";
    let opened = Pair::of_text(rule, 1).state().clone();
    let near_powers = (0..20).flat_map(|bit| [(1 << bit) - 1, 1 << bit, (1 << bit) + 1]);
    let last = 1_009_998;
    for i in near_powers.chain((0..=last).rev().step_by(997)) {
        let mut state = opened.clone();
        (state.p, state.totals.failed) = (i, i);
        state.counts[0] = (i + 1).saturating_sub(9_999);
        state.counts[1] = (i + 1).min(1_000_000);
        let mut lent = Lent::of(&[0xA5; 166]);
        assert_eq!(Pair::summed(state, vec![5; 32]).pull_lent(&mut lent), FALSE);
        let verdict = Truth::False;
        let view = Reported { i, verdict }.view();
        assert_eq!(Pair::view_lent(&lent), Ok(view), "instance {i}");
    }
}

/// What a log gave under a rule.
#[derive(Default)]
struct Given {
    /// The part's reports.
    reports: Vec<Vec<u8>>,
    /// The part's views, one after each report.
    views: Vec<View>,
    /// The instance and the verdict of each report, by the second checker.
    reported: Vec<Reported>,
}

/// Feeds lines, with pulls until waiting before the first and after each.
fn given(random: &mut Random, frames: &[u8], w: u32, lines: &[Vec<u8>]) -> Given {
    let mut pair = Pair::open(frames, w, &vec![-1; 32 * w as usize]).unwrap();
    let mut given = Given::default();
    pull_all(random, &mut pair, &mut given);
    for line in lines {
        pair.feed(line);
        pull_all(random, &mut pair, &mut given);
    }
    given.reported = pair.machine().reported().to_vec();
    given
}

/// Pulls until waiting, each time with another buffer; some are too short, and give no report.
fn pull_all(random: &mut Random, pair: &mut Pair, given: &mut Given) {
    loop {
        let longer = 166 + random.below(200);
        let length = random.pick(&[166, 166, 167, longer, 165, 0]);
        let mut lent = Lent::of(&random_bytes(random, length));
        match pair.pull_lent(&mut lent) {
            FALSE => {
                let view = Pair::view_lent(&lent);
                given.views.push(view.expect("the buffer holds a report"));
                let filled = 6 + 5 * usize::from(lent.report()[5]);
                given.reports.push(lent.report()[..filled].to_vec());
            }
            Pulled::Waiting => break,
            _ => {}
        }
    }
}

/// The events that a rule references.
fn events_of(frames: &[u8]) -> Vec<usize> {
    events(&open(frames, 1, 32).expect("the frames open"))
}

#[test]
fn one_view_after_each_report() {
    let quota = Quota::begin("views after reports");
    let (mut views, mut late) = (0, 0);
    for seed in 0..900 {
        let random = &mut Random::new(seed + 110_000_000);
        let frames = frames(random);
        let events = events_of(&frames);
        let w = random.pick(&[1, 1, 2, 3, 5, 16, 64, 256]);
        let lines: Vec<Vec<u8>> = (0..100).map(|_| random_line(random, &events)).collect();
        let given = given(random, &frames, w, &lines);
        let expected: Vec<View> = given.reported.iter().map(|one| one.view()).collect();
        assert_eq!(given.views, expected, "seed {seed}");
        views += given.views.len();
        // Such an instance takes more than one byte.
        late += given.reported.iter().filter(|one| one.i > 255).count();
    }
    assert!(views >= 9_000 && late >= 100, "{views} {late}");
    quota.end();
}

/// Random delays, about half of them over 25.
fn random_delays(random: &mut Random) -> Vec<i32> {
    (0..60).map(|_| random.below(52) as i32).collect()
}

/// Feeds lines of the first rule.
fn first(random: &mut Random, w: u32, begin: i32, delays: &[i32]) -> Given {
    let frames = read_rule(FIRST.as_bytes()).unwrap();
    given(random, &frames, w, &lines_of(begin, delays))
}

#[test]
fn every_note_differs_and_the_views_stay() {
    let mut views = 0;
    for seed in 0..50 {
        let random = &mut Random::new(seed + 120_000_000);
        let delays = random_delays(random);
        let later = 1 + random.below(99) as i32;
        let one = first(random, 1, 1_000, &delays);
        let other = first(random, 64, 1_000 + later, &delays);
        assert_eq!(one.views, views_of(&delays));
        assert_eq!(other.views, one.views);
        let mut reports = one.reports.iter().zip(&other.reports);
        assert!(reports.all(|(one, other)| one != other));
        views += one.views.len();
    }
    assert!(views >= 1_500, "{views}");
}

#[test]
fn one_verdict_turns_and_the_views_differ() {
    for seed in 0..50 {
        let random = &mut Random::new(seed + 130_000_000);
        let mut delays = random_delays(random);
        let one = first(random, 256, 1_000, &delays);
        let turned = random.below(delays.len());
        delays[turned] = 51 - delays[turned];
        let other = first(random, 2, 1_000, &delays);
        assert_eq!(other.views, views_of(&delays));
        assert_ne!(other.views, one.views);
    }
}

/// The event and the notes of a line.
type Line = (u8, [i32; 4]);

fn random_log(random: &mut Random, events: &[usize]) -> Vec<Line> {
    let mut line = |_| {
        let event = random.pick(events) as u8;
        (event, [0; 4].map(|_: i32| note(random)))
    };
    (0..40).map(&mut line).collect()
}

/// The same events, with every note another.
fn every_note_another(random: &mut Random, log: &[Line]) -> Vec<Line> {
    let (bits, mixed) = (random.pick(&[1, 2, 16, -1]), random.once_in(2));
    let mut other = |note: i32| {
        let own_bits = random.pick(&[1, 2, 3, 4, 16]);
        note ^ if mixed { own_bits } else { bits }
    };
    let mut line = |(event, notes): &Line| (*event, notes.map(&mut other));
    log.iter().map(&mut line).collect()
}

fn written(log: &[Line]) -> Vec<Vec<u8>> {
    let lines = log.iter();
    lines.map(|(event, notes)| line(*event, *notes)).collect()
}

#[test]
fn views_are_equal_exactly_where_instances_and_verdicts_are() {
    let quota = Quota::begin("views of two logs");
    let (mut equal, mut different) = (0, 0);
    for seed in 0..1_500 {
        let random = &mut Random::new(seed + 140_000_000);
        let frames = frames(random);
        let log = random_log(random, &events_of(&frames));
        let other_log = every_note_another(random, &log);
        let [w, other_w] = random.pick(&[[1, 2], [2, 1], [1, 256], [16, 3], [5, 64], [256, 64]]);
        let one = given(random, &frames, w, &written(&log));
        let other = given(random, &frames, other_w, &written(&other_log));
        let same_views = one.views == other.views;
        assert_eq!(same_views, one.reported == other.reported, "seed {seed}");
        // Of the equal ones only those count that have other reports.
        equal += usize::from(same_views && one.reports != other.reports);
        different += usize::from(!same_views);
    }
    assert!(equal >= 250 && different >= 600, "{equal} {different}");
    quota.end();
}
