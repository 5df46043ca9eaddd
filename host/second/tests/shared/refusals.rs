//! Every refusal of docs/REFUSALS.md, by each call that gives it, of any checker.

use super::documents::{document, parts, rows};
use super::driven::Driven;
use super::log::line;
use dillplatter_second::{Fed, Profile, Pulled, Refusal, State, Tariff};
use std::collections::BTreeSet;

const RULE: &str = "events a b; notes t; t(a[i]) > 0";

/// A refusal with the number and the place that are expected.
type Row = (u8, usize, Refusal);

/// The calls and numbers seen are those of the table, and only those that name a place have one.
pub fn each_number_is_seen<C: Driven>() {
    let columns = ["Number", "In C", "From", "What is wrong", "Place"];
    let mut expected = BTreeSet::new();
    let mut placed = BTreeSet::new();
    for [number, _, from, _, place] in rows(&document("docs/REFUSALS.md"), columns) {
        let number: u8 = number.parse().unwrap();
        expected.extend(parts(&from).into_iter().map(|call| (call, number)));
        if !place.is_empty() {
            placed.insert(number);
        }
    }
    let mut seen = BTreeSet::new();
    let mut seen_placed = BTreeSet::new();
    for (call, rows) in of_calls::<C>() {
        for (number, place, refusal) in rows {
            assert_eq!(refusal, Refusal { number, place }, "{call}");
            seen.insert((call.to_string(), number));
            if place > 0 {
                seen_placed.insert(number);
            }
        }
    }
    assert_eq!(seen, expected);
    assert_eq!(seen_placed, placed);
}

/// The refusals of each call.
fn of_calls<C: Driven>() -> [(&'static str, Vec<Row>); 9] {
    [
        ("read", reading::<C>()),
        ("open", opening::<C>(Profile::Desk)),
        ("open_board", board_opening::<C>()),
        ("feed", feeding::<C>()),
        ("pull", pulling::<C>()),
        ("view", vec![(14, 0, C::view(&[0; 165]).unwrap_err())]),
        ("raise", vec![(23, 13, C::raise(&[b'0'; 13]).unwrap_err())]),
        ("lower", lowering::<C>()),
        ("charge", charging::<C>()),
    ]
}

fn reading<C: Driven>() -> Vec<Row> {
    let of = |text: &str| C::frames_of(text.as_bytes()).unwrap_err();
    vec![
        (1, 0, C::read(RULE.as_bytes(), &mut [0; 64]).unwrap_err()),
        (2, 0, of("")),
        (3, 0, of("event a; notes t; t(a[i]) > 0")),
        (3, 30, of("events a b; notes t; t(a[i]) >> 0")),
        (4, 21, of("events a b; notes t; u(a[i]) > 0")),
        (5, 31, of("events a b; notes t; t(a[i]) > 2147483648")),
        (18, 27, of("events a b; notes t; scale 7; t(a[i]) > 0")),
        (
            18,
            40,
            of("events a b; notes t; scale 1; t(a[i]) > 0.5000000"),
        ),
        (6, 0, of(&RULE.replace("t(a", "!!!!!!!!!!!!!!!!!t(a"))),
        (7, 0, of("events a b; notes t; i > 0")),
        (8, 0, of("events a b; notes t; t(a[i]) * i * i > 0")),
    ]
}

/// The refusals that both openings have.
fn opening<C: Driven>(profile: Profile) -> Vec<Row> {
    let frames = C::frames_of(RULE.as_bytes()).unwrap();
    let of = |frames: &[u8], words: usize| {
        let opened = C::open_as(profile, frames, 1, &vec![3; words]);
        opened.err().unwrap()
    };
    // i > 0, and t(a[i]) * i * i > 0.
    let (reference, end) = frames.split_at(8);
    let (i, times) = ([2, 0, 0, 0, 0, 0, 0, 0], [0x13, 0, 0, 0, 0, 0, 0, 0]);
    let without_reference = [&i[..], end].concat();
    let large = [reference, &i, &times, &i, &times, end].concat();
    vec![
        (7, 0, of(&without_reference, 32)),
        (8, 0, of(&large, 32)),
        (9, 0, of(&frames[..7], 32)),
        (10, 2, of(&frames[..16], 32)),
        (11, 0, of(&frames, 31)),
    ]
}

fn board_opening<C: Driven>() -> Vec<Row> {
    let of = |text: &str, w: u32| {
        let frames = C::frames_of(text.as_bytes()).unwrap();
        let opened = C::open_as(Profile::Board, &frames, w, &vec![3; 32 * w as usize]);
        opened.err().unwrap()
    };
    // 17 frames.
    let long = RULE.replace("t(a", "!!!!!!!!!!!!!!t(a");
    let mut rows = opening::<C>(Profile::Board);
    rows.extend([(26, 0, of(RULE, 33)), (26, 0, of(&long, 1))]);
    rows
}

fn feeding<C: Driven>() -> Vec<Row> {
    let good = line(0, [1, 2, 3, 4]);
    let of = |mut checker: C, line: &[u8]| match checker.feed(line) {
        Fed::Refused(refusal) => refusal,
        other => panic!("{other:?}"),
    };
    vec![
        (12, 0, of(forged(State::zero(), 32), &good)),
        (13, 0, of(forged(state::<C>(0), 64), &good)),
        (27, 0, of(strange(), &good)),
        (27, 0, of(strange(), b"")),
        (15, 8, of(C::of_text(RULE, 1), b"00000000g1")),
        (15, 33, of(full(), &good[..33])),
        (16, 0, of(forged(state::<C>(1_000_000), 32), &good)),
        (17, 0, of(full(), &good)),
    ]
}

fn pulling<C: Driven>() -> Vec<Row> {
    let of = |mut checker: C, length: usize| match checker.pull(&mut vec![0; length]) {
        Pulled::Refused(refusal) => refusal,
        other => panic!("{other:?}"),
    };
    vec![
        (12, 0, of(forged(State::zero(), 32), 166)),
        (13, 0, of(forged(state::<C>(0), 64), 166)),
        (13, 0, of(forged(state::<C>(0), 31), 166)),
        (27, 0, of(strange(), 166)),
        (27, 0, of(strange(), 0)),
        (14, 0, of(forged(state::<C>(0), 32), 165)),
        (14, 0, of(full(), 165)),
    ]
}

fn lowering<C: Driven>() -> Vec<Row> {
    let down = |notes: [i32; 4]| C::lower(&line(0, notes)).unwrap_err();
    vec![
        (15, 33, C::lower(&line(0, [0; 4])[..33]).unwrap_err()),
        (24, 0, down([40_000, 0, 0, 1])),
        (25, 10, down([0, 40_000, 40_000, 0])),
    ]
}

fn charging<C: Driven>() -> Vec<Row> {
    let of = |state: State, bands: &[(u32, u32)], surcharge: u32| {
        let tariff = Tariff::of(bands, 0, surcharge);
        C::forged(state, Vec::new()).charge(&tariff).unwrap_err()
    };
    vec![
        (12, 0, of(State::zero(), &[(1, 1)], 100)),
        (28, 0, of(state::<C>(7), &[(2, 1), (2, 1)], 100)),
        (28, 0, of(State::zero(), &[(0, 1)], 101)),
        (29, 0, of(state::<C>(7), &[(2, 10_001)], 100)),
        (29, 0, of(State::zero(), &[], 101)),
    ]
}

/// A state with a window of some words.
fn forged<C: Driven>(state: State, words: usize) -> C {
    C::forged(state, vec![0; words])
}

/// The rule's checker with W 1 after one line.
fn full<C: Driven>() -> C {
    let mut full = C::of_text(RULE, 1);
    assert_eq!(full.feed(&line(0, [1, 2, 3, 4])), Fed::Accepted);
    full
}

/// The same, with a word that somebody wrote.
fn strange<C: Driven>() -> C {
    let mut strange: C = full();
    strange.write(31, 1);
    strange
}

/// The rule's state after p lines that all held.
fn state<C: Driven>(p: u32) -> State {
    let mut state = C::of_text(RULE, 1).state().clone();
    (state.counts[0], state.p, state.totals.held) = (p, p, p);
    state
}
