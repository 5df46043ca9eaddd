//! Every stored vector: answers, numbers, places, frames, reports, cents.

use crate::shared::driven::Twin;
use crate::shared::vectors::{self, bench_cases, charged_words, charges};
use dillplatter_second::bench;

#[test]
fn reading() {
    vectors::reading::<Twin>();
}

#[test]
fn opening() {
    vectors::opening::<Twin>();
}

#[test]
fn board() {
    vectors::board::<Twin>();
}

#[test]
fn calls() {
    vectors::calls::<Twin>();
}

#[test]
fn converting() {
    vectors::converting::<Twin>();
}

#[test]
fn charging() {
    vectors::charging::<Twin>();
}

#[test]
fn charging_of_any_number_of_violations() {
    // Cents, 28, 29; and violations that no state can have.
    let mut answers = [0; 3];
    let mut impossible = 0;
    for case in charges() {
        let answer = case.tariff.cents(case.violations);
        let kind = answer.map_or_else(|refusal| usize::from(refusal.number) - 27, |_| 0);
        answers[kind] += 1;
        impossible += usize::from(case.violations == 1_010_000);
        assert_eq!(charged_words(answer), case.words, "line {}", case.at);
    }
    assert_eq!((answers, impossible), ([225, 25, 51], 21));
}

#[test]
fn bench_program() {
    for case in bench_cases() {
        let printed = bench(&case.rule, &case.log);
        assert!(printed == case.stdout, "{}", case.name);
    }
}
