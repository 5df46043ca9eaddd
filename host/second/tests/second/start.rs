//! Where the second checker's verdicts begin.

use crate::shared::driven::Twin;
use crate::shared::random::{late_frames, Random};
use crate::shared::start::{self, by_division};
use dillplatter_second::frames::{check, Condition, Reference, Relation, Rule, Sum};

#[test]
fn opened_at_the_start() {
    start::opened_at_the_start::<Twin>();
}

#[test]
fn the_first_of_32_references() {
    start::the_first_of_32_references::<Twin>();
}

#[test]
fn waiting_without_a_line() {
    start::waiting_without_a_line::<Twin>();
}

#[test]
fn first_report_is_that_of_the_start() {
    start::first_report_is_that_of_the_start::<Twin>();
}

#[test]
fn p_below_the_start() {
    start::p_below_the_start::<Twin>();
}

#[test]
fn totals_sum_to_p_less_the_start() {
    start::totals_sum_to_p_less_the_start::<Twin>();
}

/// A rule that has some references, whatever its condition.
fn rule(references: Vec<Reference>) -> Rule {
    Rule {
        scale: None,
        condition: Condition::Relation(Relation::Equal, Sum::Instance, Sum::Instance),
        references,
    }
}

#[test]
fn every_factor_and_offset() {
    for factor in 1..=9 {
        for offset in -9_999..=9_999 {
            let reference = Reference {
                event: 0,
                note: 0,
                factor,
                offset,
            };
            let rule = rule(vec![reference]);
            let start = rule.start();
            assert_eq!(start, by_division(&rule.references), "{factor} {offset}");
            // Both sides: the occurrence at the start is the first that isn't below 0.
            let occurrence = factor * i64::from(start) + offset;
            assert!(occurrence >= 0, "{factor} {offset}");
            assert!(start == 0 || occurrence < factor, "{factor} {offset}");
        }
    }
}

#[test]
fn random_rules() {
    let (mut late, mut far) = (0, 0);
    for seed in 0..5_000 {
        let rule = check(&late_frames(&mut Random::new(seed + 350_000_000))).unwrap();
        let start = rule.start();
        assert_eq!(start, by_division(&rule.references), "seed {seed}");
        // From the start on every i is an instance.
        assert!((0..start).all(|i| !rule.is_instance(i)), "seed {seed}");
        assert!((start..start + 100).all(|i| rule.is_instance(i)));
        late += usize::from(start > 0);
        far += usize::from(start > 255);
    }
    assert!(late > 4_500 && far > 700, "{late} {far}");
}
