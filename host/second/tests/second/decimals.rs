//! Decimals in rules.

use crate::shared::decimals;
use crate::shared::driven::Twin;

#[test]
fn the_allowance() {
    decimals::the_allowance::<Twin>();
}

#[test]
fn relations_of_every_scale() {
    decimals::relations_of_every_scale::<Twin>();
}

#[test]
fn equal_numbers() {
    decimals::equal_numbers::<Twin>();
}

#[test]
fn magnitudes() {
    decimals::magnitudes::<Twin>();
}

#[test]
fn counts_beyond_18() {
    decimals::counts_beyond_18::<Twin>();
}

#[test]
fn texts() {
    decimals::texts::<Twin>();
}

#[test]
fn frames() {
    decimals::frames::<Twin>();
}

#[test]
fn near_the_limit() {
    decimals::near_the_limit::<Twin>();
}

#[test]
fn values() {
    decimals::values::<Twin>();
}

#[test]
fn forged_states() {
    decimals::forged_states::<Twin>();
}
