//! Decimals in rules: texts, frames, magnitudes, verdicts.

use crate::pair::Pair;
use crate::quota::Quota;
use crate::shared::decimals;

#[test]
fn the_allowance() {
    decimals::the_allowance::<Pair>();
}

#[test]
fn relations_of_every_scale() {
    let quota = Quota::begin("relations of every scale");
    decimals::relations_of_every_scale::<Pair>();
    quota.end();
}

#[test]
fn equal_numbers() {
    decimals::equal_numbers::<Pair>();
}

#[test]
fn magnitudes() {
    let quota = Quota::begin("magnitudes with decimals");
    decimals::magnitudes::<Pair>();
    quota.end();
}

#[test]
fn counts_beyond_18() {
    decimals::counts_beyond_18::<Pair>();
}

#[test]
fn texts() {
    decimals::texts::<Pair>();
}

#[test]
fn frames() {
    let quota = Quota::begin("bytes of frames with a scale");
    decimals::frames::<Pair>();
    quota.end();
}

#[test]
fn near_the_limit() {
    let quota = Quota::begin("near the limit");
    decimals::near_the_limit::<Pair>();
    quota.end();
}

#[test]
fn values() {
    let quota = Quota::begin("values of random rules");
    decimals::values::<Pair>();
    quota.end();
}

#[test]
fn forged_states() {
    let quota = Quota::begin("forged states with a scale");
    decimals::forged_states::<Pair>();
    quota.end();
}
