//! Tests of the proved part: each call beside the same call of the second checker.

#[path = "../../second/tests/shared/mod.rs"]
mod shared;

mod assumed;
mod board;
mod charges;
mod damage;
mod decimals;
mod earlier;
mod examples;
mod forged;
mod limits;
mod lines;
mod lists;
mod opening;
mod pair;
mod program;
mod quota;
mod refusals;
mod start;
mod strays;
mod tariff;
mod texts;
mod vectors;
mod view;
mod widths;

/// The folder of the whole repository.
const TOP: &str = concat!(env!("CARGO_MANIFEST_DIR"), "/..");
