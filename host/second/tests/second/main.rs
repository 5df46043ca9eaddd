//! Tests of the second checker. They need nothing that the toolchain builds.

#[path = "../shared/mod.rs"]
mod shared;

mod bench;
mod board;
mod calls;
mod common;
mod decimals;
mod documents;
mod earlier;
mod examples;
mod header;
mod layout;
mod logs;
mod opening;
mod places;
mod promises;
mod refusals;
mod requires;
mod start;
mod states;
mod strays;
mod tariff;
mod texts;
mod trees;
mod vectors;
mod view;

/// The folder of the whole repository.
const TOP: &str = concat!(env!("CARGO_MANIFEST_DIR"), "/../..");
