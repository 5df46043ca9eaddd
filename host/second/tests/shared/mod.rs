//! What the tests of the part and of the second checker share. Each of the two gives `TOP`, the folder of the repository.

pub mod board;
pub mod damage;
pub mod decimals;
pub mod documents;
pub mod driven;
pub mod examples;
pub mod forged;
pub mod frames;
pub mod log;
pub mod opening;
pub mod random;
pub mod refusals;
pub mod seen;
pub mod start;
pub mod strays;
pub mod tariff;
pub mod vectors;
