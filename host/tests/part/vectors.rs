//! Every stored vector, through the part.

use crate::pair::Pair;
use crate::quota::Quota;
use crate::shared::vectors::{board, calls, charging, converting, opening, reading};

#[test]
fn stored_answers() {
    let quota = Quota::begin("vectors");
    reading::<Pair>();
    opening::<Pair>();
    board::<Pair>();
    calls::<Pair>();
    converting::<Pair>();
    charging::<Pair>();
    quota.end();
}
