//! Tariffs, random ones too, and states with some totals.

use super::random::Random;
use dillplatter_second::{read, State, Tariff, Totals};
use std::collections::BTreeSet;
use std::sync::LazyLock;

/// The most verdicts that a state can have.
pub const MOST_VERDICTS: u32 = 1_009_999;

/// The tariff of document 02's example.
pub fn example() -> Tariff {
    Tariff::of(&[(10, 45), (100, 30)], 12, 7)
}

/// The state of a fresh checker.
static FRESH: LazyLock<State> = LazyLock::new(|| {
    let frames = read(b"events a b; notes t; t(a[i]) > 0", 512).expect("the text is read");
    State::open(&frames, 1, &mut [0; 32]).expect("the frames open")
});

/// A state with some totals, true, false and unknown, and p their sum.
pub fn with_totals(totals: [u32; 3]) -> State {
    let [held, failed, unknown] = totals;
    State {
        p: held + failed + unknown,
        totals: Totals {
            held,
            failed,
            unknown,
        },
        ..FRESH.clone()
    }
}

/// A state with some false verdicts, and random true and unknown ones. More than a state can have are alone.
pub fn with_failed(random: &mut Random, failed: u32) -> State {
    let others = random.below(MOST_VERDICTS.saturating_sub(failed) as usize + 1) as u32;
    let unknown = random.below(others as usize + 1) as u32;
    with_totals([others - unknown, failed, unknown])
}

fn price(random: &mut Random) -> u32 {
    let any = random.below(10_001) as u32;
    random.pick(&[any, any, any, 0, 1, 45, 9_999, 10_000])
}

fn percent(random: &mut Random) -> u32 {
    let any = random.below(101) as u32;
    random.pick(&[any, any, any, 0, 1, 50, 99, 100])
}

/// A word that no entry may have, or one that it may.
fn wild(random: &mut Random) -> u32 {
    let any = random.below(1 << 32) as u32;
    random.pick(&[0, 1, 3, 10_001, 1_010_000, 1_010_001, u32::MAX, any])
}

/// A random tariff that is taken, with last numbers up to a limit. The entries that are no bands have whatever words.
pub fn random_tariff(random: &mut Random, limit: u32) -> Tariff {
    let wanted = random.below(5);
    let last = |_| 1 + random.below(limit as usize) as u32;
    let lasts: BTreeSet<u32> = (0..wanted).map(last).collect();
    let bands: Vec<(u32, u32)> = lasts
        .into_iter()
        .map(|last| (last, price(random)))
        .collect();
    let mut tariff = Tariff::of(&bands, price(random), percent(random));
    for band in &mut tariff.bands[bands.len()..] {
        (band.last, band.price) = (wild(random), wild(random));
    }
    tariff
}

/// Damages a tariff at one place, mostly so that it is refused.
pub fn damage(random: &mut Random, tariff: &mut Tariff) {
    let dear = random.pick(&[10_001, 10_002, 65_536, 1 << 31, u32::MAX]);
    let [band, other] = [0; 2].map(|_: usize| random.below(4));
    match random.below(8) {
        0 => tariff.len = random.pick(&[5, 6, 8, 255, 256, 260, 65_536, 1 << 31, u32::MAX]),
        1 => tariff.bands[band].last = random.pick(&[0, 1_010_001, 1 << 31, u32::MAX]),
        2 => tariff.bands[band].last = tariff.bands[other].last,
        3 => tariff.bands.swap(band, other),
        4 => tariff.bands[band].price = dear,
        5 => tariff.beyond = dear,
        6 => tariff.surcharge = random.pick(&[101, 102, 128, 255, 256, 356, 1 << 31, u32::MAX]),
        _ => tariff.len = tariff.len.wrapping_sub(1),
    }
}

/// A random number of violations up to a limit, often around the last number of an entry.
pub fn violations(random: &mut Random, tariff: &Tariff, limit: u32) -> u32 {
    let any = random.below(limit as usize + 1) as u32;
    let last = tariff.bands[random.below(4)].last;
    let near = [last.saturating_sub(1), last, last.saturating_add(1)];
    let picked = random.pick(&[any, 0, 1, near[0], near[1], near[1], near[2], near[2]]);
    if picked <= limit {
        picked
    } else {
        any
    }
}
