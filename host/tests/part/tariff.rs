//! Tariffs: both sides of each limit, the order of the refusals, counts around each last number, rounding.

use crate::pair::Pair;
use crate::quota::Quota;
use crate::shared::driven::Driven;
use crate::shared::tariff::{example, with_totals, MOST_VERDICTS};
use dillplatter_host::part::{self, Charged};
use dillplatter_second::{Refusal, State, Tariff};
use std::panic::catch_unwind;

/// Numbers of bands over four.
const TOO_MANY: [u32; 14] = [
    5,
    6,
    7,
    8,
    128,
    255,
    256,
    260,
    65_536,
    65_540,
    1 << 31,
    (1 << 31) + 4,
    u32::MAX - 3,
    u32::MAX,
];
/// Prices over 10,000.
const TOO_DEAR: [u32; 10] = [
    10_001,
    10_002,
    16_384,
    20_000,
    32_768,
    65_535,
    65_536,
    75_536,
    1 << 31,
    u32::MAX,
];
/// Surcharges over 100.
const TOO_HIGH: [u32; 11] = [
    101,
    102,
    127,
    128,
    200,
    255,
    256,
    356,
    65_636,
    1 << 31,
    u32::MAX,
];

pub fn refused(number: u8) -> Result<u64, Refusal> {
    Err(Refusal::of(number))
}

/// Charges for a state without a window.
#[track_caller]
pub fn charge(tariff: &Tariff, state: State) -> Result<u64, Refusal> {
    Pair::forged(state, Vec::new()).charge(tariff)
}

/// Charges for some violations; of the other verdicts, as many as there can be, a third is true.
#[track_caller]
pub fn cents(tariff: &Tariff, failed: u32) -> Result<u64, Refusal> {
    let rest = MOST_VERDICTS.saturating_sub(failed);
    charge(tariff, with_totals([rest / 3, failed, rest - rest / 3]))
}

#[test]
fn the_example_of_document_02() {
    for (failed, expected) in [
        (0, 0),
        (1, 48),
        (9, 433),
        (10, 482),
        (11, 514),
        (12, 546),
        (99, 3_338),
        (100, 3_371),
        (101, 3_383),
        (1_009_999, 12_970_474),
    ] {
        assert_eq!(cents(&example(), failed), Ok(expected), "{failed}");
    }
}

#[test]
fn the_number_of_bands() {
    let mut tariff = Tariff::of(&[(1, 1), (2, 10), (3, 100), (4, 1_000)], 10_000, 0);
    for (len, expected) in (0..).zip([50_000, 40_001, 30_011, 20_111, 11_111]) {
        tariff.len = len;
        assert_eq!(cents(&tariff, 5), Ok(expected), "{len} bands");
    }
    for len in TOO_MANY {
        tariff.len = len;
        assert_eq!(cents(&tariff, 5), refused(28), "{len} bands");
    }
}

#[test]
fn one_last_number_after_the_other() {
    let lasts = [100, 200, 300, 400];
    let around = lasts.into_iter().flat_map(|last| last - 1..=last + 1);
    let ends = [0, 1, 2, 1_009_999, 1_010_000, 1_010_001];
    let values: Vec<u32> = around.chain(ends).chain([1 << 31, u32::MAX]).collect();
    for len in 1..=4 {
        let bands: Vec<(u32, u32)> = lasts[..len].iter().map(|last| (*last, 1)).collect();
        for at in 0..len {
            let before = if at == 0 { 0 } else { lasts[at - 1] };
            let after = if at + 1 == len {
                1_010_001
            } else {
                lasts[at + 1]
            };
            for last in &values {
                let mut tariff = Tariff::of(&bands, 0, 0);
                tariff.bands[at].last = *last;
                let fits = before < *last && *last < after;
                let expected = if fits { Ok(1) } else { refused(28) };
                assert_eq!(cents(&tariff, 1), expected, "{tariff:?}");
            }
        }
    }
}

#[test]
fn every_short_list_of_last_numbers() {
    let quota = Quota::begin("short lists of bands");
    for number in 0..5_u32.pow(4) {
        let digits = [0, 1, 2, 3].map(|place| number / 5_u32.pow(place) % 5);
        let mut tariff = Tariff::of(&[(0, 1), (0, 20), (0, 300), (0, 4_000)], 5_000, 33);
        for (band, last) in tariff.bands.iter_mut().zip(digits) {
            band.last = last;
        }
        for len in 0..=4 {
            tariff.len = len;
            let lasts = &digits[..len as usize];
            let rising = lasts.first() != Some(&0) && lasts.is_sorted_by(|one, next| one < next);
            for failed in 0..=5 {
                assert_eq!(cents(&tariff, failed).is_ok(), rising, "{tariff:?}");
            }
        }
    }
    quota.end();
}

#[test]
fn prices_up_to_10_000() {
    for len in 0..=4 {
        let bands: Vec<(u32, u32)> = (1..=len).map(|last| (last, 0)).collect();
        // Each band has one violation, and so has the price beyond.
        for at in 0..=bands.len() {
            let with = |price| {
                let mut tariff = Tariff::of(&bands, 0, 0);
                if at < bands.len() {
                    tariff.bands[at].price = price;
                } else {
                    tariff.beyond = price;
                }
                cents(&tariff, len + 1)
            };
            for price in [0, 1, 255, 256, 9_999, 10_000] {
                assert_eq!(with(price), Ok(price.into()), "{len} bands, {at}");
            }
            for price in TOO_DEAR {
                assert_eq!(with(price), refused(29), "{len} bands, {at}");
            }
        }
    }
}

#[test]
fn prices_that_no_violation_has() {
    for failed in [0, 1, 5] {
        for price in TOO_DEAR {
            let tariff = Tariff::of(&[(10, 1), (20, price)], 1, 0);
            assert_eq!(cents(&tariff, failed), refused(29));
            let tariff = Tariff::of(&[(10, 1), (20, 1)], price, 0);
            assert_eq!(cents(&tariff, failed), refused(29));
        }
    }
}

#[test]
fn surcharges_up_to_100() {
    for bands in [&[][..], &[(1, 100)], &[(1, 100), (2, 100), (3, 0), (4, 7)]] {
        for surcharge in 0..=100 {
            let tariff = Tariff::of(bands, 100, surcharge);
            assert_eq!(cents(&tariff, 2), Ok(200 + 2 * u64::from(surcharge)));
        }
        for surcharge in TOO_HIGH {
            let tariff = Tariff::of(bands, 100, surcharge);
            for failed in [0, 2] {
                assert_eq!(cents(&tariff, failed), refused(29), "{surcharge}");
            }
        }
    }
}

#[test]
fn every_word_at_its_end() {
    let most = u32::MAX;
    let all = |len| Tariff {
        len,
        ..Tariff::of(&[(most, most); 4], most, most)
    };
    // With no band only beyond and surcharge are looked at.
    assert_eq!(cents(&all(0), 1), refused(29));
    for len in (1..=4).chain(TOO_MANY) {
        assert_eq!(cents(&all(len), 1), refused(28), "{len} bands");
    }
}

#[test]
fn entries_that_are_no_bands() {
    let quota = Quota::begin("entries that are no bands");
    let lasts = [0, 1, 2, 3, 5, 8, 1_010_000, 1_010_001, u32::MAX];
    let prices = [0, 1, 10_000, 10_001, u32::MAX];
    let bands = [(2, 7), (4, 11), (6, 13)];
    for len in 0..=bands.len() {
        let plain = Tariff::of(&bands[..len], 17, 19);
        let expected: Vec<_> = (0..=8).map(|failed| cents(&plain, failed)).collect();
        assert!(expected.iter().all(Result::is_ok));
        for wild in lasts.into_iter().flat_map(|last| prices.map(|p| (last, p))) {
            for at in len..4 {
                let mut tariff = plain.clone();
                // This entry alone, or this and all after it.
                (tariff.bands[at].last, tariff.bands[at].price) = wild;
                let mut more = tariff.clone();
                more.bands[at..].fill(tariff.bands[at]);
                for tariff in [tariff, more] {
                    let charged: Vec<_> = (0..=8).map(|failed| cents(&tariff, failed)).collect();
                    assert_eq!(charged, expected, "{tariff:?}");
                }
            }
        }
    }
    quota.end();
}

/// Changes of the example that 28 refuses.
const WRONG_BANDS: [fn(&mut Tariff); 8] = [
    |tariff| tariff.len = 5,
    |tariff| tariff.len = u32::MAX,
    |tariff| tariff.bands[0].last = 0,
    |tariff| tariff.bands[0].last = 100,
    |tariff| tariff.bands[0].last = 101,
    |tariff| tariff.bands[1].last = 10,
    |tariff| tariff.bands[1].last = 1_010_001,
    |tariff| tariff.bands[1].last = u32::MAX,
];
/// Changes of the example that 29 refuses.
const WRONG_PRICES: [fn(&mut Tariff); 5] = [
    |tariff| tariff.bands[0].price = 10_001,
    |tariff| tariff.bands[1].price = u32::MAX,
    |tariff| tariff.beyond = 10_001,
    |tariff| tariff.surcharge = 101,
    |tariff| tariff.surcharge = u32::MAX,
];
/// Changes of a state that 12 refuses.
pub const WRONG_STATES: [fn(&mut State); 10] = [
    |state| *state = State::zero(),
    |state| state.len = 65,
    |state| state.frames[0] = 0,
    |state| state.w = 257,
    |state| state.profile = 2,
    |state| (state.profile, state.w) = (1, 33),
    |state| state.p = 1_010_000,
    |state| state.totals.held += 1,
    |state| state.counts[0] = 1_000_001,
    |state| state.counts[1] = 1,
];

/// Nothing, then each of some changes.
fn none_or<T>(changes: &[fn(&mut T)]) -> Vec<Option<fn(&mut T)>> {
    let each = changes.iter().copied().map(Some);
    [None].into_iter().chain(each).collect()
}

/// What a change, if there is one, makes of a value.
fn changed<T>(mut value: T, change: Option<fn(&mut T)>) -> T {
    if let Some(change) = change {
        change(&mut value);
    }
    value
}

#[test]
fn refusals_in_their_order() {
    for bands in none_or(&WRONG_BANDS) {
        for prices in none_or(&WRONG_PRICES) {
            let tariff = changed(changed(example(), bands), prices);
            for wrong in none_or(&WRONG_STATES) {
                let state = changed(with_totals([20, 12, 30]), wrong);
                let expected = match (bands, prices, wrong) {
                    (Some(_), _, _) => refused(28),
                    (None, Some(_), _) => refused(29),
                    (None, None, Some(_)) => refused(12),
                    (None, None, None) => Ok(546),
                };
                assert_eq!(charge(&tariff, state), expected, "{tariff:?}");
            }
        }
    }
}

#[test]
fn counts_around_each_last_number() {
    let tariff = Tariff::of(&[(3, 7), (5, 11), (10, 13), (11, 17)], 19, 0);
    let expected = [
        0, 7, 14, 21, 32, 43, 56, 69, 82, 95, 108, 125, 144, 163, 182,
    ];
    for (failed, expected) in (0..).zip(expected) {
        assert_eq!(cents(&tariff, failed), Ok(expected), "{failed}");
    }
    // The same far up, with a last number that no count reaches.
    let bands = [
        (1_009_996, 1),
        (1_009_997, 50),
        (1_009_999, 1_000),
        (1_010_000, 7),
    ];
    let tariff = Tariff::of(&bands, 10_000, 0);
    for (failed, expected) in [
        (1_009_995, 1_009_995),
        (1_009_996, 1_009_996),
        (1_009_997, 1_010_046),
        (1_009_998, 1_011_046),
        (1_009_999, 1_012_046),
    ] {
        assert_eq!(cents(&tariff, failed), Ok(expected), "{failed}");
    }
}

#[test]
fn free_bands() {
    // A price of 0 is a price: no other takes its place.
    let tariff = Tariff::of(&[(2, 0), (4, 9), (6, 0)], 5, 0);
    let expected = [0, 0, 0, 9, 18, 18, 18, 23, 28];
    for (failed, expected) in (0..).zip(expected) {
        assert_eq!(cents(&tariff, failed), Ok(expected), "{failed}");
    }
    let free = Tariff::of(&[(2, 0), (4, 0)], 0, 100);
    assert_eq!(cents(&free, MOST_VERDICTS), Ok(0));
}

/// Hundredths of a cent, rounded half up.
pub fn rounded(hundredths: u64) -> u64 {
    match hundredths % 100 {
        0..=49 => hundredths / 100,
        _ => hundredths / 100 + 1,
    }
}

#[test]
fn every_fraction_of_a_cent() {
    let quota = Quota::begin("fractions of a cent");
    let mut fractions = [0; 100];
    for surcharge in 0..=100 {
        for failed in 0..=250 {
            // Each costs 1 cent, in two bands and beyond.
            let tariff = Tariff::of(&[(50, 1), (99, 1)], 1, surcharge);
            let hundredths = u64::from(failed) * (100 + u64::from(surcharge));
            assert_eq!(cents(&tariff, failed), Ok(rounded(hundredths)));
            fractions[hundredths as usize % 100] += 1;
        }
    }
    // Each fraction came, half a cent and its neighbours too.
    assert!(fractions.iter().all(|times| *times > 50), "{fractions:?}");
    quota.end();
}

#[test]
fn just_below_half_a_cent_and_above() {
    // One violation, in hundredths: 149, 150, 151; 749, 5,350, 9,951; 1,004,950, 1,004,849, 1,005,051; 1,499,850.
    for (price, surcharge, expected) in [
        (1, 49, 1),
        (1, 50, 2),
        (1, 51, 2),
        (7, 7, 7),
        (50, 7, 54),
        (93, 7, 100),
        (9_950, 1, 10_050),
        (9_949, 1, 10_048),
        (9_951, 1, 10_051),
        (9_999, 50, 14_999),
    ] {
        let tariff = Tariff::of(&[], price, surcharge);
        assert_eq!(cents(&tariff, 1), Ok(expected), "{price} {surcharge}");
    }
    // Far up, with a last violation that makes it 49, 50 or 51 hundredths.
    for (price, expected) in [
        (51, 20_098_960_301),
        (50, 20_098_960_300),
        (49, 20_098_960_298),
    ] {
        let tariff = Tariff::of(&[(MOST_VERDICTS - 1, 10_000)], price, 99);
        assert_eq!(cents(&tariff, MOST_VERDICTS), Ok(expected), "{price}");
    }
}

#[test]
fn rounded_once() {
    let bands = [(1, 1), (2, 1), (3, 1), (4, 1)];
    for (surcharge, expected) in [
        (50, [0, 2, 3, 5, 6, 8, 9]),
        (49, [0, 1, 3, 4, 6, 7, 9]),
        (10, [0, 1, 2, 3, 4, 6, 7]),
    ] {
        let tariff = Tariff::of(&bands, 1, surcharge);
        for (failed, expected) in (0..).zip(expected) {
            assert_eq!(cents(&tariff, failed), Ok(expected), "{failed}");
        }
    }
}

#[test]
fn sums_around_2_to_the_32() {
    for (surcharge, failed, expected) in [
        (0, 429_496, 4_294_960_000),
        (0, 429_497, 4_294_970_000),
        (100, 214_748, 4_294_960_000),
        (100, 214_749, 4_294_980_000),
        // Hundredths of a cent.
        (0, 4_294, 42_940_000),
        (0, 4_295, 42_950_000),
        (100, 2_147, 42_940_000),
        (100, 2_148, 42_960_000),
    ] {
        let tariff = Tariff::of(&[], 10_000, surcharge);
        assert_eq!(cents(&tariff, failed), Ok(expected), "{failed}");
        // Half of it in a band.
        let tariff = Tariff::of(&[(failed / 2, 10_000)], 10_000, surcharge);
        assert_eq!(cents(&tariff, failed), Ok(expected), "{failed}");
    }
}

#[test]
fn a_wrong_answer_is_caught() {
    let told = |number, place, cents| {
        let charged = Charged {
            number,
            place,
            cents,
        };
        catch_unwind(|| charged.answer()).ok()
    };
    let (number, place) = (28, 0);
    assert_eq!(told(0, 0, 546), Some(Ok(546)));
    assert_eq!(told(0, 0, 0), Some(Ok(0)));
    assert_eq!(
        told(number, place, 0),
        Some(Err(part::Refusal { number, place }))
    );
    // Cents with a place, a refusal with cents, with a place, or with both.
    assert_eq!([told(0, 1, 546), told(0, 1, 0)], [None; 2]);
    assert_eq!([told(28, 0, 1), told(12, 0, 1 << 32)], [None; 2]);
    assert_eq!([told(29, 1, 0), told(29, 1, 1)], [None; 2]);
}
