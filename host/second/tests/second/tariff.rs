//! The second checker's tariff, for any number of violations and by states.

use crate::common::{feed_all, machine, pull};
use crate::shared::driven::{FALSE, TRUE};
use crate::shared::log::{events, random_line};
use crate::shared::random::{frames, Random};
use crate::shared::seen::Seen;
use crate::shared::tariff::{damage, example, random_tariff, violations, with_totals};
use dillplatter_second::{open, Band, Refusal, State, Tariff, Truth};

fn refused<T>(number: u8) -> Result<T, Refusal> {
    Err(Refusal::of(number))
}

#[test]
fn the_example_of_document_02() {
    let tariff = Tariff::of(&[(10, 45), (100, 30)], 12, 7);
    assert_eq!(tariff.cents(12), Ok(546));
    assert_eq!(with_totals([0, 12, 0]).charge(&tariff), Ok(546));
    assert_eq!(with_totals([12, 0, 12]).charge(&tariff), Ok(0));
}

#[test]
fn the_price_of_each_violation() {
    let prices = |bands: &[(u32, u32)]| -> Vec<u64> {
        let tariff = Tariff::of(bands, 9, 0);
        let cents: Vec<u64> = (0..=8).map(|k| tariff.cents(k).unwrap()).collect();
        cents.windows(2).map(|pair| pair[1] - pair[0]).collect()
    };
    assert_eq!(prices(&[]), [9; 8]);
    assert_eq!(prices(&[(1, 5)]), [5, 9, 9, 9, 9, 9, 9, 9]);
    assert_eq!(prices(&[(3, 5), (4, 0)]), [5, 5, 5, 0, 9, 9, 9, 9]);
    let four = [(1, 4), (2, 3), (4, 2), (7, 1)];
    assert_eq!(prices(&four), [4, 3, 2, 2, 1, 1, 1, 9]);
    assert_eq!(prices(&[(1_010_000, 7)]), [7; 8]);
}

/// Cents in hundredths, band by band.
fn hundredths(tariff: &Tariff, violations: u32) -> u64 {
    let (mut before, mut sum) = (0, 0);
    let bands = tariff.bands[..tariff.len as usize].iter();
    let rest = Band {
        last: u32::MAX,
        price: tariff.beyond,
    };
    for band in bands.chain([&rest]) {
        let last = violations.min(band.last);
        sum += u64::from(last - before) * u64::from(band.price);
        before = last;
    }
    sum * (100 + u64::from(tariff.surcharge))
}

/// Whether cents are those hundredths rounded half up: at most 50 above them and under 50 below.
fn half_up(cents: u64, hundredths: u64) -> bool {
    (100 * cents..100 * cents + 100).contains(&(hundredths + 50))
}

#[test]
fn by_bands_it_is_the_same() {
    let random = &mut Random::new(320_000_000);
    let mut halves = 0;
    for (limit, tariffs) in [(5, 5_000), (1_000, 5_000), (1_010_000, 100)] {
        for _ in 0..tariffs {
            let tariff = random_tariff(random, limit);
            let violations = violations(random, &tariff, limit);
            let expected = hundredths(&tariff, violations);
            let cents = tariff.cents(violations).expect("the tariff is taken");
            assert!(half_up(cents, expected), "{cents} {violations} {tariff:?}");
            halves += usize::from(expected % 100 == 50);
        }
    }
    assert!(halves > 200, "{halves}");
}

#[test]
fn half_a_cent_goes_up() {
    // One violation of 1 cent with each surcharge.
    let cents = |surcharge| Tariff::of(&[], 1, surcharge).cents(1);
    assert!((0..50).all(|surcharge| cents(surcharge) == Ok(1)));
    assert!((50..=100).all(|surcharge| cents(surcharge) == Ok(2)));
    // With 1 percent there is one more cent at 50 violations, at 150, and so on.
    let tariff = Tariff::of(&[(77, 1)], 1, 1);
    for violations in 0..=1_000 {
        let expected = u64::from(violations + (violations + 50) / 100);
        assert_eq!(tariff.cents(violations), Ok(expected), "{violations}");
    }
}

#[test]
fn it_is_rounded_once() {
    // Three times 1.4 cents.
    let tariff = Tariff::of(&[(1, 1), (2, 1)], 1, 40);
    assert_eq!(tariff.cents(3), Ok(4));
    // Three times 1.6.
    let tariff = Tariff::of(&[(1, 1), (2, 1)], 1, 60);
    assert_eq!(tariff.cents(3), Ok(5));
}

#[test]
fn more_violations_never_cost_less() {
    let random = &mut Random::new(330_000_000);
    for _ in 0..300 {
        let tariff = random_tariff(random, 100);
        let cents: Vec<u64> = (0..120).map(|k| tariff.cents(k).unwrap()).collect();
        assert!(cents.is_sorted(), "{tariff:?}");
    }
}

#[test]
fn the_dearest() {
    assert_eq!(
        Tariff::of(&[(1_010_000, 10_000)], 0, 100).cents(1_010_000),
        Ok(20_200_000_000)
    );
    let beyond = Tariff::of(&[(1_009_999, 10_000)], 9_999, 100);
    assert_eq!(beyond.cents(1_010_000), Ok(20_199_999_998));
    // More than a state can have.
    assert_eq!(beyond.cents(1_010_001), Ok(20_200_019_996));
}

#[test]
fn what_28_refuses() {
    let check = |bands: &[(u32, u32)]| Tariff::of(bands, 0, 0).check().map(<[Band]>::len);
    let last = |last| (last, 0);
    assert_eq!(check(&[]), Ok(0));
    for (number, refusal) in [(0, true), (1, false), (1_010_000, false), (1_010_001, true)] {
        let expected = if refusal { refused(28) } else { Ok(1) };
        assert_eq!(check(&[last(number)]), expected, "{number}");
    }
    assert_eq!(check(&[1, 2, 3, 4].map(last)), Ok(4));
    let ends = [1_009_997, 1_009_998, 1_009_999, 1_010_000];
    assert_eq!(check(&ends.map(last)), Ok(4));
    assert_eq!(check(&ends.map(|end| last(end + 1))), refused(28));
    for lasts in [[0, 1, 2, 3], [1, 1, 2, 3], [1, 2, 2, 3], [1, 2, 3, 3]] {
        assert_eq!(check(&lasts.map(last)), refused(28), "{lasts:?}");
    }
    for lasts in [[2, 1, 3, 4], [1, 3, 2, 4], [1, 2, 4, 3], [4, 3, 2, 1]] {
        assert_eq!(check(&lasts.map(last)), refused(28), "{lasts:?}");
    }
    assert_eq!(check(&[7, 9, 7].map(last)), refused(28));
    assert_eq!(check(&[1, u32::MAX].map(last)), refused(28));
}

#[test]
fn five_bands() {
    let bands = [(1, 5), (2, 4), (3, 3), (4, 2), (5, 1)];
    let four = Tariff::of(&bands[..4], 9, 0);
    assert_eq!(four.cents(5), Ok(23));
    let five = Tariff::of(&bands, 9, 0);
    assert_eq!((five.len, five.bands), (5, four.bands));
    assert_eq!(five.cents(5), refused(28));
    for len in [5, 6, 1 << 31, u32::MAX] {
        let many = Tariff {
            len,
            ..four.clone()
        };
        assert_eq!(many.check(), refused(28), "{len} bands");
    }
}

#[test]
fn what_29_refuses() {
    let words: [fn(&mut Tariff) -> &mut u32; 5] = [
        |tariff| &mut tariff.bands[0].price,
        |tariff| &mut tariff.bands[1].price,
        |tariff| &mut tariff.bands[2].price,
        |tariff| &mut tariff.bands[3].price,
        |tariff| &mut tariff.beyond,
    ];
    let good = Tariff::of(&[(1, 1), (2, 2), (3, 3), (4, 4)], 5, 6);
    for word in words {
        let with = |price| {
            let mut tariff = good.clone();
            *word(&mut tariff) = price;
            tariff.check().map(|_| ())
        };
        assert_eq!([0, 9_999, 10_000].map(with), [Ok(()); 3]);
        assert_eq!([10_001, 1 << 31, u32::MAX].map(with), [refused(29); 3]);
    }
    for surcharge in [0, 99, 100, 101, 200, u32::MAX] {
        let tariff = Tariff {
            surcharge,
            ..good.clone()
        };
        let taken = tariff.check().is_ok();
        assert_eq!(taken, surcharge <= 100, "{surcharge}");
        assert!(taken || tariff.check() == refused(29));
    }
}

#[test]
fn entries_that_are_no_bands() {
    for len in 0..=3 {
        let mut tariff = Tariff::of(&[(1, 1), (2, 2), (3, 3)][..len], 9, 0);
        let plain = tariff.cents(5);
        assert_eq!(plain, Ok([45, 37, 30, 24][len]));
        for (last, price) in [(0, 0), (1, 10_001), (5, 7), (u32::MAX, u32::MAX)] {
            tariff.bands[len..].fill(Band { last, price });
            assert_eq!(tariff.cents(5), plain, "{tariff:?}");
        }
    }
}

#[test]
fn refusals_come_in_order() {
    let good = with_totals([1, 2, 3]);
    let no_sum = State {
        p: 7,
        ..good.clone()
    };
    let both = Tariff::of(&[(0, 10_001)], 10_001, 101);
    let prices = Tariff::of(&[(1, 10_000)], 10_000, 101);
    for (tariff, of_good, of_wrong) in [
        (both, refused(28), refused(28)),
        (prices, refused(29), refused(29)),
        (example(), Ok(96), refused(12)),
    ] {
        assert_eq!(good.charge(&tariff), of_good);
        for wrong in [&no_sum, &State::zero()] {
            assert_eq!(wrong.charge(&tariff), of_wrong, "{tariff:?}");
        }
    }
}

#[test]
fn a_state_that_12_refuses_costs_nothing() {
    let tariff = example();
    let most = with_totals([0, 1_009_999, 0]);
    assert_eq!(most.charge(&tariff), tariff.cents(1_009_999));
    let more = with_totals([0, 1_010_000, 0]);
    assert_eq!(more.charge(&tariff), refused(12));
    let wrong: [fn(&mut State); 8] = [
        |state| state.profile = 2,
        |state| (state.profile, state.w) = (1, 33),
        |state| state.totals.failed -= 1,
        |state| state.counts[1] = 1,
        |state| state.counts[0] = 8,
        |state| state.w = 0,
        |state| state.len = 2,
        |state| state.frames[0] = 0xFF,
    ];
    for change in wrong {
        let mut state = with_totals([1, 2, 3]);
        assert_eq!(state.charge(&tariff), Ok(96));
        change(&mut state);
        assert_eq!(state.refusal(&[0; 32]), Some(Refusal::of(12)));
        assert_eq!(state.charge(&tariff), refused(12));
    }
}

#[test]
fn a_machine_charges_for_its_reports() {
    let mut machine = machine("events a; notes t; t(a[i]) > 0", 64);
    feed_all(&mut machine, 0, &[1, 0, 1, -1, 0, 2]);
    let tariff = Tariff::of(&[(1, 100)], 10, 50);
    for (answer, cents) in [
        (TRUE, 0),
        (FALSE, 150),
        (TRUE, 150),
        (FALSE, 165),
        (FALSE, 180),
        (TRUE, 180),
    ] {
        assert_eq!(pull(&mut machine), answer);
        assert_eq!(machine.charge(&tariff), Ok(cents));
        assert_eq!(machine.state(&[]).charge(&tariff), Ok(cents));
    }
}

#[test]
fn charges_after_random_calls() {
    let mut violations = 0;
    let mut seen = Seen::default();
    for seed in 0..300 {
        let random = &mut Random::new(seed + 340_000_000);
        let frames = frames(random);
        let w = random.pick(&[1, 2, 5, 64]);
        let mut machine = open(&frames, w, 32 * w as usize).unwrap();
        let events = events(&machine);
        for _ in 0..100 {
            if random.once_in(2) {
                machine.feed(&random_line(random, &events));
            } else {
                pull(&mut machine);
            }
        }
        // By the lists after the last call.
        let failed = |i: &u32| machine.verdict_of(*i) == Some(Truth::False);
        let start = machine.rule().start();
        let count = (start..machine.p()).filter(failed).count() as u32;
        let mut tariff = random_tariff(random, 20);
        if random.once_in(2) {
            damage(random, &mut tariff);
        }
        assert_eq!(machine.charge(&tariff), tariff.cents(count), "seed {seed}");
        assert_eq!(machine.state(&[]).charge(&tariff), machine.charge(&tariff));
        seen.charged(machine.charge(&tariff));
        violations += count;
    }
    // Cents, 28, 29.
    seen.more_than(3, 10);
    assert!(violations > 1_000, "{violations}");
}
