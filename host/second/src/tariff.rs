//! The rework tariff of a service contract: what a number of violations costs.

use super::Refusal;
use std::collections::BTreeSet;

/// The most bands.
pub const MOST_BANDS: usize = 4;
const MOST_LAST: u32 = 1_010_000;
const MOST_PRICE: u32 = 10_000;
const MOST_SURCHARGE: u32 = 100;

/// A band: the number of its last violation, and the price of each of its violations in cents.
#[derive(Clone, Copy, Debug, Default, PartialEq, Eq)]
pub struct Band {
    pub last: u32,
    pub price: u32,
}

/// A tariff. Entries after the last band are not looked at.
#[derive(Clone, Debug, PartialEq, Eq)]
pub struct Tariff {
    /// How many bands there are.
    pub len: u32,
    pub bands: [Band; MOST_BANDS],
    /// The price of each violation after the last band, in cents.
    pub beyond: u32,
    /// In percent.
    pub surcharge: u32,
}

impl Tariff {
    /// The tariff of a list of bands, each as its last number and its price. Of more than four the first four have an
    /// entry, and all count.
    pub fn of(list: &[(u32, u32)], beyond: u32, surcharge: u32) -> Tariff {
        let mut bands = [Band::default(); MOST_BANDS];
        for (band, (last, price)) in bands.iter_mut().zip(list.iter().copied()) {
            *band = Band { last, price };
        }
        Tariff {
            len: list.len() as u32,
            bands,
            beyond,
            surcharge,
        }
    }

    /// What so many violations cost in cents, unless 28 or 29 refuses.
    pub fn cents(&self, violations: u32) -> Result<u64, Refusal> {
        let bands = self.check()?;
        let price = |k: u32| match bands.iter().find(|band| k <= band.last) {
            Some(band) => u128::from(band.price),
            None => u128::from(self.beyond),
        };
        let sum: u128 = (1..=violations).map(price).sum();
        Ok(half_up(sum * (100 + u128::from(self.surcharge)), 100))
    }

    /// The bands that there are, unless 28 or 29 refuses, in this order.
    pub fn check(&self) -> Result<&[Band], Refusal> {
        let bands = self.bands.get(..self.len as usize);
        let bands = bands
            .filter(|bands| lasts_fit(bands))
            .ok_or(Refusal::of(28))?;
        let mut prices = bands.iter().map(|band| band.price).chain([self.beyond]);
        if prices.any(|price| price > MOST_PRICE) || self.surcharge > MOST_SURCHARGE {
            return Err(Refusal::of(29));
        }
        Ok(bands)
    }
}

/// Whether the last numbers rise strictly within their limits. They rise where sorting them, each taken once, gives the
/// same list.
fn lasts_fit(bands: &[Band]) -> bool {
    let lasts: Vec<u32> = bands.iter().map(|band| band.last).collect();
    let sorted: BTreeSet<u32> = lasts.iter().copied().collect();
    let within = |last: &u32| (1..=MOST_LAST).contains(last);
    sorted.iter().eq(&lasts) && lasts.iter().all(within)
}

/// A quotient as a whole number, up where twice the remainder is at least the divisor.
fn half_up(number: u128, divisor: u128) -> u64 {
    let (whole, rest) = (number / divisor, number % divisor);
    let rounded = whole + u128::from(2 * rest >= divisor);
    rounded.try_into().expect("the cents fit in 64 bits")
}
