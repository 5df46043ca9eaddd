//! What a term of a rule stands for: a whole number over a power of ten.

use super::integer::Integer;
use std::cmp::Ordering;
use std::ops::{Add, Mul, Sub};

/// A whole number over 10 to some power. Two are equal if they stand for the same number, whatever their powers.
#[derive(Clone, Debug)]
pub struct Rational {
    over: Integer,
    tens: u32,
}

impl Rational {
    /// A whole number over 10 to a power.
    pub fn of(over: impl Into<i128>, tens: u32) -> Rational {
        let over = Integer::from(over.into());
        Rational { over, tens }
    }

    /// The number without its sign.
    pub fn abs(&self) -> Rational {
        Rational {
            over: self.over.abs(),
            tens: self.tens,
        }
    }

    /// Both numbers by cross multiplication: each one's upper part times the other's lower.
    fn crossed(&self, other: &Rational) -> (Integer, Integer) {
        (times(&self.over, other.tens), times(&other.over, self.tens))
    }

    /// An upper part over the product of both lower parts.
    fn over_both(&self, other: &Rational, over: Integer) -> Rational {
        Rational {
            over,
            tens: self.tens + other.tens,
        }
    }
}

/// A number times a power of ten.
fn times(number: &Integer, tens: u32) -> Integer {
    match tens {
        0 => number.clone(),
        _ => number * &Integer::ten_to(tens),
    }
}

impl Add for Rational {
    type Output = Rational;

    fn add(self, other: Rational) -> Rational {
        let (one, two) = self.crossed(&other);
        self.over_both(&other, &one + &two)
    }
}

impl Sub for Rational {
    type Output = Rational;

    fn sub(self, other: Rational) -> Rational {
        let (one, two) = self.crossed(&other);
        self.over_both(&other, &one - &two)
    }
}

impl Mul for Rational {
    type Output = Rational;

    fn mul(self, other: Rational) -> Rational {
        self.over_both(&other, &self.over * &other.over)
    }
}

impl Ord for Rational {
    fn cmp(&self, other: &Rational) -> Ordering {
        let (one, two) = self.crossed(other);
        one.cmp(&two)
    }
}

impl PartialOrd for Rational {
    fn partial_cmp(&self, other: &Rational) -> Option<Ordering> {
        Some(self.cmp(other))
    }
}

impl PartialEq for Rational {
    fn eq(&self, other: &Rational) -> bool {
        self.cmp(other).is_eq()
    }
}

impl Eq for Rational {}

#[cfg(test)]
mod tests {
    use super::*;

    #[test]
    fn the_same_number_over_any_power() {
        // 12.5, and what is next to it.
        for tens in 1..=60_u32 {
            let same = Rational::of(125, 1) * Rational::of(1_000_000, 6);
            let zeros = (0..tens).fold(same, |value, _| value * Rational::of(10, 1));
            assert_eq!(zeros, Rational::of(125, 1));
            let little = (0..tens).fold(Rational::of(1, 6), |value, _| value * Rational::of(1, 1));
            assert!(zeros.clone() + little.clone() > Rational::of(125, 1));
            assert!(zeros.clone() - little.clone() < Rational::of(125, 1));
            assert_eq!(
                zeros + little.clone() - little,
                Rational::of(25, 0) * Rational::of(5, 1)
            );
        }
    }

    #[test]
    fn numbers_with_decimals() {
        assert_eq!(
            Rational::of(125, 1) + Rational::of(125, 2),
            Rational::of(1375, 2)
        );
        assert_eq!(
            Rational::of(125, 1) - Rational::of(13, 0),
            Rational::of(-5, 1)
        );
        assert_eq!(
            Rational::of(-15, 1) * Rational::of(25, 2),
            Rational::of(-375, 3)
        );
        assert_eq!(
            (Rational::of(3, 1) - Rational::of(1, 0)).abs(),
            Rational::of(70, 2)
        );
        assert!(Rational::of(i32::MIN, 6) < Rational::of(-2_147, 0));
        assert!(Rational::of(-2_148, 0) < Rational::of(i32::MIN, 6));
    }
}
