//! Whole numbers of any size.

use std::cmp::Ordering;
use std::ops::{Add, Mul, Neg, Sub};

/// A whole number: 128 bits, or what these do not hold as a sign and a size, in digits to the base 2^32, the lowest first.
#[derive(Clone, Debug, PartialEq, Eq)]
pub struct Integer(Form);

#[derive(Clone, Debug, PartialEq, Eq)]
enum Form {
    Short(i128),
    Long { negative: bool, size: Vec<u32> },
}

impl From<i128> for Integer {
    fn from(value: i128) -> Integer {
        Integer(Form::Short(value))
    }
}

impl Integer {
    /// A power of ten.
    pub fn ten_to(power: u32) -> Integer {
        match 10_i128.checked_pow(power) {
            Some(value) => value.into(),
            None => &Integer::ten_to(power / 2) * &Integer::ten_to(power - power / 2),
        }
    }

    /// The number without its sign.
    pub fn abs(&self) -> Integer {
        if self.is_negative() {
            -self
        } else {
            self.clone()
        }
    }

    fn is_negative(&self) -> bool {
        match &self.0 {
            Form::Short(value) => *value < 0,
            Form::Long { negative, .. } => *negative,
        }
    }

    /// Its size, in digits.
    fn size(&self) -> Vec<u32> {
        match &self.0 {
            Form::Short(value) => {
                let size = value.unsigned_abs();
                (0..4).map(|k| (size >> (32 * k)) as u32).collect()
            }
            Form::Long { size, .. } => size.clone(),
        }
    }

    /// The number of a sign and a size, in its shorter form where there is one.
    fn of(negative: bool, mut size: Vec<u32>) -> Integer {
        while size.last() == Some(&0) {
            size.pop();
        }
        if size.len() <= 4 {
            let joined = |high, digit: &u32| high << 32 | u128::from(*digit);
            let whole = size.iter().rev().fold(0, joined);
            let short = if negative {
                0_i128.checked_sub_unsigned(whole)
            } else {
                0_i128.checked_add_unsigned(whole)
            };
            if let Some(value) = short {
                return value.into();
            }
        }
        Integer(Form::Long { negative, size })
    }
}

impl Add for &Integer {
    type Output = Integer;

    fn add(self, other: &Integer) -> Integer {
        if let (Form::Short(one), Form::Short(two)) = (&self.0, &other.0) {
            if let Some(sum) = one.checked_add(*two) {
                return sum.into();
            }
        }
        let (one, two) = (self.size(), other.size());
        let negative = self.is_negative();
        if negative == other.is_negative() {
            return Integer::of(negative, sum(&one, &two));
        }
        match compared(&one, &two) {
            Ordering::Less => Integer::of(!negative, difference(&two, &one)),
            _ => Integer::of(negative, difference(&one, &two)),
        }
    }
}

impl Neg for &Integer {
    type Output = Integer;

    fn neg(self) -> Integer {
        match &self.0 {
            Form::Short(value) if *value > i128::MIN => (-value).into(),
            _ => Integer::of(!self.is_negative(), self.size()),
        }
    }
}

impl Sub for &Integer {
    type Output = Integer;

    fn sub(self, other: &Integer) -> Integer {
        self + &-other
    }
}

impl Mul for &Integer {
    type Output = Integer;

    fn mul(self, other: &Integer) -> Integer {
        if let (Form::Short(one), Form::Short(two)) = (&self.0, &other.0) {
            if let Some(product) = one.checked_mul(*two) {
                return product.into();
            }
        }
        let negative = self.is_negative() != other.is_negative();
        Integer::of(negative, product(&self.size(), &other.size()))
    }
}

impl Ord for Integer {
    fn cmp(&self, other: &Integer) -> Ordering {
        match (&self.0, &other.0) {
            (Form::Short(one), Form::Short(two)) => one.cmp(two),
            _ => match self - other {
                equal if equal == 0.into() => Ordering::Equal,
                less if less.is_negative() => Ordering::Less,
                _ => Ordering::Greater,
            },
        }
    }
}

impl PartialOrd for Integer {
    fn partial_cmp(&self, other: &Integer) -> Option<Ordering> {
        Some(self.cmp(other))
    }
}

/// A digit of a size, 0 beyond its end.
fn digit(size: &[u32], k: usize) -> u64 {
    size.get(k).copied().map_or(0, u64::from)
}

/// Which of two sizes is greater.
fn compared(one: &[u32], two: &[u32]) -> Ordering {
    let highest_first = (0..one.len().max(two.len())).rev();
    highest_first
        .map(|k| digit(one, k).cmp(&digit(two, k)))
        .find(|order| order.is_ne())
        .unwrap_or(Ordering::Equal)
}

fn sum(one: &[u32], two: &[u32]) -> Vec<u32> {
    let mut carry = 0;
    (0..=one.len().max(two.len()))
        .map(|k| {
            let sum = digit(one, k) + digit(two, k) + carry;
            carry = sum >> 32;
            sum as u32
        })
        .collect()
}

/// The difference of a size and one that is not greater.
fn difference(one: &[u32], two: &[u32]) -> Vec<u32> {
    let mut borrow = 0;
    (0..one.len())
        .map(|k| {
            let less = digit(two, k) + borrow;
            borrow = u64::from(digit(one, k) < less);
            ((borrow << 32) + digit(one, k) - less) as u32
        })
        .collect()
}

fn product(one: &[u32], two: &[u32]) -> Vec<u32> {
    let mut found = vec![0; one.len() + two.len()];
    for (j, by) in one.iter().enumerate() {
        let mut carry = 0;
        for k in 0..=two.len() {
            let Some(place) = found.get_mut(j + k) else {
                break;
            };
            let sum = u64::from(*by) * digit(two, k) + u64::from(*place) + carry;
            *place = sum as u32;
            carry = sum >> 32;
        }
    }
    found
}

#[cfg(test)]
mod tests {
    use super::*;

    /// Numbers on both sides of where one digit more is needed, and of where 128 bits end.
    fn numbers() -> Vec<Integer> {
        let mut found: Vec<Integer> = vec![0.into(), i128::MIN.into(), i128::MAX.into()];
        let two = Integer::from(2);
        let mut power = Integer::from(1);
        for bits in 0..400 {
            // 127 and 128 among them.
            if bits % 31 < 5 {
                for less in [-1, 0, 1] {
                    let near = &power + &less.into();
                    found.extend([-&near, near]);
                }
            }
            power = &power * &two;
        }
        for power in [1, 18, 37, 38, 39, 40, 77, 186] {
            found.push(Integer::ten_to(power));
        }
        found
    }

    #[test]
    fn a_number_has_one_form() {
        for number in numbers() {
            let Integer(form) = &number;
            if let Form::Long { size, .. } = form {
                assert_ne!(size.last(), Some(&0));
                assert!(size.len() > 4 || size.len() == 4 && size[3] >= 1 << 31);
            }
            assert_eq!(-&-&number, number);
            assert_eq!(&number - &number, 0.into());
            assert_eq!(&number + &0.into(), number);
            assert_eq!(&number * &1.into(), number);
            assert_eq!(&number * &(-1).into(), -&number);
            assert_eq!(&number * &0.into(), 0.into());
            assert_eq!(number.abs(), number.clone().max(-&number));
        }
        let half = Integer::from(1 << 126);
        assert_eq!(-&(&half + &half), i128::MIN.into());
        assert_eq!(&(&half + &half) - &1.into(), i128::MAX.into());
    }

    #[test]
    fn sums_and_products_of_any_size() {
        let all = numbers();
        let third = &Integer::ten_to(50) + &7.into();
        for one in &all {
            for two in &all {
                let sum = one + two;
                assert_eq!(sum, two + one);
                assert_eq!(&(&sum - one), two);
                assert_eq!(one * two, two * one);
                let apart = &(one * &third) + &(two * &third);
                assert_eq!(&sum * &third, apart);
                assert_eq!(&(one * two) * &third, one * &(two * &third));
                // (a + b)(a - b) = aa - bb.
                assert_eq!(&sum * &(one - two), &(one * one) - &(two * two));
                assert_eq!(one.cmp(two), two.cmp(one).reverse());
                assert_eq!(one == two, one.cmp(two).is_eq());
                // Moved by the same, and doubled, they keep their order.
                assert_eq!((one + &third).cmp(&(two + &third)), one.cmp(two));
                assert_eq!((one + one).cmp(&(two + two)), one.cmp(two));
            }
        }
    }

    #[test]
    fn short_numbers_are_those_of_128_bits() {
        let short = [0, 1, -1, 7, 1 << 31, 1 << 32, -(1 << 62), 1 << 63];
        for one in short {
            for two in short {
                let (a, b): (Integer, Integer) = (one.into(), two.into());
                assert_eq!(&a + &b, (one + two).into());
                assert_eq!(&a * &b, (one * two).into());
                assert_eq!(a.cmp(&b), one.cmp(&two));
            }
        }
    }

    #[test]
    fn powers_of_ten() {
        for power in 0..=190 {
            let step_by_step = (0..power).fold(1.into(), |value: Integer, _| &value * &10.into());
            assert_eq!(Integer::ten_to(power), step_by_step, "{power}");
        }
        // 10^40 to the base 2^32, by another calculator.
        let forty = Form::Long {
            negative: false,
            size: vec![0, 3_119_866_112, 1_554_300_843, 1_663_693_251, 29],
        };
        assert_eq!(Integer::ten_to(40), Integer(forty));
    }
}
