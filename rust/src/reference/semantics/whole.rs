//! Whole numbers without limit.

use std::cmp::Ordering;
use std::ops::{Add, Neg};

/// A sign and 32-bit digits, lowest first. The highest digit is not 0; 0 has none.
#[derive(Clone, Debug, PartialEq, Eq)]
pub struct Whole {
    negative: bool,
    digits: Vec<u32>,
}

impl Whole {
    fn new(negative: bool, mut digits: Vec<u32>) -> Whole {
        while digits.last() == Some(&0) {
            digits.pop();
        }
        Whole {
            negative: negative && !digits.is_empty(),
            digits,
        }
    }

    /// The number, if it has one digit at most.
    pub fn small(&self) -> Option<i64> {
        let size = match self.digits[..] {
            [] => 0,
            [digit] => i64::from(digit),
            _ => return None,
        };
        Some(if self.negative { -size } else { size })
    }

    /// The product with a number of one digit.
    pub fn times(&self, factor: i32) -> Whole {
        let mut carry = 0;
        let mut digits = Vec::with_capacity(self.digits.len() + 1);
        for digit in &self.digits {
            carry += u64::from(*digit) * u64::from(factor.unsigned_abs());
            digits.push(carry as u32);
            carry >>= 32;
        }
        digits.push(carry as u32);
        Whole::new(self.negative != (factor < 0), digits)
    }
}

impl From<i128> for Whole {
    fn from(number: i128) -> Whole {
        let size = number.unsigned_abs();
        let digits = (0..4).map(|i| (size >> (32 * i)) as u32).collect();
        Whole::new(number < 0, digits)
    }
}

impl Add for &Whole {
    type Output = Whole;

    fn add(self, other: &Whole) -> Whole {
        if self.negative == other.negative {
            return Whole::new(self.negative, sum(&self.digits, &other.digits));
        }
        match compare_digits(&self.digits, &other.digits) {
            Ordering::Less => Whole::new(other.negative, difference(&other.digits, &self.digits)),
            _ => Whole::new(self.negative, difference(&self.digits, &other.digits)),
        }
    }
}

impl Neg for &Whole {
    type Output = Whole;

    fn neg(self) -> Whole {
        Whole::new(!self.negative, self.digits.clone())
    }
}

impl Ord for Whole {
    fn cmp(&self, other: &Whole) -> Ordering {
        match (self.negative, other.negative) {
            (false, true) => Ordering::Greater,
            (true, false) => Ordering::Less,
            (false, false) => compare_digits(&self.digits, &other.digits),
            (true, true) => compare_digits(&other.digits, &self.digits),
        }
    }
}

impl PartialOrd for Whole {
    fn partial_cmp(&self, other: &Whole) -> Option<Ordering> {
        Some(self.cmp(other))
    }
}

fn compare_digits(one: &[u32], other: &[u32]) -> Ordering {
    let by_length = one.len().cmp(&other.len());
    by_length.then_with(|| one.iter().rev().cmp(other.iter().rev()))
}

fn sum(one: &[u32], other: &[u32]) -> Vec<u32> {
    let mut carry = 0;
    let length = one.len().max(other.len()) + 1;
    (0..length)
        .map(|i| {
            carry += digit(one, i) + digit(other, i);
            let low = carry as u32;
            carry >>= 32;
            low
        })
        .collect()
}

/// The difference of the larger number and the smaller one.
fn difference(larger: &[u32], smaller: &[u32]) -> Vec<u32> {
    let mut borrow = 0;
    (0..larger.len())
        .map(|i| {
            let lowered = (1 << 32) + digit(larger, i) - digit(smaller, i) - borrow;
            borrow = u64::from(lowered >> 32 == 0);
            lowered as u32
        })
        .collect()
}

fn digit(digits: &[u32], i: usize) -> u64 {
    digits.get(i).copied().map_or(0, u64::from)
}

#[cfg(test)]
mod tests {
    use super::*;

    const NUMBERS: [i128; 13] = [
        0,
        1,
        -1,
        7,
        -1_000_000,
        0xFFFF_FFFF,
        0x1_0000_0000,
        -0x1_0000_0000,
        0xFFFF_FFFF_FFFF_FFFF,
        -0x1_0000_0000_0000_0000,
        1_000_000_000_000_000_000_000_000_000_000,
        -999_999_999_999_999_999_999_999_999_999,
        0x1_0000_0000_FFFF_FFFF,
    ];

    #[test]
    fn small_arithmetic_is_that_of_i128() {
        for a in NUMBERS {
            assert_eq!(-&Whole::from(a), Whole::from(-a));
            for b in NUMBERS {
                let sum = &Whole::from(a) + &Whole::from(b);
                assert_eq!(sum, Whole::from(a + b), "{a} + {b}");
                assert_eq!(Whole::from(a).cmp(&Whole::from(b)), a.cmp(&b));
            }
            for factor in [0, 1, -1, 1000, -1000, 999] {
                let product = Whole::from(a).times(factor);
                assert_eq!(product, Whole::from(a * i128::from(factor)));
            }
        }
    }

    #[test]
    fn numbers_of_one_digit_are_small() {
        for number in NUMBERS {
            let small = i64::try_from(number).ok();
            let expected = small.filter(|n| n.unsigned_abs() <= 0xFFFF_FFFF);
            assert_eq!(Whole::from(number).small(), expected, "{number}");
        }
    }

    #[test]
    fn numbers_grow_past_i128() {
        let mut number = Whole::from(1);
        for _ in 0..100 {
            number = number.times(1000);
        }
        assert!(number > Whole::from(i128::MAX));
        assert!(-&number < Whole::from(i128::MIN));
        assert_eq!(&number + &-&number, Whole::from(0));
        let next = &number + &Whole::from(1);
        assert!(next > number);
        assert_eq!(&next + &-&number, Whole::from(1));
    }
}
