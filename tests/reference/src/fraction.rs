//! Exact numbers: a whole number over a whole number above zero. Two are
//! compared with the denominators multiplied out.

use crate::big::Big;
use std::cmp::Ordering;

#[derive(Clone, Debug)]
pub struct Fraction {
    numerator: Big,
    denominator: Big,
}

impl Fraction {
    pub fn new(numerator: Big, denominator: Big) -> Fraction {
        assert!(!denominator.is_zero() && !denominator.is_negative());
        Fraction {
            numerator,
            denominator,
        }
    }

    pub fn whole(value: i64) -> Fraction {
        Fraction::new(Big::small(value), Big::from(1))
    }

    pub fn is_zero(&self) -> bool {
        self.numerator.is_zero()
    }

    pub fn magnitude(&self) -> Fraction {
        Fraction::new(self.numerator.magnitude(), self.denominator.clone())
    }

    pub fn plus(&self, other: &Fraction) -> Fraction {
        if self.denominator == other.denominator {
            return Fraction::new(
                self.numerator.plus(&other.numerator),
                self.denominator.clone(),
            );
        }
        let left = self.numerator.times(&other.denominator);
        let right = other.numerator.times(&self.denominator);
        Fraction::new(
            left.plus(&right),
            self.denominator.times(&other.denominator),
        )
    }

    pub fn times(&self, other: &Fraction) -> Fraction {
        Fraction::new(
            self.numerator.times(&other.numerator),
            self.denominator.times(&other.denominator),
        )
    }

    /// The least whole number of 2^-`bits` that is not below this one, for
    /// one that is not negative.
    pub fn rounded_up(&self, bits: u32) -> Big {
        self.numerator.shifted(bits).divided_up(&self.denominator)
    }
}

impl PartialEq for Fraction {
    fn eq(&self, other: &Fraction) -> bool {
        self.cmp(other) == Ordering::Equal
    }
}

impl Eq for Fraction {}

impl PartialOrd for Fraction {
    fn partial_cmp(&self, other: &Fraction) -> Option<Ordering> {
        Some(self.cmp(other))
    }
}

impl Ord for Fraction {
    fn cmp(&self, other: &Fraction) -> Ordering {
        let left = self.numerator.times(&other.denominator);
        let right = other.numerator.times(&self.denominator);
        left.cmp(&right)
    }
}

#[cfg(test)]
mod tests {
    use super::*;

    fn f(n: i64, d: i64) -> Fraction {
        Fraction::new(Big::small(n), Big::small(d))
    }

    #[test]
    fn sums_products_and_order() {
        assert_eq!(f(1, 3).plus(&f(1, 6)), f(1, 2));
        assert_eq!(f(-2, 3).times(&f(9, 4)), f(-3, 2));
        assert!(f(-1, 3) < f(-1, 4));
        assert!(f(2, 3) > f(3, 5));
        assert!(f(0, 7).is_zero());
        assert_eq!(f(-5, 2).magnitude(), f(10, 4));
    }

    #[test]
    fn rounds_up_and_keeps_whole_ones() {
        assert_eq!(f(3, 2).rounded_up(1).to_u64(), Some(3));
        assert_eq!(f(3, 2).rounded_up(0).to_u64(), Some(2));
        assert_eq!(f(1, 3).rounded_up(16).to_u64(), Some(21846));
        assert_eq!(f(0, 3).rounded_up(16).to_u64(), Some(0));
    }
}
