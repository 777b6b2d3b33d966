//! Whole numbers without limit: a sign and 64-bit limbs, lowest first.

use std::cmp::Ordering;

/// A whole number of any size.
#[derive(Clone, Debug, PartialEq, Eq)]
pub struct Big {
    negative: bool,
    /// Magnitude, lowest limb first, no zero limb at the top; zero is empty
    /// and not negative.
    limbs: Vec<u64>,
}

impl Big {
    pub fn zero() -> Big {
        Big {
            negative: false,
            limbs: Vec::new(),
        }
    }

    pub fn small(value: i64) -> Big {
        Big::from_parts(value < 0, vec![value.unsigned_abs()])
    }

    fn from_parts(negative: bool, mut limbs: Vec<u64>) -> Big {
        while limbs.last() == Some(&0) {
            limbs.pop();
        }
        Big {
            negative: negative && !limbs.is_empty(),
            limbs,
        }
    }

    pub fn is_zero(&self) -> bool {
        self.limbs.is_empty()
    }

    pub fn is_negative(&self) -> bool {
        self.negative
    }

    pub fn magnitude(&self) -> Big {
        Big::from_parts(false, self.limbs.clone())
    }

    pub fn negated(&self) -> Big {
        Big::from_parts(!self.negative, self.limbs.clone())
    }

    pub fn plus(&self, other: &Big) -> Big {
        if self.negative == other.negative {
            return Big::from_parts(self.negative, add_limbs(&self.limbs, &other.limbs));
        }
        match compare_limbs(&self.limbs, &other.limbs) {
            Ordering::Less => Big::from_parts(other.negative, sub_limbs(&other.limbs, &self.limbs)),
            _ => Big::from_parts(self.negative, sub_limbs(&self.limbs, &other.limbs)),
        }
    }

    pub fn minus(&self, other: &Big) -> Big {
        self.plus(&other.negated())
    }

    pub fn times(&self, other: &Big) -> Big {
        let mut limbs = vec![0u64; self.limbs.len() + other.limbs.len()];
        for (i, &a) in self.limbs.iter().enumerate() {
            let mut carry = 0u128;
            for (j, &b) in other.limbs.iter().enumerate() {
                let t = u128::from(a) * u128::from(b) + u128::from(limbs[i + j]) + carry;
                limbs[i + j] = t as u64;
                carry = t >> 64;
            }
            limbs[i + other.limbs.len()] = carry as u64;
        }
        Big::from_parts(self.negative != other.negative, limbs)
    }

    /// Times a small whole number.
    pub fn times_small(&self, factor: i64) -> Big {
        let by = u128::from(factor.unsigned_abs());
        let mut limbs = Vec::with_capacity(self.limbs.len() + 1);
        let mut carry = 0u128;
        for &a in &self.limbs {
            let t = u128::from(a) * by + carry;
            limbs.push(t as u64);
            carry = t >> 64;
        }
        limbs.push(carry as u64);
        Big::from_parts(self.negative != (factor < 0), limbs)
    }

    /// Times 2 to the power `bits`.
    pub fn shifted(&self, bits: u32) -> Big {
        let mut limbs = vec![0u64; (bits / 64) as usize];
        let part = bits % 64;
        let mut carry = 0u64;
        for &a in &self.limbs {
            limbs.push((a << part) | carry);
            carry = if part == 0 { 0 } else { a >> (64 - part) };
        }
        limbs.push(carry);
        Big::from_parts(self.negative, limbs)
    }

    /// The number of bits of the magnitude; 0 for zero.
    pub fn bits(&self) -> u32 {
        match self.limbs.last() {
            None => 0,
            Some(top) => self.limbs.len() as u32 * 64 - top.leading_zeros(),
        }
    }

    /// The least whole number not below `self / divisor`, for `self` not
    /// negative and `divisor` above zero.
    pub fn divided_up(&self, divisor: &Big) -> Big {
        assert!(!self.negative && !divisor.negative && !divisor.is_zero());
        let mut rest = Big::zero();
        let mut quotient = Big::zero();
        for bit in (0..self.bits()).rev() {
            let digit = (self.limbs[(bit / 64) as usize] >> (bit % 64)) & 1;
            rest = rest.shifted(1).plus(&Big::small(digit as i64));
            quotient = quotient.shifted(1);
            if rest >= *divisor {
                rest = rest.minus(divisor);
                quotient = quotient.plus(&Big::from(1));
            }
        }
        if rest.is_zero() {
            quotient
        } else {
            quotient.plus(&Big::from(1))
        }
    }

    /// The number, if 64 bits without sign hold it.
    pub fn to_u64(&self) -> Option<u64> {
        match (self.negative, self.limbs.as_slice()) {
            (false, []) => Some(0),
            (false, [low]) => Some(*low),
            _ => None,
        }
    }

    /// `self / divisor` to the accuracy of a double, for printing.
    pub fn ratio(&self, divisor: &Big) -> f64 {
        let (a, a_shift) = self.leading();
        let (b, b_shift) = divisor.leading();
        a / b * 2f64.powi(a_shift - b_shift)
    }

    /// The number as about `value * 2^shift`.
    fn leading(&self) -> (f64, i32) {
        let skip = self.limbs.len().saturating_sub(2);
        let mut value = 0f64;
        for &limb in self.limbs[skip..].iter().rev() {
            value = value * 2f64.powi(64) + limb as f64;
        }
        let value = if self.negative { -value } else { value };
        (value, 64 * skip as i32)
    }
}

impl From<i128> for Big {
    fn from(value: i128) -> Big {
        let size = value.unsigned_abs();
        Big::from_parts(value < 0, vec![size as u64, (size >> 64) as u64])
    }
}

impl PartialOrd for Big {
    fn partial_cmp(&self, other: &Big) -> Option<Ordering> {
        Some(self.cmp(other))
    }
}

impl Ord for Big {
    fn cmp(&self, other: &Big) -> Ordering {
        match (self.negative, other.negative) {
            (false, true) => Ordering::Greater,
            (true, false) => Ordering::Less,
            (false, false) => compare_limbs(&self.limbs, &other.limbs),
            (true, true) => compare_limbs(&other.limbs, &self.limbs),
        }
    }
}

fn compare_limbs(a: &[u64], b: &[u64]) -> Ordering {
    a.len()
        .cmp(&b.len())
        .then_with(|| a.iter().rev().cmp(b.iter().rev()))
}

fn add_limbs(a: &[u64], b: &[u64]) -> Vec<u64> {
    let (long, short) = if a.len() >= b.len() { (a, b) } else { (b, a) };
    let mut sum = Vec::with_capacity(long.len() + 1);
    let mut carry = false;
    for (i, &x) in long.iter().enumerate() {
        let y = short.get(i).copied().unwrap_or(0);
        let (t, over1) = x.overflowing_add(y);
        let (t, over2) = t.overflowing_add(u64::from(carry));
        sum.push(t);
        carry = over1 || over2;
    }
    sum.push(u64::from(carry));
    sum
}

/// `a - b` for `a` at least `b`.
fn sub_limbs(a: &[u64], b: &[u64]) -> Vec<u64> {
    let mut rest = Vec::with_capacity(a.len());
    let mut borrow = false;
    for (i, &x) in a.iter().enumerate() {
        let y = b.get(i).copied().unwrap_or(0);
        let (t, under1) = x.overflowing_sub(y);
        let (t, under2) = t.overflowing_sub(u64::from(borrow));
        rest.push(t);
        borrow = under1 || under2;
    }
    assert!(!borrow);
    rest
}

#[cfg(test)]
mod tests {
    use super::*;

    fn big(v: i128) -> Big {
        Big::from(v)
    }

    #[test]
    fn agrees_with_128_bits() {
        let mut seed = 0x9e37_79b9_7f4a_7c15u64;
        let mut next = |bits: u32| {
            seed ^= seed << 13;
            seed ^= seed >> 7;
            seed ^= seed << 17;
            i128::from(seed as i64 >> (64 - bits))
        };
        for round in 0..20_000 {
            let (a, b) = (next(1 + round % 64), next(1 + round / 7 % 62));
            assert_eq!(big(a).plus(&big(b)), big(a + b));
            assert_eq!(big(a).minus(&big(b)), big(a - b));
            assert_eq!(big(a).times(&big(b)), big(a * b));
            assert_eq!(big(a).times_small(b as i64), big(a * b));
            assert_eq!(big(a).cmp(&big(b)), a.cmp(&b));
            assert_eq!(big(a).shifted(40), big(a << 40));
            let (p, q) = (a.abs(), b.abs() + 1);
            assert_eq!(big(p).divided_up(&big(q)), big((p + q - 1) / q));
        }
    }

    #[test]
    fn carries_run_through_many_limbs() {
        let one = big(1);
        let power = one.shifted(640);
        let below = power.minus(&one);
        assert_eq!(below.bits(), 640);
        assert_eq!(below.plus(&one), power);
        // (2^640 - 1)^2 = 2^1280 - 2^641 + 1
        let square = one.shifted(1280).minus(&one.shifted(641)).plus(&one);
        assert_eq!(below.times(&below), square);
        assert_eq!(square.divided_up(&below), below);
        assert_eq!(square.plus(&one).divided_up(&below), power);
        assert!(below.negated() < one && power.negated() < below.negated());
        assert!((square.ratio(&below.times_small(-8)) / -(2f64.powi(637)) - 1.0).abs() < 1e-12);
    }
}
