//! The five constants of the lifting, as exact decimal fractions, and their
//! nearest multiples of 2^-F.

use crate::big::Big;
use crate::fraction::Fraction;

/// A whole number over a whole number above zero.
#[derive(Clone, Copy, Debug, PartialEq, Eq)]
pub struct Ratio {
    pub numerator: i64,
    pub denominator: i64,
}

const fn ratio(numerator: i64, denominator: i64) -> Ratio {
    Ratio {
        numerator,
        denominator,
    }
}

pub const ALPHA: Ratio = ratio(-1_586_134_342, 1_000_000_000);
pub const BETA: Ratio = ratio(-5_298_011_854, 100_000_000_000);
pub const GAMMA: Ratio = ratio(8_829_110_762, 10_000_000_000);
pub const DELTA: Ratio = ratio(4_435_068_522, 10_000_000_000);
pub const ZETA: Ratio = ratio(1_149_604_398, 1_000_000_000);
/// The exact quotient 1 over zeta.
pub const ONE_OVER_ZETA: Ratio = ratio(ZETA.denominator, ZETA.numerator);

/// The constants of P1, U1, P2, U2, G1, G2.
pub const BY_NODE: [Ratio; 6] = [ALPHA, BETA, GAMMA, DELTA, ZETA, ONE_OVER_ZETA];

impl Ratio {
    pub fn fraction(self) -> Fraction {
        Fraction::new(Big::small(self.numerator), Big::small(self.denominator))
    }

    /// The integer c for which c / 2^bits is nearest.
    pub fn rounded(self, bits: u8) -> i128 {
        let scaled = i128::from(self.numerator) << bits;
        let denominator = i128::from(self.denominator);
        let twice = 2 * scaled + denominator;
        assert!(
            twice.rem_euclid(2 * denominator) != 0,
            "a constant lies midway"
        );
        twice.div_euclid(2 * denominator)
    }
}

#[cfg(test)]
mod tests {
    use super::*;

    #[test]
    fn nearest_multiples() {
        assert_eq!(ALPHA.rounded(1), -3);
        assert_eq!(BETA.rounded(3), 0);
        assert_eq!(BETA.rounded(4), -1);
        assert_eq!(ZETA.rounded(1), 2);
        assert_eq!(ONE_OVER_ZETA.rounded(1), 2);
        // 1/zeta = 0.8698644523..., and not 1 over the rounded zeta.
        assert_eq!(ONE_OVER_ZETA.rounded(24), 14_593_904);
        assert_eq!(GAMMA.rounded(2), 4);
        assert_eq!(DELTA.rounded(2), 2);
    }

    #[test]
    fn nearest_for_every_number_of_bits() {
        for constant in BY_NODE {
            for bits in 1..=24u8 {
                let c = constant.rounded(bits);
                // |c / 2^bits - constant| is less than half of 2^-bits.
                let off =
                    c * i128::from(constant.denominator) - (i128::from(constant.numerator) << bits);
                assert!(2 * off.abs() < i128::from(constant.denominator));
            }
        }
    }
}
