//! The inverse of the exact 9/7 transform: nothing is cut (document 02, job 1).
//! All values are whole numbers over one common denominator, as in [`exact97`].
//!
//! [`exact97`]: crate::exact97

use crate::big::Big;
use crate::constants::{Ratio, ALPHA, BETA, DELTA, GAMMA, ZETA};
use crate::exact97::{pass_factor, scale, stage};
use crate::fixed_inverse97::NODE_BITS;
use crate::places::{kept_node, low_count, side_at};
use crate::table::{WidthTable, MAX_FRACTION_BITS};

/// The exact inverse of a plane.
pub struct ExactPicture {
    /// Row by row.
    numerators: Vec<Big>,
    denominator: Big,
}

/// How far values with [`NODE_BITS`] fractional bits stand from the exact ones.
#[derive(Clone, Copy, Debug, PartialEq)]
pub struct Off {
    /// No value differs by more than the bound.
    pub within: bool,
    /// The largest difference over the bound, to the accuracy of a double.
    pub of_bound: f64,
}

/// The stage taken away again: own * denominator - numerator * (sum of two).
fn unstage(own: &mut [Big], others: &[Big], by: Ratio, beside: impl Fn(usize) -> (usize, usize)) {
    let numerator = -by.numerator;
    stage(own, others, Ratio { numerator, ..by }, beside);
}

/// The inverse of one pass. The numerators given, low values first, have some common
/// denominator D; those that come back have D times [`pass_factor`]. A single
/// low value is the sample (document 02, job 6).
fn unpass(line: &[Big]) -> Vec<Big> {
    if let [low] = line {
        return vec![low.times(&pass_factor())];
    }
    let n = line.len();
    let (lows, highs) = line.split_at(low_count(n));
    let (mut lows, mut highs) = (lows.to_vec(), highs.to_vec());
    let lows_beside = |k: usize| (k, (k + 1).min(low_count(n) - 1));
    let highs_beside = |k: usize| (k.max(1) - 1, k.min(n / 2 - 1));
    // Low over n/d is low * d * d over n * d; high times n/d is
    // high * n * n over n * d.
    scale(&mut lows, ZETA.denominator);
    scale(&mut lows, ZETA.denominator);
    scale(&mut highs, ZETA.numerator);
    scale(&mut highs, ZETA.numerator);
    unstage(&mut lows, &highs, DELTA, highs_beside);
    scale(&mut highs, DELTA.denominator);
    unstage(&mut highs, &lows, GAMMA, lows_beside);
    scale(&mut lows, GAMMA.denominator);
    unstage(&mut lows, &highs, BETA, highs_beside);
    scale(&mut highs, BETA.denominator);
    unstage(&mut highs, &lows, ALPHA, lows_beside);
    scale(&mut lows, ALPHA.denominator);
    let (mut lows, mut highs) = (lows.into_iter(), highs.into_iter());
    let sample = |k: usize| match k % 2 {
        0 => lows.next(),
        _ => highs.next(),
    };
    (0..n).map_while(sample).collect()
}

/// Undoes numerators that have one common denominator.
fn undo_all(
    mut numerators: Vec<Big>,
    mut denominator: Big,
    levels: u8,
    width: usize,
    height: usize,
) -> ExactPicture {
    let factor = pass_factor().times(&pass_factor());
    for level in (1..=levels).rev() {
        let (w, h) = (side_at(width, level), side_at(height, level));
        for x in 0..w {
            let column: Vec<Big> = (0..h).map(|y| numerators[y * width + x].clone()).collect();
            for (y, value) in unpass(&column).into_iter().enumerate() {
                numerators[y * width + x] = value;
            }
        }
        for y in 0..h {
            let row = y * width..y * width + w;
            let worked = unpass(&numerators[row.clone()]);
            numerators[row].clone_from_slice(&worked);
        }
        // What this level did not work follows.
        for (i, value) in numerators.iter_mut().enumerate() {
            if i % width >= w || i / width >= h {
                *value = value.times(&factor);
            }
        }
        denominator = denominator.times(&factor);
    }
    ExactPicture {
        numerators,
        denominator,
    }
}

/// The exact inverse of what is stored in a plane under a sound table: at each
/// place v / 2^f with the f of the kept node that gave it. The sides must be
/// admitted.
pub fn inverse(table: &WidthTable, plane: &[i128], width: usize, height: usize) -> ExactPicture {
    let stored = |(i, &v): (usize, &i128)| {
        let node = kept_node(width, height, table.levels, i % width, i / width);
        let f = table.width(node).fraction_bits;
        Big::from(v).shifted(u32::from(MAX_FRACTION_BITS - f))
    };
    let numerators = plane.iter().enumerate().map(stored).collect();
    let denominator = Big::from(1).shifted(u32::from(MAX_FRACTION_BITS));
    undo_all(numerators, denominator, table.levels, width, height)
}

impl ExactPicture {
    /// Numerator and denominator of the value at an element.
    pub fn value(&self, element: usize) -> (&Big, &Big) {
        (&self.numerators[element], &self.denominator)
    }

    /// Holds values with [`NODE_BITS`] fractional bits against these; the
    /// bound is in whole numbers of 2^-32.
    pub fn off(&self, values: &[i128], bound: u64) -> Off {
        let most = self.denominator.times(&Big::from(i128::from(bound)));
        let mut off = Off {
            within: true,
            of_bound: 0.0,
        };
        for (&value, exact) in values.iter().zip(&self.numerators) {
            // v / 2^20 - n / d, times d and 2^32
            let ours = self.denominator.times(&Big::from(value));
            let ours = ours.shifted(32 - u32::from(NODE_BITS));
            let here = ours.minus(&exact.shifted(32)).magnitude();
            off.within &= here <= most;
            off.of_bound = off.of_bound.max(here.ratio(&most));
        }
        off
    }

    /// Whether every pixel is one of the two greys nearest the exact value,
    /// limited to the depth: less than one grey from it.
    pub fn shown(&self, depth: u8, pixels: &[u16]) -> bool {
        let one = &self.denominator;
        let (darkest, lightest) = (Big::zero(), one.times_small((1 << depth) - 1));
        pixels.iter().zip(&self.numerators).all(|(&pixel, exact)| {
            // (n / d) * 2^B + 2^(B-1), times d
            let grey = exact
                .shifted(u32::from(depth))
                .plus(&one.times_small(1 << (depth - 1)));
            let grey = grey.clamp(darkest.clone(), lightest.clone());
            let off = one.times_small(i64::from(pixel)).minus(&grey);
            off.magnitude() < *one
        })
    }
}

#[cfg(test)]
mod tests {
    use super::*;
    use crate::constants::{BY_NODE, ONE_OVER_ZETA};
    use crate::exact97;
    use crate::fraction::Fraction;
    use crate::table::Width;

    /// The same pass straight from the text, in fractions.
    fn unpass_in_fractions(line: &[Fraction]) -> Vec<Fraction> {
        let n = line.len();
        if n == 1 {
            return line.to_vec();
        }
        let (low, high) = (ONE_OVER_ZETA.fraction(), ZETA.fraction());
        let sample = |i: usize| match i % 2 {
            0 => line[i / 2].times(&low),
            _ => line[low_count(n) + i / 2].times(&high),
        };
        let mut v: Vec<Fraction> = (0..n).map(sample).collect();
        let mirror = |i: isize| -> usize {
            let last = n as isize - 1;
            (if i < 0 {
                -i
            } else if i > last {
                2 * last - i
            } else {
                i
            }) as usize
        };
        for stage in (0..4).rev() {
            let minus = BY_NODE[stage].fraction().times(&Fraction::whole(-1));
            for i in (1 - stage % 2..n).step_by(2) {
                let sum = v[mirror(i as isize - 1)].plus(&v[mirror(i as isize + 1)]);
                v[i] = v[i].plus(&minus.times(&sum));
            }
        }
        v
    }

    #[test]
    fn common_denominator_agrees_with_fractions() {
        for n in 1..=9usize {
            let line: Vec<i64> = (0..n as i64).map(|i| i * i * 7 % 31 - 15).collect();
            let bigs: Vec<Big> = line.iter().map(|&v| Big::small(v)).collect();
            let fractions: Vec<Fraction> = line.iter().map(|&v| Fraction::whole(v)).collect();
            let worked = unpass(&bigs);
            assert_eq!(worked.len(), n);
            for (ours, due) in worked.iter().zip(unpass_in_fractions(&fractions)) {
                assert_eq!(Fraction::new(ours.clone(), pass_factor()), due);
            }
        }
    }

    /// Exactly the picture comes back from its exact plane, at every number of
    /// levels, with sides odd and even, with single samples in some pass or in
    /// none.
    #[test]
    fn the_exact_plane_goes_back() {
        for levels in 1..=5u8 {
            let full = (1usize << (levels - 1)) + 1;
            for (width, height) in [
                (full, full),
                (full + 3, full + 1),
                (full + 2, full),
                (full - 1, full + 2),
                (1, 1),
                (1, full),
                (full + 1, 1),
                (2, 3),
            ] {
                let depth = 1 + levels;
                let pixels: Vec<u16> = (0..width * height)
                    .map(|i| ((i * i * 7 + i / 3) % (1 << depth)) as u16)
                    .collect();
                let plane = exact97::transform(depth, levels, &pixels, width, height);
                // All over the last level's denominator.
                let (_, denominator) = plane.value(0, 0);
                let common = |i: usize| {
                    let (numerator, own) = plane.value(i % width, i / width);
                    numerator.times(&denominator.divided_up(own))
                };
                let numerators: Vec<Big> = (0..pixels.len()).map(common).collect();
                let back = undo_all(numerators, denominator.clone(), levels, width, height);
                for (i, &pixel) in pixels.iter().enumerate() {
                    let (numerator, denominator) = back.value(i);
                    let middle = 1i64 << (depth - 1);
                    let due = denominator.times_small(i64::from(pixel) - middle);
                    assert_eq!(numerator.shifted(u32::from(depth)), due);
                }
            }
        }
    }

    #[test]
    fn stored_integers_have_their_own_steps() {
        let mut table = WidthTable::uniform(8, 1, 24, Width::new(12, 20));
        for (bits, place) in (3..).zip(table.kept_places()) {
            table.width_mut(place).fraction_bits = bits;
        }
        // LL 3 bits, LH 4, HL 5, HH 6.
        let plane = [7, 20, -13, 50];
        let exact = inverse(&table, &plane, 2, 2);
        let value = |v: i64, f: u32| Fraction::new(Big::small(v), Big::from(1).shifted(f));
        let left = unpass_in_fractions(&[value(7, 3), value(-13, 4)]);
        let right = unpass_in_fractions(&[value(20, 5), value(50, 6)]);
        for y in 0..2 {
            let row = unpass_in_fractions(&[left[y].clone(), right[y].clone()]);
            for (x, due) in row.into_iter().enumerate() {
                let (numerator, denominator) = exact.value(2 * y + x);
                assert_eq!(Fraction::new(numerator.clone(), denominator.clone()), due);
            }
        }
    }

    #[test]
    fn off_and_shown_tell_near_from_far() {
        // The values 1/2, -1/2, 3/8, 0.
        let picture = ExactPicture {
            numerators: [4, -4, 3, 0].map(Big::small).to_vec(),
            denominator: Big::from(8),
        };
        let values = [1 << 19, -(1 << 19), 3 << 17, 0];
        let exactly = picture.off(&values, 1);
        assert!(exactly.within && exactly.of_bound == 0.0);
        // One unit of 2^-20 is 2^12 units of 2^-32.
        let moved = [1 << 19, 1 - (1 << 19), 3 << 17, 0];
        let off = |bound| picture.off(&moved, bound);
        assert!(off(1 << 12).within && off(1 << 12).of_bound == 1.0);
        assert!(!off((1 << 12) - 1).within && off(1 << 11).of_bound == 2.0);
        // Two bits: greys 4, 0, 3.5, 2, limited to 0 .. 3.
        assert!(picture.shown(2, &[3, 0, 3, 2]));
        for wrong in [[2, 0, 3, 2], [3, 1, 3, 2], [3, 0, 2, 2], [3, 0, 3, 1]] {
            assert!(!picture.shown(2, &wrong));
        }
        // Three bits: greys 8, 0, 7, 4, limited to 0 .. 7.
        assert!(picture.shown(3, &[7, 0, 7, 4]) && !picture.shown(3, &[7, 0, 6, 4]));
        // One bit: greys 2, 0, 1.75, 1: limited to 0 .. 1.
        assert!(picture.shown(1, &[1, 0, 1, 1]) && !picture.shown(1, &[1, 0, 0, 1]));
    }
}
