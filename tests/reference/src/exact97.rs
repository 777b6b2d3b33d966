//! The exact 9/7 transform: nothing is cut. All values of one part of the
//! plane are whole numbers over one common denominator, so that whole numbers
//! alone are added and multiplied.

use crate::big::Big;
use crate::constants::{Ratio, ALPHA, BETA, DELTA, GAMMA, ZETA};
use crate::places::{kept_node, low_count};
use crate::table::WidthTable;

/// The exact plane of a picture.
pub struct ExactPlane {
    pub width: usize,
    pub height: usize,
    pub levels: u8,
    /// Numerators, row by row.
    numerators: Vec<Big>,
    /// The denominator of what each level left in the plane.
    denominators: Vec<Big>,
}

/// How far fixed point stands from the exact plane.
#[derive(Clone, Copy, Debug, PartialEq)]
pub struct Distance {
    /// Every coefficient differs by less than two of its own steps.
    pub below_two_steps: bool,
    /// The largest difference in steps, to the accuracy of a double.
    pub steps: f64,
    /// Column and row where it stands.
    pub x: usize,
    pub y: usize,
}

/// own * denominator + numerator * (sum of two), for each own value.
pub(crate) fn stage(
    own: &mut [Big],
    others: &[Big],
    by: Ratio,
    beside: impl Fn(usize) -> (usize, usize),
) {
    for (k, value) in own.iter_mut().enumerate() {
        let (a, b) = beside(k);
        let product = others[a].plus(&others[b]).times_small(by.numerator);
        *value = value.times_small(by.denominator).plus(&product);
    }
}

pub(crate) fn scale(values: &mut [Big], by: i64) {
    for value in values {
        *value = value.times_small(by);
    }
}

/// One pass over a line. The numerators given have some common denominator D;
/// those that come back have D times [`pass_factor`]. A single sample is the
/// only low value (document 02, job 6).
fn pass(line: &[Big]) -> Vec<Big> {
    if let [sample] = line {
        return vec![sample.times(&pass_factor())];
    }
    let n = line.len();
    let mut lows: Vec<Big> = line.iter().step_by(2).cloned().collect();
    let mut highs: Vec<Big> = line.iter().skip(1).step_by(2).cloned().collect();
    let lows_beside = |k: usize| (k, (k + 1).min(low_count(n) - 1));
    let highs_beside = |k: usize| (k.max(1) - 1, k.min(n / 2 - 1));
    // Each stage multiplies its own values' denominator; the other values
    // follow at once, so that all have the same one again.
    stage(&mut highs, &lows, ALPHA, lows_beside);
    scale(&mut lows, ALPHA.denominator);
    stage(&mut lows, &highs, BETA, highs_beside);
    scale(&mut highs, BETA.denominator);
    stage(&mut highs, &lows, GAMMA, lows_beside);
    scale(&mut lows, GAMMA.denominator);
    stage(&mut lows, &highs, DELTA, highs_beside);
    scale(&mut highs, DELTA.denominator);
    // Low times n/d is low * n * n over n * d; high times d/n is
    // high * d * d over n * d.
    scale(&mut lows, ZETA.numerator);
    scale(&mut lows, ZETA.numerator);
    scale(&mut highs, ZETA.denominator);
    scale(&mut highs, ZETA.denominator);
    lows.append(&mut highs);
    lows
}

pub(crate) fn pass_factor() -> Big {
    [
        ALPHA.denominator,
        BETA.denominator,
        GAMMA.denominator,
        DELTA.denominator,
        ZETA.numerator,
        ZETA.denominator,
    ]
    .iter()
    .fold(Big::from(1), |product, &d| product.times_small(d))
}

/// The exact transform of a picture of admitted size and depth.
pub fn transform(depth: u8, levels: u8, pixels: &[u16], width: usize, height: usize) -> ExactPlane {
    let middle = 1i64 << (depth - 1);
    let mut numerators: Vec<Big> = pixels
        .iter()
        .map(|&p| Big::small(i64::from(p) - middle))
        .collect();
    let mut denominators = Vec::new();
    let mut denominator = Big::from(1).shifted(u32::from(depth));
    let (mut part_w, mut part_h) = (width, height);
    for _ in 0..levels {
        for y in 0..part_h {
            let row = y * width..y * width + part_w;
            let worked = pass(&numerators[row.clone()]);
            numerators[row].clone_from_slice(&worked);
        }
        for x in 0..part_w {
            let column: Vec<Big> = (0..part_h)
                .map(|y| numerators[y * width + x].clone())
                .collect();
            for (y, value) in pass(&column).into_iter().enumerate() {
                numerators[y * width + x] = value;
            }
        }
        denominator = denominator.times(&pass_factor()).times(&pass_factor());
        denominators.push(denominator.clone());
        part_w = low_count(part_w);
        part_h = low_count(part_h);
    }
    ExactPlane {
        width,
        height,
        levels,
        numerators,
        denominators,
    }
}

impl ExactPlane {
    /// Numerator and denominator of the coefficient at column `x`, row `y`.
    pub fn value(&self, x: usize, y: usize) -> (&Big, &Big) {
        let level = kept_node(self.width, self.height, self.levels, x, y).level;
        (
            &self.numerators[y * self.width + x],
            &self.denominators[level as usize - 1],
        )
    }

    /// Holds a plane of fixed-point integers under `table` against this one.
    pub fn distance(&self, table: &WidthTable, plane: &[i128]) -> Distance {
        let mut found = Distance {
            below_two_steps: true,
            steps: 0.0,
            x: 0,
            y: 0,
        };
        for y in 0..self.height {
            for x in 0..self.width {
                let node = kept_node(self.width, self.height, self.levels, x, y);
                let f = table.width(node).fraction_bits;
                let (numerator, denominator) = self.value(x, y);
                // v / 2^f - n / d, in steps: (v d - n 2^f) / d
                let ours = denominator.times(&Big::from(plane[y * self.width + x]));
                let off = ours.minus(&numerator.shifted(u32::from(f))).magnitude();
                found.below_two_steps &= off < denominator.times_small(2);
                let steps = off.ratio(denominator);
                if steps > found.steps {
                    found = Distance {
                        steps,
                        x,
                        y,
                        ..found
                    };
                }
            }
        }
        found
    }
}

#[cfg(test)]
mod tests {
    use super::*;
    use crate::constants::BY_NODE;
    use crate::fixed97;
    use crate::fraction::Fraction;
    use crate::table::Width;

    /// The same pass straight from the text, in fractions.
    fn pass_in_fractions(line: &[Fraction]) -> Vec<Fraction> {
        let n = line.len();
        if n == 1 {
            return line.to_vec();
        }
        let mut v = line.to_vec();
        let mirror = |i: isize| -> usize {
            let last = n as isize - 1;
            (if i < 0 {
                -i
            } else if i > last {
                2 * last - i
            } else {
                i
            }) as usize
        };
        for (stage, constant) in BY_NODE[..4].iter().enumerate() {
            let start = 1 - stage % 2;
            for i in (start..n).step_by(2) {
                let sum = v[mirror(i as isize - 1)].plus(&v[mirror(i as isize + 1)]);
                v[i] = v[i].plus(&constant.fraction().times(&sum));
            }
        }
        let mut out: Vec<Fraction> = Vec::new();
        for i in (0..n).step_by(2) {
            out.push(v[i].times(&BY_NODE[4].fraction()));
        }
        for i in (1..n).step_by(2) {
            out.push(v[i].times(&BY_NODE[5].fraction()));
        }
        out
    }

    #[test]
    fn common_denominator_agrees_with_fractions() {
        for n in 1..=9usize {
            let line: Vec<i64> = (0..n as i64).map(|i| i * i * 7 % 31 - 15).collect();
            let bigs: Vec<Big> = line.iter().map(|&v| Big::small(v)).collect();
            let fractions: Vec<Fraction> = line.iter().map(|&v| Fraction::whole(v)).collect();
            let worked = pass(&bigs);
            assert_eq!(worked.len(), n);
            for (ours, due) in worked.iter().zip(pass_in_fractions(&fractions)) {
                assert_eq!(Fraction::new(ours.clone(), pass_factor()), due);
            }
        }
    }

    /// Where a side is a single sample, too, and where one becomes so.
    #[test]
    fn two_levels_agree_with_fractions() {
        for (w, h) in [
            (5, 3),
            (2, 3),
            (3, 2),
            (1, 4),
            (4, 1),
            (2, 2),
            (1, 2),
            (1, 1),
        ] {
            two_levels_of(w, h);
        }
    }

    fn two_levels_of(w: usize, h: usize) {
        let depth = 4;
        let pixels: Vec<u16> = (0..w * h).map(|i| (i * 11 % 16) as u16).collect();
        let exact = transform(depth, 2, &pixels, w, h);
        let mut plane: Vec<Fraction> = pixels
            .iter()
            .map(|&p| Fraction::new(Big::small(i64::from(p) - 8), Big::from(16)))
            .collect();
        for (part_w, part_h) in [(w, h), (low_count(w), low_count(h))] {
            for y in 0..part_h {
                let row = pass_in_fractions(&plane[y * w..y * w + part_w]);
                plane[y * w..y * w + part_w].clone_from_slice(&row);
            }
            for x in 0..part_w {
                let column: Vec<Fraction> = (0..part_h).map(|y| plane[y * w + x].clone()).collect();
                for (y, v) in pass_in_fractions(&column).into_iter().enumerate() {
                    plane[y * w + x] = v;
                }
            }
        }
        for y in 0..h {
            for x in 0..w {
                let (n, d) = exact.value(x, y);
                assert_eq!(Fraction::new(n.clone(), d.clone()), plane[y * w + x]);
            }
        }
    }

    #[test]
    fn distance_tells_two_steps_apart() {
        let table = WidthTable::kept_and_others(8, 1, 24, Width::new(12, 8), Width::new(12, 14));
        let pixels = [10, 200, 30, 90, 255, 0];
        let worked = fixed97::transform(&table, &pixels, 3, 2);
        let exact = transform(8, 1, &pixels, 3, 2);
        let near = exact.distance(&table, &worked.plane);
        assert!(near.below_two_steps && near.steps < 2.0 && near.steps > 0.0);
        let mut moved = worked.plane.clone();
        moved[4] += 4;
        let far = exact.distance(&table, &moved);
        assert!(!far.below_two_steps && far.steps > 2.0);
        assert_eq!((far.x, far.y), (1, 1));
    }
}
