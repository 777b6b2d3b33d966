//! The passes as source documents 003 and 004 print them: the ends of a line
//! apart from its middle.
//!
//! Document 01 speaks of mirror neighbours, and [`crate::reversible53`],
//! [`crate::fixed97`] and [`crate::fixed_inverse97`] find them by that rule.
//! Here nothing is mirrored: where a place has one neighbour, an equation of
//! its own takes that one (document 02, job 2). Our lines start with a low
//! value, so equation 3 of 004 has no place here. Nor has a single sample, which
//! has no neighbour: lines are of two values and more.

use crate::constants::{Ratio, ALPHA, BETA, DELTA, GAMMA, ONE_OVER_ZETA, ZETA};
use crate::fixed97::{cut, scale, Factor, Fixed};
use crate::fixed_inverse97::{Half, CONSTANT_BITS, NODE_BITS};
use crate::places::low_count;
use crate::table::{Products, Width};

/// One 5/3 pass forward over a line of at least two values, source document
/// 004: low values, then high values. X(i) is what enters at place i of the
/// line and Y(i) what comes out for it; places are counted from 0, so the low
/// values are the even ones.
pub fn forward53(line: &[i128]) -> Vec<i128> {
    let x = line;
    let mut y = x.to_vec();
    // The odd coefficients first: Y(i) = X(i) - [...].
    for i in (1..x.len()).step_by(2) {
        y[i] = x[i] - predicted53(x, i);
    }
    // Then the even ones: Y(i) = X(i) + [...].
    for i in (0..x.len()).step_by(2) {
        y[i] = x[i] + updated53(&y, i);
    }
    apart(&y)
}

/// One 5/3 pass back. 004 does not print it: these are its equations solved
/// for X(i), the even ones first.
pub fn back53(line: &[i128]) -> Vec<i128> {
    let (lows, highs) = line.split_at(low_count(line.len()));
    let y = in_turn(lows, highs);
    let mut x = y.clone();
    for i in (0..y.len()).step_by(2) {
        x[i] = y[i] - updated53(&y, i);
    }
    for i in (1..y.len()).step_by(2) {
        x[i] = y[i] + predicted53(&x, i);
    }
    x
}

/// What is taken from the odd sample `i`, where `x` holds the even ones. The
/// paper's brackets are floors.
fn predicted53(x: &[i128], i: usize) -> i128 {
    let last = x.len() - 1;
    if i == last {
        // Equation 5, i the last place: Y(i) = X(i) - X(i - 1)
        x[i - 1]
    } else {
        // Equation 1, i = 2n + 1: Y(i) = X(i) - [(X(i - 1) + X(i + 1)) / 2]
        (x[i - 1] + x[i + 1]).div_euclid(2)
    }
}

/// What is added to the even sample `i`, where `y` holds the odd coefficients.
fn updated53(y: &[i128], i: usize) -> i128 {
    let last = y.len() - 1;
    if i == 0 {
        // Equation 4, the first place: Y(0) = X(0) + [(Y(1) + 1) / 2]
        (y[1] + 1).div_euclid(2)
    } else if i == last {
        // Equation 6, i the last place: Y(i) = X(i) + [(Y(i - 1) + 1) / 2]
        (y[i - 1] + 1).div_euclid(2)
    } else {
        // Equation 2, i = 2n: Y(i) = X(i) + [(Y(i - 1) + Y(i + 1) + 2) / 4]
        (y[i - 1] + y[i + 1] + 2).div_euclid(4)
    }
}

/// Low values, then high values, of samples that stand in turn.
fn apart(samples: &[i128]) -> Vec<i128> {
    let lows = samples.iter().step_by(2);
    lows.chain(samples.iter().skip(1).step_by(2))
        .copied()
        .collect()
}

/// The samples in turn, of low and of high values.
fn in_turn(lows: &[i128], highs: &[i128]) -> Vec<i128> {
    let sample = |i: usize| match i % 2 {
        0 => lows[i / 2],
        _ => highs[i / 2],
    };
    (0..lows.len() + highs.len()).map(sample).collect()
}

/// One 9/7 pass forward over a line of at least two values, source document
/// 003, with the meaning of [`crate::fixed97::pass`]: what each node holds, P1
/// to G2. The names are the paper's, the superscript written after the letter.
/// The paper cuts no product; where `products` are given, what is multiplied by
/// a constant in its equations is cut first (document 02, job 7).
pub fn forward97(
    line: &[i128],
    bits: u8,
    constant_bits: &[u8; 6],
    widths: &[Width; 6],
    products: Products,
) -> [Vec<i128>; 6] {
    let [alpha, beta, gamma, delta, zeta, one_over_zeta] = {
        let exact = [ALPHA, BETA, GAMMA, DELTA, ZETA, ONE_OVER_ZETA];
        std::array::from_fn(|node| rounded(exact[node], constant_bits[node]))
    };
    let f = widths.map(|width| width.fraction_bits);
    let [alpha, beta, gamma, delta] = {
        let constants = [alpha, beta, gamma, delta];
        std::array::from_fn(|node| Factor {
            constant: constants[node],
            product_bits: products.map(|bits| bits[node]),
        })
    };
    let x = apart(line);
    let (x_even, x_odd) = x.split_at(low_count(line.len()));

    let d1 = predict(half(x_odd, bits), half(x_even, bits), alpha, f[0]);
    let a1 = update(half(x_even, bits), half(&d1, f[0]), beta, f[1]);
    let d2 = predict(half(&d1, f[0]), half(&a1, f[1]), gamma, f[2]);
    let a2 = update(half(&a1, f[1]), half(&d2, f[2]), delta, f[3]);
    let a = scale(&a2, f[3], zeta, f[4]);
    let d = scale(&d2, f[2], one_over_zeta, f[5]);
    [d1, a1, d2, a2, a, d]
}

/// One 9/7 pass back, with the meaning of [`crate::fixed_inverse97::pass`].
/// 003 does not print it: these are its equations solved for what each step
/// changed, the last step first, so that every constant is taken away.
pub fn back97(low: Half, high: Half) -> [Vec<i128>; 6] {
    const F: u8 = NODE_BITS;
    let by = |exact: Ratio| rounded(exact, CONSTANT_BITS);
    let away = |exact: Ratio| Factor::uncut(times(-1, by(exact)));

    let a2 = scale(low.values, low.bits, by(ONE_OVER_ZETA), F);
    let d2 = scale(high.values, high.bits, by(ZETA), F);
    let a1 = update(half(&a2, F), half(&d2, F), away(DELTA), F);
    let d1 = predict(half(&d2, F), half(&a1, F), away(GAMMA), F);
    let x_even = update(half(&a1, F), half(&d1, F), away(BETA), F);
    let x_odd = predict(half(&d1, F), half(&x_even, F), away(ALPHA), F);
    [a2, d2, a1, d1, x_even, x_odd]
}

/// P1 with c = alpha, where `d` are the x_{2i+1} and `a` the x_{2i}; P2 with
/// c = gamma, where they are d1 and a1. The paper prints
///
/// * equation 2: d1_i = alpha (x_{2i} + x_{2i+2}) + x_{2i+1},
///   d2_i = gamma (a1_i + a1_{i+1}) + d1_i;
/// * equation 4, for 512 samples: d1_255 = 2 alpha x_510 + x_511,
///   d2_255 = 2 gamma a1_255 + d1_255.
fn predict(d: Half, a: Half, c: Factor, f: u8) -> Vec<i128> {
    let last = a.values.len() + d.values.len() - 1;
    let high = |i: usize| {
        if 2 * i + 1 == last {
            // Equation 4: 2 c a_i + d_i
            cut(d.at(i), c.doubled().times(a.at(i)), f)
        } else {
            // Equation 2: c (a_i + a_{i+1}) + d_i
            cut(d.at(i), c.times(a.sum(i, i + 1)), f)
        }
    };
    (0..d.values.len()).map(high).collect()
}

/// U1 with c = beta, where `a` are the x_{2i} and `d` is d1; U2 with c =
/// delta, where they are a1 and d2. The paper prints
///
/// * equation 2: a1_i = beta (d1_i + d1_{i-1}) + x_{2i},
///   a2_i = delta (d2_i + d2_{i-1}) + a1_i;
/// * equation 3: a1_0 = 2 beta d1_0 + x_0, a2_0 = 2 delta d2_0 + a1_0.
fn update(a: Half, d: Half, c: Factor, f: u8) -> Vec<i128> {
    let last = a.values.len() + d.values.len() - 1;
    let low = |i: usize| {
        if i == 0 {
            // Equation 3: 2 c d_0 + a_0
            cut(a.at(0), c.doubled().times(d.at(0)), f)
        } else if 2 * i == last {
            // The paper has even lengths alone; ours, in the style of
            // equation 3, for the last low of an odd one: 2 c d_{i-1} + a_i
            cut(a.at(i), c.doubled().times(d.at(i - 1)), f)
        } else {
            // Equation 2: c (d_i + d_{i-1}) + a_i
            cut(a.at(i), c.times(d.sum(i, i - 1)), f)
        }
    };
    (0..a.values.len()).map(low).collect()
}

/// The nearest multiple of 2^-bits.
fn rounded(exact: Ratio, bits: u8) -> Fixed {
    let value = exact.rounded(bits);
    Fixed { value, bits }
}

/// A rounded constant taken so many times; 2 beta is twice the rounded beta.
fn times(count: i128, Fixed { value, bits }: Fixed) -> Fixed {
    let value = count * value;
    Fixed { value, bits }
}

impl Factor {
    /// With twice the constant.
    fn doubled(self) -> Factor {
        Factor {
            constant: times(2, self.constant),
            ..self
        }
    }
}

fn half(values: &[i128], bits: u8) -> Half<'_> {
    Half { values, bits }
}

impl Half<'_> {
    fn at(&self, i: usize) -> Fixed {
        let (value, bits) = (self.values[i], self.bits);
        Fixed { value, bits }
    }

    fn sum(&self, i: usize, j: usize) -> Fixed {
        let (value, bits) = (self.values[i] + self.values[j], self.bits);
        Fixed { value, bits }
    }
}

#[cfg(test)]
mod tests {
    use super::*;
    use crate::{fixed97, fixed_inverse97, reversible53};

    /// Numbers from a fixed seed.
    struct Drawn(u64);

    impl Drawn {
        fn bits(&mut self) -> u64 {
            let next = self.0.wrapping_mul(6_364_136_223_846_793_005);
            self.0 = next.wrapping_add(1_442_695_040_888_963_407);
            self.0 ^ self.0 >> 33
        }

        fn within(&mut self, least: u8, most: u8) -> u8 {
            least + (self.bits() >> 8) as u8 % (most - least + 1)
        }

        /// A line of numbers from -2^size to 2^size - 1.
        fn line(&mut self, n: usize, size: u8) -> Vec<i128> {
            let one = |_| i128::from(self.bits() as i64 >> (63 - size));
            (0..n).map(one).collect()
        }
    }

    /// Small numbers, where every rounding is met, up to large ones.
    const SIZES: [u8; 5] = [0, 2, 7, 31, 60];

    /// Every line of a length with numbers from `least` to `most`.
    fn every_line(n: usize, least: i128, most: i128) -> impl Iterator<Item = Vec<i128>> {
        let count = (most - least + 1) as usize;
        let line = move |number: usize| {
            let place = |i: u32| least + (number / count.pow(i) % count) as i128;
            (0..n as u32).map(place).collect()
        };
        (0..count.pow(n as u32)).map(line)
    }

    #[test]
    fn the_5_3_of_two_and_of_three_by_hand() {
        // Two: Y(1) = -4 - 7 by 5, Y(0) = 7 + floor(-10 / 2) by 4.
        assert_eq!(forward53(&[7, -4]), [2, -11]);
        // Y(1) = -5 - 7, Y(0) = 7 + floor(-11 / 2).
        assert_eq!(forward53(&[7, -5]), [1, -12]);
        // Three: Y(1) = -2 - floor(13 / 2) by 1, Y(0) = 5 + floor(-7 / 2) by
        // 4, Y(2) = 8 + floor(-7 / 2) by 6.
        assert_eq!(forward53(&[5, -2, 8]), [1, 4, -8]);
        assert_eq!(back53(&[2, -11]), [7, -4]);
        assert_eq!(back53(&[1, -12]), [7, -5]);
        assert_eq!(back53(&[1, 4, -8]), [5, -2, 8]);
    }

    /// Four and five, the shortest with every equation of an even and of an
    /// odd length.
    #[test]
    fn the_5_3_of_four_and_of_five_by_hand() {
        // Y(1) = 3 - floor(-1 / 2) by 1, Y(3) = 1 + 5 by 5, Y(0) = 4 +
        // floor(5 / 2) by 4, Y(2) = -5 + floor(12 / 4) by 2.
        assert_eq!(forward53(&[4, 3, -5, 1]), [6, -2, 4, 6]);
        assert_eq!(back53(&[6, -2, 4, 6]), [4, 3, -5, 1]);
        // Y(3) = 1 - floor(-3 / 2) by 1, Y(2) = -5 + floor(9 / 4) by 2, Y(4)
        // = 2 + floor(4 / 2) by 6.
        assert_eq!(forward53(&[4, 3, -5, 1, 2]), [6, -3, 4, 4, 3]);
        assert_eq!(back53(&[6, -3, 4, 4, 3]), [4, 3, -5, 1, 2]);
    }

    #[test]
    fn the_5_3_passes_of_document_01() {
        let cases: [(&[i128], &[i128]); 6] = [
            (&[0, 0], &[0, 0]),
            (&[1, 3], &[2, 2]),
            (&[-1, 0], &[0, 1]),
            (&[0, -3], &[-1, -3]),
            (&[3, 0, -2], &[3, -2, 0]),
            (&[0, 0, 0, 1], &[0, 0, 0, 1]),
        ];
        for (line, due) in cases {
            assert_eq!(forward53(line), due);
            assert_eq!(back53(due), line);
        }
    }

    #[test]
    fn the_5_3_of_every_short_line_is_that_of_mirror_neighbours() {
        for n in 2..=5 {
            for line in every_line(n, -4, 4) {
                let worked = forward53(&line);
                assert_eq!(worked, reversible53::forward_pass(&line), "{line:?}");
                assert_eq!(back53(&worked), line);
                assert_eq!(back53(&line), reversible53::back_pass(&line), "{line:?}");
            }
        }
    }

    #[test]
    fn the_5_3_of_every_length_is_that_of_mirror_neighbours() {
        let mut drawn = Drawn(1);
        for n in 2..=40 {
            for size in SIZES {
                for _ in 0..20 {
                    let line = drawn.line(n, size);
                    let worked = forward53(&line);
                    assert_eq!(worked, reversible53::forward_pass(&line), "{line:?}");
                    assert_eq!(back53(&worked), line);
                    assert_eq!(back53(&line), reversible53::back_pass(&line), "{line:?}");
                }
            }
        }
    }

    /// Constants of so few bits that each stage can be worked by hand: alpha
    /// -6/4, beta -2/32, gamma 4/4, delta 4/8, zeta 9/8, 1/zeta 7/8.
    const FEW: [u8; 6] = [2, 5, 2, 3, 3, 3];

    /// Nodes of so few bits that almost every stage cuts something.
    fn coarse() -> [Width; 6] {
        [0, 2, 0, 1, 1, 1].map(|f| Width::new(12, f))
    }

    #[test]
    fn the_9_7_of_two_by_hand() {
        // x_0 = -5/2, x_1 = 2.
        // P1 by 4: 2 (-3/2) (-5/2) + 2 = 19/2, cut to 9.
        // U1 by 3: 2 (-1/16) 9 - 5/2 = -29/8, cut to -15/4.
        // P2 by 4: 2 (-15/4) + 9 = 3/2, cut to 1.
        // U2 by 3: 2 (1/2) 1 - 15/4 = -11/4, cut to -6/2.
        // G1: 9/8 (-3) = -27/8, cut to -7/2. G2: 7/8, cut to 1/2.
        let nodes = forward97(&[-5, 4], 1, &FEW, &coarse(), None);
        assert_eq!(nodes, [9, -15, 1, -6, -7, 1].map(|v| vec![v]));
    }

    /// Each product cut before its sum.
    #[test]
    fn the_9_7_of_two_with_products_by_hand() {
        // x_0 = -5/2, x_1 = 5/2.
        // P1 by 4: 2 (-3/2) (-5/2) = 15/2, cut to 7; 7 + 5/2 = 19/2.
        // U1 by 3: 2 (-1/16) 19/2 = -19/16, cut to -3/2; -3/2 - 5/2 = -4.
        // P2 by 4: 2 (-4) = -8, which one bit holds; -8 + 19/2 = 3/2.
        // U2 by 3: 2 (1/2) 3/2 = 3/2, cut to 1; 1 - 4 = -3.
        // G1: 9/8 (-3) = -27/8, cut to -7/2. G2: 7/8 3/2 = 21/16, cut to 2/2.
        let widths = [1, 2, 1, 1, 1, 1].map(|f| Width::new(12, f));
        let nodes = forward97(&[-5, 5], 1, &FEW, &widths, Some([0, 1, 1, 0]));
        assert_eq!(nodes, [19, -16, 3, -6, -7, 2].map(|v| vec![v]));
        // Uncut: 10, -15/4, 5/2, -5/4 cut to -3/2, -27/16 cut to -4/2, 35/16
        // cut to 4/2.
        let nodes = forward97(&[-5, 5], 1, &FEW, &widths, None);
        assert_eq!(nodes, [20, -15, 5, -3, -4, 4].map(|v| vec![v]));
    }

    #[test]
    fn the_9_7_of_three_by_hand() {
        // x_0 = -5/2, x_1 = 4, x_2 = 3/2.
        // P1 by 2: (-3/2) (-1) + 4 = 11/2, cut to 5.
        // U1 by 3: 2 (-1/16) 5 - 5/2 = -25/8, cut to -13/4; at the other end
        // 2 (-1/16) 5 + 3/2 = 7/8, cut to 3/4.
        // P2 by 2: -10/4 + 5 = 5/2, cut to 2.
        // U2 by 3: 2 (1/2) 2 - 13/4 = -5/4, cut to -3/2; at the other end
        // 2 (1/2) 2 + 3/4 = 11/4, cut to 5/2.
        // G1: 9/8 (-3/2) = -27/16, cut to -4/2; 9/8 (5/2) = 45/16, cut to 5/2.
        // G2: 7/8 2 = 7/4, cut to 3/2.
        let nodes = forward97(&[-5, 8, 3], 1, &FEW, &coarse(), None);
        let due = [
            vec![5],
            vec![-13, 3],
            vec![2],
            vec![-3, 5],
            vec![-4, 5],
            vec![3],
        ];
        assert_eq!(nodes, due);
    }

    #[test]
    fn the_9_7_back_of_two_by_hand() {
        // 3/2 low and 1/4 high, in 2^-20, every product to one decimal:
        // 3/2 over zeta 1368178.5; 1/4 zeta 301361.9.
        // Equation 3 for U2: 2 delta 301361 = 267311.3 is taken away.
        // Equation 4 for P2: 2 gamma 1100866 = 1943933.6.
        // Equation 3 for U1: 2 beta (-1642573) = 174047.4.
        // Equation 4 for P1: 2 alpha 926818 = -2940115.7.
        let nodes = back97(half(&[3], 1), half(&[1], 2));
        let due = [
            1_368_178, 301_361, 1_100_866, -1_642_573, 926_818, 1_297_542,
        ];
        assert_eq!(nodes, due.map(|v| vec![v]));
    }

    #[test]
    fn the_9_7_back_of_three_by_hand() {
        // 1/2 and -1 low, 3/4 high, in 2^-20, every product to one decimal:
        // 1/2 over zeta 456059.5, -1 over zeta -912119; 3/4 zeta 904085.7.
        // Equation 3 for U2, both ends: 2 delta 904085 = 801935.8.
        // Equation 2 for P2: gamma (-345877 - 1714055) = -1818736.8.
        // Equation 3 for U1, both ends: 2 beta 2722821 = -288510.8.
        // Equation 2 for P1: alpha (-57367 - 1425545) = 2352097.6.
        let nodes = back97(half(&[1, -2], 1), half(&[3], 2));
        let due = [
            vec![456_059, -912_119],
            vec![904_085],
            vec![-345_877, -1_714_055],
            vec![2_722_821],
            vec![-57_367, -1_425_545],
            vec![370_723],
        ];
        assert_eq!(nodes, due);
    }

    /// Few bits everywhere, so that every cut meets every remainder.
    #[test]
    fn the_9_7_of_every_short_line_is_that_of_mirror_neighbours() {
        for n in 2..=4 {
            for line in every_line(n, -4, 3) {
                for constant_bits in 1..=3 {
                    for (f, products) in [
                        (0, None),
                        (1, None),
                        (2, None),
                        (0, Some([0; 4])),
                        (2, Some([0, 1, 2, 3])),
                        (3, Some([3, 2, 1, 0])),
                    ] {
                        let (constants, widths) = ([constant_bits; 6], [Width::new(12, f); 6]);
                        let nodes = forward97(&line, 2, &constants, &widths, products);
                        let due = fixed97::pass(&line, 2, &constants, &widths, products);
                        assert_eq!(nodes, due, "{line:?}");
                    }
                }
            }
        }
    }

    #[test]
    fn the_9_7_of_every_length_is_that_of_mirror_neighbours() {
        let mut drawn = Drawn(2);
        for n in 2..=40 {
            for size in SIZES {
                for _ in 0..20 {
                    let line = drawn.line(n, size);
                    let bits = drawn.within(0, 20);
                    let constants = [0; 6].map(|_| drawn.within(1, 24));
                    let widths = [0; 6].map(|_| Width::new(12, drawn.within(0, 20)));
                    let some = [0; 4].map(|_| drawn.within(0, 44));
                    for products in [None, Some(some)] {
                        let nodes = forward97(&line, bits, &constants, &widths, products);
                        let due = fixed97::pass(&line, bits, &constants, &widths, products);
                        assert_eq!(nodes, due, "{line:?} {bits} {constants:?} {widths:?}");
                    }
                }
            }
        }
    }

    #[test]
    fn the_9_7_back_of_every_length_is_that_of_mirror_neighbours() {
        let mut drawn = Drawn(3);
        for n in 2..=40 {
            for size in SIZES {
                for _ in 0..20 {
                    let line = drawn.line(n, size);
                    let (lows, highs) = line.split_at(low_count(n));
                    let low = half(lows, drawn.within(0, 20));
                    let high = half(highs, drawn.within(0, 20));
                    let due = fixed_inverse97::pass(low, high);
                    assert_eq!(back97(low, high), due, "{line:?}");
                }
            }
        }
    }

    /// Cuts of the nodes are all that keeps a line from coming back.
    #[test]
    fn the_9_7_back_undoes_the_9_7_but_for_cuts() {
        let mut drawn = Drawn(4);
        let widths = [Width::new(12, 20); 6];
        for n in 2..=40 {
            let line = drawn.line(n, 11);
            let [.., lows, highs] = forward97(&line, 12, &[24; 6], &widths, None);
            let [.., even, odd] = back97(half(&lows, 20), half(&highs, 20));
            for (back, sample) in in_turn(&even, &odd).into_iter().zip(&line) {
                assert!((back - (sample << 8)).abs() < 64, "{line:?}");
            }
        }
    }

    /// Twice the rounded constant and the nearest to twice the constant: not
    /// the same for alpha and delta of 24 bits, for each of the four at some
    /// number of bits, nor what a pass makes of them.
    #[test]
    fn a_constant_is_rounded_before_it_is_doubled() {
        let twice = |exact: Ratio| Ratio {
            numerator: 2 * exact.numerator,
            ..exact
        };
        let rounded_first = |exact: Ratio, bits| times(2, rounded(exact, bits)).value;
        assert_eq!(rounded_first(ALPHA, 24), -53_221_836);
        assert_eq!(twice(ALPHA).rounded(24), -53_221_837);
        assert_eq!(rounded_first(DELTA, 24), 14_881_620);
        assert_eq!(twice(DELTA).rounded(24), 14_881_621);
        for (exact, bits) in [(ALPHA, 2), (BETA, 5), (GAMMA, 2), (DELTA, 3)] {
            assert_ne!(rounded_first(exact, bits), twice(exact).rounded(bits));
        }
        // Alpha of 2 bits is -6/4, twice that -3; twice alpha would be -13/4.
        assert_eq!(twice(ALPHA).rounded(2), -13);
        let nodes = forward97(&[4, 0], 0, &[2; 6], &[Width::new(12, 0); 6], None);
        assert_eq!(nodes[0], [-12]);
        // Alpha of 24 bits: 16 of its doubles, in 2^-20.
        let nodes = forward97(&[16, 0], 0, &[24; 6], &[Width::new(12, 20); 6], None);
        assert_eq!(nodes[0], [-53_221_836]);
    }
}
