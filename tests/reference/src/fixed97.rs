//! The 9/7 transform in fixed point, over whole numbers without limit.

use crate::constants::BY_NODE;
use crate::places::low_count;
use crate::refusal::Place;
use crate::table::{Products, Width, WidthTable};

/// A value on the way that its node cannot hold.
#[derive(Clone, Copy, Debug, PartialEq, Eq)]
pub struct Departure {
    pub place: Place,
    pub value: i128,
}

/// A worked picture.
#[derive(Clone, Debug, PartialEq, Eq)]
pub struct Worked {
    pub plane: Vec<i128>,
    /// The first value that left its width, if any did.
    pub left: Option<Departure>,
}

/// A whole number with its fractional bits.
#[derive(Clone, Copy)]
pub(crate) struct Fixed {
    pub value: i128,
    pub bits: u8,
}

/// What a stage multiplies by: its constant, and the bits to which the product
/// is cut before it is added (document 02, job 7), if there are any.
#[derive(Clone, Copy)]
pub(crate) struct Factor {
    pub constant: Fixed,
    pub product_bits: Option<u8>,
}

impl Factor {
    /// A constant whose products are not cut.
    pub fn uncut(constant: Fixed) -> Factor {
        Factor {
            constant,
            product_bits: None,
        }
    }

    /// The product as it is added: formed without loss, and cut downwards where
    /// it has more fractional bits than it is given.
    pub fn times(self, sum: Fixed) -> Fixed {
        let product = Fixed {
            value: self.constant.value * sum.value,
            bits: self.constant.bits + sum.bits,
        };
        match self.product_bits {
            Some(bits) if bits < product.bits => Fixed {
                value: product.value >> (product.bits - bits), // towards minus infinity
                bits,
            },
            _ => product,
        }
    }
}

/// The largest whole number of 2^-f that is not above own + product, both
/// being taken without loss. Where no product is cut, this is the only cut of a
/// stage.
pub(crate) fn cut(own: Fixed, product: Fixed, f: u8) -> i128 {
    let bits = own.bits.max(product.bits);
    let total = (own.value << (bits - own.bits)) + (product.value << (bits - product.bits));
    if f >= bits {
        total << (f - bits)
    } else {
        total >> (bits - f) // towards minus infinity
    }
}

/// One stage on the own values of a line. `others` are the values whose
/// neighbours are added; `neighbours` names the two of place k.
pub(crate) fn stage(
    own: &[i128],
    own_bits: u8,
    others: &[i128],
    other_bits: u8,
    by: Factor,
    f: u8,
    neighbours: impl Fn(usize) -> (usize, usize),
) -> Vec<i128> {
    let one = |k: usize| {
        let (a, b) = neighbours(k);
        let own = Fixed {
            value: own[k],
            bits: own_bits,
        };
        let sum = Fixed {
            value: others[a] + others[b],
            bits: other_bits,
        };
        cut(own, by.times(sum), f)
    };
    (0..own.len()).map(one).collect()
}

/// Zero.
const NOTHING: Fixed = Fixed { value: 0, bits: 0 };

/// A scaling: constant times value, cut once.
pub(crate) fn scale(values: &[i128], bits: u8, constant: Fixed, f: u8) -> Vec<i128> {
    let by = Factor::uncut(constant);
    let one = |&value: &i128| cut(NOTHING, by.times(Fixed { value, bits }), f);
    values.iter().map(one).collect()
}

/// One pass over a line of at least one value: what each node holds, P1 to G2.
/// G1 are the low values and G2 the high ones. A single sample is the only low
/// value, cut to G1's bits, and no other node holds anything (document 02, job
/// 6): it has no product, so none is cut (job 7).
pub fn pass(
    line: &[i128],
    bits: u8,
    constant_bits: &[u8; 6],
    widths: &[Width; 6],
    products: Products,
) -> [Vec<i128>; 6] {
    if let &[value] = line {
        let low = cut(Fixed { value, bits }, NOTHING, widths[4].fraction_bits);
        return [vec![], vec![], vec![], vec![], vec![low], vec![]];
    }
    let n = line.len();
    let lows: Vec<i128> = line.iter().step_by(2).copied().collect();
    let highs: Vec<i128> = line.iter().skip(1).step_by(2).copied().collect();
    assert_eq!((lows.len(), highs.len()), (low_count(n), n / 2));
    let constant = |node: usize| Fixed {
        value: BY_NODE[node].rounded(constant_bits[node]),
        bits: constant_bits[node],
    };
    let f = |node: usize| widths[node].fraction_bits;
    // The low value past the last is the last; the high value before the
    // first is the first, the one past the last is the last.
    let lows_beside = |k: usize| (k, (k + 1).min(low_count(n) - 1));
    let highs_beside = |k: usize| (k.max(1) - 1, k.min(n / 2 - 1));
    // P1, U1, P2 and U2 alone have products that may be cut.
    let by = |node: usize| Factor {
        constant: constant(node),
        product_bits: products.map(|bits| bits[node]),
    };

    let p1 = stage(&highs, bits, &lows, bits, by(0), f(0), lows_beside);
    let u1 = stage(&lows, bits, &p1, f(0), by(1), f(1), highs_beside);
    let p2 = stage(&p1, f(0), &u1, f(1), by(2), f(2), lows_beside);
    let u2 = stage(&u1, f(1), &p2, f(2), by(3), f(3), highs_beside);
    let g1 = scale(&u2, f(3), constant(4), f(4));
    let g2 = scale(&p2, f(2), constant(5), f(5));
    [p1, u1, p2, u2, g1, g2]
}

/// The transform of a picture under a sound table; the picture must be of the
/// table's depth and of admitted sides.
pub fn transform(table: &WidthTable, pixels: &[u16], width: usize, height: usize) -> Worked {
    let middle = 1i128 << (table.depth - 1);
    let mut worked = Worked {
        plane: pixels.iter().map(|&p| i128::from(p) - middle).collect(),
        left: None,
    };
    let (mut part_w, mut part_h) = (width, height);
    let mut bits = table.depth;
    for level in 1..=table.levels {
        let widths = &table.widths[level as usize - 1];
        for y in 0..part_h {
            let places = (0..part_w).map(|x| y * width + x).collect();
            worked.line(
                table,
                Place {
                    level,
                    pass: 1,
                    node: 1,
                },
                bits,
                places,
            );
        }
        for x in 0..part_w {
            let row_low = x < low_count(part_w);
            let (pass, row_node) = if row_low { (2, 4) } else { (3, 5) };
            let places = (0..part_h).map(|y| y * width + x).collect();
            let bits = widths[0][row_node].fraction_bits;
            worked.line(
                table,
                Place {
                    level,
                    pass,
                    node: 1,
                },
                bits,
                places,
            );
        }
        bits = widths[1][4].fraction_bits;
        part_w = low_count(part_w);
        part_h = low_count(part_h);
    }
    worked
}

impl Worked {
    /// Works the line that stands at the given elements of the plane.
    fn line(&mut self, table: &WidthTable, first: Place, bits: u8, elements: Vec<usize>) {
        let line: Vec<i128> = elements.iter().map(|&e| self.plane[e]).collect();
        let widths = &table.widths[first.level as usize - 1][first.pass as usize - 1];
        let products = table.products_of(first.level, first.pass);
        let nodes = pass(&line, bits, &table.constant_bits, widths, products);
        for (node, values) in (1u8..).zip(&nodes) {
            let width = widths[node as usize - 1];
            let outside = values.iter().find(|&&v| !width.holds(v));
            if let (None, Some(&value)) = (self.left, outside) {
                let place = Place { node, ..first };
                self.left = Some(Departure { place, value });
            }
        }
        let out = nodes[4].iter().chain(&nodes[5]);
        for (&element, &value) in elements.iter().zip(out) {
            self.plane[element] = value;
        }
    }
}

#[cfg(test)]
mod tests {
    use super::*;

    /// P1 with B = 1 and F = 1, on a line low, own, low.
    fn p1(own: i128, left: i128, right: i128, f: u8) -> i128 {
        p1_cut(own, left, right, None, f)
    }

    /// The same with a product of so many bits.
    fn p1_cut(own: i128, left: i128, right: i128, product_bits: Option<u8>, f: u8) -> i128 {
        let widths = [Width::new(12, f); 6];
        let products = product_bits.map(|bits| [bits; 4]);
        pass(&[left, own, right], 1, &[1; 6], &widths, products)[0][0]
    }

    #[test]
    fn the_numbers_of_the_document() {
        assert_eq!(p1(-1, -1, 0, 0), 0);
        assert_eq!(p1(-1, -1, 0, 2), 1);
        assert_eq!(p1(-1, 0, 0, 0), -1);
    }

    #[test]
    fn cuts_go_towards_minus_infinity() {
        let minus_half = Fixed { value: -1, bits: 1 };
        assert_eq!(cut(minus_half, NOTHING, 0), -1);
        assert_eq!(cut(minus_half, NOTHING, 3), -4);
        let one = Factor::uncut(Fixed { value: 1, bits: 0 });
        assert_eq!(cut(NOTHING, one.times(minus_half), 0), -1);
    }

    /// The product -3/2 times the sum is cut downwards, then the sum is.
    #[test]
    fn a_product_is_cut_before_the_sum() {
        for (own, sum, product_bits, f, due) in [
            // -1/2 + 3/4: the document's, uncut.
            (-1, -1, 2, 0, 0),
            (-1, -1, 44, 2, 1),
            // -1/2 + 1/2.
            (-1, -1, 1, 0, 0),
            (-1, -1, 1, 2, 0),
            // -1/2 + 0.
            (-1, -1, 0, 0, -1),
            (-1, -1, 0, 2, -2),
            // 1/2 - 3/4, 1/2 - 1.
            (1, 1, 2, 2, -1),
            (1, 1, 1, 2, -2),
            (1, 1, 0, 0, -1),
            // 1/2 - 3/2, 1/2 - 2; a product that is cut towards zero would be
            // -1.
            (1, 2, 1, 1, -2),
            (1, 2, 0, 1, -3),
            // 1/2 + 3/2 and 1/2 + 1: cut after the sum it would be 2.
            (1, -2, 1, 0, 2),
            (1, -2, 0, 0, 1),
            (1, -2, 0, 3, 12),
        ] {
            assert_eq!(p1_cut(own, sum, 0, Some(product_bits), f), due);
        }
    }

    /// Every stage has its own number, and the scalings have none.
    #[test]
    fn products_of_each_stage() {
        let line = [7, -3, 12, 5, -9, 2, 1];
        let widths = [Width::new(12, 9); 6];
        let nodes = |products| pass(&line, 3, &[6; 6], &widths, products);
        let uncut = nodes(None);
        // P1 multiplies 3 bits, the others 9.
        assert_eq!(nodes(Some([9, 15, 15, 15])), uncut);
        assert_eq!(nodes(Some([44; 4])), uncut);
        for node in 0..4 {
            let mut products = [9, 15, 15, 15];
            products[node] = 2;
            let cut = nodes(Some(products));
            assert_eq!(cut[..node], uncut[..node]);
            assert!(cut[node] != uncut[node]);
            for (&cut, &uncut) in cut[node].iter().zip(&uncut[node]) {
                // By less than a quarter, downwards; the sum is not cut anew.
                assert!((0..128).contains(&(uncut - cut)));
            }
        }
    }

    #[test]
    fn edges_are_mirrored() {
        // Wide nodes with many bits: a constant line has no high values left
        // but the rounding of the constants, at every length.
        let widths = [Width::new(12, 20); 6];
        for n in 2..12 {
            let nodes = pass(&vec![1000; n], 12, &[24; 6], &widths, None);
            // 1000 * (1 + 2 alpha)
            let p1 = (1000.0 / 4096.0) * (1.0 - 2.0 * 1.586134342);
            for v in &nodes[0] {
                assert!((*v as f64 / (1 << 20) as f64 - p1).abs() < 1e-4);
            }
            assert!(nodes[2].iter().all(|v| v.abs() < 16));
        }
    }

    /// Constants, the bits of other nodes than G1 and those of products count for
    /// nothing.
    #[test]
    fn a_single_sample_is_cut_to_the_bits_of_g1() {
        let single = |value: i128, bits: u8, f: u8| {
            let [lower, upper] = [1, 24].map(|constant_bits| {
                let mut widths = [Width::new(12, 20 - bits); 6];
                widths[4] = Width::new(12, f);
                let uncut = pass(&[value], bits, &[constant_bits; 6], &widths, None);
                for products in [0, 3, 44] {
                    let products = Some([products; 4]);
                    let same = pass(&[value], bits, &[constant_bits; 6], &widths, products);
                    assert_eq!(same, uncut);
                }
                uncut
            });
            assert_eq!(lower, upper);
            let [p1, u1, p2, u2, g1, g2] = lower;
            let others = [p1, u1, p2, u2, g2];
            assert!(others.iter().all(Vec::is_empty));
            g1
        };
        for value in -40..40 {
            assert_eq!(single(value, 3, 3), [value]);
            assert_eq!(single(value, 3, 8), [32 * value]);
            assert_eq!(single(value, 3, 0), [value.div_euclid(8)]);
            assert_eq!(single(value, 12, 20), [256 * value]);
        }
        // -1/2 at f 0 is -1.
        assert_eq!(single(-1, 1, 0), [-1]);
    }

    /// One sample wide: at each level the row is cut to row G1's bits, then
    /// the column of row-low is worked as any other.
    #[test]
    fn strips_one_sample_wide() {
        let mut table = WidthTable::uniform(4, 2, 24, Width::new(12, 20));
        let bits = [(1, 1, 3), (1, 2, 9), (2, 1, 1), (2, 2, 2)];
        for (level, pass, bits) in bits {
            let place = Place {
                level,
                pass,
                node: 5,
            };
            table.width_mut(place).fraction_bits = bits;
        }
        // One pixel, -3/16: cut to 3 bits, the same with 9 bits, cut to 1 bit,
        // the same with 2 bits.
        assert_eq!(transform(&table, &[5], 1, 1).plane, [-2]);
        // 1 and 2 pixels: the other side has one pass of two samples, and then
        // a single one; it is the same along the row and down the column but
        // for the bits in between.
        let pixels = [5, 14];
        let constants = &table.constant_bits;
        let column = pass(&[-2, 3], 3, constants, &table.widths[0][1], None);
        let low = column[4][0] >> 8; // from 9 bits to 1
        assert_eq!(
            transform(&table, &pixels, 1, 2).plane,
            [low << 1, column[5][0]]
        );
        let row = pass(&[-3, 6], 4, constants, &table.widths[0][0], None);
        let low = (row[4][0] << 6) >> 8; // from 3 bits to 9 to 1
        let due = [low << 1, row[5][0]];
        assert_eq!(transform(&table, &pixels, 2, 1).plane, due);
        assert_eq!(transform(&table, &pixels, 2, 1).left, None);
    }

    #[test]
    fn a_value_that_leaves_its_width_is_told() {
        let mut table = WidthTable::uniform(8, 1, 24, Width::new(12, 12));
        let pixels = [0, 255, 0, 255];
        let worked = transform(&table, &pixels, 2, 2);
        assert_eq!(worked.left, None);
        // P1 of the row 0 255: 127/256 + 2 * 1.586 / 2 = 2.08 needs three bits.
        table.widths[0][0][0] = Width::new(2, 12);
        let left = transform(&table, &pixels, 2, 2).left.unwrap();
        assert_eq!(
            (left.place.level, left.place.pass, left.place.node),
            (1, 1, 1)
        );
        assert_eq!(left.value, (2.08224 * 4096.0) as i128);
    }
}
