//! The inverse 9/7 transform in fixed point, over whole numbers without limit,
//! and the pixels shown (document 02, job 1).

use crate::constants::{Ratio, ALPHA, BETA, DELTA, GAMMA, ONE_OVER_ZETA, ZETA};
use crate::fixed97::{scale, stage, Factor, Fixed};
use crate::places::{low_count, side_at};
use crate::refusal::Place;
use crate::table::WidthTable;

/// Fractional bits of every node.
pub const NODE_BITS: u8 = 20;
/// Fractional bits of every constant.
pub const CONSTANT_BITS: u8 = 24;

/// Low or high values of a line, with their fractional bits.
#[derive(Clone, Copy)]
pub struct Half<'a> {
    pub values: &'a [i128],
    pub bits: u8,
}

fn constant(exact: Ratio) -> Fixed {
    Fixed {
        value: exact.rounded(CONSTANT_BITS),
        bits: CONSTANT_BITS,
    }
}

/// The same constant taken away.
fn minus(exact: Ratio) -> Fixed {
    let Fixed { value, bits } = constant(exact);
    let value = -value;
    Fixed { value, bits }
}

/// One pass: what each node holds, in the order low over zeta, high times
/// zeta, inverses of U2, P2, U1, P1. The last two are the even and the odd samples.
/// A single low value is the only even sample, uncut, and no other node holds
/// anything (document 02, job 6).
pub fn pass(low: Half, high: Half) -> [Vec<i128>; 6] {
    let (lows, highs) = (low.values.len(), high.values.len());
    assert!(lows == highs || lows == highs + 1);
    if let (&[value], []) = (low.values, high.values) {
        let even = value << (NODE_BITS - low.bits);
        return [vec![], vec![], vec![], vec![], vec![even], vec![]];
    }
    // The low value past the last is the last; the high value before the
    // first is the first, the one past the last is the last.
    let lows_beside = |k: usize| (k, (k + 1).min(lows - 1));
    let highs_beside = |k: usize| (k.max(1) - 1, k.min(highs - 1));

    let g1 = scale(low.values, low.bits, constant(ONE_OVER_ZETA), NODE_BITS);
    let g2 = scale(high.values, high.bits, constant(ZETA), NODE_BITS);
    let undone = |own: &[i128], others: &[i128], exact: Ratio, beside: &dyn Fn(usize) -> _| {
        let by = Factor::uncut(minus(exact));
        stage(own, NODE_BITS, others, NODE_BITS, by, NODE_BITS, beside)
    };
    let u2 = undone(&g1, &g2, DELTA, &highs_beside);
    let p2 = undone(&g2, &u2, GAMMA, &lows_beside);
    let u1 = undone(&u2, &p2, BETA, &highs_beside);
    let p1 = undone(&p2, &u1, ALPHA, &lows_beside);
    [g1, g2, u2, p2, u1, p1]
}

/// The inverse of a plane.
#[derive(Clone, Debug, PartialEq, Eq)]
pub struct Undone {
    /// The values before they are rounded to pixels, row by row, with
    /// [`NODE_BITS`] fractional bits.
    pub values: Vec<i128>,
    /// The largest magnitude in each node: level L first, and of a level the
    /// columns of row-low, the columns of row-high, the rows.
    pub largest: Vec<[u128; 6]>,
}

/// Undoes a plane under a sound table; the sides must be admitted.
pub fn undo(table: &WidthTable, plane: &[i128], width: usize, height: usize) -> Undone {
    let mut undone = Undone {
        values: plane.to_vec(),
        largest: Vec::new(),
    };
    for level in (1..=table.levels).rev() {
        let (w, h) = (side_at(width, level), side_at(height, level));
        // A stored coefficient has the bits of its kept node.
        let stored = |pass: u8, node: u8| table.width(Place { level, pass, node }).fraction_bits;
        let low_low = match level == table.levels {
            true => stored(2, 5),
            false => NODE_BITS,
        };
        let columns = [
            (0..low_count(w), [low_low, stored(2, 6)]),
            (low_count(w)..w, [stored(3, 5), stored(3, 6)]),
        ];
        for (across, bits) in columns {
            let column = |x: usize| (0..h).map(move |y| y * width + x).collect();
            undone.lines(across.map(column), bits);
        }
        let row = |y: usize| (y * width..y * width + w).collect();
        undone.lines((0..h).map(row), [NODE_BITS; 2]);
    }
    undone
}

impl Undone {
    /// Undoes the lines that stand at the given elements; `bits` are those of
    /// the low and of the high values.
    fn lines(&mut self, lines: impl Iterator<Item = Vec<usize>>, bits: [u8; 2]) {
        let mut largest = [0u128; 6];
        for elements in lines {
            let line: Vec<i128> = elements.iter().map(|&e| self.values[e]).collect();
            let (lows, highs) = line.split_at(low_count(line.len()));
            let half = |values, bits| Half { values, bits };
            let nodes = pass(half(lows, bits[0]), half(highs, bits[1]));
            for (most, values) in largest.iter_mut().zip(&nodes) {
                let here = values.iter().map(|v| v.unsigned_abs()).max();
                *most = (*most).max(here.unwrap_or(0));
            }
            let [.., even, odd] = nodes;
            for (k, &element) in elements.iter().enumerate() {
                let samples = if k % 2 == 0 { &even } else { &odd };
                self.values[element] = samples[k / 2];
            }
        }
        self.largest.push(largest);
    }
}

/// The pixel that shows a value: 2^(B-1) greys are added, the sum is rounded
/// to the nearest grey, halves up, and limited to the depth.
pub fn pixel(value: i128, depth: u8) -> u16 {
    // A grey is 2^-B, and so 2^(20-B) of the value's units.
    let grey = 1i128 << (NODE_BITS - depth);
    let nearest = (2 * value + grey).div_euclid(2 * grey) + (1 << (depth - 1));
    nearest.clamp(0, (1 << depth) - 1) as u16
}

#[cfg(test)]
mod tests {
    use super::*;
    use crate::fixed97;
    use crate::table::Width;

    fn half(values: &[i128], bits: u8) -> Half<'_> {
        Half { values, bits }
    }

    #[test]
    fn constants_of_24_bits() {
        let values = [ONE_OVER_ZETA, ZETA, DELTA, GAMMA, BETA, ALPHA].map(|c| constant(c).value);
        let due = [
            14_593_904,
            19_287_161,
            7_440_810,
            14_812_790,
            -888_859,
            -26_610_918,
        ];
        assert_eq!(values, due);
        assert_eq!(minus(ALPHA).value, 26_610_918);
    }

    /// Every node of the shortest line, each stage worked by hand.
    #[test]
    fn two_samples_by_hand() {
        let nodes = pass(half(&[3], 2), half(&[-5], 0));
        // 3/4 over zeta: floor(14593904 * 3 / 2^6)
        let g1 = (14_593_904i128 * 3) >> 6;
        // -5 zeta: floor(19287161 * -5 / 2^4)
        let g2 = (19_287_161i128 * -5) >> 4;
        let u2 = ((g1 << 24) - 7_440_810 * 2 * g2) >> 24;
        let p2 = ((g2 << 24) - 14_812_790 * 2 * u2) >> 24;
        let u1 = ((u2 << 24) + 888_859 * 2 * p2) >> 24;
        let p1 = ((p2 << 24) + 26_610_918 * 2 * u1) >> 24;
        assert_eq!(nodes, [g1, g2, u2, p2, u1, p1].map(|v| vec![v]));
        assert_eq!((g1, g2), (684_089, -6_027_238));
    }

    /// At odd and even lengths each stage reads the neighbours that the
    /// forward stage read: with wide nodes a line comes back but for cuts.
    #[test]
    fn a_line_comes_back() {
        let widths = [Width::new(12, 20); 6];
        for n in 2..14usize {
            let line: Vec<i128> = (0..n as i128)
                .map(|i| (i * i * 977) % 4096 - 2048)
                .collect();
            let nodes = fixed97::pass(&line, 12, &[24; 6], &widths, None);
            let [.., even, odd] = pass(half(&nodes[4], 20), half(&nodes[5], 20));
            for (i, &sample) in line.iter().enumerate() {
                let back = if i % 2 == 0 { even[i / 2] } else { odd[i / 2] };
                assert!((back - (sample << 8)).abs() < 64, "{n} {i}");
            }
        }
    }

    #[test]
    fn a_single_low_value_comes_back_uncut() {
        let widths = |f| [Width::new(12, f); 6];
        for (bits, f) in [(1, 0), (8, 8), (12, 5), (3, 20)] {
            for sample in -9..9 {
                let nodes = fixed97::pass(&[sample], bits, &[24; 6], &widths(f), None);
                let [g1, g2, u2, p2, even, odd] = pass(half(&nodes[4], f), half(&nodes[5], f));
                assert!([g1, g2, u2, p2, odd].iter().all(Vec::is_empty));
                assert_eq!(even, [nodes[4][0] << (20 - f)]);
                // What was cut is all that is lost.
                let off = (sample << (20 - bits)) - even[0];
                assert!(0 <= off && off < 1 << (20 - f));
            }
        }
    }

    /// One sample wide and one high, level 2 before level 1.
    #[test]
    fn strips_one_sample_wide() {
        let mut table = WidthTable::uniform(8, 2, 24, Width::new(12, 20));
        for (level, pass, node, bits) in [(2, 2, 5, 3), (1, 2, 6, 4), (1, 3, 5, 6)] {
            table.width_mut(Place { level, pass, node }).fraction_bits = bits;
        }
        assert_eq!(undo(&table, &[-5], 1, 1).values, [-5 << 17]);
        // Two samples: the low one passes level 2 with 20 bits.
        for (width, height, bits) in [(1, 2, 4), (2, 1, 20)] {
            let high = if width == 1 { 7 } else { 7 << 14 };
            let [.., even, odd] = pass(half(&[-5 << 17], 20), half(&[high], bits));
            let undone = undo(&table, &[-5, 7], width, height);
            assert_eq!(undone.values, [even[0], odd[0]]);
            assert_eq!(undone.largest.len(), 6);
            // Level 2 has no columns of row-high and no node but the even one.
            let even = 5 << 17;
            let alone = [0, 0, 0, 0, even, 0];
            assert_eq!(undone.largest[..3], [alone, [0; 6], alone]);
        }
    }

    /// Columns before rows, level 2 before level 1: the same from passes put
    /// together by hand.
    #[test]
    fn columns_first_and_level_2_first() {
        let mut table = WidthTable::uniform(8, 2, 24, Width::new(12, 20));
        for (node, bits) in [(5, 3), (6, 4)] {
            for (level, pass) in [(1, 2), (1, 3), (2, 2), (2, 3)] {
                let place = Place { level, pass, node };
                table.width_mut(place).fraction_bits = bits + 2 * level + pass;
            }
        }
        let (width, height) = (4, 3);
        let plane: Vec<i128> = (0..12).map(|i| i * i * 31 % 101 - 50).collect();
        let at = |plane: &[i128], x: usize, y: usize| plane[y * width + x];
        let mut due = plane.clone();
        let mut line = |elements: &[usize], bits: [u8; 2]| {
            let line: Vec<i128> = elements.iter().map(|&e| due[e]).collect();
            let (lows, highs) = line.split_at(line.len().div_ceil(2));
            let [.., even, odd] = pass(half(lows, bits[0]), half(highs, bits[1]));
            for (k, &e) in elements.iter().enumerate() {
                due[e] = if k % 2 == 0 { even[k / 2] } else { odd[k / 2] };
            }
        };
        // Level 2 works two by two: 3 + 4 + 2 = 9 bits and so on.
        line(&[0, 4], [9, 10]);
        line(&[1, 5], [10, 11]);
        line(&[0, 1], [20; 2]);
        line(&[4, 5], [20; 2]);
        // Level 1 works four by three; its low-low has 20 bits.
        line(&[0, 4, 8], [20, 8]);
        line(&[1, 5, 9], [20, 8]);
        line(&[2, 6, 10], [8, 9]);
        line(&[3, 7, 11], [8, 9]);
        for y in 0..height {
            let start = y * width;
            line(&[start, start + 1, start + 2, start + 3], [20; 2]);
        }
        let undone = undo(&table, &plane, width, height);
        assert_eq!(undone.values, due);
        assert_eq!(undone.largest.len(), 6);
        // The last rows' even and odd samples are what is given.
        let of = |parity: usize| {
            let places = (0..height).flat_map(|y| (parity..width).step_by(2).map(move |x| (x, y)));
            let values = places.map(|(x, y)| at(&due, x, y).unsigned_abs());
            values.max().unwrap()
        };
        assert_eq!(undone.largest[5][4..], [of(0), of(1)]);
    }

    #[test]
    fn pixels_are_rounded_halves_up_and_limited() {
        // One bit: a grey is 2^19 units, and grey 1 is the value 0.
        let grey = 1i128 << 19;
        assert_eq!([-grey, 0].map(|v| pixel(v, 1)), [0, 1]);
        assert_eq!([-grey / 2 - 1, -grey / 2].map(|v| pixel(v, 1)), [0, 1]);
        assert_eq!([-5 * grey, 5 * grey].map(|v| pixel(v, 1)), [0, 1]);
        // Twelve bits: a grey is 2^8 units, from -2048 greys to 2047.
        let shown = |v: i128| pixel(v, 12);
        assert_eq!(
            [0, 127, 128, -128, -129].map(shown),
            [2048, 2048, 2049, 2048, 2047]
        );
        let (least, most) = (-2048 * 256, 2047 * 256);
        assert_eq!([least, least - 129, least - 9999].map(shown), [0; 3]);
        assert_eq!([most, most + 128, most + 9999].map(shown), [4095; 3]);
        assert_eq!([least + 127, least + 128].map(shown), [0, 1]);
        assert_eq!([most - 128, most - 129].map(shown), [4095, 4094]);
    }
}
