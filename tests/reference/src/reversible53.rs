//! The reversible 5/3 transform, forward and back, over whole numbers that no
//! 32-bit plane can bring to overflow.
//!
//! A floor follows every sum, so a plane worked columns first is in general
//! another than one worked rows first. Each order has its own way back, which
//! takes the inverse of what was worked last first.

use crate::places::{low_count, side_at};

/// What each level works first, going forward.
#[derive(Clone, Copy, Debug, PartialEq, Eq)]
pub enum Order {
    /// Columns, then rows: copies as JPEG 2000 Part 1 makes them (document 02,
    /// job 4).
    ColumnsFirst,
    /// Rows, then columns: copies made earlier. No call makes them any more.
    RowsFirst,
}

impl Order {
    pub const BOTH: [Order; 2] = [Order::ColumnsFirst, Order::RowsFirst];
}

/// One pass forward: low values, then high values. A single sample is the only
/// low value (document 02, job 6).
pub fn forward_pass(line: &[i128]) -> Vec<i128> {
    if let &[sample] = line {
        return vec![sample];
    }
    let n = line.len();
    let mut lows: Vec<i128> = line.iter().step_by(2).copied().collect();
    let mut highs: Vec<i128> = line.iter().skip(1).step_by(2).copied().collect();
    for (k, high) in highs.iter_mut().enumerate() {
        *high -= half_of_lows(&lows, k);
    }
    for (k, low) in lows.iter_mut().enumerate() {
        *low += quarter_of_highs(&highs, k);
    }
    assert_eq!((lows.len(), highs.len()), (low_count(n), n / 2));
    lows.append(&mut highs);
    lows
}

/// One pass back. A single low value is the sample.
pub fn back_pass(line: &[i128]) -> Vec<i128> {
    if let &[low] = line {
        return vec![low];
    }
    let (lows, highs) = line.split_at(low_count(line.len()));
    let (mut lows, mut highs) = (lows.to_vec(), highs.to_vec());
    for (k, low) in lows.iter_mut().enumerate() {
        *low -= quarter_of_highs(&highs, k);
    }
    for (k, high) in highs.iter_mut().enumerate() {
        *high += half_of_lows(&lows, k);
    }
    let mut out = Vec::with_capacity(line.len());
    for k in 0..line.len() {
        out.push(if k % 2 == 0 {
            lows[k / 2]
        } else {
            highs[k / 2]
        });
    }
    out
}

/// Floor of half the sum of the lows beside high `k`; the low value past the
/// last is the last.
fn half_of_lows(lows: &[i128], k: usize) -> i128 {
    (lows[k] + lows[(k + 1).min(lows.len() - 1)]).div_euclid(2)
}

/// Floor of (the sum of the highs beside low `k`, plus 2) over 4; the high
/// value before the first is the first, the one past the last is the last.
fn quarter_of_highs(highs: &[i128], k: usize) -> i128 {
    (highs[k.max(1) - 1] + highs[k.min(highs.len() - 1)] + 2).div_euclid(4)
}

/// The plane of a picture of admitted size and depth.
pub fn forward(
    order: Order,
    depth: u8,
    levels: u8,
    pixels: &[u16],
    width: usize,
    height: usize,
) -> Vec<i128> {
    let middle = 1i128 << (depth - 1);
    let mut plane: Vec<i128> = pixels.iter().map(|&p| i128::from(p) - middle).collect();
    forward_levels(order, levels, &mut plane, width, height);
    plane
}

/// Every level forward, level 1 first, over whole numbers of any size.
pub fn forward_levels(order: Order, levels: u8, plane: &mut [i128], width: usize, height: usize) {
    for level in 1..=levels {
        let (w, h) = (side_at(width, level), side_at(height, level));
        match order {
            Order::ColumnsFirst => {
                columns(plane, width, w, h, forward_pass);
                rows(plane, width, w, h, forward_pass);
            }
            Order::RowsFirst => {
                rows(plane, width, w, h, forward_pass);
                columns(plane, width, w, h, forward_pass);
            }
        }
    }
}

/// The inverse of every level, the last level first, over whole numbers of any size.
fn back_levels(order: Order, levels: u8, plane: &mut [i128], width: usize, height: usize) {
    for level in (1..=levels).rev() {
        let (w, h) = (side_at(width, level), side_at(height, level));
        match order {
            Order::ColumnsFirst => {
                rows(plane, width, w, h, back_pass);
                columns(plane, width, w, h, back_pass);
            }
            Order::RowsFirst => {
                columns(plane, width, w, h, back_pass);
                rows(plane, width, w, h, back_pass);
            }
        }
    }
}

/// The picture that has this plane in this order, or nothing where no picture
/// of that depth has it. In either order every whole-number picture has its
/// own plane, so the plane goes back to one whole-number picture, and it is
/// asked whether that one's pixels are of the depth.
pub fn back(
    order: Order,
    depth: u8,
    levels: u8,
    plane: &[i32],
    width: usize,
    height: usize,
) -> Option<Vec<u16>> {
    let mut values: Vec<i128> = plane.iter().map(|&v| i128::from(v)).collect();
    back_levels(order, levels, &mut values, width, height);
    let middle = 1i128 << (depth - 1);
    let pixel = |v: i128| match v + middle {
        p if 0 <= p && p < 1 << depth => Some(p as u16),
        _ => None,
    };
    values.into_iter().map(pixel).collect()
}

fn rows(plane: &mut [i128], width: usize, w: usize, h: usize, pass: fn(&[i128]) -> Vec<i128>) {
    for y in 0..h {
        let row = &mut plane[y * width..y * width + w];
        let worked = pass(row);
        row.copy_from_slice(&worked);
    }
}

fn columns(plane: &mut [i128], width: usize, w: usize, h: usize, pass: fn(&[i128]) -> Vec<i128>) {
    for x in 0..w {
        let column: Vec<i128> = (0..h).map(|y| plane[y * width + x]).collect();
        for (y, value) in pass(&column).into_iter().enumerate() {
            plane[y * width + x] = value;
        }
    }
}

#[cfg(test)]
mod tests {
    use super::*;

    #[test]
    fn the_passes_of_the_document() {
        let cases: [(&[i128], &[i128]); 6] = [
            (&[0, 0], &[0, 0]),
            (&[1, 3], &[2, 2]),
            (&[-1, 0], &[0, 1]),
            (&[0, -3], &[-1, -3]),
            (&[3, 0, -2], &[3, -2, 0]),
            (&[0, 0, 0, 1], &[0, 0, 0, 1]),
        ];
        for (line, due) in cases {
            assert_eq!(forward_pass(line), due);
            assert_eq!(back_pass(due), line);
        }
    }

    /// Whole numbers from a fixed seed.
    struct Drawn(u64);

    impl Drawn {
        fn bits(&mut self) -> i64 {
            self.0 = self
                .0
                .wrapping_mul(6_364_136_223_846_793_005)
                .wrapping_add(1);
            self.0 as i64
        }

        fn numbers(&mut self, count: usize) -> Vec<i128> {
            (0..count).map(|_| i128::from(self.bits() >> 20)).collect()
        }

        fn pixels(&mut self, depth: u8, count: usize) -> Vec<u16> {
            let one = |_| (self.bits() as u64 >> (64 - depth)) as u16;
            (0..count).map(one).collect()
        }
    }

    #[test]
    fn back_undoes_forward_on_any_integers() {
        let mut drawn = Drawn(1);
        for n in 1..40 {
            for _ in 0..50 {
                let line = drawn.numbers(n);
                assert_eq!(back_pass(&forward_pass(&line)), line);
                assert_eq!(forward_pass(&back_pass(&line)), line);
            }
        }
    }

    /// Small pictures of every size, those with a side of one sample among
    /// them.
    fn shapes() -> impl Iterator<Item = (u8, usize, usize)> {
        (1..=5).flat_map(|levels| {
            let pairs = (1..=12).flat_map(|w| (1..=12).map(move |h| (w, h)));
            pairs.map(move |(width, height)| (levels, width, height))
        })
    }

    /// A side of one sample is left as it is: what is worked is the other side,
    /// as a line, and in both orders alike.
    #[test]
    fn strips_one_sample_wide() {
        for order in Order::BOTH {
            assert_eq!(forward(order, 3, 5, &[7], 1, 1), [3]);
            assert_eq!(back(order, 3, 5, &[3], 1, 1), Some(vec![7]));
            assert_eq!(back(order, 3, 5, &[4], 1, 1), None);
            for (width, height) in [(4, 1), (1, 4)] {
                // 0 0 0 1 gives 0 0 | 0 1, and 0 0 gives 0 | 0.
                let plane = forward(order, 1, 2, &[1, 1, 1, 1], width, height);
                assert_eq!(plane, [0; 4]);
                let plane = forward(order, 3, 2, &[4, 4, 4, 5], width, height);
                assert_eq!(plane, [0, 0, 0, 1]);
                // 1 3 gives 2 | 2, and then 2 is let through.
                let (width, height) = (width.min(2), height.min(2));
                for levels in 1..=5 {
                    let plane = forward(order, 3, levels, &[5, 7], width, height);
                    assert_eq!(plane, [2, 2]);
                    let picture = back(order, 3, levels, &[2, 2], width, height);
                    assert_eq!(picture, Some(vec![5, 7]));
                    assert_eq!(back(order, 3, levels, &[4, 2], width, height), None);
                }
            }
        }
    }

    #[test]
    fn each_order_undoes_itself_on_any_integers() {
        let mut drawn = Drawn(2);
        for (levels, width, height) in shapes() {
            for order in Order::BOTH {
                let numbers = drawn.numbers(width * height);
                let mut plane = numbers.clone();
                forward_levels(order, levels, &mut plane, width, height);
                back_levels(order, levels, &mut plane, width, height);
                assert_eq!(plane, numbers);
                back_levels(order, levels, &mut plane, width, height);
                forward_levels(order, levels, &mut plane, width, height);
                assert_eq!(plane, numbers);
            }
        }
    }

    /// Columns for rows and rows for columns.
    fn turned<T: Copy>(plane: &[T], width: usize) -> Vec<T> {
        let column = |x: usize| plane.iter().skip(x).step_by(width).copied();
        (0..width).flat_map(column).collect()
    }

    /// A picture turned over its diagonal has, in the other order, its plane
    /// turned.
    #[test]
    fn the_orders_are_each_other_turned() {
        let mut drawn = Drawn(3);
        for (levels, width, height) in shapes() {
            let pixels = drawn.pixels(8, width * height);
            let on_its_side = turned(&pixels, width);
            for (order, other) in [
                (Order::ColumnsFirst, Order::RowsFirst),
                (Order::RowsFirst, Order::ColumnsFirst),
            ] {
                let plane = forward(order, 8, levels, &pixels, width, height);
                let due = forward(other, 8, levels, &on_its_side, height, width);
                assert_eq!(turned(&plane, width), due);
            }
        }
    }

    #[test]
    fn the_copy_of_the_document_in_both_orders() {
        let picture = [5, 7, 4, 4];
        for (order, due) in [
            (Order::ColumnsFirst, [2, 1, -2, -2]),
            (Order::RowsFirst, [1, 1, -2, -2]),
        ] {
            assert_eq!(forward(order, 3, 1, &picture, 2, 2), due.map(i128::from));
            assert_eq!(back(order, 3, 1, &due, 2, 2), Some(picture.to_vec()));
            let damaged = [9, due[1], due[2], due[3]];
            assert_eq!(back(order, 3, 1, &damaged, 2, 2), None);
        }
    }

    /// A copy of one order that goes back in the other: no picture, or
    /// another one, or, as with a flat picture, the same.
    #[test]
    fn a_copy_of_the_other_order_does_not_come_back_but_by_luck() {
        let mut drawn = Drawn(4);
        for (order, other) in [
            (Order::ColumnsFirst, Order::RowsFirst),
            (Order::RowsFirst, Order::ColumnsFirst),
        ] {
            let (mut none, mut another) = (0, 0);
            for (levels, width, height) in shapes() {
                for depth in [1, 8] {
                    let pixels = drawn.pixels(depth, width * height);
                    let plane = forward(order, depth, levels, &pixels, width, height);
                    let plane: Vec<i32> = plane.iter().map(|&v| v as i32).collect();
                    match back(other, depth, levels, &plane, width, height) {
                        None => none += 1,
                        Some(picture) if picture != pixels => another += 1,
                        Some(_) => {}
                    }
                }
            }
            assert!(none > 20 && another > 20, "{none} {another}");
            let flat = [77; 30];
            let plane = forward(order, 8, 2, &flat, 6, 5);
            let plane: Vec<i32> = plane.iter().map(|&v| v as i32).collect();
            assert_eq!(back(other, 8, 2, &plane, 6, 5), Some(flat.to_vec()));
        }
    }
}
