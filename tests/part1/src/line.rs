//! The procedures on one line: 1D_SD and 1D_SR with their extensions and the
//! reversible 5-3 filters.

use crate::{ceil, floor};
use std::ops::{Index, IndexMut};

/// A line of values whose first index need not be 0.
#[derive(Clone, Debug, PartialEq, Eq)]
pub struct Line {
    first: i64,
    values: Vec<i64>,
}

impl Line {
    /// The line with indices `i0` to `i1` - 1.
    pub fn of(i0: i64, i1: i64, value: impl FnMut(i64) -> i64) -> Line {
        Line {
            first: i0,
            values: (i0..i1).map(value).collect(),
        }
    }
}

impl Index<i64> for Line {
    type Output = i64;

    fn index(&self, i: i64) -> &i64 {
        &self.values[(i - self.first) as usize]
    }
}

impl IndexMut<i64> for Line {
    fn index_mut(&mut self, i: i64) -> &mut i64 {
        &mut self.values[(i - self.first) as usize]
    }
}

fn is_even(i: i64) -> bool {
    i.rem_euclid(2) == 0
}

/// 1D_SD (forward, F.4): an interleaved line of lows at even and highs at odd
/// indices. A single sample is kept at an even index and doubled at an odd
/// one; anything longer is extended and filtered.
pub fn sd_1d(x: &Line, i0: i64, i1: i64) -> Line {
    if i0 == i1 - 1 {
        let y = if is_even(i0) { x[i0] } else { 2 * x[i0] };
        return Line::of(i0, i1, |_| y);
    }
    let x_ext = extd_1d(x, i0, i1);
    filtd_1d(&x_ext, i0, i1)
}

/// 1D_SR (inverse, F.3.6): the samples of an interleaved line. A single
/// coefficient is kept at an even index and halved at an odd one, where 1D_SD
/// leaves even numbers only.
pub fn sr_1d(y: &Line, i0: i64, i1: i64) -> Line {
    if i0 == i1 - 1 {
        let x = if is_even(i0) { y[i0] } else { floor(y[i0], 2) };
        return Line::of(i0, i1, |_| x);
    }
    let y_ext = extr_1d(y, i0, i1);
    filtr_1d(&y_ext, i0, i1)
}

/// PSE_O, the index mapping of the periodic symmetric extension (F.3.7): the
/// index from `i0` to `i1` - 1 whose value stands at `i` in the extended line.
/// The line is mirrored about its first and its last sample, neither of which
/// is repeated. It has two samples or more.
pub fn pse_o(i: i64, i0: i64, i1: i64) -> i64 {
    let period = 2 * (i1 - i0 - 1);
    let along = (i - i0).rem_euclid(period);
    i0 + along.min(period - along)
}

/// The line with `i_left` more values before it and `i_right` after it.
fn extended(line: &Line, i0: i64, i1: i64, i_left: i64, i_right: i64) -> Line {
    Line::of(i0 - i_left, i1 + i_right, |i| line[pse_o(i, i0, i1)])
}

/// 1D_EXTD (forward, F.4): as far to both sides as the 5-3 filter reads.
pub fn extd_1d(x: &Line, i0: i64, i1: i64) -> Line {
    let i_left = if is_even(i0) { 2 } else { 1 };
    let i_right = if is_even(i1) { 1 } else { 2 };
    extended(x, i0, i1, i_left, i_right)
}

/// 1D_EXTR (inverse, F.3.7): as far to both sides as the 5-3 filter reads.
pub fn extr_1d(y: &Line, i0: i64, i1: i64) -> Line {
    let i_left = if is_even(i0) { 1 } else { 2 };
    let i_right = if is_even(i1) { 2 } else { 1 };
    extended(y, i0, i1, i_left, i_right)
}

/// 1D_FILTD with the reversible 5-3 filter (forward, F.4): first all highs,
/// one on either side of the line among them where a low needs it, then the
/// lows.
///
/// * Y(2n+1) = X(2n+1) - floor((X(2n) + X(2n+2)) / 2)
///   for ceil(i0/2) - 1 <= n < ceil(i1/2)
/// * Y(2n) = X(2n) + floor((Y(2n-1) + Y(2n+1) + 2) / 4)
///   for ceil(i0/2) <= n < ceil(i1/2)
pub fn filtd_1d(x_ext: &Line, i0: i64, i1: i64) -> Line {
    let mut y = x_ext.clone();
    for n in ceil(i0, 2) - 1..ceil(i1, 2) {
        y[2 * n + 1] = x_ext[2 * n + 1] - floor(x_ext[2 * n] + x_ext[2 * n + 2], 2);
    }
    for n in ceil(i0, 2)..ceil(i1, 2) {
        y[2 * n] = x_ext[2 * n] + floor(y[2 * n - 1] + y[2 * n + 1] + 2, 4);
    }
    Line::of(i0, i1, |i| y[i])
}

/// 1D_FILTR with the reversible 5-3 filter (inverse, F.3.8): first all samples
/// at even indices, then those at odd ones.
///
/// * X(2n) = Y(2n) - floor((Y(2n-1) + Y(2n+1) + 2) / 4)
///   for floor(i0/2) <= n < floor(i1/2) + 1
/// * X(2n+1) = Y(2n+1) + floor((X(2n) + X(2n+2)) / 2)
///   for floor(i0/2) <= n < floor(i1/2)
pub fn filtr_1d(y_ext: &Line, i0: i64, i1: i64) -> Line {
    let mut x = y_ext.clone();
    for n in floor(i0, 2)..floor(i1, 2) + 1 {
        x[2 * n] = y_ext[2 * n] - floor(y_ext[2 * n - 1] + y_ext[2 * n + 1] + 2, 4);
    }
    for n in floor(i0, 2)..floor(i1, 2) {
        x[2 * n + 1] = y_ext[2 * n + 1] + floor(x[2 * n] + x[2 * n + 2], 2);
    }
    Line::of(i0, i1, |i| x[i])
}

#[cfg(test)]
mod tests {
    use super::*;

    fn line(i0: i64, values: &[i64]) -> Line {
        Line {
            first: i0,
            values: values.to_vec(),
        }
    }

    fn mapped(from: i64, to: i64, i0: i64, i1: i64) -> Vec<i64> {
        (from..=to).map(|i| pse_o(i, i0, i1)).collect()
    }

    #[test]
    fn the_mapping_mirrors_about_both_ends() {
        let four = [0, 1, 2, 3, 2, 1, 0, 1, 2, 3, 2, 1, 0, 1, 2, 3];
        assert_eq!(mapped(-6, 9, 0, 4), four);
        let five = [2, 3, 4, 3, 2, 1, 0, 1, 2, 3, 4, 3, 2, 1, 0, 1];
        assert_eq!(mapped(-6, 9, 0, 5), five);
        let three_from_three = [3, 4, 5, 4, 3, 4, 5, 4, 3, 4, 5, 4];
        assert_eq!(mapped(-1, 10, 3, 6), three_from_three);
        let two_from_minus_one = [-1, 0, -1, 0, -1, 0, -1];
        assert_eq!(mapped(-3, 3, -1, 1), two_from_minus_one);
    }

    #[test]
    fn lines_are_extended_as_the_filters_read_them() {
        let even = line(0, &[10, 20, 30, 40]);
        assert_eq!(
            extd_1d(&even, 0, 4),
            line(-2, &[30, 20, 10, 20, 30, 40, 30])
        );
        assert_eq!(
            extr_1d(&even, 0, 4),
            line(-1, &[20, 10, 20, 30, 40, 30, 20])
        );
        let odd = line(1, &[10, 20, 30, 40]);
        assert_eq!(extd_1d(&odd, 1, 5), line(0, &[20, 10, 20, 30, 40, 30, 20]));
        assert_eq!(extr_1d(&odd, 1, 5), line(-1, &[30, 20, 10, 20, 30, 40, 30]));
        let short = line(0, &[10, 20]);
        assert_eq!(extd_1d(&short, 0, 2), line(-2, &[10, 20, 10, 20, 10]));
    }

    /// Interleaved: low, high, low, high.
    #[test]
    fn lines_worked_by_hand() {
        let worked: [(&[i64], &[i64]); 5] = [
            (&[1, 3], &[2, 2]),
            (&[-1, 0], &[0, 1]),
            (&[0, -3], &[-1, -3]),
            (&[3, 0, -2], &[3, 0, -2]),
            (&[0, 0, 0, 1], &[0, 0, 0, 1]),
        ];
        for (samples, coefficients) in worked {
            let i1 = samples.len() as i64;
            let (x, y) = (line(0, samples), line(0, coefficients));
            assert_eq!(sd_1d(&x, 0, i1), y);
            assert_eq!(sr_1d(&y, 0, i1), x);
        }
    }

    /// From an odd index on a line starts with a high: 5 at 1 and 8 at 2 give
    /// the high 5 - 8 and the low 8 + floor((-3 - 3 + 2) / 4).
    #[test]
    fn a_line_from_an_odd_index() {
        let (x, y) = (line(1, &[5, 8]), line(1, &[-3, 7]));
        assert_eq!(sd_1d(&x, 1, 3), y);
        assert_eq!(sr_1d(&y, 1, 3), x);
    }

    #[test]
    fn a_single_sample_is_kept_or_doubled() {
        assert_eq!(sd_1d(&line(4, &[-7]), 4, 5), line(4, &[-7]));
        assert_eq!(sr_1d(&line(4, &[-7]), 4, 5), line(4, &[-7]));
        assert_eq!(sd_1d(&line(3, &[-7]), 3, 4), line(3, &[-14]));
        assert_eq!(sr_1d(&line(3, &[-14]), 3, 4), line(3, &[-7]));
    }

    /// All lines of up to 5 small samples, from even and odd indices.
    #[test]
    fn every_short_line_comes_back() {
        for i0 in -2..=3 {
            for length in 1..=5 {
                for number in 0..7i64.pow(length) {
                    let digit = |i: i64| number / 7i64.pow((i - i0) as u32) % 7 - 3;
                    let i1 = i0 + i64::from(length);
                    let x = Line::of(i0, i1, digit);
                    assert_eq!(sr_1d(&sd_1d(&x, i0, i1), i0, i1), x);
                }
            }
        }
    }
}
