//! The reversible 5-3 wavelet transform as JPEG 2000 Part 1 (ITU-T T.800 |
//! ISO/IEC 15444-1) words it: Annex F, and clause G.1 for the DC level shift.
//!
//! Every procedure of the standard is one function under the standard's name,
//! the digit moved to the end: 2D_SD is [`area::sd_2d`]. Arguments are the
//! standard's too: u is the column, v the row, and an area reaches from
//! (u0, v0) up to but not including (u1, v1). Pictures start at (0, 0), yet no
//! procedure relies on it. Lines stay interleaved and are extended in memory
//! before they are filtered, as the flow charts have it; nothing here is made
//! for speed. The inverse is clause F.3, the forward transform clause F.4.
//!
//! The crate shares no code with what is held against it. Numbers are `i64`,
//! far wider than what 16-bit pixels or 32-bit coefficients lead to.

pub mod area;
pub mod dwt;
pub mod line;
pub mod shift;

use area::Area;
use dwt::{Decomposition, High};

/// The floor of a fraction; `n` may be negative, `d` is positive.
pub(crate) fn floor(n: i64, d: i64) -> i64 {
    n.div_euclid(d)
}

/// The ceiling of a fraction; `n` may be negative, `d` is positive.
pub(crate) fn ceil(n: i64, d: i64) -> i64 {
    -floor(-n, d)
}

/// The coefficients of a picture, shifted and decomposed, in one plane of the
/// picture's size: LL upper left, HL to its right, LH below it, HH lower
/// right, each further level in the place of the LL before it.
pub fn copy(depth: u32, levels: u32, pixels: &[u16], width: usize, height: usize) -> Vec<i64> {
    let samples: Vec<i64> = pixels.iter().map(|&pixel| pixel.into()).collect();
    copy_of_samples(depth, levels, &samples, width, height)
}

/// As [`copy`], of samples that need not be those of a picture: some may be
/// below 0 or above 2^depth - 1.
pub fn copy_of_samples(
    depth: u32,
    levels: u32,
    samples: &[i64],
    width: usize,
    height: usize,
) -> Vec<i64> {
    assert_eq!(samples.len(), width * height);
    let (u1, v1) = (width as i64, height as i64);
    let sample = |u: i64, v: i64| samples[v as usize * width + u as usize];
    let mut image = Area::of(0, u1, 0, v1, sample);
    shift::level_shift(depth, &mut image);
    let parts = dwt::fdwt(image, levels, 0, u1, 0, v1);

    let mut plane = vec![0; width * height];
    let mut put = |band: &Area, right: i64, down: i64| {
        for (u, v) in band.places() {
            plane[(down + v) as usize * width + (right + u) as usize] = band[(u, v)];
        }
    };
    let (mut columns, mut rows) = (u1, v1);
    for High { hl, lh, hh } in &parts.high {
        (columns, rows) = (ceil(columns, 2), ceil(rows, 2));
        put(hl, columns, 0);
        put(lh, 0, rows);
        put(hh, columns, rows);
    }
    put(&parts.ll, 0, 0);
    plane
}

/// The samples that a plane, laid out as [`copy`] does, is turned back into,
/// row by row. They are not limited to the depth: a plane that no picture has
/// gives some below 0 or above 2^depth - 1.
pub fn restored(depth: u32, levels: u32, plane: &[i64], width: usize, height: usize) -> Vec<i64> {
    assert_eq!(plane.len(), width * height);
    let (u1, v1) = (width as i64, height as i64);
    let take = |right: i64, down: i64, columns: i64, rows: i64| {
        Area::of(0, columns, 0, rows, |u, v| {
            plane[(down + v) as usize * width + (right + u) as usize]
        })
    };
    let (mut columns, mut rows) = (u1, v1);
    let mut high = Vec::new();
    for _ in 0..levels {
        let (all_columns, all_rows) = (columns, rows);
        (columns, rows) = (ceil(columns, 2), ceil(rows, 2));
        high.push(High {
            hl: take(columns, 0, all_columns - columns, rows),
            lh: take(0, rows, columns, all_rows - rows),
            hh: take(columns, rows, all_columns - columns, all_rows - rows),
        });
    }
    let ll = take(0, 0, columns, rows);
    let mut image = dwt::idwt(Decomposition { ll, high }, 0, u1, 0, v1);
    shift::inverse_level_shift(depth, &mut image);
    image.places().map(|place| image[place]).collect()
}

#[cfg(test)]
mod tests {
    use super::*;

    /// A linear congruential generator; its upper bits are good enough here.
    struct Draw(u64);

    impl Draw {
        fn below(&mut self, count: u64) -> u64 {
            self.0 = self.0.wrapping_mul(6364136223846793005).wrapping_add(1);
            (self.0 >> 33) % count
        }

        fn picture(&mut self, depth: u32, count: usize) -> Vec<u16> {
            (0..count).map(|_| self.below(1 << depth) as u16).collect()
        }
    }

    #[test]
    fn fractions_are_cut_downwards_and_upwards() {
        let cut: Vec<_> = (-4..=4).map(|n| (floor(n, 4), ceil(n, 2))).collect();
        let floors = [-1, -1, -1, -1, 0, 0, 0, 0, 1];
        let ceilings = [-2, -1, -1, 0, 0, 1, 1, 2, 2];
        assert!(cut.into_iter().eq(floors.into_iter().zip(ceilings)));
    }

    /// Shifted: 1 3 / 0 0. Columns first: lows 1 2 above highs -1 -3. Then
    /// the rows: (1, 2) gives 2 and 1, (-1, -3) gives -2 and -2. Rows first
    /// would leave 1 1 / -2 -2.
    #[test]
    fn a_picture_worked_by_hand() {
        let plane = copy(3, 1, &[5, 7, 4, 4], 2, 2);
        assert_eq!(plane, [2, 1, -2, -2]);
        assert_eq!(restored(3, 1, &plane, 2, 2), [5, 7, 4, 4]);
    }

    /// A single light pixel, 8 above the others, in a picture of 3 columns and
    /// 4 rows. Its column (0, 8, 0, 0) gives lows 4 2 and highs 8 0. Then the
    /// rows: (0, 4, 0) gives lows 2 2 and high 4, (0, 2, 0) lows 1 1 and high
    /// 2, (0, 8, 0) lows 4 4 and high 8. The columns (2, 1) of that LL give
    /// low 2 and high -1, its rows are flat.
    #[test]
    fn the_parts_stand_in_their_places() {
        let mut pixels = [8; 12];
        pixels[4] = 16;
        let one = [2, 2, 4, 1, 1, 2, 4, 4, 8, 0, 0, 0];
        assert_eq!(copy(4, 1, &pixels, 3, 4), one);
        let two = [2, 0, 4, -1, 0, 2, 4, 4, 8, 0, 0, 0];
        assert_eq!(copy(4, 2, &pixels, 3, 4), two);
    }

    #[test]
    fn a_flat_picture_has_its_grey_in_ll_and_nothing_else() {
        for (levels, columns, rows) in [(1, 6, 4), (2, 3, 2), (3, 2, 1), (4, 1, 1), (5, 1, 1)] {
            let plane = copy(8, levels, &[200; 11 * 8], 11, 8);
            for (i, value) in plane.into_iter().enumerate() {
                let low = i % 11 < columns && i / 11 < rows;
                assert_eq!(value, if low { 200 - 128 } else { 0 });
            }
        }
    }

    #[test]
    fn every_small_picture_comes_back() {
        let mut draw = Draw(1);
        for depth in 1..=12 {
            for levels in 1..=5 {
                for (width, height) in (1..=18).flat_map(|w| (1..=18).map(move |h| (w, h))) {
                    let pixels = draw.picture(depth, width * height);
                    let plane = copy(depth, levels, &pixels, width, height);
                    let back = restored(depth, levels, &plane, width, height);
                    assert!(
                        back.into_iter().eq(pixels.into_iter().map(i64::from)),
                        "depth {depth}, levels {levels}, {width} x {height}"
                    );
                }
            }
        }
    }

    /// Every plane is that of some samples, if not of a picture.
    #[test]
    fn every_small_plane_comes_back() {
        let mut draw = Draw(2);
        for levels in 1..=5 {
            for (width, height) in (1..=18).flat_map(|w| (1..=18).map(move |h| (w, h))) {
                let plane: Vec<i64> = (0..width * height)
                    .map(|_| draw.below(1 << 31) as i64 - (1 << 30))
                    .collect();
                let samples = restored(8, levels, &plane, width, height);
                let again = copy_of_samples(8, levels, &samples, width, height);
                assert!(again == plane, "levels {levels}, {width} x {height}");
            }
        }
    }
}
