//! The procedures on one level: 2D_SD and 2D_SR with what they consist of.

use crate::line::{sd_1d, sr_1d, Line};
use crate::{ceil, floor};
use std::ops::{Index, IndexMut};

/// The values a(u, v) with u0 <= u < u1 and v0 <= v < v1.
#[derive(Clone, Debug, PartialEq, Eq)]
pub struct Area {
    u0: i64,
    u1: i64,
    v0: i64,
    v1: i64,
    /// Row by row.
    values: Vec<i64>,
}

impl Area {
    /// The area whose value at column u and row v is `value(u, v)`.
    pub fn of(u0: i64, u1: i64, v0: i64, v1: i64, mut value: impl FnMut(i64, i64) -> i64) -> Area {
        Area {
            u0,
            u1,
            v0,
            v1,
            values: places(u0, u1, v0, v1).map(|(u, v)| value(u, v)).collect(),
        }
    }

    /// All (u, v), row by row.
    pub fn places(&self) -> impl Iterator<Item = (i64, i64)> {
        places(self.u0, self.u1, self.v0, self.v1)
    }

    fn offset(&self, (u, v): (i64, i64)) -> usize {
        assert!(self.u0 <= u && u < self.u1, "column {u} is outside");
        ((v - self.v0) * (self.u1 - self.u0) + (u - self.u0)) as usize
    }
}

fn places(u0: i64, u1: i64, v0: i64, v1: i64) -> impl Iterator<Item = (i64, i64)> {
    (v0..v1).flat_map(move |v| (u0..u1).map(move |u| (u, v)))
}

impl Index<(i64, i64)> for Area {
    type Output = i64;

    fn index(&self, place: (i64, i64)) -> &i64 {
        &self.values[self.offset(place)]
    }
}

impl IndexMut<(i64, i64)> for Area {
    fn index_mut(&mut self, place: (i64, i64)) -> &mut i64 {
        let offset = self.offset(place);
        &mut self.values[offset]
    }
}

/// The four subbands of one level. The first letter tells of the columns: HL
/// is high across and low down.
#[derive(Clone, Debug, PartialEq, Eq)]
pub struct Subbands {
    pub ll: Area,
    pub hl: Area,
    pub lh: Area,
    pub hh: Area,
}

/// 2D_SD (forward, F.4): one level of decomposition, columns before rows.
pub fn sd_2d(mut a: Area, u0: i64, u1: i64, v0: i64, v1: i64) -> Subbands {
    ver_sd(&mut a, u0, u1, v0, v1);
    hor_sd(&mut a, u0, u1, v0, v1);
    deinterleave_2d(&a, u0, u1, v0, v1)
}

/// VER_SD (forward, F.4): 1D_SD of every column.
pub fn ver_sd(a: &mut Area, u0: i64, u1: i64, v0: i64, v1: i64) {
    for u in u0..u1 {
        let x = Line::of(v0, v1, |v| a[(u, v)]);
        let y = sd_1d(&x, v0, v1);
        for v in v0..v1 {
            a[(u, v)] = y[v];
        }
    }
}

/// HOR_SD (forward, F.4): 1D_SD of every row.
pub fn hor_sd(a: &mut Area, u0: i64, u1: i64, v0: i64, v1: i64) {
    for v in v0..v1 {
        let x = Line::of(u0, u1, |u| a[(u, v)]);
        let y = sd_1d(&x, u0, u1);
        for u in u0..u1 {
            a[(u, v)] = y[u];
        }
    }
}

/// 2D_DEINTERLEAVE (forward, F.4): lows stand at even, highs at odd columns
/// and rows.
pub fn deinterleave_2d(a: &Area, u0: i64, u1: i64, v0: i64, v1: i64) -> Subbands {
    let (low_u0, low_u1) = (ceil(u0, 2), ceil(u1, 2));
    let (low_v0, low_v1) = (ceil(v0, 2), ceil(v1, 2));
    let (high_u0, high_u1) = (floor(u0, 2), floor(u1, 2));
    let (high_v0, high_v1) = (floor(v0, 2), floor(v1, 2));
    Subbands {
        ll: Area::of(low_u0, low_u1, low_v0, low_v1, |u, v| a[(2 * u, 2 * v)]),
        hl: Area::of(high_u0, high_u1, low_v0, low_v1, |u, v| {
            a[(2 * u + 1, 2 * v)]
        }),
        lh: Area::of(low_u0, low_u1, high_v0, high_v1, |u, v| {
            a[(2 * u, 2 * v + 1)]
        }),
        hh: Area::of(high_u0, high_u1, high_v0, high_v1, |u, v| {
            a[(2 * u + 1, 2 * v + 1)]
        }),
    }
}

/// 2D_SR (inverse, F.3.2): one level of reconstruction, rows before columns.
pub fn sr_2d(subbands: &Subbands, u0: i64, u1: i64, v0: i64, v1: i64) -> Area {
    let mut a = interleave_2d(subbands, u0, u1, v0, v1);
    hor_sr(&mut a, u0, u1, v0, v1);
    ver_sr(&mut a, u0, u1, v0, v1);
    a
}

/// 2D_INTERLEAVE (inverse, F.3.3): what 2D_DEINTERLEAVE took apart.
pub fn interleave_2d(subbands: &Subbands, u0: i64, u1: i64, v0: i64, v1: i64) -> Area {
    let mut a = Area::of(u0, u1, v0, v1, |_, _| 0);
    for (u, v) in subbands.ll.places() {
        a[(2 * u, 2 * v)] = subbands.ll[(u, v)];
    }
    for (u, v) in subbands.hl.places() {
        a[(2 * u + 1, 2 * v)] = subbands.hl[(u, v)];
    }
    for (u, v) in subbands.lh.places() {
        a[(2 * u, 2 * v + 1)] = subbands.lh[(u, v)];
    }
    for (u, v) in subbands.hh.places() {
        a[(2 * u + 1, 2 * v + 1)] = subbands.hh[(u, v)];
    }
    a
}

/// HOR_SR (inverse, F.3.4): 1D_SR of every row.
pub fn hor_sr(a: &mut Area, u0: i64, u1: i64, v0: i64, v1: i64) {
    for v in v0..v1 {
        let y = Line::of(u0, u1, |u| a[(u, v)]);
        let x = sr_1d(&y, u0, u1);
        for u in u0..u1 {
            a[(u, v)] = x[u];
        }
    }
}

/// VER_SR (inverse, F.3.5): 1D_SR of every column.
pub fn ver_sr(a: &mut Area, u0: i64, u1: i64, v0: i64, v1: i64) {
    for u in u0..u1 {
        let y = Line::of(v0, v1, |v| a[(u, v)]);
        let x = sr_1d(&y, v0, v1);
        for v in v0..v1 {
            a[(u, v)] = x[v];
        }
    }
}

#[cfg(test)]
mod tests {
    use super::*;

    /// The value tells where it stood.
    fn numbered(u0: i64, u1: i64, v0: i64, v1: i64) -> Area {
        Area::of(u0, u1, v0, v1, |u, v| 10 * u + v)
    }

    #[test]
    fn subbands_are_taken_from_even_and_odd_places() {
        let a = numbered(0, 3, 0, 2);
        let parts = deinterleave_2d(&a, 0, 3, 0, 2);
        assert_eq!(parts.ll.values, [0, 20]);
        assert_eq!(parts.hl.values, [10]);
        assert_eq!(parts.lh.values, [1, 21]);
        assert_eq!(parts.hh.values, [11]);
        // Columns 1 to 3 and rows 3 and 4.
        let parts = deinterleave_2d(&numbered(1, 4, 3, 5), 1, 4, 3, 5);
        assert_eq!(parts.ll.values, [24]);
        assert_eq!(parts.hl.values, [14, 34]);
        assert_eq!(parts.lh.values, [23]);
        assert_eq!(parts.hh.values, [13, 33]);
    }

    #[test]
    fn a_level_is_undone_wherever_it_starts() {
        for (u0, v0) in [(0, 0), (0, 1), (1, 0), (1, 1), (-3, 2)] {
            for (u1, v1) in (1..=6).flat_map(|w| (1..=6).map(move |h| (u0 + w, v0 + h))) {
                let a = Area::of(u0, u1, v0, v1, |u, v| (7 * u * u - 5 * u * v + v) % 9);
                let parts = deinterleave_2d(&a, u0, u1, v0, v1);
                assert_eq!(interleave_2d(&parts, u0, u1, v0, v1), a);
                let parts = sd_2d(a.clone(), u0, u1, v0, v1);
                assert_eq!(sr_2d(&parts, u0, u1, v0, v1), a);
            }
        }
    }

    #[test]
    #[should_panic(expected = "column 3 is outside")]
    fn a_row_does_not_reach_into_the_next() {
        let a = numbered(0, 3, 0, 2);
        let _ = a[(3, 0)];
    }
}
