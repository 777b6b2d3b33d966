//! The procedures on all levels: FDWT and IDWT.

use crate::area::{sd_2d, sr_2d, Area, Subbands};
use crate::ceil;

/// What is kept of a level besides its LL.
#[derive(Clone, Debug, PartialEq, Eq)]
pub struct High {
    pub hl: Area,
    pub lh: Area,
    pub hh: Area,
}

/// All subbands: the LL of the last level, and the others of level 1 and on.
#[derive(Clone, Debug, PartialEq, Eq)]
pub struct Decomposition {
    pub ll: Area,
    pub high: Vec<High>,
}

/// u0, u1, v0 and v1 of the LL after so many levels.
fn bounds(levels: usize, u0: i64, u1: i64, v0: i64, v1: i64) -> [i64; 4] {
    [u0, u1, v0, v1].map(|bound| ceil(bound, 1 << levels))
}

/// FDWT (forward, F.4): 2D_SD of the shifted samples, then of each LL.
pub fn fdwt(image: Area, levels: u32, u0: i64, u1: i64, v0: i64, v1: i64) -> Decomposition {
    let mut ll = image;
    let mut high = Vec::new();
    for levels_before in 0..levels as usize {
        let [u0, u1, v0, v1] = bounds(levels_before, u0, u1, v0, v1);
        let subbands = sd_2d(ll, u0, u1, v0, v1);
        ll = subbands.ll;
        high.push(High {
            hl: subbands.hl,
            lh: subbands.lh,
            hh: subbands.hh,
        });
    }
    Decomposition { ll, high }
}

/// IDWT (inverse, F.3.1): 2D_SR from the last level down to the first.
pub fn idwt(parts: Decomposition, u0: i64, u1: i64, v0: i64, v1: i64) -> Area {
    let mut ll = parts.ll;
    for (levels_before, High { hl, lh, hh }) in parts.high.into_iter().enumerate().rev() {
        let [u0, u1, v0, v1] = bounds(levels_before, u0, u1, v0, v1);
        ll = sr_2d(&Subbands { ll, hl, lh, hh }, u0, u1, v0, v1);
    }
    ll
}

#[cfg(test)]
mod tests {
    use super::*;

    /// Sides of 32 or more leave something in the LL of level 5 wherever the
    /// image starts.
    #[test]
    fn an_image_comes_back_wherever_it_starts() {
        for (u0, v0) in [(0, 0), (5, 2), (2, 7), (-3, 1)] {
            for levels in 0..=5 {
                for (u1, v1) in [(32, 33), (45, 38)].map(|(w, h)| (u0 + w, v0 + h)) {
                    let image = Area::of(u0, u1, v0, v1, |u, v| (u * u + 11 * u * v - 3 * v) % 17);
                    let parts = fdwt(image.clone(), levels, u0, u1, v0, v1);
                    assert_eq!(parts.high.len(), levels as usize);
                    assert_eq!(idwt(parts, u0, u1, v0, v1), image);
                }
            }
        }
    }
}
