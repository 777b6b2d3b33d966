//! Clause G.1: the DC level shift of a component of unsigned samples.
//!
//! The standard shifts by 2^Ssiz, where Ssiz is the component's depth less
//! one; a component of signed samples is not shifted, and there is none here.

use crate::area::Area;

/// DC level shifting: half the range comes off every sample before the
/// forward transform.
pub fn level_shift(depth: u32, image: &mut Area) {
    for place in image.places() {
        image[place] -= 1 << (depth - 1);
    }
}

/// Inverse DC level shifting: half the range is put back after the inverse
/// transform.
pub fn inverse_level_shift(depth: u32, image: &mut Area) {
    for place in image.places() {
        image[place] += 1 << (depth - 1);
    }
}

#[cfg(test)]
mod tests {
    use super::*;

    #[test]
    fn the_range_is_centred_but_for_half_a_step() {
        for (depth, least, largest) in [(1, -1, 0), (3, -4, 3), (12, -2048, 2047)] {
            let picture = Area::of(0, 2, 0, 1, |u, _| u * ((1 << depth) - 1));
            let mut image = picture.clone();
            level_shift(depth, &mut image);
            assert_eq!((image[(0, 0)], image[(1, 0)]), (least, largest));
            inverse_level_shift(depth, &mut image);
            assert_eq!(image, picture);
        }
    }
}
