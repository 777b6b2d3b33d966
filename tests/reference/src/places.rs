//! Sides, the low and high part of a length, and which node gave a place of
//! the plane.

use crate::refusal::Place;

/// Low values of a length.
pub fn low_count(n: usize) -> usize {
    n.div_ceil(2)
}

/// Neither 0 nor above 4,096, whatever the levels (document 02, job 6).
pub fn side_admitted(side: usize) -> bool {
    side != 0 && side <= 4096
}

/// The rule before job 6: at most 4,096 and greater than 2 to the power
/// (levels - 1), so that no pass had a single sample.
pub fn earlier_side_admitted(side: usize, levels: u8) -> bool {
    side <= 4096 && side > 1 << (levels - 1)
}

/// The side of the part that level `level` (from 1) works.
pub fn side_at(side: usize, level: u8) -> usize {
    (1..level).fold(side, |n, _| low_count(n))
}

/// The kept node that gave the coefficient at column `x`, row `y`.
pub fn kept_node(width: usize, height: usize, levels: u8, x: usize, y: usize) -> Place {
    let mut level = 1;
    let (mut low_w, mut low_h) = (low_count(width), low_count(height));
    while level < levels && x < low_w && y < low_h {
        level += 1;
        (low_w, low_h) = (low_count(low_w), low_count(low_h));
    }
    Place {
        level,
        pass: if x < low_w { 2 } else { 3 },
        node: if y < low_h { 5 } else { 6 },
    }
}

#[cfg(test)]
mod tests {
    use super::*;

    #[test]
    fn sides() {
        assert!((1..=4096).all(side_admitted));
        assert!([0, 4097, usize::MAX].iter().all(|&s| !side_admitted(s)));
        assert_eq!((low_count(1), low_count(2)), (1, 1));
        assert_eq!((low_count(3), low_count(17)), (2, 9));
        assert_eq!((side_at(17, 1), side_at(17, 2), side_at(17, 5)), (17, 9, 2));
        assert_eq!((side_at(16, 5), side_at(2, 2), side_at(1, 5)), (1, 1, 1));
    }

    /// The sides that are new are those with a pass of a single sample.
    #[test]
    fn sides_before_job_6() {
        for levels in 1..=5 {
            for side in (0..=4097).chain([usize::MAX]) {
                let single = side_at(side, levels) == 1;
                let due = side_admitted(side) && !single;
                assert_eq!(earlier_side_admitted(side, levels), due);
            }
        }
        assert!(earlier_side_admitted(17, 5) && !earlier_side_admitted(16, 5));
        assert!(earlier_side_admitted(2, 1) && !earlier_side_admitted(1, 1));
    }

    /// A side of one sample has no high part at any level.
    #[test]
    fn kept_nodes_of_strips_one_sample_wide() {
        let place = |level, pass, node| Place { level, pass, node };
        for levels in 1..=5 {
            assert_eq!(kept_node(1, 1, levels, 0, 0), place(levels, 2, 5));
        }
        // Levels work 5, 3, 2 and 1 samples.
        let due = [(4, 5), (3, 6), (2, 6), (1, 6), (1, 6)];
        for (y, (level, node)) in due.into_iter().enumerate() {
            assert_eq!(kept_node(1, 5, 4, 0, y), place(level, 2, node));
        }
        let due = [(4, 2), (3, 3), (2, 3), (1, 3), (1, 3)];
        for (x, (level, pass)) in due.into_iter().enumerate() {
            assert_eq!(kept_node(5, 1, 4, x, 0), place(level, pass, 5));
        }
    }

    #[test]
    fn kept_nodes_of_a_small_plane() {
        let place = |level, pass, node| Place { level, pass, node };
        // 5 wide, 3 high, two levels: level 1 leaves 3 by 2, level 2 has 2 by 1 lows.
        assert_eq!(kept_node(5, 3, 2, 0, 0), place(2, 2, 5));
        assert_eq!(kept_node(5, 3, 2, 1, 0), place(2, 2, 5));
        assert_eq!(kept_node(5, 3, 2, 2, 0), place(2, 3, 5));
        assert_eq!(kept_node(5, 3, 2, 1, 1), place(2, 2, 6));
        assert_eq!(kept_node(5, 3, 2, 2, 1), place(2, 3, 6));
        assert_eq!(kept_node(5, 3, 2, 3, 1), place(1, 3, 5));
        assert_eq!(kept_node(5, 3, 2, 2, 2), place(1, 2, 6));
        assert_eq!(kept_node(5, 3, 2, 4, 2), place(1, 3, 6));
    }
}
