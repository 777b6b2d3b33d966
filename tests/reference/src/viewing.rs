//! The bound of viewing (document 02, job 1): the precision analysis with the
//! inverse stages' gains. All bounds are whole numbers of 2^-32.

use crate::fixed_inverse97::{CONSTANT_BITS, NODE_BITS};
use crate::gains::inverse_gains;
use crate::precision::{halved, step, times_gain, Bound, ONE};
use crate::refusal::{Place, Refusal};
use crate::table::{Width, WidthTable};

/// Range plus error of a node may not be above this.
const MOST: u128 = ONE << 15;

/// Bounds of the six nodes of one inverse pass, in the order low over zeta,
/// high times zeta, inverses of U2, P2, U1, P1. The even output's (of U1) are at
/// least those of the low input, which a pass of a single sample lets through;
/// the inverse of P1 multiplies the even output, and so takes the larger ones
/// (document 02, job 6).
pub fn pass_bounds(low: Bound, high: Bound) -> [Bound; 6] {
    pass_bounds_by(low, high, |even| larger(even, low))
}

/// The same by the rule before job 6, when no pass had a single sample.
pub fn earlier_pass_bounds(low: Bound, high: Bound) -> [Bound; 6] {
    pass_bounds_by(low, high, |even| even)
}

/// The larger of two, range and error each by itself.
fn larger(one: Bound, other: Bound) -> Bound {
    Bound {
        range: one.range.max(other.range),
        error: one.error.max(other.error),
    }
}

/// The bounds where the even output's are what `even_output` makes of those
/// that come from the stages.
fn pass_bounds_by(low: Bound, high: Bound, even_output: impl Fn(Bound) -> Bound) -> [Bound; 6] {
    let gains = inverse_gains();
    let mut own = [0u128; 6];
    let mut bounds = [Bound { range: 0, error: 0 }; 6];
    for node in 0..6 {
        // The value that the stage multiplies.
        let multiplied = match node {
            0 => low,
            1 => high,
            _ => bounds[node - 1],
        };
        let constant_error_bits = match node {
            0 | 1 => CONSTANT_BITS + 1,
            _ => CONSTANT_BITS,
        };
        // A node is always below the full precision, which has the bits of the
        // constant and those of the value it multiplies.
        own[node] =
            halved(multiplied.range + multiplied.error, constant_error_bits) + step(NODE_BITS);
        // Low and high input are two nodes whose parts add.
        let from_inputs = |low: u128, high: u128| {
            times_gain(low, gains.low[node]) + times_gain(high, gains.high[node])
        };
        let mut error = from_inputs(low.error, high.error);
        for (stage, &own_error) in own[..=node].iter().enumerate() {
            error += times_gain(own_error, gains.stage[stage][node]);
        }
        let bound = Bound {
            range: from_inputs(low.range, high.range),
            error,
        };
        bounds[node] = match node {
            4 => even_output(bound),
            _ => bound,
        };
    }
    bounds
}

/// The larger of the even output (inverse of U1) and the odd one (of P1).
fn larger_output(nodes: [Bound; 6]) -> Bound {
    let [.., even, odd] = nodes;
    larger(even, odd)
}

/// Bounds of every node of every inverse pass, and of the values before they
/// are rounded.
#[derive(Clone, Debug, PartialEq, Eq)]
pub struct Bounds {
    /// Level L first, and of a level the columns of row-low, the columns of
    /// row-high, the rows.
    pub passes: Vec<[Bound; 6]>,
    pub pixel: Bound,
}

/// The rule by which a pass gets its bounds: of its low and its high input.
type PassRule = fn(Bound, Bound) -> [Bound; 6];

/// The bounds under a sound table, where a stored coefficient starts at the
/// range 2^(IB-1) of its kept node and at an error that its width tells.
fn bounds_from(table: &WidthTable, error: impl Fn(Width) -> u128, rule: PassRule) -> Bounds {
    let stored = |level: u8, pass: u8, node: u8| {
        let width = table.width(Place { level, pass, node });
        Bound {
            range: ONE << (width.integer_bits - 1),
            error: error(width),
        }
    };
    let mut passes = Vec::new();
    let mut low_low = stored(table.levels, 2, 5);
    for level in (1..=table.levels).rev() {
        let left = rule(low_low, stored(level, 2, 6));
        let right = rule(stored(level, 3, 5), stored(level, 3, 6));
        let rows = rule(larger_output(left), larger_output(right));
        passes.extend([left, right, rows]);
        low_low = larger_output(rows);
    }
    Bounds {
        passes,
        pixel: low_low,
    }
}

/// The bounds of viewing: what is stored is taken as it stands.
pub fn bounds(table: &WidthTable) -> Bounds {
    bounds_from(table, |_| 0, pass_bounds)
}

/// The bounds of viewing before job 6.
pub fn earlier_bounds(table: &WidthTable) -> Bounds {
    bounds_from(table, |_| 0, earlier_pass_bounds)
}

/// Refused 13 where some node's range plus error is above 2^15, or where the
/// error of a value before rounding is not below half a grey, 2^-(B+1).
pub fn viewable(table: &WidthTable) -> Result<(), Refusal> {
    viewable_by(table, bounds(table))
}

/// What viewing said of a table before job 6; 13 may newly come since.
pub fn earlier_viewable(table: &WidthTable) -> Result<(), Refusal> {
    viewable_by(table, earlier_bounds(table))
}

fn viewable_by(table: &WidthTable, bounds: Bounds) -> Result<(), Refusal> {
    let nodes = bounds.passes.iter().flatten();
    let small = nodes.into_iter().all(|b| b.range + b.error <= MOST);
    if small && bounds.pixel.error < step(table.depth + 1) {
        Ok(())
    } else {
        Err(Refusal::plain(13))
    }
}

/// How far a viewed value before rounding may stand from the scanned pixel's
/// value, in 2^-32: the same bound, each coefficient starting at an error of
/// two of its own steps.
pub fn distance(table: &WidthTable) -> u128 {
    let two_steps = |width: Width| 2 * step(width.fraction_bits);
    bounds_from(table, two_steps, pass_bounds).pixel.error
}

#[cfg(test)]
mod tests {
    use super::*;
    use crate::exact_inverse97::inverse;
    use crate::fixed_inverse97::undo;
    use crate::places::kept_node;
    use crate::precision::{self, verdict};

    fn place(level: u8, pass: u8, node: u8) -> Place {
        Place { level, pass, node }
    }

    /// Inner nodes (12, 20), kept ones with the fewest integer bits that are
    /// accepted and so many fractional bits, all constants with 24 bits.
    fn narrow(depth: u8, levels: u8, fraction_bits: u8) -> WidthTable {
        let (kept, others) = (Width::new(12, fraction_bits), Width::new(12, 20));
        let mut table = WidthTable::kept_and_others(depth, levels, 24, kept, others);
        for place in table.kept_places() {
            let narrower = |bits: u8| {
                let width = Width::new(bits, fraction_bits);
                table
                    .clone()
                    .changed(place.level, place.pass, place.node, width)
                    .0
            };
            let least = (1..=12).find(|&bits| verdict(&narrower(bits)).is_ok());
            table = narrower(least.expect("twelve bits are accepted"));
        }
        table
    }

    #[test]
    fn one_pass_by_hand() {
        // Range 2 and 1, error 3 and 5 units: R = 2^33 and 2^32.
        let low = Bound {
            range: 2 * ONE,
            error: 3,
        };
        let high = Bound {
            range: ONE,
            error: 5,
        };
        let nodes = pass_bounds(low, high);
        let ranges = nodes.map(|bound| bound.range);
        let sum = |low: u128, high: u128| (2 * low + high) << 16;
        assert_eq!(
            ranges,
            [
                sum(57_008, 0),
                sum(0, 75_341),
                sum(57_008, 66_829),
                sum(100_665, 193_347),
                sum(57_008, 52_593),
                sum(63_260, 75_341),
            ]
        );
        // G1: ceil(3 * 57008 / 2^16) = 3; own ceil((2^33 + 3) / 2^25) + 2^12.
        assert_eq!(nodes[0].error, 3 + 257 + 4096);
        // G2: ceil(5 * 75341 / 2^16) = 6; own ceil((2^32 + 5) / 2^25) + 2^12.
        assert_eq!(nodes[1].error, 6 + 129 + 4096);
        // U2: 3 * 57008 and 5 * 66829 rounded up apart, the parts of G1 and
        // G2, and its own ceil((75341 * 2^16 + 4231) / 2^24) + 2^12.
        let up = |bound: u128, gain: u128| (bound * gain).div_ceil(1 << 16);
        let own = ((75_341u128 << 16) + 4231).div_ceil(1 << 24) + 4096;
        assert_eq!(own, 295 + 4096);
        let due = 3 + 6 + up(257 + 4096, 65_536) + up(129 + 4096, 58_132) + own;
        assert_eq!(nodes[2].error, due);
    }

    /// Where the low input is far larger than the high one, a single sample is
    /// more than the stages let through; range and error each by itself.
    #[test]
    fn the_even_output_is_at_least_the_low_input() {
        let bound = |range, error| Bound { range, error };
        let up = |bound: u128, gain: u128| (bound * gain).div_ceil(1 << 16);
        for (low_error, high_range) in [(0, ONE), (1 << 24, ONE), (1 << 24, 9 * ONE), (7, ONE)] {
            let (low, high) = (bound(8 * ONE, low_error), bound(high_range, 0));
            let (old, new) = (earlier_pass_bounds(low, high), pass_bounds(low, high));
            assert_eq!(old[..4], new[..4]);
            let range = up(low.range, 57_008) + up(high.range, 52_593);
            assert_eq!((old[4].range, range < 8 * ONE), (range, high_range == ONE));
            assert_eq!(old[4].error < low_error, low_error == 1 << 24);
            assert_eq!(new[4].range, range.max(8 * ONE));
            assert_eq!(new[4].error, old[4].error.max(low_error));
            // Undoing P1 multiplies the even output: its own error is moved.
            let own = |even: Bound| (even.range + even.error).div_ceil(1 << 24);
            assert_eq!(new[5].range, old[5].range);
            assert_eq!(new[5].error - old[5].error, own(new[4]) - own(old[4]));
        }
    }

    #[test]
    fn the_larger_output_has_each_number_by_itself() {
        let mut nodes = [Bound { range: 0, error: 0 }; 6];
        nodes[4] = Bound { range: 7, error: 2 };
        nodes[5] = Bound { range: 5, error: 3 };
        assert_eq!(larger_output(nodes), Bound { range: 7, error: 3 });
    }

    /// What enters a pass: stored values, what the columns left, and for a
    /// finer level what the rows left.
    #[test]
    fn passes_feed_each_other() {
        let table = narrow(8, 2, 6);
        let Bounds { passes, pixel } = bounds(&table);
        assert_eq!(passes.len(), 6);
        let stored = |level, pass, node| Bound {
            range: ONE << (table.width(place(level, pass, node)).integer_bits - 1),
            error: 0,
        };
        assert_eq!(passes[0], pass_bounds(stored(2, 2, 5), stored(2, 2, 6)));
        assert_eq!(passes[1], pass_bounds(stored(2, 3, 5), stored(2, 3, 6)));
        let [low, high] = [passes[0], passes[1]].map(larger_output);
        assert_eq!(passes[2], pass_bounds(low, high));
        let low_low = larger_output(passes[2]);
        assert!(low_low.error > 0);
        assert_eq!(passes[3], pass_bounds(low_low, stored(1, 2, 6)));
        assert_eq!(passes[4], pass_bounds(stored(1, 3, 5), stored(1, 3, 6)));
        assert_eq!(pixel, larger_output(passes[5]));
    }

    /// Fractional bits, constants' bits and inner nodes count for nothing.
    #[test]
    fn the_integer_bits_of_kept_nodes_alone_count() {
        let table = narrow(8, 2, 6);
        let mut other = narrow(8, 2, 2);
        other.constant_bits = [9, 10, 11, 12, 13, 14];
        for place in table.places() {
            match table.is_kept(place) {
                true => {
                    other.width_mut(place).integer_bits = table.width(place).integer_bits;
                }
                false => *other.width_mut(place) = Width::new(1, 0),
            }
        }
        assert_eq!(bounds(&table), bounds(&other));
        for place in table.kept_places() {
            let mut wider = table.clone();
            wider.width_mut(place).integer_bits += 1;
            let (narrow, wide) = (bounds(&table).pixel, bounds(&wider).pixel);
            assert!(wide.range > narrow.range && wide.error > narrow.error);
        }
    }

    /// The least integer bits that any accepted table can have: more than the
    /// range needs, which no number of the table changes.
    fn least_integer_bits(levels: u8) -> WidthTable {
        let mut table = WidthTable::uniform(1, levels, 24, Width::new(12, 20));
        for (place, bound) in precision::bounds(&table) {
            let least = (1..=12).find(|bits| bound.range < ONE << (bits - 1));
            table.width_mut(place).integer_bits = least.unwrap();
        }
        table
    }

    /// With the fewest integer bits so many depths can be viewed at each
    /// number of levels; at larger depths every table is refused.
    #[test]
    fn viewable_depths() {
        for (levels, most) in [(1, 12), (2, 11), (3, 9), (4, 7), (5, 5)] {
            for depth in 1..=most {
                let table = narrow(depth, levels, 5);
                assert_eq!(verdict(&table), Ok(()));
                assert_eq!(viewable(&table), Ok(()), "{levels} {depth}");
            }
            // The bounds grow with the integer bits and with nothing else, and
            // the forward ranges do not depend on the depth.
            let mut least = least_integer_bits(levels);
            for place in least.kept_places() {
                let bits = narrow(1, levels, 5).width(place).integer_bits;
                assert_eq!(least.width(place).integer_bits, bits);
            }
            for depth in 1..=12 {
                least.depth = depth;
                assert_eq!(viewable(&least).is_ok(), depth <= most, "{levels} {depth}");
            }
        }
    }

    /// 13 by each cause alone.
    #[test]
    fn both_causes_of_13() {
        // Eleven bits at one level: wide nodes make the bound half a grey.
        let fits = |table: &WidthTable| {
            let all = bounds(table).passes;
            all.iter().flatten().all(|b| b.range + b.error <= MOST)
        };
        let kept = |bits| {
            let (kept, others) = (Width::new(bits, 2), Width::new(12, 20));
            WidthTable::kept_and_others(11, 1, 24, kept, others)
        };
        assert_eq!(viewable(&kept(3)), Ok(()));
        let half_grey = kept(12);
        assert_eq!(viewable(&half_grey), Err(Refusal::plain(13)));
        assert!(!fits(&half_grey) || bounds(&half_grey).pixel.error >= step(12));
        let middling = (4..=12).map(kept).find(|table| viewable(table).is_err());
        let middling = middling.unwrap();
        assert!(fits(&middling) && bounds(&middling).pixel.error >= step(12));
        // One bit: half a grey is 1/4, and ranges leave 2^15 first.
        let wide = |levels| {
            let (kept, others) = (Width::new(12, 2), Width::new(12, 20));
            WidthTable::kept_and_others(1, levels, 24, kept, others)
        };
        assert_eq!(viewable(&wide(1)), Ok(()));
        let large = (2..=5).map(wide).find(|table| viewable(table).is_err());
        let large = large.unwrap();
        assert!(!fits(&large) && bounds(&large).pixel.error < step(2));
    }

    /// A table with these integer bits at its kept nodes.
    fn kept_integer_bits(depth: u8, levels: u8, bits: &[u8]) -> WidthTable {
        let (kept, others) = (Width::new(12, 2), Width::new(12, 20));
        let mut table = WidthTable::kept_and_others(depth, levels, 24, kept, others);
        let places = table.kept_places();
        assert_eq!(places.len(), bits.len());
        for (place, &bits) in places.into_iter().zip(bits) {
            table.width_mut(place).integer_bits = bits;
        }
        table
    }

    /// Accepted tables that could be viewed before job 6 and are refused 13 by
    /// the larger bounds: by the pixel bound, and by a node above 2^15.
    #[test]
    fn thirteen_newly_comes() {
        let large = |bounds: &Bounds| {
            let mut nodes = bounds.passes.iter().flatten();
            nodes.any(|b| b.range + b.error > MOST)
        };
        let far = |table: &WidthTable, bounds: &Bounds| bounds.pixel.error >= step(table.depth + 1);
        // LL with seven integer bits more than the others.
        let by_pixel = kept_integer_bits(10, 1, &[10, 3, 3, 3]);
        let bits = [12, 12, 12, 8, 6, 7, 12, 8, 6, 12, 8, 12, 11, 10, 12, 10];
        let by_node = kept_integer_bits(1, 5, &bits);
        for (table, due) in [(by_pixel, (false, true)), (by_node, (true, false))] {
            assert_eq!(verdict(&table), Ok(()));
            assert_eq!(earlier_viewable(&table), Ok(()));
            assert_eq!(viewable(&table), Err(Refusal::plain(13)));
            let bounds = bounds(&table);
            assert_eq!((large(&bounds), far(&table, &bounds)), due);
        }
    }

    /// 13 comes where it came before, and nowhere does a bound get smaller.
    #[test]
    fn no_bound_is_smaller_than_before() {
        let mut differ = 0;
        for number in 0..5usize.pow(4) {
            let bits = |at: u32| [1, 3, 6, 9, 12][number / 5usize.pow(at) % 5];
            let integer_bits = [0, 1, 2, 3].map(bits);
            let table = kept_integer_bits(8, 1, &integer_bits);
            let (old, new) = (earlier_bounds(&table), bounds(&table));
            let smaller =
                |(old, new): (&Bound, &Bound)| new.range < old.range || new.error < old.error;
            let [all_old, all_new] = [&old, &new].map(|b| b.passes.iter().flatten());
            assert!(!all_old.zip(all_new).any(smaller));
            assert!(!smaller((&old.pixel, &new.pixel)));
            assert!(earlier_viewable(&table).is_ok() || viewable(&table).is_err());
            differ += usize::from(old != new);
        }
        assert!(differ > 100, "{differ}");
    }

    /// One sample at the end of LL's width, where LL is far wider than the
    /// rest: the node that holds it keeps to the larger bound, and not to the
    /// one before job 6.
    #[test]
    fn a_single_sample_needs_the_larger_bound() {
        let table = kept_integer_bits(1, 1, &[12, 3, 3, 3]);
        assert_eq!((verdict(&table), viewable(&table)), (Ok(()), Ok(())));
        let (least, _) = table.width(place(1, 2, 5)).ends();
        let largest = undo(&table, &[least], 1, 1).largest;
        let (old, new) = (earlier_bounds(&table), bounds(&table));
        for pass in [0, 2] {
            assert_eq!(largest[pass], [0, 0, 0, 0, 1 << 31, 0]);
            let value = largest[pass][4] << (32 - NODE_BITS);
            let most =
                |bounds: &Bounds| bounds.passes[pass][4].range + bounds.passes[pass][4].error;
            assert!(most(&old) < value && value <= most(&new));
        }
    }

    /// Planes of the least and the largest integers: each value in 20 bits is
    /// within the bound of the exact inverse, each node within its own, also
    /// where a pass has a single sample.
    #[test]
    fn the_bounds_hold() {
        for (levels, width, height) in [
            (1, 2, 2),
            (1, 7, 4),
            (2, 5, 6),
            (3, 9, 5),
            (1, 1, 5),
            (2, 6, 1),
            (3, 3, 4),
            (4, 1, 9),
            (4, 2, 2),
            (3, 1, 1),
        ] {
            let table = narrow(6, levels, 5);
            let bounds = bounds(&table);
            let bound = u64::try_from(bounds.pixel.error).unwrap();
            for pattern in 0..16usize {
                let end = |i: usize| {
                    let node = kept_node(width, height, levels, i % width, i / width);
                    let (least, most) = table.width(node).ends();
                    match (i * i + pattern * i / 3 + pattern) % 3 {
                        0 => most,
                        _ => least,
                    }
                };
                let plane: Vec<i128> = (0..width * height).map(end).collect();
                let undone = undo(&table, &plane, width, height);
                let off = inverse(&table, &plane, width, height).off(&undone.values, bound);
                // A picture of one pixel is let through as it is.
                assert!(off.within && (off.of_bound > 0.0) == (width * height > 1));
                for (nodes, bounds) in undone.largest.iter().zip(&bounds.passes) {
                    for (&largest, bound) in nodes.iter().zip(bounds) {
                        assert!(largest << (32 - NODE_BITS) <= bound.range + bound.error);
                    }
                }
            }
        }
    }

    /// The bound of the distance starts from two steps and counts all else in.
    #[test]
    fn distance_by_hand() {
        let table = narrow(8, 1, 6);
        let two_steps = Bound {
            range: 0,
            error: 2 << (32 - 6),
        };
        let start = |level, pass, node| Bound {
            range: ONE << (table.width(place(level, pass, node)).integer_bits - 1),
            ..two_steps
        };
        let left = larger_output(pass_bounds(start(1, 2, 5), start(1, 2, 6)));
        let right = larger_output(pass_bounds(start(1, 3, 5), start(1, 3, 6)));
        let rows = larger_output(pass_bounds(left, right));
        assert_eq!(distance(&table), rows.error);
        assert!(distance(&table) > bounds(&table).pixel.error + two_steps.error);
    }
}
