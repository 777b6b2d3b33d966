//! The precision analysis and its verdict (document 01: the judge). All
//! bounds are whole numbers of 2^-32.

use crate::gains::gains;
use crate::refusal::{Place, Refusal};
use crate::table::{Products, Width, WidthTable};

/// Range and error of a value, in whole numbers of 2^-32.
#[derive(Clone, Copy, Debug, PartialEq, Eq)]
pub struct Bound {
    pub range: u128,
    pub error: u128,
}

/// One in units of 2^-32.
pub(crate) const ONE: u128 = 1 << 32;

/// A bound times a gain in 2^-16, rounded up.
pub(crate) fn times_gain(bound: u128, gain: u64) -> u128 {
    (bound * u128::from(gain)).div_ceil(1 << 16)
}

/// A bound times 2^-bits, rounded up.
pub(crate) fn halved(bound: u128, bits: u8) -> u128 {
    bound.div_ceil(1 << bits)
}

/// 2^-f in units of 2^-32.
pub(crate) fn step(fraction_bits: u8) -> u128 {
    ONE >> fraction_bits
}

/// 2^-fp, rounded up to a whole number of 2^-32: what a product loses that is
/// cut to fp bits (document 02, job 7).
pub fn product_loss(product_bits: u8) -> u128 {
    ONE.div_ceil(1 << product_bits)
}

/// The rule by which a pass gets its bounds: of what enters, with its bits.
type PassRule = fn(Bound, u8, &[u8; 6], &[Width; 6], Products) -> [Bound; 6];

/// Bounds of the six nodes of one pass.
pub fn pass_bounds(
    input: Bound,
    input_bits: u8,
    constant_bits: &[u8; 6],
    widths: &[Width; 6],
    products: Products,
) -> [Bound; 6] {
    let mut bounds = earlier_pass_bounds(input, input_bits, constant_bits, widths, products);
    let g1 = &mut bounds[4];
    g1.error = (g1.error).max(single_error(input, input_bits, widths[4].fraction_bits));
    bounds
}

/// The error that a pass of a single sample leaves in G1 (document 02, job 6):
/// the input's error, plus 2^-f where f is below the input's bits.
pub fn single_error(input: Bound, input_bits: u8, f: u8) -> u128 {
    match f < input_bits {
        true => input.error + step(f),
        false => input.error,
    }
}

/// Bounds of the six nodes of one pass by the rule before job 6, when no pass
/// had a single sample; without `products` by the rule before job 7 too.
pub fn earlier_pass_bounds(
    input: Bound,
    input_bits: u8,
    constant_bits: &[u8; 6],
    widths: &[Width; 6],
    products: Products,
) -> [Bound; 6] {
    let gains = gains();
    let f = |node: usize| widths[node].fraction_bits;
    let mut own = [0u128; 6];
    let mut bounds = [Bound { range: 0, error: 0 }; 6];
    for node in 0..6 {
        // The value that the stage multiplies, its bits, and the bits of the
        // other operand.
        let (multiplied, multiplied_bits, other_bits) = match node {
            0 => (input, input_bits, Some(input_bits)),
            1 => (bounds[0], f(0), Some(input_bits)),
            2 => (bounds[1], f(1), Some(f(0))),
            3 => (bounds[2], f(2), Some(f(1))),
            4 => (bounds[3], f(3), None),
            _ => (bounds[2], f(2), None),
        };
        let constant = constant_bits[node];
        let constant_error_bits = if node < 4 { constant } else { constant + 1 };
        own[node] = halved(multiplied.range + multiplied.error, constant_error_bits);
        // Of P and U the product may be cut before the sum. Its loss joins the
        // stage's own error, and its bits count in the full precision.
        let mut product_bits = constant + multiplied_bits;
        if let Some(&bits) = products.as_ref().and_then(|products| products.get(node)) {
            if bits < product_bits {
                own[node] += product_loss(bits);
                product_bits = bits;
            }
        }
        let full = product_bits.max(other_bits.unwrap_or(0));
        if f(node) < full {
            own[node] += step(f(node));
        }
        let mut error = times_gain(input.error, gains.input[node]);
        for (stage, &own_error) in own[..=node].iter().enumerate() {
            error += times_gain(own_error, gains.stage[stage][node]);
        }
        bounds[node] = Bound {
            range: times_gain(input.range, gains.input[node]),
            error,
        };
    }
    bounds
}

/// A node fits if range plus error is at most 2^(IB-1) - 2^-f.
pub fn fits(bound: Bound, width: Width) -> bool {
    let most = (ONE << (width.integer_bits - 1)) - step(width.fraction_bits);
    bound.range + bound.error <= most
}

/// Whether the error is below two of the node's steps.
pub fn below_two_steps(bound: Bound, width: Width) -> bool {
    bound.error < 2 * step(width.fraction_bits)
}

/// Bounds of every node of a sound table, in table order, refused or not.
pub fn bounds(table: &WidthTable) -> Vec<(Place, Bound)> {
    bounds_by(table, pass_bounds)
}

/// The same by the rule before job 6.
pub fn earlier_bounds(table: &WidthTable) -> Vec<(Place, Bound)> {
    bounds_by(table, earlier_pass_bounds)
}

fn bounds_by(table: &WidthTable, rule: PassRule) -> Vec<(Place, Bound)> {
    let mut all = Vec::new();
    let mut input = Bound {
        range: ONE / 2,
        error: 0,
    };
    let mut input_bits = table.depth;
    for level in 1..=table.levels {
        let widths = &table.widths[level as usize - 1];
        let mut take = |pass: u8, input: Bound, input_bits: u8| {
            let nodes = rule(
                input,
                input_bits,
                &table.constant_bits,
                &widths[pass as usize - 1],
                table.products_of(level, pass),
            );
            for (node, bound) in (1u8..).zip(nodes) {
                all.push((Place { level, pass, node }, bound));
            }
            nodes
        };
        let rows = take(1, input, input_bits);
        let low = take(2, rows[4], widths[0][4].fraction_bits);
        take(3, rows[5], widths[0][5].fraction_bits);
        input = low[4];
        input_bits = widths[1][4].fraction_bits;
    }
    all
}

/// One node: 6, then 7.
fn verdict_of(table: &WidthTable, place: Place, bound: Bound) -> Result<(), Refusal> {
    let width = table.width(place);
    if !fits(bound, width) {
        return Err(Refusal::at(6, place));
    }
    if table.is_kept(place) && !below_two_steps(bound, width) {
        return Err(Refusal::at(7, place));
    }
    Ok(())
}

/// Accepted, or 4, or the first 6 or 7 in table order; at one node 6 first.
pub fn verdict(table: &WidthTable) -> Result<(), Refusal> {
    verdict_by(table, pass_bounds)
}

/// The verdict before job 6, which no table's may differ from.
pub fn earlier_verdict(table: &WidthTable) -> Result<(), Refusal> {
    verdict_by(table, earlier_pass_bounds)
}

fn verdict_by(table: &WidthTable, rule: PassRule) -> Result<(), Refusal> {
    table.sound()?;
    for (place, bound) in bounds_by(table, rule) {
        verdict_of(table, place, bound)?;
    }
    Ok(())
}

/// The bound of one node, or 4 where the table is unsound or lacks the node,
/// or the first 6 or 7 of the nodes before it.
pub fn bound_of(table: &WidthTable, place: Place) -> Result<Bound, Refusal> {
    table.sound()?;
    if !table.places().contains(&place) {
        return Err(Refusal::plain(4));
    }
    for (before, bound) in bounds(table) {
        if before == place {
            return Ok(bound);
        }
        verdict_of(table, before, bound)?;
    }
    unreachable!("every node has its bound");
}

#[cfg(test)]
mod tests {
    use super::*;

    fn place(level: u8, pass: u8, node: u8) -> Place {
        Place { level, pass, node }
    }

    fn generous(depth: u8, levels: u8) -> WidthTable {
        WidthTable::kept_and_others(depth, levels, 24, Width::new(12, 2), Width::new(12, 20))
    }

    #[test]
    fn generous_tables_are_accepted() {
        for depth in 1..=12 {
            for levels in 1..=5 {
                assert_eq!(verdict(&generous(depth, levels)), Ok(()));
            }
        }
    }

    #[test]
    fn first_node_with_two_integer_bits_does_not_fit() {
        for levels in 1..=5 {
            let (table, _) = generous(8, levels).changed(1, 1, 1, Width::new(2, 20));
            assert_eq!(verdict(&table), Err(Refusal::at(6, place(1, 1, 1))));
            let (table, _) = generous(8, levels).changed(1, 1, 1, Width::new(3, 20));
            assert_eq!(verdict(&table), Ok(()));
        }
    }

    #[test]
    fn rough_inner_nodes_are_refused_at_low_low() {
        let table = WidthTable::kept_and_others(8, 1, 24, Width::new(12, 20), Width::new(12, 0));
        assert_eq!(verdict(&table), Err(Refusal::at(7, place(1, 2, 5))));
    }

    #[test]
    fn low_low_that_is_worked_further_is_not_asked_for_two_steps() {
        // LL of level 1 with 20 fractional bits has an error above two steps.
        let mut table = generous(8, 2);
        assert_eq!(table.width(place(1, 2, 5)), Width::new(12, 20));
        let all = bounds(&table);
        let low_low = all.iter().find(|(p, _)| *p == place(1, 2, 5)).unwrap().1;
        assert!(!below_two_steps(low_low, Width::new(12, 20)));
        assert_eq!(verdict(&table), Ok(()));
        // At the last level it is asked.
        *table.width_mut(place(2, 2, 5)) = Width::new(12, 20);
        assert_eq!(verdict(&table), Err(Refusal::at(7, place(2, 2, 5))));
    }

    #[test]
    fn at_one_node_fit_comes_first_and_nodes_go_in_order() {
        let mut table = generous(8, 1);
        *table.width_mut(place(1, 2, 5)) = Width::new(1, 20);
        assert_eq!(verdict(&table), Err(Refusal::at(6, place(1, 2, 5))));
        // An earlier node's 7 beats a later node's 6.
        *table.width_mut(place(1, 2, 5)) = Width::new(12, 20);
        *table.width_mut(place(1, 2, 6)) = Width::new(1, 2);
        assert_eq!(verdict(&table), Err(Refusal::at(7, place(1, 2, 5))));
        *table.width_mut(place(1, 2, 4)) = Width::new(1, 20);
        assert_eq!(verdict(&table), Err(Refusal::at(6, place(1, 2, 4))));
    }

    #[test]
    fn bounds_of_the_first_nodes_by_hand() {
        // B = 8, F = 24, f = 20: R = 2^31, E = 0.
        let all = bounds(&generous(8, 1));
        let bound = |n: usize| all[n].1;
        // P1: 2^31 * 273434 / 2^16; own error 2^31 / 2^24 + 2^12.
        assert_eq!(bound(0).range, 273_434 << 15);
        assert_eq!(bound(0).error, 128 + 4096);
        // U1: own error ceil((range + error of P1) / 2^24) + 2^12.
        let own: u128 = ((273_434u128 << 15) + 4224).div_ceil(1 << 24) + 4096;
        assert_eq!(own, 535 + 4096);
        assert_eq!(bound(1).error, (4224 * 6_945u128).div_ceil(65_536) + own);
    }

    #[test]
    fn no_cut_costs_nothing() {
        // B = 1, F = 1: P1 at f 2 is at full precision, at f 1 it is cut.
        let exact = |f: u8| {
            let mut table = generous(1, 1);
            table.constant_bits = [1; 6];
            *table.width_mut(place(1, 1, 1)) = Width::new(12, f);
            bounds(&table)[0].1.error
        };
        assert_eq!(exact(2), 1 << 30);
        assert_eq!(exact(3), 1 << 30);
        assert_eq!(exact(1), (1 << 30) + (1 << 31));
    }

    #[test]
    fn fit_is_at_most_and_two_steps_is_below() {
        let width = Width::new(1, 4);
        let most = ONE - step(4);
        let bound = |range, error| Bound { range, error };
        assert!(fits(bound(most, 0), width) && fits(bound(0, most), width));
        assert!(!fits(bound(most, 1), width));
        assert!(below_two_steps(bound(0, 2 * step(4) - 1), width));
        assert!(!below_two_steps(bound(0, 2 * step(4)), width));
    }

    #[test]
    fn the_error_of_a_single_sample() {
        let input = Bound { range: 9, error: 5 };
        assert_eq!(single_error(input, 8, 8), 5);
        assert_eq!(single_error(input, 8, 20), 5);
        assert_eq!(single_error(input, 8, 7), 5 + (1 << 25));
        assert_eq!(single_error(input, 1, 0), 5 + (1 << 32));
    }

    /// Every pass with a few bits at each place, the edges of "below" among
    /// them: the larger error of G1 is the old one.
    #[test]
    fn the_larger_error_of_a_pass_is_the_old_one() {
        let bits = [0, 1, 2, 8, 19, 20];
        let inputs = [(1, 0), (1 << 31, 0), (1 << 31, 1), (1 << 40, 1 << 33)];
        let mut passes = 0;
        for number in 0..bits.len().pow(6) {
            let drawn = |at: u32| bits[number / bits.len().pow(at) % bits.len()];
            let [input_bits, p1, u1, p2, u2, g1] = [0, 1, 2, 3, 4, 5].map(drawn);
            let widths = [p1, u1, p2, u2, g1, 0].map(|f| Width::new(12, f));
            for constants in [1, 2, 24].map(|bits| [bits; 6]) {
                for (range, error) in inputs {
                    let input = Bound { range, error };
                    // No product cut, some cut, all cut hard.
                    for products in [None, Some([20, 2, 30, 9]), Some([0; 4])] {
                        let [old, new] = [earlier_pass_bounds, pass_bounds]
                            .map(|rule| rule(input, input_bits, &constants, &widths, products));
                        assert_eq!(old, new);
                        assert!(single_error(input, input_bits, g1) < old[4].error);
                        passes += 1;
                    }
                }
            }
        }
        assert_eq!(passes, 6usize.pow(6) * 36);
    }

    /// Numbers from a fixed seed.
    struct Drawn(u64);

    impl Drawn {
        fn within(&mut self, least: u8, most: u8) -> u8 {
            let next = self.0.wrapping_mul(6_364_136_223_846_793_005);
            self.0 = next.wrapping_add(1_442_695_040_888_963_407);
            least + (self.0 >> 40) as u8 % (most - least + 1)
        }

        /// Any table, or a generous one with some numbers drawn freely, which
        /// is refused late or not at all.
        fn table(&mut self) -> WidthTable {
            let (depth, levels) = (self.within(1, 12), self.within(1, 5));
            let mut table = generous(depth, levels);
            let share = [1, 3, 12][usize::from(self.within(0, 2))];
            for bits in &mut table.constant_bits {
                if self.within(1, share) == 1 {
                    *bits = self.within(1, 24);
                }
            }
            for place in table.places() {
                if self.within(1, share) == 1 {
                    let integer_bits = match share {
                        1 => self.within(1, 12),
                        _ => 12,
                    };
                    *table.width_mut(place) = Width::new(integer_bits, self.within(0, 20));
                }
            }
            // Every other one has tag 5.
            if self.within(0, 1) == 1 {
                table = table.with_products(44);
                for place in table.product_places() {
                    if self.within(1, share) == 1 {
                        *table.product_mut(place) = self.within(0, 44);
                    }
                }
            }
            table
        }
    }

    /// No verdict changes by the larger error, and no bound does.
    #[test]
    fn verdicts_before_and_after_job_6_are_the_same() {
        let mut drawn = Drawn(6);
        let mut seen = [0; 8];
        for _ in 0..20_000 {
            let table = drawn.table();
            let now = verdict(&table);
            assert_eq!(now, earlier_verdict(&table), "{table:?}");
            assert_eq!(bounds(&table), earlier_bounds(&table), "{table:?}");
            seen[now.map_or_else(|refusal| usize::from(refusal.number), |()| 0)] += 1;
        }
        assert!([0, 6, 7].iter().all(|&n| seen[n] > 500), "{seen:?}");
    }

    #[test]
    fn losses_of_products() {
        assert_eq!(product_loss(0), 1 << 32);
        assert_eq!(product_loss(1), 1 << 31);
        assert_eq!(product_loss(31), 2);
        for bits in 32..=44 {
            assert_eq!(product_loss(bits), 1);
        }
    }

    /// B = 8, F = 24, all nodes (12, 20): P1 multiplies 8 bits, its product has
    /// 32; U1 multiplies 20 bits, its product has 44.
    #[test]
    fn own_errors_with_products_by_hand() {
        let own = |node: u8, product_bits: u8, f: u8| {
            let mut table = generous(8, 1).with_products(44);
            *table.product_mut(place(1, 1, node)) = product_bits;
            table.width_mut(place(1, 1, node)).fraction_bits = f;
            let all = bounds(&table);
            match node {
                1 => all[0].1.error,
                // What P1 leaves in U1, and its own error.
                _ => all[1].1.error - (4224 * 6_945u128).div_ceil(65_536),
            }
        };
        // P1: the constant's part is 2^31 / 2^24.
        assert_eq!(own(1, 44, 20), 128 + 4096);
        assert_eq!(own(1, 33, 20), 128 + 4096);
        assert_eq!(own(1, 32, 20), 128 + 4096);
        assert_eq!(own(1, 31, 20), 128 + 2 + 4096);
        assert_eq!(own(1, 21, 20), 128 + 2048 + 4096);
        // From 20 bits on f is not below the full precision, which is fp.
        assert_eq!(own(1, 20, 20), 128 + 4096);
        assert_eq!(own(1, 19, 20), 128 + 8192);
        // The other operand has 8 bits.
        assert_eq!(own(1, 3, 20), 128 + (1 << 29));
        assert_eq!(own(1, 3, 8), 128 + (1 << 29));
        assert_eq!(own(1, 3, 7), 128 + (1 << 29) + (1 << 25));
        assert_eq!(own(1, 0, 0), 128 + (1 << 32) + (1 << 32));
        // U1: the constant's part is 535; above 32 bits the loss is one unit.
        assert_eq!(own(2, 44, 20), 535 + 4096);
        assert_eq!(own(2, 43, 20), 535 + 1 + 4096);
        assert_eq!(own(2, 33, 20), 535 + 1 + 4096);
        assert_eq!(own(2, 32, 20), 535 + 1 + 4096);
        assert_eq!(own(2, 31, 20), 535 + 2 + 4096);
        assert_eq!(own(2, 20, 20), 535 + 4096);
        assert_eq!(own(2, 0, 20), 535 + (1 << 32));
    }

    /// Products that are not cut change no bound: with 44 bits none is, nor with
    /// the bits that it has. One bit less makes no error smaller, and the same
    /// only where the loss takes the place of the node's own step.
    #[test]
    fn bounds_where_no_product_is_cut() {
        let mut drawn = Drawn(7);
        let (mut same, mut larger) = (0, 0);
        for _ in 0..2000 {
            let table = drawn.table().without_products();
            let due = bounds(&table);
            assert_eq!(bounds(&table.clone().with_products(44)), due);
            let mut just = table.clone().with_products(44);
            for place in table.product_places() {
                *just.product_mut(place) = table.uncut_product_bits(place);
            }
            assert_eq!(bounds(&just), due);
            let places = just.product_places();
            let at = places[usize::from(drawn.within(0, 3))];
            *just.product_mut(at) -= 1;
            let error = |all: &[(Place, Bound)]| {
                let bound = all.iter().find(|(place, _)| *place == at);
                bound.expect("the table has the node").1.error
            };
            if just.width(at).fraction_bits == just.product(at) {
                assert!(error(&bounds(&just)) >= error(&due));
                same += 1;
            } else {
                assert!(error(&bounds(&just)) > error(&due));
                larger += 1;
            }
        }
        assert!(same > 10 && larger > 1000, "{same} {larger}");
    }

    #[test]
    fn bounds_up_to_the_first_refused_node() {
        let table = generous(8, 2);
        for (at, bound) in bounds(&table) {
            assert_eq!(bound_of(&table, at), Ok(bound));
        }
        for at in [
            place(0, 1, 1),
            place(3, 1, 1),
            place(1, 4, 1),
            place(1, 1, 7),
        ] {
            assert_eq!(bound_of(&table, at), Err(Refusal::plain(4)));
        }
        let (narrow, _) = table.changed(1, 2, 3, Width::new(1, 20));
        let refused = Refusal::at(6, place(1, 2, 3));
        for (at, bound) in bounds(&narrow) {
            let due = match at <= place(1, 2, 3) {
                true => Ok(bound),
                false => Err(refused),
            };
            assert_eq!(bound_of(&narrow, at), due);
        }
    }

    #[test]
    fn columns_start_with_the_error_fed_to_them() {
        let mut table = generous(8, 1);
        let before = bounds(&table)[6].1;
        *table.width_mut(place(1, 1, 5)) = Width::new(12, 4);
        let after = bounds(&table)[6].1;
        assert_eq!(before.range, after.range);
        assert!(after.error > before.error + step(4));
    }
}
