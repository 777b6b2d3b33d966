//! Width tables for the comparison: any sound one, tight ones, damaged bytes.

use crate::chance::Chance;
use reference::precision::verdict;
use reference::table::{MAX_FRACTION_BITS, MAX_PRODUCT_BITS};
use reference::viewing::viewable;
use reference::{Place, Width, WidthTable};

/// All nodes (12, 20), kept ones (12, 2), all constants with 24 bits.
pub fn generous(depth: u8, levels: u8) -> WidthTable {
    WidthTable::kept_and_others(depth, levels, 24, Width::new(12, 2), Width::new(12, 20))
}

/// Any numbers within their limits, without tag 5; mostly refused by the
/// verdict.
pub fn any(chance: &mut Chance) -> WidthTable {
    let (depth, levels) = (chance.within(1, 12) as u8, chance.within(1, 5) as u8);
    let mut table = generous(depth, levels);
    for bits in &mut table.constant_bits {
        *bits = chance.within(1, 24) as u8;
    }
    for place in table.places() {
        *table.width_mut(place) =
            Width::new(chance.within(1, 12) as u8, chance.within(0, 20) as u8);
    }
    table
}

/// Any numbers within their limits, every other time with tag 5.
pub fn any_form(chance: &mut Chance) -> WidthTable {
    let table = any(chance);
    some_products(chance, table)
}

/// A table with tag 5, its numbers drawn by chance: any, the least and the
/// largest, about the bits that the product has, and about 2^-32.
pub fn drawn_products(chance: &mut Chance, table: WidthTable) -> WidthTable {
    let mut table = table.with_products(0);
    for place in table.product_places() {
        *table.product_mut(place) = product_bits(chance, &table, place);
    }
    table
}

/// Some number for one product of a table.
pub fn product_bits(chance: &mut Chance, table: &WidthTable, place: Place) -> u8 {
    let most = usize::from(MAX_PRODUCT_BITS);
    let bits = match chance.below(6) {
        0 => *chance.of(&[0, 1, 43, 44]),
        1 => chance.within(30, 34),
        2 | 3 => (usize::from(table.uncut_product_bits(place)) + chance.below(5)).saturating_sub(2),
        _ => chance.within(0, most),
    };
    bits.min(most) as u8
}

/// Every other time the table itself, else the table with tag 5, its numbers
/// drawn by chance.
pub fn some_products(chance: &mut Chance, table: WidthTable) -> WidthTable {
    match chance.one_in(2) {
        true => drawn_products(chance, table),
        false => table,
    }
}

/// A table with tag 5 that cuts no product: each has the bits that it has
/// without, or more, up to 44.
pub fn uncut_products(chance: &mut Chance, table: WidthTable) -> WidthTable {
    let mut table = table.with_products(0);
    for place in table.product_places() {
        let bits = table.uncut_product_bits(place);
        let more = chance.within(bits.into(), MAX_PRODUCT_BITS.into());
        let most = MAX_PRODUCT_BITS.into();
        *table.product_mut(place) = *chance.of(&[bits.into(), more, most]) as u8;
    }
    table
}

fn accepted(table: &WidthTable) -> bool {
    verdict(table).is_ok()
}

fn accepted_and_viewable(table: &WidthTable) -> bool {
    accepted(table) && viewable(table).is_ok()
}

/// What is asked of a table.
type Demand = fn(&WidthTable) -> bool;

/// A table that is changed for as long as it meets a demand.
struct Pushed {
    table: WidthTable,
    demand: Demand,
}

impl Pushed {
    /// Changes one number step by step, at most `steps` times.
    fn push(&mut self, steps: usize, change: impl Fn(&mut WidthTable) -> bool) {
        for _ in 0..steps {
            let mut next = self.table.clone();
            if !change(&mut next) || !(self.demand)(&next) {
                return;
            }
            self.table = next;
        }
    }

    fn lower_fraction(&mut self, place: Place, steps: usize) {
        self.push(steps, |table| {
            let width = table.width_mut(place);
            width.fraction_bits > 0 && {
                width.fraction_bits -= 1;
                true
            }
        });
    }

    fn lower_integer(&mut self, place: Place) {
        self.push(12, |table| {
            let width = table.width_mut(place);
            width.integer_bits > 1 && {
                width.integer_bits -= 1;
                true
            }
        });
    }

    fn lower_constant(&mut self, node: usize, steps: usize) {
        self.push(steps, |table| {
            let bits = &mut table.constant_bits[node];
            *bits > 1 && {
                *bits -= 1;
                true
            }
        });
    }

    fn raise_fraction(&mut self, place: Place, steps: usize) {
        self.push(steps, |table| {
            let width = table.width_mut(place);
            width.fraction_bits < MAX_FRACTION_BITS && {
                width.fraction_bits += 1;
                true
            }
        });
    }

    /// The least number for a product that meets the demand. Fewer bits do not
    /// always make the error larger: a cut to at most the node's own bits spares
    /// the node's cut. So every number is tried, from 0 on.
    fn least_product(&mut self, place: Place) {
        for bits in 0..self.table.product(place) {
            let mut next = self.table.clone();
            *next.product_mut(place) = bits;
            if (self.demand)(&next) {
                self.table = next;
                return;
            }
        }
    }

    fn lower_product(&mut self, place: Place, steps: usize) {
        self.push(steps, |table| {
            // Above that nothing is cut.
            let most = table.uncut_product_bits(place);
            let bits = table.product_mut(place);
            *bits > 0 && {
                *bits = (*bits).min(most) - 1;
                true
            }
        });
    }

    /// Lowers products one by one, some to the least that is taken.
    fn lower_products(&mut self, chance: &mut Chance, places: impl Iterator<Item = Place>) {
        for place in places {
            match chance.below(3) {
                0 => self.least_product(place),
                _ => {
                    let steps = chance.below(12);
                    self.lower_product(place, steps);
                }
            }
        }
    }

    /// The same bits for every product, so many steps down from the most.
    fn lower_products_evenly(&mut self, steps: usize) {
        self.push(steps, |table| {
            for place in table.product_places() {
                let bits = table.product_mut(place);
                *bits = bits.saturating_sub(1);
            }
            true
        });
    }

    /// One fractional bit less at every inner node and every constant.
    fn lower_evenly(&mut self, steps: usize) {
        self.push(steps, |table| {
            for place in table.places() {
                let kept = table.is_kept(place);
                let width = table.width_mut(place);
                if !kept && width.fraction_bits > 0 {
                    width.fraction_bits -= 1;
                }
            }
            for bits in &mut table.constant_bits {
                *bits = (*bits - 1).max(1);
            }
            true
        });
    }

    /// The fractional bits of the inner nodes and of the constants are lowered
    /// in an order drawn by chance, some all the way; then the kept nodes get
    /// finer steps and every node the fewest integer bits. Products of a table
    /// with tag 5 are lowered before, among or after the nodes, some to the
    /// least.
    fn tightened(mut self, chance: &mut Chance) -> WidthTable {
        let mut places = self.table.places();
        let kept = self.table.kept_places();
        let is_kept = |place: &Place| kept.contains(place);
        let kept_first = chance.one_in(2);
        if kept_first {
            // Part of the way, so that something is left for the inner nodes.
            for &place in places.iter().filter(|place| is_kept(place)) {
                let steps = chance.below(8);
                self.raise_fraction(place, steps);
            }
        }
        let mut products = match self.table.has_products {
            true => self.table.product_places(),
            false => Vec::new(),
        };
        chance.shuffle(&mut products);
        if self.table.has_products {
            let even = chance.below(45);
            self.lower_products_evenly(even);
            let first = chance.below(products.len() + 1);
            self.lower_products(chance, products.drain(..first));
        }
        // What the numbers are lowered by: evenly first, then one by one.
        let even = chance.below(12);
        self.lower_evenly(even);
        let mut constants = [0, 1, 2, 3, 4, 5];
        chance.shuffle(&mut constants);
        for node in constants {
            let steps = chance.below(20);
            self.lower_constant(node, steps);
        }
        chance.shuffle(&mut places);
        for &place in places.iter().filter(|place| !is_kept(place)) {
            let steps = if chance.one_in(3) {
                20
            } else {
                chance.below(6)
            };
            self.lower_fraction(place, steps);
        }
        if !products.is_empty() {
            let next = chance.below(products.len() + 1);
            self.lower_products(chance, products.drain(..next));
        }
        for &place in places.iter().filter(|place| is_kept(place)) {
            self.raise_fraction(place, 20);
        }
        self.lower_products(chance, products.into_iter());
        for &place in &places {
            self.lower_integer(place);
        }
        self.table
    }
}

/// An accepted table with tag 5 on which little can be spared.
pub fn tight_products(chance: &mut Chance, depth: u8, levels: u8) -> WidthTable {
    let pushed = Pushed {
        table: generous(depth, levels).with_products(MAX_PRODUCT_BITS),
        demand: accepted,
    };
    pushed.tightened(chance)
}

/// An accepted table with the least numbers for its products, in an order drawn
/// by chance, from a table that is accepted without tag 5.
pub fn least_products(chance: &mut Chance, table: WidthTable) -> WidthTable {
    let mut pushed = Pushed {
        table: table.with_products(MAX_PRODUCT_BITS),
        demand: accepted,
    };
    let mut places = pushed.table.product_places();
    chance.shuffle(&mut places);
    for place in places {
        pushed.least_product(place);
    }
    pushed.table
}

/// All nodes (12, 20), kept ones (12, 0), all constants with 24 bits: products
/// of no bits are accepted.
pub fn rough(depth: u8, levels: u8) -> WidthTable {
    WidthTable::kept_and_others(depth, levels, 24, Width::new(12, 0), Width::new(12, 20))
}

/// An accepted table with tag 5, of any of these kinds.
pub fn accepted_products(chance: &mut Chance, depth: u8, levels: u8) -> WidthTable {
    match chance.below(7) {
        0 => least_products(chance, generous(depth, levels)),
        3 => least_products(chance, rough(depth, levels)),
        1 => {
            let table = uneven(chance, depth, levels);
            least_products(chance, table)
        }
        2 => {
            let table = tight(chance, depth, levels);
            uncut_products(chance, table)
        }
        _ => tight_products(chance, depth, levels),
    }
}

/// An accepted table on which little can be spared, from a generous one.
pub fn tight(chance: &mut Chance, depth: u8, levels: u8) -> WidthTable {
    let pushed = Pushed {
        table: generous(depth, levels),
        demand: accepted,
    };
    pushed.tightened(chance)
}

/// A generous table with numbers drawn freely, as far as it is accepted.
pub fn uneven(chance: &mut Chance, depth: u8, levels: u8) -> WidthTable {
    let mut table = generous(depth, levels);
    let places = table.places();
    for _ in 0..30 * usize::from(levels) {
        let mut next = table.clone();
        if chance.one_in(4) {
            next.constant_bits[chance.below(6)] = chance.within(8, 24) as u8;
        } else {
            let place = *chance.of(&places);
            next.width_mut(place).fraction_bits = chance.within(0, 20) as u8;
        }
        if accepted(&next) {
            table = next;
        }
    }
    table
}

/// A generous table with G1 nodes of few fractional bits, down to the fewest
/// that are accepted: what a pass of a single sample lets through is cut.
pub fn coarse_lows(chance: &mut Chance, depth: u8, levels: u8) -> WidthTable {
    let mut pushed = Pushed {
        table: generous(depth, levels),
        demand: accepted,
    };
    let mut places = pushed.table.places();
    places.retain(|place| place.node == 5);
    chance.shuffle(&mut places);
    for place in places {
        let steps = chance.below(21);
        pushed.lower_fraction(place, steps);
    }
    pushed.table
}

/// An accepted table with tag 5 in which one product has few bits and is cut by
/// one of them: its constant, then the value that it multiplies have one more
/// than the fewest that are accepted where kept nodes have no fractional bits;
/// then kept nodes have the most. No other product is cut. Made for one level
/// and two.
pub fn one_bit_cut(depth: u8, levels: u8, place: Place) -> WidthTable {
    let (kept, others) = (Width::new(12, 0), Width::new(12, 20));
    let mut pushed = Pushed {
        table: WidthTable::kept_and_others(depth, levels, 24, kept, others),
        demand: accepted,
    };
    let node = usize::from(place.node) - 1;
    pushed.lower_constant(node, 24);
    pushed.table.constant_bits[node] += 1;
    if let Some(multiplied) = pushed.table.multiplied_by(place) {
        pushed.lower_fraction(multiplied, 20);
        pushed.table.width_mut(multiplied).fraction_bits += 1;
    }
    pushed.table = pushed.table.with_products(MAX_PRODUCT_BITS);
    let whole = pushed.table.uncut_product_bits(place);
    *pushed.table.product_mut(place) = whole - 1;
    for place in pushed.table.kept_places() {
        pushed.raise_fraction(place, 20);
    }
    pushed.table
}

/// The largest depth at which some table of so many levels can be viewed.
pub fn deepest_viewed(levels: u8) -> u8 {
    [12, 11, 9, 7, 5][usize::from(levels) - 1]
}

/// Inner nodes (12, 20), kept ones with 5 fractional bits and the fewest
/// integer bits that are accepted, all constants with 24 bits.
pub fn narrow(depth: u8, levels: u8) -> WidthTable {
    let (kept, others) = (Width::new(12, 5), Width::new(12, 20));
    let mut pushed = Pushed {
        table: WidthTable::kept_and_others(depth, levels, 24, kept, others),
        demand: accepted,
    };
    for place in pushed.table.kept_places() {
        pushed.lower_integer(place);
    }
    pushed.table
}

/// A table whose planes can be viewed and on which little can be spared, of a
/// depth that is viewed with so many levels.
pub fn tight_viewable(chance: &mut Chance, depth: u8, levels: u8) -> WidthTable {
    let pushed = Pushed {
        table: narrow(depth, levels),
        demand: accepted_and_viewable,
    };
    pushed.tightened(chance)
}

/// The same with tag 5.
pub fn tight_viewable_products(chance: &mut Chance, depth: u8, levels: u8) -> WidthTable {
    let pushed = Pushed {
        table: narrow(depth, levels).with_products(MAX_PRODUCT_BITS),
        demand: accepted_and_viewable,
    };
    pushed.tightened(chance)
}

/// A table whose planes can be viewed: as [`narrow`], then some integer bits
/// more, drawn by chance, and other fractional bits.
pub fn loose_viewable(chance: &mut Chance, depth: u8, levels: u8) -> WidthTable {
    let mut pushed = Pushed {
        table: narrow(depth, levels),
        demand: accepted_and_viewable,
    };
    let mut places = pushed.table.kept_places();
    chance.shuffle(&mut places);
    for place in places {
        let (wider, other) = (chance.below(8) as u8, chance.within(0, 20) as u8);
        pushed.push(1, |table| {
            let width = table.width_mut(place);
            width.integer_bits = (width.integer_bits + wider).min(12);
            true
        });
        pushed.push(1, |table| {
            table.width_mut(place).fraction_bits = other;
            true
        });
    }
    pushed.table
}

/// Every integer width of an accepted table one less, one at a time, is
/// refused: says whether the table is tight in that sense.
pub fn integers_are_least(table: &WidthTable) -> bool {
    table.places().into_iter().all(|place| {
        let mut narrower = table.clone();
        let width = narrower.width_mut(place);
        if width.integer_bits == 1 {
            return true;
        }
        width.integer_bits -= 1;
        !accepted(&narrower)
    })
}

/// Bytes with some damage: bytes changed, cut off, added, put in or taken out.
pub fn damaged(chance: &mut Chance, bytes: &[u8]) -> Vec<u8> {
    let mut bytes = bytes.to_vec();
    for _ in 0..chance.within(1, 3) {
        let at = chance.below(bytes.len() + 1);
        match chance.below(7) {
            0 => bytes.truncate(at),
            1 => bytes.push(chance.byte()),
            2 => bytes.insert(at, chance.byte()),
            3 if at < bytes.len() => {
                bytes.remove(at);
            }
            4 if at < bytes.len() => bytes[at] = bytes[at].wrapping_add(1),
            5 if at < bytes.len() => bytes[at] = bytes[at].wrapping_sub(1),
            _ if at < bytes.len() => bytes[at] = chance.byte(),
            _ => {}
        }
    }
    bytes
}

#[cfg(test)]
mod tests {
    use super::*;

    #[test]
    fn viewable_tables_can_be_viewed() {
        let mut chance = Chance::new(4);
        for levels in 1..=5 {
            for depth in 1..=12 {
                let due = depth <= deepest_viewed(levels);
                assert_eq!(accepted_and_viewable(&narrow(depth, levels)), due);
                if due {
                    assert!(accepted_and_viewable(&tight_viewable(
                        &mut chance,
                        depth,
                        levels
                    )));
                    assert!(accepted_and_viewable(&loose_viewable(
                        &mut chance,
                        depth,
                        levels
                    )));
                }
            }
        }
    }

    /// Products of tight tables: some are cut hard, some not at all, and of
    /// those that have the least number every smaller one is refused.
    #[test]
    fn products_are_lowered() {
        let mut chance = Chance::new(5);
        let (mut cut, mut uncut, mut largest, mut none) = (0, 0, 0, 0);
        for round in 0..40 {
            let levels = 1 + round % 5;
            let table = tight_products(&mut chance, 8, levels);
            assert!(table.has_products && accepted(&table) && integers_are_least(&table));
            let viewed = tight_viewable_products(&mut chance, 5, levels);
            assert!(viewed.has_products && accepted_and_viewable(&viewed));
            for place in table.product_places() {
                let most = table.uncut_product_bits(place);
                match table.product(place) < most {
                    true => cut += 1,
                    false => uncut += 1,
                }
                largest = largest.max(most.saturating_sub(table.product(place)));
            }
            let roughest = least_products(&mut chance, rough(8, levels));
            let bits = roughest.product_parts();
            none += bits[..12 * usize::from(levels)]
                .iter()
                .filter(|&&b| b == 0)
                .count();
            let base = uneven(&mut chance, 8, levels);
            let least = least_products(&mut chance, base.clone());
            assert_eq!(least.clone().without_products(), base);
            for place in least.product_places() {
                let mut less = least.clone();
                for bits in 0..least.product(place) {
                    *less.product_mut(place) = bits;
                    assert!(!accepted(&less));
                }
            }
            let same = uncut_products(&mut chance, base.clone());
            assert!(accepted(&same) && same.without_products() == base);
            for place in generous(2, levels.min(2)).product_places() {
                let cut = one_bit_cut(2, levels.min(2), place);
                let whole = cut.uncut_product_bits(place);
                assert!(accepted(&cut) && whole < 20 && cut.product(place) == whole - 1);
            }
        }
        assert!(
            cut > 500 && uncut > 50 && largest > 20 && none > 20,
            "{cut} {uncut} {largest} {none}"
        );
    }

    #[test]
    fn tight_tables_are_accepted_and_tight() {
        let mut chance = Chance::new(3);
        for levels in 1..=5 {
            let table = tight(&mut chance, 8, levels);
            assert!(accepted(&table));
            assert!(integers_are_least(&table));
            assert!(!integers_are_least(&generous(8, levels)));
        }
    }
}
