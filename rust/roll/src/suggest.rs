//! A tight table that the engine accepts, or one whose planes can also be
//! viewed, and the least product widths beside a table's other numbers: found by
//! asking the engine.

use crate::progress::Progress;
use suzdrepa::{Node, Place, Refusal, Width, WidthTable};

const WIDEST: Width = Width::new(WidthTable::MAX_INTEGER_BITS, WidthTable::MAX_FRACTION_BITS);

/// What is asked of a table.
type Demand = fn(&WidthTable) -> Result<(), Refusal>;

/// Changes the table by steps for as long as it meets the demand. `change`
/// gives the next table; none, or a refused one, ends it.
fn push(
    table: &mut WidthTable,
    demand: Demand,
    change: impl Fn(&WidthTable) -> Option<WidthTable>,
) {
    while let Some(next) = change(table).filter(|next| demand(next).is_ok()) {
        *table = next;
    }
}

/// The table with other integer and fractional bits at a node; none where that
/// is outside their limits.
pub fn moved(table: &WidthTable, place: Place, integer: i8, fraction: i8) -> Option<WidthTable> {
    let width = table.width(place)?;
    let width = Width {
        integer_bits: width.integer_bits.checked_add_signed(integer)?,
        fraction_bits: width.fraction_bits.checked_add_signed(fraction)?,
    };
    table.with_width(place, width).ok()
}

/// The table with one bit less for the constant of a node; none where it has
/// one alone.
fn rougher(table: &WidthTable, node: Node) -> Option<WidthTable> {
    let bits = table.constant_bits(node).checked_sub(1)?;
    table.with_constant(node, bits).ok()
}

/// The nodes of a table that are kept, and all others.
fn kept_and_inner(table: &WidthTable) -> (Vec<Place>, Vec<Place>) {
    table.places().partition(|&place| table.is_kept(place))
}

/// A table with kept coefficients of so many fractional bits, or the most that
/// are accepted; all else is as wide as it gets. Refused 4 where a number is
/// outside its limits.
fn finest(depth: u8, levels: u8, most: u8) -> Result<WidthTable, Refusal> {
    let coarse = Width {
        fraction_bits: depth.min(2),
        ..WIDEST
    };
    let constant_bits = WidthTable::MAX_CONSTANT_BITS;
    let mut table = WidthTable::kept_and_others(depth, levels, constant_bits, coarse, WIDEST)?;
    table.check()?;
    for place in kept_and_inner(&table).0 {
        push(&mut table, WidthTable::check, |table| {
            let bits = table.width(place)?.fraction_bits;
            moved(table, place, 0, 1).filter(|_| bits < most)
        });
    }
    Ok(table)
}

/// As [`finest`], with the most fractional bits of all, so that what is viewed
/// is near to what was scanned, and the kept nodes have the fewest integer bits
/// that are accepted, which is what viewing asks for; refused 13 where planes
/// cannot be viewed even so: then no table of that depth and so many levels has
/// any that can.
fn finest_viewable(depth: u8, levels: u8) -> Result<WidthTable, Refusal> {
    let mut table = finest(depth, levels, WidthTable::MAX_FRACTION_BITS)?;
    for place in kept_and_inner(&table).0 {
        push(&mut table, WidthTable::check, |table| {
            moved(table, place, -1, 0)
        });
    }
    table.viewable()?;
    Ok(table)
}

/// Every number of the table that can be lowered by one, one after the other,
/// for as long as the demand is met; kept coefficients keep their steps.
fn tightened(mut table: WidthTable, demand: Demand, progress: &Progress) -> WidthTable {
    let (_, inner) = kept_and_inner(&table);
    // Evenly first, so that the first node does not take all there is.
    push(&mut table, demand, |table| {
        let mut next = table.clone();
        for &place in &inner {
            next = moved(&next, place, 0, -1).unwrap_or(next);
        }
        Some(next).filter(|next| next != table)
    });
    push(&mut table, demand, |table| {
        let mut next = table.clone();
        for node in Node::ALL {
            next = rougher(&next, node).unwrap_or(next);
        }
        Some(next).filter(|next| next != table)
    });
    for (left, &place) in inner.iter().enumerate().rev() {
        let nodes = inner.len();
        progress.tell(&format!(
            "fractional bits: {} nodes of {nodes} left",
            left + 1
        ));
        push(&mut table, demand, |table| moved(table, place, 0, -1));
    }
    for node in Node::ALL {
        push(&mut table, demand, |table| rougher(table, node));
    }
    let places: Vec<Place> = table.places().collect();
    for (done, &place) in places.iter().enumerate() {
        let nodes = places.len();
        progress.tell(&format!("integer bits: {done} nodes of {nodes} done"));
        push(&mut table, demand, |table| moved(table, place, -1, 0));
    }
    table
}

/// A table for pictures of `depth` bits in `levels` levels; refused 4 where
/// they are outside their limits. Its kept coefficients have steps as fine as
/// a pixel's, or the finest that are accepted; every other number is the least
/// that goes with them, found one after the other.
pub fn suggest(depth: u8, levels: u8, progress: &Progress) -> Result<WidthTable, Refusal> {
    let table = finest(depth, levels, depth)?;
    Ok(tightened(table, WidthTable::check, progress))
}

/// As [`suggest`], for planes that are to be viewed: its kept coefficients have
/// the finest steps that are accepted, whatever a pixel's are. Refused 13 where
/// no table of that depth and so many levels has any that can be.
pub fn suggest_viewable(depth: u8, levels: u8, progress: &Progress) -> Result<WidthTable, Refusal> {
    let table = finest_viewable(depth, levels)?;
    Ok(tightened(table, WidthTable::viewable, progress))
}

/// The least bits of a product with which the table is accepted, all its other
/// numbers left as they are: every number from 0 on is tried, since one that is
/// refused may have an accepted one below it. A product that is cut to the bits
/// of its node leaves the sum nothing to lose; with a bit more, both are cut.
fn least_product(table: &WidthTable, place: Place) -> Option<WidthTable> {
    let bits = table.product_bits(place)?;
    (0..bits)
        .filter_map(|fewer| table.with_product(place, fewer).ok())
        .find(|next| next.check().is_ok())
}

/// The table with product widths so small that no single one can be lowered, by
/// however much, without a refusal; its other numbers stay as they are. Refused
/// as the table without product widths is.
pub fn least_products(table: &WidthTable, progress: &Progress) -> Result<WidthTable, Refusal> {
    let plain = table.without_products();
    plain.check()?;
    let most = WidthTable::MAX_PRODUCT_BITS;
    // Nothing is cut: the verdict is that of the table without product widths.
    let whole = plain.with_products(|_| most)?;
    // Evenly first, so that the first product does not take all there is.
    let mut table = (0..most)
        .filter_map(|bits| plain.with_products(|_| bits).ok())
        .find(|table| table.check().is_ok())
        .unwrap_or(whole);
    let steps: Vec<Place> = Place::steps(table.levels()).collect();
    // One after the other, until a whole round finds none to lower: every change
    // makes the sum of all widths less, so that this ends.
    loop {
        let before = table.clone();
        for (left, &place) in steps.iter().enumerate().rev() {
            let products = steps.len();
            progress.tell(&format!("product widths: {} of {products} left", left + 1));
            table = least_product(&table, place).unwrap_or(table);
        }
        if table == before {
            return Ok(table);
        }
    }
}

/// Whether some table of that depth and so many levels has planes that can be
/// viewed.
pub fn can_be_viewed(depth: u8, levels: u8) -> bool {
    finest_viewable(depth, levels).is_ok()
}

#[cfg(test)]
mod tests {
    use super::*;
    use suzdrepa::Bound;

    #[test]
    fn accepted_and_tight() {
        for (depth, levels) in [(1, 1), (8, 3), (12, 2), (8, 5)] {
            let table = suggest(depth, levels, &Progress::silent()).unwrap();
            assert_eq!(table.check(), Ok(()));
            let refused = |table: WidthTable| table.check().is_err();
            for place in table.places() {
                assert!(moved(&table, place, -1, 0).is_none_or(refused));
            }
            for node in Node::ALL {
                assert!(rougher(&table, node).is_none_or(refused));
            }
        }
    }

    /// A table with room for cuts: all else is as wide as it gets.
    fn roomy(levels: u8) -> WidthTable {
        WidthTable::kept_and_others(8, levels, 24, Width::new(12, 2), WIDEST).unwrap()
    }

    /// Accepted, and no single product can be lowered: not by one, and not to
    /// any smaller number.
    #[test]
    fn products_are_the_least() {
        let silent = Progress::silent();
        let suggested = |depth, levels| suggest(depth, levels, &silent).unwrap();
        for plain in [
            suggested(1, 1),
            suggested(8, 3),
            suggested(12, 2),
            suggested(8, 5),
            suggest_viewable(8, 3, &silent).unwrap(),
            roomy(1),
            roomy(5),
        ] {
            let table = least_products(&plain, &silent).unwrap();
            assert_eq!(table.check(), Ok(()));
            assert_eq!(table.without_products(), plain);
            assert_eq!(plain.viewable(), table.viewable());
            let mut cut = 0;
            for place in Place::steps(table.levels()) {
                let bits = table.product_bits(place).unwrap();
                for fewer in 0..bits {
                    let lowered = table.with_product(place, fewer).unwrap();
                    assert!(lowered.check().is_err(), "{place} {bits} {fewer}");
                }
                let full = plain.full_product_bits(place).unwrap();
                assert!(bits <= full);
                cut += usize::from(bits < full);
            }
            assert!(cut > 0);
            // The same whatever product widths there were before.
            for bits in [0, 15, 44] {
                let before = plain.with_products(|_| bits).unwrap();
                assert_eq!(least_products(&before, &silent).as_ref(), Ok(&table));
            }
        }
    }

    /// What a table is refused without product widths it is refused with any.
    #[test]
    fn no_products_beside_a_refused_table() {
        let first = roomy(2).places().next().unwrap();
        let narrow = roomy(2).with_width(first, Width::new(2, 20)).unwrap();
        let refused = narrow.check();
        assert_eq!(refused, Err(Refusal::DoesNotFit(first)));
        let given = least_products(&narrow, &Progress::silent());
        assert_eq!(given.map(|_| ()), refused);
    }

    #[test]
    fn numbers_outside_their_limits_are_refused() {
        for (depth, levels) in [(0, 1), (13, 1), (8, 0), (8, 6)] {
            for suggest in [suggest, suggest_viewable] {
                let refusal = suggest(depth, levels, &Progress::silent());
                assert_eq!(refusal, Err(Refusal::OutsideLimits));
            }
            assert!(!can_be_viewed(depth, levels));
        }
    }

    #[test]
    fn viewable_and_tight() {
        for (depth, levels) in [(1, 1), (12, 1), (11, 2), (8, 3), (7, 4), (5, 5)] {
            let table = suggest_viewable(depth, levels, &Progress::silent()).unwrap();
            assert_eq!((table.check(), table.viewable()), (Ok(()), Ok(())));
            let refused = |table: WidthTable| table.viewable().is_err();
            for place in table.places() {
                assert!(moved(&table, place, -1, 0).is_none_or(refused));
            }
            for node in Node::ALL {
                assert!(rougher(&table, node).is_none_or(refused));
            }
        }
    }

    /// The depths that can be viewed at each number of levels: by document
    /// 02's rules at larger ones every table is refused 13. What is viewed is
    /// near to what was scanned, and no farther for the tightening.
    #[test]
    fn depths_that_can_be_viewed() {
        for (levels, most) in [(1, 12), (2, 11), (3, 9), (4, 7), (5, 5)] {
            for depth in 1..=12 {
                assert_eq!(can_be_viewed(depth, levels), depth <= most);
                let suggested = suggest_viewable(depth, levels, &Progress::silent());
                if depth > most {
                    assert_eq!(suggested, Err(Refusal::NotViewable));
                    continue;
                }
                let distance = suggested.unwrap().view_distance().unwrap();
                let finest = finest_viewable(depth, levels).unwrap();
                assert_eq!(finest.view_distance(), Ok(distance));
                assert!(distance < 3 * (Bound::ONE >> depth), "{depth} {levels}");
            }
        }
    }
}
