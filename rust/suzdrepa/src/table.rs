//! Width tables (document 01: books): as bytes, and as a type of their own.

use crate::{Bound, Node, Pass, Place, Refusal, Width};
use std::fmt;
use suzdrepa_sys as sys;

/// Reads a width table and judges it.
///
/// `Ok` means that under this table every picture of its depth and of admitted
/// size can be worked by [`forward97`](crate::forward97) without any value
/// leaving its width and with every coefficient less than two steps from the
/// exact one.
///
/// Refused 1 to 5 where the bytes are malformed, 6 where a node does not fit,
/// 7 where a kept coefficient would be too far off; 6 and 7 name the first
/// such node.
pub fn check_table(table: &[u8]) -> Result<(), Refusal> {
    // SAFETY: pointer and length are those of a slice.
    Refusal::from_answer(unsafe { sys::suz_table_check(table.as_ptr(), table.len()) })
}

/// Reads a width table without judging it: refused 1 to 5 where the bytes are
/// malformed.
///
/// Fields are read one by one. In each, the first of these that applies is the
/// answer: tag or length is not whole (1), the tag is not the one due (2), the
/// length is not that tag's (3), the value is not whole (1), a number is
/// outside its limits (4). After a right fourth field the table may end; any
/// byte there but 5 is refused 5, and so is what follows a right fifth field.
pub fn table_form(table: &[u8]) -> Result<(), Refusal> {
    // SAFETY: pointer and length are those of a slice.
    Refusal::from_answer(unsafe { sys::suz_table_form(table.as_ptr(), table.len()) })
}

/// Reads a width table, judges it, and judges whether planes stored under it
/// can be viewed.
///
/// `Ok` means that [`view97`](crate::view97) shows every plane whose
/// coefficients are within their widths, each value before rounding less than
/// half a grey from the exact inverse of what is stored.
///
/// Refused 1 to 5, 6 and 7 as [`check_table`] refuses, then 13. It is the
/// integer bits of the kept nodes that count, beside depth and levels: where a
/// table is refused 13, fewer levels, a smaller depth, or no more integer bits
/// there than the judge asks for can make it viewable, within the depths that
/// the [crate's page](crate#viewing) lists.
pub fn table_view(table: &[u8]) -> Result<(), Refusal> {
    // SAFETY: pointer and length are those of a slice.
    Refusal::from_answer(unsafe { sys::suz_table_view(table.as_ptr(), table.len()) })
}

/// How far viewing may lead from what was scanned, in units of 2^-32 (see
/// [`Bound::ONE`]).
///
/// Where [`forward97`](crate::forward97) stored a picture under this table and
/// [`view97`](crate::view97) shows it, each value before rounding is at most so
/// far from the scanned pixel's value, (p - 2^(depth - 1)) / 2^depth. A grey is
/// 2^(32 - depth) such units; a pixel shown is at most the distance in greys,
/// rounded to the nearest, halves up, from the one scanned.
///
/// Refused as [`table_view`] refuses.
pub fn view_distance(table: &[u8]) -> Result<u64, Refusal> {
    let mut distance = 0;
    // SAFETY: pointer and length are those of a slice; the distance is a
    // number of its own.
    let answer = unsafe { sys::suz_view_distance(table.as_ptr(), table.len(), &mut distance) };
    Refusal::from_answer(answer)?;
    Ok(distance)
}

/// Range and error of a node's values under a width table.
///
/// Refused 1 to 5 where the bytes are malformed, 4 where the table lacks the
/// node, then 6 or 7 where a node before it in table order is refused: past a
/// refused node bounds may leave 64 bits. The first refused node itself has
/// its bound.
pub fn table_bound(table: &[u8], place: Place) -> Result<Bound, Refusal> {
    let [level, pass, node] = place.numbers();
    let mut bound = Bound { range: 0, error: 0 };
    // SAFETY: pointer and length are those of a slice; range and error are
    // numbers of their own.
    Refusal::from_answer(unsafe {
        sys::suz_table_bound(
            table.as_ptr(),
            table.len(),
            level,
            pass,
            node,
            &mut bound.range,
            &mut bound.error,
        )
    })?;
    Ok(bound)
}

/// The value of a field of a width table, as a part of the given bytes.
///
/// Tag 1 is the depth, 2 the levels, 3 the bits of the six constants, 4 the
/// widths of all nodes (integer bits, then fractional bits, 18 nodes a
/// level), 5 the bits of the products (12 a level). Any other tag is refused 2;
/// then the whole form is judged, 1 to 5; then tag 5 is refused 2 where the
/// table has none.
pub fn table_value(table: &[u8], tag: u8) -> Result<&[u8], Refusal> {
    let (mut start, mut length) = (0, 0);
    // SAFETY: pointer and length are those of a slice; start and length are
    // numbers of their own.
    let answer =
        unsafe { sys::suz_table_value(table.as_ptr(), table.len(), tag, &mut start, &mut length) };
    Refusal::from_answer(answer)?;
    Ok(&table[start as usize..][..length as usize])
}

/// A new width table with another width at one node.
///
/// Refused 1 to 5 where the bytes are malformed, then 4 where the table lacks
/// the node or the width is outside its limits. The new table is not judged.
pub fn change_width(table: &[u8], place: Place, width: Width) -> Result<Vec<u8>, Refusal> {
    // A table is written as long as it was read.
    let mut out = vec![0; table.len()];
    change_width_into(table, place, width, &mut out)?;
    Ok(out)
}

/// As [`change_width`], but writes the new table to the start of `out`;
/// refused 9 where `out` is shorter than the table.
pub fn change_width_into(
    table: &[u8],
    place: Place,
    width: Width,
    out: &mut [u8],
) -> Result<(), Refusal> {
    let [level, pass, node] = place.numbers();
    // SAFETY: pointers and lengths are those of slices; `out` is exclusive.
    Refusal::from_answer(unsafe {
        sys::suz_table_change(
            table.as_ptr(),
            table.len(),
            level,
            pass,
            node,
            width.integer_bits,
            width.fraction_bits,
            out.as_mut_ptr(),
            out.len(),
        )
    })
}

/// A new width table with other bits for the constant of a node.
///
/// Refused 1 to 5 where the bytes are malformed, then 4 where the bits are
/// outside their limits. The new table is not judged.
///
/// ```
/// use suzdrepa::{change_constant, Node, Refusal, Width, WidthTable};
///
/// let table = WidthTable::uniform(8, 2, 16, Width::new(12, 12))?;
/// let finer = change_constant(table.as_bytes(), Node::G1, 20)?;
/// assert_eq!(suzdrepa::table_value(&finer, 3)?, [16, 16, 16, 16, 20, 16]);
/// # Ok::<(), Refusal>(())
/// ```
pub fn change_constant(table: &[u8], node: Node, bits: u8) -> Result<Vec<u8>, Refusal> {
    // A table is written as long as it was read.
    let mut out = vec![0; table.len()];
    change_constant_into(table, node, bits, &mut out)?;
    Ok(out)
}

/// As [`change_constant`], but writes the new table to the start of `out`;
/// refused 9 where `out` is shorter than the table.
///
/// ```
/// use suzdrepa::{change_constant_into, Node, Refusal, Width, WidthTable};
///
/// let table = WidthTable::uniform(8, 2, 16, Width::new(12, 12))?;
/// let mut out = [0; WidthTable::length(2)];
/// change_constant_into(table.as_bytes(), Node::P1, 20, &mut out)?;
/// assert_eq!(out, table.with_constant(Node::P1, 20)?.as_bytes());
///
/// let short = &mut out[..50];
/// let refused = change_constant_into(table.as_bytes(), Node::P1, 20, short);
/// assert_eq!(refused, Err(Refusal::SliceTooShort));
/// # Ok::<(), Refusal>(())
/// ```
pub fn change_constant_into(
    table: &[u8],
    node: Node,
    bits: u8,
    out: &mut [u8],
) -> Result<(), Refusal> {
    // SAFETY: pointers and lengths are those of slices; `out` is exclusive.
    Refusal::from_answer(unsafe {
        sys::suz_table_change_constant(
            table.as_ptr(),
            table.len(),
            node.number(),
            bits,
            out.as_mut_ptr(),
            out.len(),
        )
    })
}

/// A new width table with other bits for the product of a step.
///
/// Refused 1 to 5 where the bytes are malformed, then 4 where the table has no
/// product widths, where it lacks the product (G1 and G2 have none) or where
/// the bits are outside their limits. The new table is not judged.
///
/// ```
/// use suzdrepa::{change_product, Node, Pass, Place, Refusal, Width, WidthTable};
///
/// let table = WidthTable::uniform(8, 1, 16, Width::new(12, 12))?;
/// let second = Place::new(1, Pass::Rows, Node::U1);
/// let refused = change_product(table.as_bytes(), second, 9);
/// assert_eq!(refused, Err(Refusal::OutsideLimits));
///
/// let table = table.with_products(|_| 20)?;
/// let rougher = change_product(table.as_bytes(), second, 9)?;
/// assert_eq!(suzdrepa::table_value(&rougher, 5)?[..4], [20, 9, 20, 20]);
/// # Ok::<(), Refusal>(())
/// ```
pub fn change_product(table: &[u8], place: Place, bits: u8) -> Result<Vec<u8>, Refusal> {
    // A table is written as long as it was read.
    let mut out = vec![0; table.len()];
    change_product_into(table, place, bits, &mut out)?;
    Ok(out)
}

/// As [`change_product`], but writes the new table to the start of `out`;
/// refused 9 where `out` is shorter than the table.
pub fn change_product_into(
    table: &[u8],
    place: Place,
    bits: u8,
    out: &mut [u8],
) -> Result<(), Refusal> {
    // A product has the number of its node.
    let [level, pass, product] = place.numbers();
    // SAFETY: pointers and lengths are those of slices; `out` is exclusive.
    Refusal::from_answer(unsafe {
        sys::suz_table_change_product(
            table.as_ptr(),
            table.len(),
            level,
            pass,
            product,
            bits,
            out.as_mut_ptr(),
            out.len(),
        )
    })
}

/// Writes a width table without product widths from its parts to the start of
/// `out`.
///
/// `widths` has every node of the maximum of levels in table order, as
/// [`Place::all`] gives them; at levels that are not used both numbers are 0.
/// Refused 4 where a number is outside its limits or an unused level is not
/// zero, 9 where `out` is shorter than the table. The table is not judged.
///
/// ```
/// use suzdrepa::{write_table, Refusal, Width, WidthTable};
///
/// let mut widths = [Width::new(0, 0); WidthTable::MAX_NODES];
/// // Two levels, 18 nodes each.
/// widths[..36].fill(Width::new(12, 12));
/// let mut out = [0; WidthTable::length(2)];
/// write_table(8, 2, [16; 6], &widths, &mut out)?;
/// let due = WidthTable::uniform(8, 2, 16, Width::new(12, 12))?;
/// assert_eq!(out, due.as_bytes());
///
/// let refused = write_table(8, 1, [16; 6], &widths, &mut out);
/// assert_eq!(refused, Err(Refusal::OutsideLimits));
/// # Ok::<(), Refusal>(())
/// ```
pub fn write_table(
    depth: u8,
    levels: u8,
    constant_bits: [u8; sys::SUZ_TABLE_CONSTANTS],
    widths: &[Width; WidthTable::MAX_NODES],
    out: &mut [u8],
) -> Result<(), Refusal> {
    // SAFETY: the arrays have the counts that the call reads; `out` is an
    // exclusive slice.
    Refusal::from_answer(unsafe {
        sys::suz_table_write(
            depth,
            levels,
            &constant_bits,
            &pairs(widths),
            out.as_mut_ptr(),
            out.len(),
        )
    })
}

/// As [`write_table`], of a table with product widths.
///
/// `products` has the bits of every product of the maximum of levels in table
/// order, as [`Place::steps`] gives them; at levels that are not used they are
/// 0. Refused as [`write_table`].
///
/// ```
/// use suzdrepa::{write_table_with_products, Refusal, Width, WidthTable};
///
/// let mut widths = [Width::new(0, 0); WidthTable::MAX_NODES];
/// let mut products = [0; WidthTable::MAX_PRODUCTS];
/// // Two levels, 18 nodes and 12 products each.
/// widths[..36].fill(Width::new(12, 12));
/// products[..24].fill(15);
/// let mut out = [0; WidthTable::length_with_products(2)];
/// write_table_with_products(8, 2, [16; 6], &widths, &products, &mut out)?;
/// let due = WidthTable::uniform(8, 2, 16, Width::new(12, 12))?.with_products(|_| 15)?;
/// assert_eq!(out, due.as_bytes());
///
/// products[59] = 15;
/// let refused = write_table_with_products(8, 2, [16; 6], &widths, &products, &mut out);
/// assert_eq!(refused, Err(Refusal::OutsideLimits));
/// # Ok::<(), Refusal>(())
/// ```
pub fn write_table_with_products(
    depth: u8,
    levels: u8,
    constant_bits: [u8; sys::SUZ_TABLE_CONSTANTS],
    widths: &[Width; WidthTable::MAX_NODES],
    products: &[u8; WidthTable::MAX_PRODUCTS],
    out: &mut [u8],
) -> Result<(), Refusal> {
    // SAFETY: the arrays have the counts that the call reads; `out` is an
    // exclusive slice.
    Refusal::from_answer(unsafe {
        sys::suz_table_write_products(
            depth,
            levels,
            &constant_bits,
            &pairs(widths),
            1,
            products,
            out.as_mut_ptr(),
            out.len(),
        )
    })
}

/// The widths as the C interface has them.
fn pairs(widths: &[Width; WidthTable::MAX_NODES]) -> [u8; sys::SUZ_TABLE_WIDTHS] {
    let mut pairs = [0; sys::SUZ_TABLE_WIDTHS];
    for (pair, width) in pairs.chunks_exact_mut(2).zip(widths) {
        pair.copy_from_slice(&[width.integer_bits, width.fraction_bits]);
    }
    pairs
}

// Where the values of the first four fields start in the bytes of a table.
const DEPTH_START: usize = 3;
const LEVELS_START: usize = 7;
const CONSTANTS_START: usize = 11;
const NODES_START: usize = sys::SUZ_TABLE_HEAD;

// Bytes of the nodes of a pass, and of a level: a node has two.
const PASS_BYTES: usize = 2 * Node::ALL.len();
const LEVEL_BYTES: usize = sys::SUZ_TABLE_LEVEL;
const _: () = assert!(LEVEL_BYTES == PASS_BYTES * Pass::ALL.len());

// Bytes of the products of a pass, and of a level: a product has one.
const PASS_PRODUCTS: usize = Node::STEPS.len();
const LEVEL_PRODUCTS: usize = sys::SUZ_TABLE_PRODUCT_LEVEL;
const _: () = assert!(LEVEL_PRODUCTS == PASS_PRODUCTS * Pass::ALL.len());

/// A width table of right form: every number is within its limits. Whether it
/// is accepted is [`check`](WidthTable::check)'s to say.
///
/// ```
/// use suzdrepa::{Node, Pass, Place, Refusal, Width, WidthTable};
///
/// // Pictures of 8 bits, three levels, constants with 24 bits.
/// let (kept, others) = (Width::new(12, 2), Width::new(12, 20));
/// let table = WidthTable::kept_and_others(8, 3, 24, kept, others)?;
/// assert_eq!(table.check(), Ok(()));
///
/// let first = Place::new(1, Pass::Rows, Node::P1);
/// let narrow = table.with_width(first, Width::new(2, 20))?;
/// assert_eq!(narrow.check(), Err(Refusal::DoesNotFit(first)));
///
/// let bytes = table.to_bytes();
/// assert_eq!(WidthTable::from_bytes(&bytes)?, table);
/// # Ok::<(), Refusal>(())
/// ```
#[derive(Clone, Debug, PartialEq, Eq, Hash)]
pub struct WidthTable {
    /// What [`table_form`] has found right.
    bytes: Vec<u8>,
}

impl WidthTable {
    /// The maximum depth of a picture; the minimum is 1.
    pub const MAX_DEPTH: u8 = sys::SUZ_MAX_DEPTH;
    /// The maximum of levels; the minimum is 1.
    pub const MAX_LEVELS: u8 = sys::SUZ_MAX_LEVELS;
    /// The maximum of a constant's fractional bits; the minimum is 1.
    pub const MAX_CONSTANT_BITS: u8 = sys::SUZ_MAX_CONSTANT_BITS;
    /// The maximum of a node's integer bits; the minimum is 1.
    pub const MAX_INTEGER_BITS: u8 = sys::SUZ_MAX_INTEGER_BITS;
    /// The maximum of a node's fractional bits; the minimum is 0.
    pub const MAX_FRACTION_BITS: u8 = sys::SUZ_MAX_FRACTION_BITS;
    /// The maximum of a product's fractional bits; the minimum is 0. No product
    /// has more, so that a width of so many bits cuts none.
    pub const MAX_PRODUCT_BITS: u8 = sys::SUZ_MAX_PRODUCT_BITS;

    /// The nodes of a table with the maximum of levels.
    pub const MAX_NODES: usize = sys::SUZ_TABLE_WIDTHS / 2;
    /// The products of a table with the maximum of levels.
    pub const MAX_PRODUCTS: usize = sys::SUZ_TABLE_PRODUCTS;

    /// The length in bytes of a table of so many levels without product widths.
    pub const fn length(levels: u8) -> usize {
        sys::SUZ_TABLE_HEAD + sys::SUZ_TABLE_LEVEL * levels as usize
    }

    /// The length in bytes of a table of so many levels with product widths. No
    /// table is longer than `length_with_products(WidthTable::MAX_LEVELS)`.
    pub const fn length_with_products(levels: u8) -> usize {
        let products = sys::SUZ_TABLE_PRODUCT_LEVEL * levels as usize;
        WidthTable::length(levels) + sys::SUZ_TABLE_PRODUCT_HEAD + products
    }

    /// Reads a table; refused 1 to 5, in the order of [`table_form`].
    pub fn from_bytes(bytes: &[u8]) -> Result<WidthTable, Refusal> {
        table_form(bytes)?;
        let bytes = bytes.to_vec();
        Ok(WidthTable { bytes })
    }

    /// The same bits for every constant and the same width at every node;
    /// refused 4 where a number is outside its limits.
    pub fn uniform(
        depth: u8,
        levels: u8,
        constant_bits: u8,
        width: Width,
    ) -> Result<WidthTable, Refusal> {
        WidthTable::kept_and_others(depth, levels, constant_bits, width, width)
    }

    /// As [`uniform`](WidthTable::uniform), but the kept nodes, whose values
    /// are the coefficients, have a width of their own.
    pub fn kept_and_others(
        depth: u8,
        levels: u8,
        constant_bits: u8,
        kept: Width,
        others: Width,
    ) -> Result<WidthTable, Refusal> {
        let width = |place: Place| match place.is_kept(levels) {
            true => kept,
            false => others,
        };
        WidthTable::from_parts(depth, levels, [constant_bits; Node::ALL.len()], width)
    }

    /// A table from its parts: depth, levels, the bits of the constants of
    /// P1, U1, P2, U2, G1 and G2, and the width of each node; refused 4 where
    /// a number is outside its limits.
    ///
    /// ```
    /// use suzdrepa::{Node, Pass, Place, Refusal, Width, WidthTable};
    ///
    /// // Every level has one integer bit more than the one before.
    /// let width = |place: Place| Width::new(4 + place.level, 12);
    /// let table = WidthTable::from_parts(8, 3, [20, 20, 20, 20, 24, 24], width)?;
    /// assert_eq!(table.constant_bits(Node::G1), 24);
    /// let third = Place::new(3, Pass::Rows, Node::P1);
    /// assert_eq!(table.width(third), Some(Width::new(7, 12)));
    ///
    /// let wide = |_| Width::new(13, 12);
    /// let refused = WidthTable::from_parts(8, 3, [20; 6], wide);
    /// assert_eq!(refused, Err(Refusal::OutsideLimits));
    /// # Ok::<(), Refusal>(())
    /// ```
    pub fn from_parts(
        depth: u8,
        levels: u8,
        constant_bits: [u8; sys::SUZ_TABLE_CONSTANTS],
        width: impl FnMut(Place) -> Width,
    ) -> Result<WidthTable, Refusal> {
        let widths = in_order(Place::all(levels).map(width), Width::new(0, 0));
        let mut bytes = vec![0; WidthTable::length(levels)];
        write_table(depth, levels, constant_bits, &widths, &mut bytes)?;
        Ok(WidthTable { bytes })
    }

    /// As [`from_parts`](WidthTable::from_parts), with the bits that the product
    /// of each step is cut to.
    ///
    /// ```
    /// use suzdrepa::{Node, Pass, Place, Refusal, Width, WidthTable};
    ///
    /// let width = |_| Width::new(12, 12);
    /// let product = |place: Place| 14 + place.level;
    /// let table = WidthTable::from_parts_with_products(8, 3, [20; 6], width, product)?;
    /// let third = Place::new(3, Pass::Rows, Node::P1);
    /// assert_eq!(table.product_bits(third), Some(17));
    ///
    /// let wide = |_| 45;
    /// let refused = WidthTable::from_parts_with_products(8, 3, [20; 6], width, wide);
    /// assert_eq!(refused, Err(Refusal::OutsideLimits));
    /// # Ok::<(), Refusal>(())
    /// ```
    pub fn from_parts_with_products(
        depth: u8,
        levels: u8,
        constant_bits: [u8; sys::SUZ_TABLE_CONSTANTS],
        width: impl FnMut(Place) -> Width,
        product: impl FnMut(Place) -> u8,
    ) -> Result<WidthTable, Refusal> {
        let widths = in_order(Place::all(levels).map(width), Width::new(0, 0));
        let products = in_order(Place::steps(levels).map(product), 0);
        let mut bytes = vec![0; WidthTable::length_with_products(levels)];
        let out = &mut bytes;
        write_table_with_products(depth, levels, constant_bits, &widths, &products, out)?;
        Ok(WidthTable { bytes })
    }

    /// The bytes of the table.
    pub fn as_bytes(&self) -> &[u8] {
        &self.bytes
    }

    /// The bytes of the table, to keep.
    pub fn to_bytes(&self) -> Vec<u8> {
        self.bytes.clone()
    }

    /// Bits of a pixel.
    pub fn depth(&self) -> u8 {
        self.bytes[DEPTH_START]
    }

    pub fn levels(&self) -> u8 {
        self.bytes[LEVELS_START]
    }

    /// The fractional bits of the constant that a node multiplies by.
    pub fn constant_bits(&self, node: Node) -> u8 {
        self.bytes[CONSTANTS_START + usize::from(node.number() - 1)]
    }

    /// The width of a node; `None` where the table lacks its level.
    pub fn width(&self, place: Place) -> Option<Width> {
        if !(1..=self.levels()).contains(&place.level) {
            return None;
        }
        let [level, pass, node] = place.numbers().map(|number| usize::from(number - 1));
        let at = NODES_START + LEVEL_BYTES * level + PASS_BYTES * pass + 2 * node;
        Some(Width::new(self.bytes[at], self.bytes[at + 1]))
    }

    /// Whether the table has product widths (tag 5). One that has none cuts no
    /// product.
    pub fn has_products(&self) -> bool {
        self.bytes.len() > WidthTable::length(self.levels())
    }

    /// The fractional bits that the product of a step is cut to before the sum,
    /// where it has more ([`full_product_bits`](WidthTable::full_product_bits));
    /// `None` where the table has no product widths or lacks the product.
    pub fn product_bits(&self, place: Place) -> Option<u8> {
        if !self.has_products() || !self.has_step(place) {
            return None;
        }
        let [level, pass, step] = place.numbers().map(|number| usize::from(number - 1));
        let start = WidthTable::length(self.levels()) + sys::SUZ_TABLE_PRODUCT_HEAD;
        Some(self.bytes[start + LEVEL_PRODUCTS * level + PASS_PRODUCTS * pass + step])
    }

    /// The fractional bits that the product of a step has before any cut: those
    /// of its constant and those of the values that it multiplies. `None` where
    /// the table lacks the product.
    ///
    /// ```
    /// use suzdrepa::{Node, Pass, Place, Refusal, Width, WidthTable};
    ///
    /// // Pixels of 8 bits, constants of 16, nodes of 12.
    /// let table = WidthTable::uniform(8, 2, 16, Width::new(12, 12))?;
    /// let bits = |pass, node| table.full_product_bits(Place::new(1, pass, node));
    /// assert_eq!(bits(Pass::Rows, Node::P1), Some(24));
    /// assert_eq!(bits(Pass::Rows, Node::U1), Some(28));
    /// assert_eq!(bits(Pass::LowColumns, Node::P1), Some(28));
    /// assert_eq!(bits(Pass::Rows, Node::G1), None);
    /// # Ok::<(), Refusal>(())
    /// ```
    pub fn full_product_bits(&self, place: Place) -> Option<u8> {
        if !self.has_step(place) {
            return None;
        }
        let Place { level, pass, node } = place;
        let node_bits = |level, pass, node| {
            let width = self.width(Place::new(level, pass, node))?;
            Some(width.fraction_bits)
        };
        let multiplied = match (node, pass) {
            (Node::U1, _) => node_bits(level, pass, Node::P1),
            (Node::P2, _) => node_bits(level, pass, Node::U1),
            (Node::U2, _) => node_bits(level, pass, Node::P2),
            // P1 multiplies what enters the pass.
            (_, Pass::LowColumns) => node_bits(level, Pass::Rows, Node::G1),
            (_, Pass::HighColumns) => node_bits(level, Pass::Rows, Node::G2),
            (_, Pass::Rows) if level == 1 => Some(self.depth()),
            (_, Pass::Rows) => node_bits(level - 1, Pass::LowColumns, Node::G1),
        };
        Some(self.constant_bits(node) + multiplied?)
    }

    /// Whether the node is a step of one of the table's levels.
    fn has_step(&self, place: Place) -> bool {
        place.is_step() && (1..=self.levels()).contains(&place.level)
    }

    /// Every node of the table, in table order.
    ///
    /// ```
    /// # use suzdrepa::{Width, WidthTable};
    /// let table = WidthTable::uniform(8, 2, 16, Width::new(12, 12))?;
    /// assert_eq!(table.places().count(), 36);
    /// assert_eq!(table.places().next().unwrap().numbers(), [1, 1, 1]);
    /// # Ok::<(), suzdrepa::Refusal>(())
    /// ```
    pub fn places(&self) -> impl Iterator<Item = Place> {
        Place::all(self.levels())
    }

    /// Whether the node's values are coefficients of the plane.
    pub fn is_kept(&self, place: Place) -> bool {
        place.is_kept(self.levels())
    }

    /// A table with another width at one node; refused 4 where the table lacks
    /// the node or the width is outside its limits.
    pub fn with_width(&self, place: Place, width: Width) -> Result<WidthTable, Refusal> {
        let bytes = change_width(&self.bytes, place, width)?;
        Ok(WidthTable { bytes })
    }

    /// A table with other bits for the constant of a node; refused 4 where
    /// they are outside their limits.
    ///
    /// ```
    /// # use suzdrepa::{Node, Refusal, Width, WidthTable};
    /// let table = WidthTable::uniform(8, 2, 16, Width::new(12, 12))?;
    /// let finer = table.with_constant(Node::G1, 20)?;
    /// assert_eq!(finer.constant_bits(Node::G1), 20);
    /// assert_eq!(table.with_constant(Node::G1, 25), Err(Refusal::OutsideLimits));
    /// # Ok::<(), Refusal>(())
    /// ```
    pub fn with_constant(&self, node: Node, bits: u8) -> Result<WidthTable, Refusal> {
        let bytes = change_constant(&self.bytes, node, bits)?;
        Ok(WidthTable { bytes })
    }

    /// A table with other bits for the product of a step; refused 4 where the
    /// table has no product widths, where it lacks the product or where the bits
    /// are outside their limits.
    ///
    /// ```
    /// # use suzdrepa::{Node, Pass, Place, Refusal, Width, WidthTable};
    /// let first = Place::new(1, Pass::Rows, Node::P1);
    /// let table = WidthTable::uniform(8, 2, 16, Width::new(12, 12))?;
    /// assert_eq!(table.with_product(first, 15), Err(Refusal::OutsideLimits));
    /// let table = table.with_products(|_| 20)?.with_product(first, 15)?;
    /// assert_eq!(table.product_bits(first), Some(15));
    /// # Ok::<(), Refusal>(())
    /// ```
    pub fn with_product(&self, place: Place, bits: u8) -> Result<WidthTable, Refusal> {
        let bytes = change_product(&self.bytes, place, bits)?;
        Ok(WidthTable { bytes })
    }

    /// The table with these product widths, whether it had some or none; refused
    /// 4 where one is outside its limits.
    ///
    /// ```
    /// # use suzdrepa::{Node, Refusal, Width, WidthTable};
    /// let (kept, others) = (Width::new(12, 4), Width::new(12, 20));
    /// let table = WidthTable::kept_and_others(8, 1, 24, kept, others)?;
    /// let cut = table.with_products(|_| 15)?;
    /// assert_eq!((table.has_products(), cut.has_products()), (false, true));
    /// // So many bits are enough: the error stays below two steps.
    /// assert_eq!(cut.check(), Ok(()));
    /// assert_eq!(cut.without_products(), table);
    /// # Ok::<(), Refusal>(())
    /// ```
    pub fn with_products(&self, product: impl FnMut(Place) -> u8) -> Result<WidthTable, Refusal> {
        let width = |place| self.width(place).unwrap_or(Width::new(0, 0));
        WidthTable::from_parts_with_products(
            self.depth(),
            self.levels(),
            Node::ALL.map(|node| self.constant_bits(node)),
            width,
            product,
        )
    }

    /// The table without product widths; it cuts no product.
    pub fn without_products(&self) -> WidthTable {
        // The fifth field is the last.
        let bytes = self.bytes[..WidthTable::length(self.levels())].to_vec();
        WidthTable { bytes }
    }

    /// Judges the table, as [`check_table`] does: refused 6 or 7.
    pub fn check(&self) -> Result<(), Refusal> {
        check_table(&self.bytes)
    }

    /// Whether planes stored under the table can be viewed, as [`table_view`]
    /// tells: refused 6 or 7, then 13.
    ///
    /// ```
    /// use suzdrepa::{Refusal, Width, WidthTable};
    ///
    /// let table = |levels, integer_bits| {
    ///     let (kept, others) = (Width::new(integer_bits, 2), Width::new(12, 20));
    ///     WidthTable::kept_and_others(8, levels, 24, kept, others)
    /// };
    /// assert_eq!(table(1, 4)?.viewable(), Ok(()));
    /// // Accepted, but with integer bits that no value needs,
    /// assert_eq!(table(3, 12)?.check(), Ok(()));
    /// assert_eq!(table(3, 12)?.viewable(), Err(Refusal::NotViewable));
    /// assert_eq!(table(3, 7)?.viewable(), Ok(()));
    /// // or with more levels than can be viewed at this depth.
    /// assert_eq!(table(4, 8)?.check(), Ok(()));
    /// assert_eq!(table(4, 8)?.viewable(), Err(Refusal::NotViewable));
    /// # Ok::<(), Refusal>(())
    /// ```
    pub fn viewable(&self) -> Result<(), Refusal> {
        table_view(&self.bytes)
    }

    /// How far viewing may lead from what was scanned, as [`view_distance`]
    /// tells, in units of 2^-32: refused 6 or 7, then 13.
    ///
    /// ```
    /// # use suzdrepa::{Bound, Refusal, Width, WidthTable};
    /// let table = |fraction_bits| {
    ///     let (kept, others) = (Width::new(3, fraction_bits), Width::new(12, 20));
    ///     WidthTable::kept_and_others(8, 1, 24, kept, others)
    /// };
    /// let greys = |fraction_bits| {
    ///     let distance = table(fraction_bits)?.view_distance()?;
    ///     Ok::<f64, Refusal>(distance as f64 / (Bound::ONE >> 8) as f64)
    /// };
    /// // Coarser steps lead farther.
    /// assert!(greys(8)? < 10.0 && greys(4)? > 100.0);
    /// # Ok::<(), Refusal>(())
    /// ```
    pub fn view_distance(&self) -> Result<u64, Refusal> {
        view_distance(&self.bytes)
    }

    /// Range and error of a node's values, as [`table_bound`] has them:
    /// refused 4 where the table lacks the node, 6 or 7 where one before it is
    /// refused.
    ///
    /// ```
    /// use suzdrepa::{Node, Pass, Place, Refusal, Width, WidthTable};
    ///
    /// let first = Place::new(1, Pass::Rows, Node::P1);
    /// let table = WidthTable::uniform(8, 1, 24, Width::new(2, 20))?;
    /// // The first node's values get larger than two integer bits hold.
    /// let bound = table.bound(first)?;
    /// assert!(bound.range_as_f64() > 2.0);
    /// assert_eq!(table.check(), Err(Refusal::DoesNotFit(first)));
    /// // Past it nothing is told.
    /// let second = Place::new(1, Pass::Rows, Node::U1);
    /// assert_eq!(table.bound(second), Err(Refusal::DoesNotFit(first)));
    /// # Ok::<(), Refusal>(())
    /// ```
    pub fn bound(&self, place: Place) -> Result<Bound, Refusal> {
        table_bound(&self.bytes, place)
    }
}

impl AsRef<[u8]> for WidthTable {
    fn as_ref(&self) -> &[u8] {
        &self.bytes
    }
}

/// Numbers in table order, and `none` at levels that are not used.
fn in_order<T: Copy, const COUNT: usize>(given: impl Iterator<Item = T>, none: T) -> [T; COUNT] {
    let mut numbers = [none; COUNT];
    for (at, given) in numbers.iter_mut().zip(given) {
        *at = given;
    }
    numbers
}

/// Depth, levels, the bits of the constants, and a line of widths for each
/// pass, with the bits of its products where the table has them.
impl fmt::Display for WidthTable {
    fn fmt(&self, f: &mut fmt::Formatter<'_>) -> fmt::Result {
        writeln!(f, "depth {} bits, {} levels", self.depth(), self.levels())?;
        write!(f, "bits of the constants:")?;
        for node in Node::ALL {
            write!(f, " {node} {}", self.constant_bits(node))?;
        }
        for place in self.places() {
            if place.node == Node::P1 {
                write!(f, "\nlevel {}, {}:", place.level, place.pass)?;
            }
            if let Some(width) = self.width(place) {
                write!(f, " {} {width}", place.node)?;
            }
            if place.node == Node::G2 && self.has_products() {
                write!(f, ", products:")?;
                for node in Node::STEPS {
                    let bits = self.product_bits(Place { node, ..place });
                    write!(f, " {node} {}", bits.unwrap_or(0))?;
                }
            }
        }
        Ok(())
    }
}

#[cfg(test)]
mod tests {
    use super::*;

    const KEPT: Width = Width::new(12, 2);
    const OTHERS: Width = Width::new(11, 20);

    fn table(levels: u8) -> WidthTable {
        WidthTable::kept_and_others(8, levels, 24, KEPT, OTHERS).unwrap()
    }

    #[test]
    fn round_trip() {
        for levels in 1..=5 {
            let table = table(levels);
            let bytes = table.to_bytes();
            assert_eq!(bytes.len(), WidthTable::length(levels));
            assert_eq!(WidthTable::from_bytes(&bytes), Ok(table.clone()));
            assert_eq!((table.depth(), table.levels()), (8, levels));
            for place in table.places() {
                let due = if table.is_kept(place) { KEPT } else { OTHERS };
                assert_eq!(table.width(place), Some(due));
            }
            // Four bands at the last level, three at the others.
            let kept = table.places().filter(|&place| table.is_kept(place));
            assert_eq!(kept.count(), 3 * usize::from(levels) + 1);
        }
        assert_eq!(WidthTable::from_bytes(&[1, 0]), Err(Refusal::CutShort));
        assert_eq!(table(5).as_ref().len(), 200);
    }

    /// Product widths that tell level, pass and step apart.
    fn product(place: Place) -> u8 {
        let [level, pass, step] = place.numbers();
        7 * level + 2 * pass + step - 1
    }

    fn table_with_products(levels: u8) -> WidthTable {
        table(levels).with_products(product).unwrap()
    }

    #[test]
    fn round_trip_with_products() {
        for levels in 1..=5 {
            let (table, plain) = (table_with_products(levels), table(levels));
            let bytes = table.to_bytes();
            assert_eq!(bytes.len(), WidthTable::length_with_products(levels));
            assert_eq!(bytes.len(), 23 + 48 * usize::from(levels));
            assert_eq!(WidthTable::from_bytes(&bytes), Ok(table.clone()));
            assert_eq!((plain.has_products(), table.has_products()), (false, true));
            for place in table.places() {
                let due = place.is_step().then(|| product(place));
                assert_eq!(table.product_bits(place), due);
                assert_eq!(plain.product_bits(place), None);
                assert_eq!(table.width(place), plain.width(place));
            }
            assert_eq!(Place::steps(levels).count(), 12 * usize::from(levels));
            assert_eq!(table.without_products(), plain);
            assert_eq!(plain.without_products(), plain);
            // With others in place of those that it had.
            let other = table.with_products(|_| 9).unwrap();
            assert_eq!(other, plain.with_products(|_| 9).unwrap());
        }
        assert_eq!(table_with_products(5).as_ref().len(), 263);
        assert_eq!(Place::steps(5).count(), WidthTable::MAX_PRODUCTS);
    }

    /// The fifth field cut, of another length, with a number too large, and
    /// followed by more; another byte than 5 in its place.
    #[test]
    fn wrong_forms_of_the_fifth_field() {
        let bytes = table_with_products(2).to_bytes();
        let start = WidthTable::length(2);
        assert_eq!(bytes[start..][..3], [5, 0, 24]);
        let form = |bytes: &[u8]| table_form(bytes).map_err(|refusal| refusal.number());
        assert_eq!(form(&bytes[..start]), Ok(()));
        for length in start + 1..bytes.len() {
            assert_eq!(form(&bytes[..length]), Err(1));
        }
        assert_eq!(form(&bytes), Ok(()));
        assert_eq!(form(&[&bytes[..], &[5]].concat()), Err(5));
        let with = |at: usize, byte: u8| {
            let mut bytes = bytes.clone();
            bytes[at] = byte;
            form(&bytes)
        };
        for byte in 0..=255 {
            let due = if byte == 5 { Ok(()) } else { Err(5) };
            assert_eq!(with(start, byte), due);
            let due = if byte == 24 { Ok(()) } else { Err(3) };
            assert_eq!(with(start + 2, byte), due);
            let due = if byte <= 44 { Ok(()) } else { Err(4) };
            assert_eq!(with(start + 3, byte), due);
            assert_eq!(with(bytes.len() - 1, byte), due);
        }
        // Another byte is 5 at once, whatever follows it or does not.
        assert_eq!(form(&[&bytes[..start], &[4]].concat()), Err(5));
        // The length is judged before the value is looked for.
        assert_eq!(form(&[&bytes[..start], &[5, 0, 25]].concat()), Err(3));
    }

    /// A tag that the table lacks is told after the whole form.
    #[test]
    fn naming_tag_5() {
        let (plain, table) = (table(2), table_with_products(2));
        let value = |bytes: &[u8], tag| {
            let value = table_value(bytes, tag).map(<[u8]>::to_vec);
            value.map_err(|refusal| refusal.number())
        };
        let due: Vec<u8> = Place::steps(2).map(product).collect();
        assert_eq!(value(table.as_bytes(), 5), Ok(due));
        assert_eq!(value(plain.as_bytes(), 5), Err(2));
        assert_eq!(value(&[plain.as_bytes(), &[0]].concat(), 5), Err(5));
        assert_eq!(value(&[plain.as_bytes(), &[0]].concat(), 6), Err(2));
        assert_eq!(value(&plain.as_bytes()[..50], 5), Err(1));
        assert_eq!(value(table.as_bytes(), 6), Err(2));
        assert_eq!(value(table.as_bytes(), 0), Err(2));
        for tag in 1..=4 {
            assert_eq!(value(table.as_bytes(), tag), value(plain.as_bytes(), tag));
        }
    }

    #[test]
    fn one_product_is_changed() {
        let old = table_with_products(3);
        for at in Place::steps(3) {
            let new = old.with_product(at, 44).unwrap();
            for place in old.places() {
                let due = match place == at {
                    true => Some(44),
                    false => old.product_bits(place),
                };
                assert_eq!(new.product_bits(place), due);
                assert_eq!(new.width(place), old.width(place));
            }
            assert_eq!(new.with_product(at, product(at)), Ok(old.clone()));
            let mut out = [7; WidthTable::length_with_products(3) + 1];
            let done = change_product_into(old.as_bytes(), at, 44, &mut out);
            assert_eq!(done, Ok(()));
            assert_eq!(out, *[new.as_bytes(), &[7]].concat());
            let short = &mut out[..new.as_bytes().len() - 1];
            let refused = change_product_into(old.as_bytes(), at, 44, short);
            assert_eq!(refused, Err(Refusal::SliceTooShort));
        }
        let refused = Err(Refusal::OutsideLimits);
        let first = Place::new(1, Pass::Rows, Node::P1);
        assert_eq!(old.with_product(first, 45), refused);
        assert_eq!(old.with_product(first, 255), refused);
        assert_eq!(old.with_product(Place { level: 4, ..first }, 0), refused);
        assert_eq!(old.with_product(Place { level: 0, ..first }, 0), refused);
        for node in [Node::G1, Node::G2] {
            assert_eq!(old.with_product(Place { node, ..first }, 0), refused);
            assert_eq!(old.product_bits(Place { node, ..first }), None);
        }
        assert_eq!(table(3).with_product(first, 0), refused);
        assert_eq!(old.product_bits(Place { level: 4, ..first }), None);
        assert_eq!(old.product_bits(Place { level: 0, ..first }), None);
    }

    /// Changes of other numbers leave product widths as they are.
    #[test]
    fn other_numbers_are_changed_beside_products() {
        let (plain, table) = (table(3), table_with_products(3));
        for at in table.places() {
            let width = Width::new(7, 9);
            let due = plain.with_width(at, width).unwrap();
            let new = table.with_width(at, width).unwrap();
            assert_eq!(new, due.with_products(product).unwrap());
        }
        for node in Node::ALL {
            let due = plain.with_constant(node, 7).unwrap();
            let new = table.with_constant(node, 7).unwrap();
            assert_eq!(new, due.with_products(product).unwrap());
        }
    }

    /// A table with fractional bits that all differ from their neighbours'. A
    /// width of the product's full bits cuts nothing, and the engine finds no
    /// more error there; one bit less is found at that node and not before.
    #[test]
    fn full_bits_of_a_product() {
        let fine = |place: Place| {
            let [_, pass, node] = place.numbers();
            match place.is_kept(3) {
                true => KEPT,
                false => Width::new(12, 20 - (node + 2 * pass) % 6),
            }
        };
        let constants = [24, 23, 22, 21, 24, 24];
        let plain = WidthTable::from_parts(8, 3, constants, fine).unwrap();
        plain.check().unwrap();
        let full = |place| plain.full_product_bits(place).unwrap();
        let table = plain.with_products(full).unwrap();
        for place in plain.places() {
            assert_eq!(table.bound(place), plain.bound(place));
        }
        for place in Place::steps(3) {
            let cut = table.with_product(place, full(place) - 1).unwrap();
            for other in plain.places().filter(|&other| other < place) {
                assert_eq!(cut.bound(other), plain.bound(other));
            }
            assert!(cut.bound(place).unwrap().error > plain.bound(place).unwrap().error);
            let whole = table.with_product(place, 44).unwrap();
            assert_eq!(whole.bound(place), plain.bound(place));
        }
        let lacking = [
            Place::new(4, Pass::Rows, Node::P1),
            Place::new(0, Pass::Rows, Node::P1),
            Place::new(1, Pass::Rows, Node::G2),
        ];
        assert_eq!(
            lacking.map(|place| plain.full_product_bits(place)),
            [None; 3]
        );
        // As many as there can be.
        let widest = WidthTable::uniform(12, 5, 24, Width::new(12, 20)).unwrap();
        let most = Place::steps(5).filter_map(|place| widest.full_product_bits(place));
        assert_eq!(most.max(), Some(WidthTable::MAX_PRODUCT_BITS));
    }

    /// Two pixels of one row, worked by hand: with seven bits a product the high
    /// value falls from above 0 to below it, by a cut towards minus infinity.
    #[test]
    fn a_product_is_cut_downwards_before_the_sum() {
        let (kept, others) = (Width::new(12, 2), Width::new(12, 20));
        let plain = WidthTable::kept_and_others(8, 1, 24, kept, others).unwrap();
        let worked = |table: &WidthTable| crate::forward97_to_vec(table.as_bytes(), &[5, 7], 2, 1);
        assert_eq!(worked(&plain), Ok(vec![-3, 0]));
        for (bits, due) in [(44, [-3, 0]), (8, [-3, 0]), (7, [-3, -1])] {
            let table = plain.with_products(|_| bits).unwrap();
            assert_eq!(worked(&table), Ok(due.to_vec()));
        }
    }

    /// The bytes that the type reads by are those that the engine names.
    #[test]
    fn values_are_where_the_engine_has_them() {
        let mut table = table(2);
        for (bits, node) in (7..).zip(Node::ALL) {
            table = table.with_constant(node, bits).unwrap();
        }
        let value = |tag| table_value(table.as_bytes(), tag).unwrap();
        assert_eq!(value(1), [table.depth()]);
        assert_eq!(value(2), [table.levels()]);
        assert_eq!(value(3), Node::ALL.map(|node| table.constant_bits(node)));
        let widths: Vec<u8> = table
            .places()
            .filter_map(|place| table.width(place))
            .flat_map(|width| [width.integer_bits, width.fraction_bits])
            .collect();
        assert_eq!(value(4), widths);
    }

    #[test]
    fn text_with_products() {
        let table = table(1).with_products(|place| 20 + place.node.number());
        let text = table.unwrap().to_string();
        assert_eq!(text.lines().count(), 5);
        let products = ", products: P1 21 U1 22 P2 23 U2 24";
        let lines = text.lines().skip(2);
        assert!(lines.clone().all(|line| line.ends_with(products)), "{text}");
        assert_eq!(text.replace(products, ""), self::table(1).to_string());
    }

    #[test]
    fn one_width_is_changed() {
        let old = table(3);
        for at in old.places() {
            let new = old.with_width(at, Width::new(7, 9)).unwrap();
            for place in old.places() {
                let due = match place == at {
                    true => Some(Width::new(7, 9)),
                    false => old.width(place),
                };
                assert_eq!(new.width(place), due);
            }
        }
    }

    #[test]
    fn one_constant_is_changed() {
        let old = table(3);
        for at in Node::ALL {
            let new = old.with_constant(at, 7).unwrap();
            for node in Node::ALL {
                assert_eq!(new.constant_bits(node), if node == at { 7 } else { 24 });
            }
            assert_eq!(new.with_constant(at, 24), Ok(old.clone()));
            let outside = [0, 25, 255].map(|bits| old.with_constant(at, bits));
            assert_eq!(outside, [(); 3].map(|()| Err(Refusal::OutsideLimits)));
        }
    }

    /// The parts of a table make the same table, and each stands where it was.
    #[test]
    fn from_parts() {
        for levels in 1..=5 {
            assert_eq!(Place::all(levels).count(), 18 * usize::from(levels));
            let given = |place: Place| {
                let [level, pass, node] = place.numbers();
                Width::new(pass + 3 * (node / 3), level + 4 * (node % 3))
            };
            let table = WidthTable::from_parts(9, levels, [1, 2, 3, 4, 5, 6], given).unwrap();
            assert_eq!((table.depth(), table.levels()), (9, levels));
            for place in table.places() {
                assert_eq!(table.width(place), Some(given(place)));
            }
            let constants = Node::ALL.map(|node| table.constant_bits(node));
            assert_eq!(constants, [1, 2, 3, 4, 5, 6]);
            let width = |place| table.width(place).unwrap();
            let again = WidthTable::from_parts(9, levels, constants, width);
            assert_eq!(again.as_ref(), Ok(&table));
        }
        assert_eq!(Place::all(5).count(), WidthTable::MAX_NODES);
    }

    #[test]
    fn numbers_outside_their_limits_are_refused() {
        let refused = Err(Refusal::OutsideLimits);
        let max = Width::new(WidthTable::MAX_INTEGER_BITS, WidthTable::MAX_FRACTION_BITS);
        let widest = WidthTable::uniform(
            WidthTable::MAX_DEPTH,
            WidthTable::MAX_LEVELS,
            WidthTable::MAX_CONSTANT_BITS,
            max,
        );
        assert!(widest.is_ok());
        for (depth, levels, constant_bits, integer_bits, fraction_bits) in [
            (0, 1, 24, 12, 20),
            (13, 1, 24, 12, 20),
            (8, 0, 24, 12, 20),
            (8, 6, 24, 12, 20),
            (8, 255, 24, 12, 20),
            (8, 1, 0, 12, 20),
            (8, 1, 25, 12, 20),
            (8, 1, 24, 0, 20),
            (8, 1, 24, 13, 20),
            (8, 1, 24, 12, 21),
        ] {
            let width = Width::new(integer_bits, fraction_bits);
            let table = WidthTable::uniform(depth, levels, constant_bits, width);
            assert_eq!(table, refused);
        }
        let table = table(2);
        let place = |level| Place::new(level, Pass::Rows, Node::P1);
        assert_eq!(table.with_width(place(0), max), refused);
        assert_eq!(table.with_width(place(3), max), refused);
        assert_eq!(table.with_width(place(1), Width::new(0, 0)), refused);
        assert_eq!(table.width(place(0)), None);
        assert_eq!(table.width(place(3)), None);
    }

    #[test]
    fn text() {
        assert_eq!(
            table(1).to_string(),
            "depth 8 bits, 1 levels\n\
             bits of the constants: P1 24 U1 24 P2 24 U2 24 G1 24 G2 24\n\
             level 1, rows: P1 (11, 20) U1 (11, 20) P2 (11, 20) U2 (11, 20) G1 (11, 20) G2 (11, 20)\n\
             level 1, low-columns: P1 (11, 20) U1 (11, 20) P2 (11, 20) U2 (11, 20) G1 (12, 2) G2 (12, 2)\n\
             level 1, high-columns: P1 (11, 20) U1 (11, 20) P2 (11, 20) U2 (11, 20) G1 (12, 2) G2 (12, 2)"
        );
    }
}
