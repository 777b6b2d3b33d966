//! Wavelet transforms of scanned roll pictures, over the proved engine.
//!
//! A roll scanner keeps each strip of paper as wavelet coefficients. This
//! crate is the safe Rust face of the engine that works them:
//!
//! * the **9/7 transform** in fixed point, under a *width table* that says how
//!   many bits every intermediate value has ([`forward97`]),
//! * the **rolling scan**, the same with one level for strips of any length that
//!   come line by line ([`Scan`]),
//! * **viewing**, which shows a stored 9/7 plane as a picture ([`view97`]),
//! * the **5/3 transform**, an exact copy that goes back to the same picture
//!   ([`forward53`], [`inverse53`]; [`inverse53_rows_first`] for copies made
//!   earlier),
//! * **width tables**: built, read, judged, changed, written ([`WidthTable`]),
//!   or as plain bytes ([`check_table`], [`table_view`], [`view_distance`],
//!   [`table_bound`], [`table_form`], [`table_value`], [`write_table`],
//!   [`write_table_with_products`], [`change_width`], [`change_constant`],
//!   [`change_product`]).
//!
//! Under a table that [`check_table`] accepts, no picture of its depth and of
//! admitted size drives a value out of its width, and every coefficient stands
//! less than two of its own steps from the exact one. Calls need no setup and
//! no call panics on any input; what is not right comes back as a [`Refusal`].
//!
//! # Pictures and planes
//!
//! Pixels are `u16`, row by row, each below 2^depth with a depth of 1 to 12
//! bits. Levels are 1 to 5. A side is 1 to 4,096, whatever the levels. The plane
//! of coefficients is `i32`, row by row, as large as the picture: after each
//! level the low part stands first in every row and column, so the coarsest
//! picture is in the upper left corner. A row or a column of a single sample, as
//! a strip one sample wide has them, gives that sample as its only low value.
//!
//! # Lent memory
//!
//! The plain functions work in slices of the caller: pixels, plane and a work
//! area, each of at least width times height elements. What lies past that
//! count never changes. A refused call changes nothing, but refusal 11 zeroes
//! the first width times height elements of the work area, as success does.
//! The functions ending in `_to_vec` allocate output and work area themselves.
//!
//! # Exact copies
//!
//! ```
//! let pixels = [5u16, 7, 4, 4];
//! let plane = suzdrepa::forward53_to_vec(3, 1, &pixels, 2, 2)?;
//! assert_eq!(plane, [2, 1, -2, -2]);
//! assert_eq!(suzdrepa::inverse53_to_vec(3, 1, &plane, 2, 2)?, pixels);
//! # Ok::<(), suzdrepa::Refusal>(())
//! ```
//!
//! A copy has the order of JPEG 2000 Part 1: each level works the columns, then
//! the rows. Copies made by earlier versions, which had no
//! [`inverse53_rows_first`], were worked rows first, and go back by that call:
//!
//! ```
//! let earlier = [1, 1, -2, -2];
//! let pixels = suzdrepa::inverse53_rows_first_to_vec(3, 1, &earlier, 2, 2)?;
//! assert_eq!(pixels, [5, 7, 4, 4]);
//! // The other call cannot know: it takes the plane for another picture's.
//! assert_ne!(suzdrepa::inverse53_to_vec(3, 1, &earlier, 2, 2), Ok(pixels));
//! # Ok::<(), suzdrepa::Refusal>(())
//! ```
//!
//! Nothing in the numbers tells the two kinds apart, so the caller keeps with
//! each copy which it is. Given a copy of the other kind, a call refuses it 11,
//! or gives, as a rule, another picture.
//!
//! # Coefficients under a width table
//!
//! ```
//! use suzdrepa::{Place, Width, WidthTable};
//!
//! // Coefficients with 10 fractional bits, everything else as fine as it gets.
//! let table = WidthTable::kept_and_others(3, 1, 24, Width::new(12, 10), Width::new(12, 20))?;
//! table.check()?;
//! let pixels = [5u16, 7, 4, 4];
//! let plane = suzdrepa::forward97_to_vec(table.as_bytes(), &pixels, 2, 2)?;
//! // What the first coefficient means.
//! let place = Place::of_coefficient(table.levels(), (2, 2), 0, 0).expect("it is in the plane");
//! let width = table.width(place).expect("the table has the level");
//! let value = f64::from(plane[0]) / f64::from(1 << width.fraction_bits);
//! assert!((value - 0.25).abs() < 2.0 / 1024.0);
//! # Ok::<(), suzdrepa::Refusal>(())
//! ```
//!
//! # Product widths
//!
//! Each step of the lifting adds to a value a product: its constant times the
//! sum of two neighbours. A table may say to how many fractional bits each
//! product is cut, downwards, before it is added, as hardware with narrow
//! multipliers does; a table that says nothing of products cuts none. The cuts
//! count in the error of their steps, so that an accepted table promises the
//! same either way:
//!
//! ```
//! use suzdrepa::{Refusal, Width, WidthTable};
//!
//! let table = WidthTable::kept_and_others(8, 1, 24, Width::new(12, 8), Width::new(12, 20))?;
//! let pixels: Vec<u16> = (0..64).map(|i| i * i % 251).collect();
//! let plane = suzdrepa::forward97_to_vec(table.as_bytes(), &pixels, 8, 8)?;
//!
//! // No product has more than 44 bits: nothing is cut.
//! let whole = table.with_products(|_| 44)?;
//! assert_eq!(suzdrepa::forward97_to_vec(whole.as_bytes(), &pixels, 8, 8)?, plane);
//! // Other coefficients, but each less than two steps from the exact one.
//! let cut = table.with_products(|_| 13)?;
//! cut.check()?;
//! assert_ne!(suzdrepa::forward97_to_vec(cut.as_bytes(), &pixels, 8, 8)?, plane);
//! // Too rough for steps of 2^-8.
//! let rough = table.with_products(|_| 12)?;
//! assert_eq!(rough.check().unwrap_err().number(), 7);
//! # Ok::<(), Refusal>(())
//! ```
//!
//! # Strips that come line by line
//!
//! A [`Scan`] takes the lines of a strip one by one, however many they are, with
//! memory for eleven lines, and gives the rows of its plane as soon as they are
//! ready:
//!
//! ```
//! use suzdrepa::{Scan, Width, WidthTable};
//!
//! let table = WidthTable::kept_and_others(3, 1, 24, Width::new(12, 10), Width::new(12, 20))?;
//! let mut scan = Scan::begin(table.as_bytes())?;
//! assert_eq!(scan.line(&[5, 7])?.len(), 0);
//! assert_eq!(scan.line(&[4, 4])?.len(), 0);
//! let plane: Vec<i32> = scan.end()?.flat_map(|line| line.values).copied().collect();
//! let pixels = [5, 7, 4, 4];
//! assert_eq!(plane, suzdrepa::forward97_to_vec(table.as_bytes(), &pixels, 2, 2)?);
//! # Ok::<(), suzdrepa::Refusal>(())
//! ```
//!
//! # Viewing
//!
//! A stored plane is shown as a picture under a table that
//! [`table_view`] accepts: then every value is less than half a grey from the
//! exact inverse of what is stored, and the pixel shown is one of the two greys
//! nearest to it. [`view_distance`] tells how far viewing may lead from what
//! was scanned.
//!
//! ```
//! use suzdrepa::{Bound, Width, WidthTable};
//!
//! let table = WidthTable::kept_and_others(3, 1, 24, Width::new(3, 10), Width::new(12, 20))?;
//! table.viewable()?;
//! let pixels = [5u16, 7, 4, 4];
//! let plane = suzdrepa::forward97_to_vec(table.as_bytes(), &pixels, 2, 2)?;
//! // A grey is 2^-3; less than a tenth of one changes no pixel.
//! let greys = table.view_distance()? as f64 / (Bound::ONE >> 3) as f64;
//! assert!(greys < 0.1);
//! assert_eq!(suzdrepa::view97_to_vec(table.as_bytes(), &plane, 2, 2)?, pixels);
//! # Ok::<(), suzdrepa::Refusal>(())
//! ```
//!
//! Many levels and deep pixels do not go together: tables that can be viewed
//! exist with one level at any depth, with two up to 11 bits, three up to 9,
//! four up to 7 and five up to 5 bits. Beyond that every table is refused 13.

mod place;
mod refusal;
mod scan;
mod table;

pub use place::{Bound, Node, Pass, Place, Width};
pub use refusal::Refusal;
pub use scan::{Given, GivenLine, LineKind, Scan};
pub use table::{
    change_constant, change_constant_into, change_product, change_product_into, change_width,
    change_width_into, check_table, table_bound, table_form, table_value, table_view,
    view_distance, write_table, write_table_with_products, WidthTable,
};

use suzdrepa_sys as sys;

/// The maximum side of a picture, and of a line of a rolling scan; a scan may
/// have more lines.
pub const MAX_SIDE: usize = sys::SUZ_MAX_SIDE;

/// Works a picture into 9/7 coefficients under a width table.
///
/// Depth and levels are the table's. A coefficient `v` means `v / 2^f` with
/// the fractional bits `f` of the node that gave it. Refused 1 to 5 by the
/// table's bytes, then 6 and 7, then 8 (sides), 9 (a slice too short), 10 (a
/// pixel too large).
pub fn forward97(
    table: &[u8],
    pixels: &[u16],
    width: usize,
    height: usize,
    plane: &mut [i32],
    work: &mut [i32],
) -> Result<(), Refusal> {
    // SAFETY: pointers and lengths are those of slices; `plane` and `work`
    // are exclusive.
    Refusal::from_answer(unsafe {
        sys::suz_forward97(
            table.as_ptr(),
            table.len(),
            pixels.as_ptr(),
            pixels.len(),
            width,
            height,
            plane.as_mut_ptr(),
            plane.len(),
            work.as_mut_ptr(),
            work.len(),
        )
    })
}

/// As [`forward97`], with a plane of its own.
pub fn forward97_to_vec(
    table: &[u8],
    pixels: &[u16],
    width: usize,
    height: usize,
) -> Result<Vec<i32>, Refusal> {
    let (mut plane, mut work) = plane_and_work(width, height);
    forward97(table, pixels, width, height, &mut plane, &mut work)?;
    Ok(plane)
}

/// Shows a stored 9/7 plane as a picture.
///
/// Depth and levels are the table's. The plane need not be one that
/// [`forward97`] stored; whatever is stored, every value before rounding is
/// less than half a grey from its exact inverse. Refused 1 to 5 by the table's
/// bytes, then 6 and 7, then 13 (see [`table_view`]), 8 (sides), 9 (a slice too
/// short), 12 where a coefficient is outside the width of the node that gives
/// its place.
pub fn view97(
    table: &[u8],
    plane: &[i32],
    width: usize,
    height: usize,
    pixels: &mut [u16],
    work: &mut [i64],
) -> Result<(), Refusal> {
    // SAFETY: pointers and lengths are those of slices; `pixels` and `work`
    // are exclusive.
    Refusal::from_answer(unsafe {
        sys::suz_view97(
            table.as_ptr(),
            table.len(),
            plane.as_ptr(),
            plane.len(),
            width,
            height,
            pixels.as_mut_ptr(),
            pixels.len(),
            work.as_mut_ptr(),
            work.len(),
        )
    })
}

/// As [`view97`], with pixels of its own.
pub fn view97_to_vec(
    table: &[u8],
    plane: &[i32],
    width: usize,
    height: usize,
) -> Result<Vec<u16>, Refusal> {
    let count = elements(width, height);
    let (mut pixels, mut work) = (vec![0; count], vec![0; count]);
    view97(table, plane, width, height, &mut pixels, &mut work)?;
    Ok(pixels)
}

/// Works a picture into its exact 5/3 copy, as JPEG 2000 Part 1 does: each
/// level the columns, then the rows. [`inverse53`] takes it back.
///
/// Refused 4 (depth or levels), 8 (sides), 9 (a slice too short), 10 (a pixel
/// too large).
pub fn forward53(
    depth: u8,
    levels: u8,
    pixels: &[u16],
    width: usize,
    height: usize,
    plane: &mut [i32],
    work: &mut [i32],
) -> Result<(), Refusal> {
    // SAFETY: pointers and lengths are those of slices; `plane` and `work`
    // are exclusive.
    Refusal::from_answer(unsafe {
        sys::suz_forward53(
            depth,
            levels,
            pixels.as_ptr(),
            pixels.len(),
            width,
            height,
            plane.as_mut_ptr(),
            plane.len(),
            work.as_mut_ptr(),
            work.len(),
        )
    })
}

/// As [`forward53`], with a plane of its own.
pub fn forward53_to_vec(
    depth: u8,
    levels: u8,
    pixels: &[u16],
    width: usize,
    height: usize,
) -> Result<Vec<i32>, Refusal> {
    let (mut plane, mut work) = plane_and_work(width, height);
    forward53(depth, levels, pixels, width, height, &mut plane, &mut work)?;
    Ok(plane)
}

/// Turns an exact 5/3 copy, worked columns first as by [`forward53`], back into
/// its picture. Copies made earlier, rows first, are for
/// [`inverse53_rows_first`].
///
/// Refused 4 (depth or levels), 8 (sides), 9 (a slice too short), 11 where no
/// picture of that depth and size has this plane in this order.
pub fn inverse53(
    depth: u8,
    levels: u8,
    plane: &[i32],
    width: usize,
    height: usize,
    pixels: &mut [u16],
    work: &mut [i32],
) -> Result<(), Refusal> {
    let copy = ExactCopy {
        order: Order::ColumnsFirst,
        depth,
        levels,
        plane,
        width,
        height,
    };
    copy.back(pixels, work)
}

/// As [`inverse53`], with pixels of its own.
pub fn inverse53_to_vec(
    depth: u8,
    levels: u8,
    plane: &[i32],
    width: usize,
    height: usize,
) -> Result<Vec<u16>, Refusal> {
    let count = elements(width, height);
    let (mut pixels, mut work) = (vec![0; count], vec![0; count]);
    inverse53(depth, levels, plane, width, height, &mut pixels, &mut work)?;
    Ok(pixels)
}

/// Turns an exact 5/3 copy that was made earlier, rows first, back into its
/// picture. Copies that [`forward53`] makes are for [`inverse53`].
///
/// Refused as [`inverse53`]: 4, 8, 9, 11.
pub fn inverse53_rows_first(
    depth: u8,
    levels: u8,
    plane: &[i32],
    width: usize,
    height: usize,
    pixels: &mut [u16],
    work: &mut [i32],
) -> Result<(), Refusal> {
    let copy = ExactCopy {
        order: Order::RowsFirst,
        depth,
        levels,
        plane,
        width,
        height,
    };
    copy.back(pixels, work)
}

/// As [`inverse53_rows_first`], with pixels of its own.
pub fn inverse53_rows_first_to_vec(
    depth: u8,
    levels: u8,
    plane: &[i32],
    width: usize,
    height: usize,
) -> Result<Vec<u16>, Refusal> {
    let count = elements(width, height);
    let (mut pixels, mut work) = (vec![0; count], vec![0; count]);
    inverse53_rows_first(depth, levels, plane, width, height, &mut pixels, &mut work)?;
    Ok(pixels)
}

/// What each level of a copy worked first.
enum Order {
    ColumnsFirst,
    RowsFirst,
}

/// What both ways back are given.
struct ExactCopy<'a> {
    order: Order,
    depth: u8,
    levels: u8,
    plane: &'a [i32],
    width: usize,
    height: usize,
}

impl ExactCopy<'_> {
    /// Back by the call of its order.
    fn back(&self, pixels: &mut [u16], work: &mut [i32]) -> Result<(), Refusal> {
        let call = match self.order {
            Order::ColumnsFirst => sys::suz_inverse53,
            Order::RowsFirst => sys::suz_inverse53_rows_first,
        };
        // SAFETY: pointers and lengths are those of slices; `pixels` and
        // `work` are exclusive.
        Refusal::from_answer(unsafe {
            call(
                self.depth,
                self.levels,
                self.plane.as_ptr(),
                self.plane.len(),
                self.width,
                self.height,
                pixels.as_mut_ptr(),
                pixels.len(),
                work.as_mut_ptr(),
                work.len(),
            )
        })
    }
}

fn plane_and_work(width: usize, height: usize) -> (Vec<i32>, Vec<i32>) {
    let count = elements(width, height);
    (vec![0; count], vec![0; count])
}

/// Width times height. Nothing is allocated for a side that no call admits:
/// such a call is refused before its slices are looked at.
fn elements(width: usize, height: usize) -> usize {
    if width <= MAX_SIDE && height <= MAX_SIDE {
        width * height
    } else {
        0
    }
}

#[cfg(test)]
mod tests {
    use super::*;

    #[test]
    fn no_memory_is_asked_for_sides_that_are_not_admitted() {
        assert_eq!(elements(4096, 4096), 1 << 24);
        assert_eq!(elements(4097, 2), 0);
        assert_eq!(elements(usize::MAX, usize::MAX), 0);
        let refusal = forward53_to_vec(8, 1, &[], usize::MAX, usize::MAX).unwrap_err();
        assert_eq!(refusal.number(), 8);
        let refusal = inverse53_to_vec(8, 1, &[], usize::MAX, 2).unwrap_err();
        assert_eq!(refusal.number(), 8);
        let refusal = inverse53_rows_first_to_vec(8, 1, &[], usize::MAX, 2).unwrap_err();
        assert_eq!(refusal.number(), 8);
        for levels in 1..=5 {
            for (width, height) in [(0, 0), (0, 1), (1, 0), (1, 4097), (4097, 1)] {
                let refusal = forward53_to_vec(8, levels, &[], width, height).unwrap_err();
                assert_eq!(refusal, Refusal::SideNotAdmitted);
            }
        }
        let (kept, others) = (Width::new(4, 10), Width::new(12, 20));
        let table = WidthTable::kept_and_others(8, 1, 24, kept, others).unwrap();
        let refusal = view97_to_vec(table.as_bytes(), &[], usize::MAX, 2).unwrap_err();
        assert_eq!(refusal.number(), 8);
    }

    /// One pixel, and strips one sample wide and high, through every transform.
    #[test]
    fn single_samples_are_let_through() {
        let (kept, others) = (Width::new(6, 10), Width::new(12, 20));
        for levels in 1..=3 {
            let table = WidthTable::kept_and_others(3, levels, 24, kept, others).unwrap();
            let table = table.as_bytes();
            let plane = forward97_to_vec(table, &[6], 1, 1).unwrap();
            // 2 / 2^3, with ten fractional bits.
            assert_eq!(plane, [256]);
            assert_eq!(view97_to_vec(table, &plane, 1, 1), Ok(vec![6]));
            assert_eq!(forward53_to_vec(3, levels, &[6], 1, 1), Ok(vec![2]));
            for (width, height) in [(1, 2), (2, 1)] {
                let copy = forward53_to_vec(3, levels, &[5, 7], width, height);
                assert_eq!(copy, Ok(vec![2, 2]));
                for back in [inverse53_to_vec, inverse53_rows_first_to_vec] {
                    let pixels = back(3, levels, &[2, 2], width, height);
                    assert_eq!(pixels, Ok(vec![5, 7]));
                }
            }
        }
    }

    #[test]
    fn empty_slices_are_taken() {
        assert_eq!(check_table(&[]).unwrap_err().number(), 1);
        assert_eq!(table_form(&[]).unwrap_err().number(), 1);
        assert_eq!(table_view(&[]).unwrap_err().number(), 1);
        assert_eq!(view_distance(&[]).unwrap_err().number(), 1);
        let refusal = view97(&[], &[], 2, 2, &mut [], &mut []).unwrap_err();
        assert_eq!(refusal.number(), 1);
        let place = Place::new(1, Pass::Rows, Node::P1);
        assert_eq!(table_bound(&[], place).unwrap_err().number(), 1);
        assert_eq!(table_value(&[], 1).unwrap_err().number(), 1);
        assert_eq!(table_value(&[], 0).unwrap_err().number(), 2);
        let refusal = change_width(&[], place, Width::new(1, 1)).unwrap_err();
        assert_eq!(refusal.number(), 1);
        let refusal = change_constant(&[], Node::P1, 1).unwrap_err();
        assert_eq!(refusal.number(), 1);
        assert_eq!(change_product(&[], place, 1).unwrap_err().number(), 1);
        assert_eq!(table_value(&[], 5).unwrap_err().number(), 1);
        assert_eq!(table_value(&[], 6).unwrap_err().number(), 2);
        let widths = &mut [Width::new(0, 0); WidthTable::MAX_NODES];
        widths[..18].fill(Width::new(1, 1));
        let refusal = write_table(8, 1, [1; 6], widths, &mut []).unwrap_err();
        assert_eq!(refusal.number(), 9);
        let products = &[0; WidthTable::MAX_PRODUCTS];
        let refusal = write_table_with_products(8, 1, [1; 6], widths, products, &mut []);
        assert_eq!(refusal.unwrap_err().number(), 9);
        let refusal = forward53(8, 1, &[], 2, 2, &mut [], &mut []).unwrap_err();
        assert_eq!(refusal.number(), 9);
        let refusal = inverse53(8, 1, &[], 2, 2, &mut [], &mut []).unwrap_err();
        assert_eq!(refusal.number(), 9);
        let refusal = inverse53_rows_first(8, 1, &[], 2, 2, &mut [], &mut []).unwrap_err();
        assert_eq!(refusal.number(), 9);
    }
}
