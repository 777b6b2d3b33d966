//! Every call but those of the rolling scan, with its order of refusals and what
//! it leaves in lent memory. A refused call leaves everything untouched, but 11
//! zeroes the work area's first width times height elements, as success of any
//! transform does.

use crate::places::{kept_node, side_admitted};
use crate::precision::{bound_of, verdict};
use crate::refusal::{Place, Refusal};
use crate::reversible53::Order;
use crate::table::{value_of_tag, Width, WidthTable, PRODUCTS, WIDTHS};
use crate::{fixed97, fixed_inverse97, reversible53, viewing};
use std::ops::Range;

/// Reads a width table and judges it: 1 to 5, then 6 and 7.
pub fn table_check(table: &[u8]) -> Result<(), Refusal> {
    verdict(&WidthTable::read(table)?)
}

/// Reads a width table and does not judge it: 1 to 5.
pub fn table_form(table: &[u8]) -> Result<(), Refusal> {
    WidthTable::read(table)?;
    Ok(())
}

/// Range and error of a node: 1 to 5 of the bytes, 4 for the node, then 6 and
/// 7 of the nodes before it.
pub fn table_bound(
    table: &[u8],
    place: Place,
    range: &mut u64,
    error: &mut u64,
) -> Result<(), Refusal> {
    let bound = bound_of(&WidthTable::read(table)?, place)?;
    let number = |bound: u128| u64::try_from(bound).expect("what enters a node fits its width");
    (*range, *error) = (number(bound.range), number(bound.error));
    Ok(())
}

/// Where the value of a tag stands: 2 for the name, then 1 to 5, then 2 for tag
/// 5 where there is none.
pub fn table_value(table: &[u8], tag: u8) -> Result<Range<usize>, Refusal> {
    value_of_tag(table, tag)
}

/// Changes one width and writes the new table: 1 to 5 of the bytes, 4 of the
/// change, 9.
pub fn table_change(
    table: &[u8],
    level: u8,
    pass: u8,
    node: u8,
    width: Width,
    out: &mut [u8],
) -> Result<(), Refusal> {
    let (new, done) = WidthTable::read(table)?.changed(level, pass, node, width);
    done?;
    new.write(out)
}

/// Changes the bits of one constant and writes the new table: 1 to 5 of the
/// bytes, 4 of the change, 9.
pub fn table_change_constant(
    table: &[u8],
    node: u8,
    bits: u8,
    out: &mut [u8],
) -> Result<(), Refusal> {
    let (new, done) = WidthTable::read(table)?.constant_changed(node, bits);
    done?;
    new.write(out)
}

/// Changes the bits of one product and writes the new table: 1 to 5 of the
/// bytes, 4 of the change, 9.
pub fn table_change_product(
    table: &[u8],
    level: u8,
    pass: u8,
    product: u8,
    bits: u8,
    out: &mut [u8],
) -> Result<(), Refusal> {
    let (new, done) = WidthTable::read(table)?.product_changed(level, pass, product, bits);
    done?;
    new.write(out)
}

/// Writes the table of these parts, without tag 5: 4, 9.
pub fn table_write(
    depth: u8,
    levels: u8,
    constants: &[u8; 6],
    widths: &[u8; WIDTHS],
    out: &mut [u8],
) -> Result<(), Refusal> {
    WidthTable::of_parts(depth, levels, *constants, widths).write(out)
}

/// Writes the table of these parts, with or without tag 5: 4, 9.
pub fn table_write_products(
    depth: u8,
    levels: u8,
    constants: &[u8; 6],
    widths: &[u8; WIDTHS],
    has_products: bool,
    products: &[u8; PRODUCTS],
    out: &mut [u8],
) -> Result<(), Refusal> {
    WidthTable::of_parts(depth, levels, *constants, widths)
        .and_products(has_products, products)
        .write(out)
}

/// 9/7 forward: 1 to 5 of the bytes, then 6 and 7, 8, 9, 10.
pub fn forward97(
    table: &[u8],
    pixels: &[u16],
    width: usize,
    height: usize,
    plane: &mut [i32],
    work: &mut [i32],
) -> Result<(), Refusal> {
    let table = WidthTable::read(table)?;
    verdict(&table)?;
    let count = sides(width, height)?;
    lengths(count, &[pixels.len(), plane.len(), work.len()])?;
    let pixels = &pixels[..count];
    depth_of_pixels(pixels, table.depth)?;
    let worked = fixed97::transform(&table, pixels, width, height);
    for (place, value) in plane.iter_mut().zip(worked.plane) {
        *place = i32::try_from(value).expect("a kept width is at most 32 bits");
    }
    work[..count].fill(0);
    Ok(())
}

/// Whether viewing would refuse a table: 1 to 5, 6 and 7, 13.
pub fn table_view(table: &[u8]) -> Result<(), Refusal> {
    viewable_table(table)?;
    Ok(())
}

/// How far a viewed value before rounding may stand from the scanned pixel's
/// value, in 2^-32: 1 to 5, 6 and 7, 13.
pub fn view_distance(table: &[u8], distance: &mut u64) -> Result<(), Refusal> {
    let bound = viewing::distance(&viewable_table(table)?);
    *distance = u64::try_from(bound).expect("a viewable table's numbers are small");
    Ok(())
}

/// Viewing, the picture of a stored 9/7 plane: 1 to 5 of the bytes, then 6 and
/// 7, 13, 8, 9, 12.
pub fn view97(
    table: &[u8],
    plane: &[i32],
    width: usize,
    height: usize,
    pixels: &mut [u16],
    work: &mut [i64],
) -> Result<(), Refusal> {
    let table = viewable_table(table)?;
    let count = sides(width, height)?;
    lengths(count, &[pixels.len(), plane.len(), work.len()])?;
    let plane: Vec<i128> = plane[..count].iter().map(|&v| i128::from(v)).collect();
    widths_of_coefficients(&table, &plane, width, height)?;
    let undone = fixed_inverse97::undo(&table, &plane, width, height);
    for (place, value) in pixels.iter_mut().zip(undone.values) {
        *place = fixed_inverse97::pixel(value, table.depth);
    }
    work[..count].fill(0);
    Ok(())
}

/// 5/3 forward, columns first: 4, 8, 9, 10.
pub fn forward53(
    depth: u8,
    levels: u8,
    pixels: &[u16],
    width: usize,
    height: usize,
    plane: &mut [i32],
    work: &mut [i32],
) -> Result<(), Refusal> {
    depth_and_levels(depth, levels)?;
    let count = sides(width, height)?;
    lengths(count, &[pixels.len(), plane.len(), work.len()])?;
    let pixels = &pixels[..count];
    depth_of_pixels(pixels, depth)?;
    let order = Order::ColumnsFirst;
    let worked = reversible53::forward(order, depth, levels, pixels, width, height);
    for (place, value) in plane.iter_mut().zip(worked) {
        *place = i32::try_from(value).expect("12-bit pixels give small coefficients");
    }
    work[..count].fill(0);
    Ok(())
}

/// 5/3 back, of a copy worked columns first: 4, 8, 9, 11.
pub fn inverse53(
    depth: u8,
    levels: u8,
    plane: &[i32],
    width: usize,
    height: usize,
    pixels: &mut [u16],
    work: &mut [i32],
) -> Result<(), Refusal> {
    depth_and_levels(depth, levels)?;
    let count = sides(width, height)?;
    lengths(count, &[pixels.len(), plane.len(), work.len()])?;
    let order = Order::ColumnsFirst;
    let picture = reversible53::back(order, depth, levels, &plane[..count], width, height);
    hand_over(picture, &mut pixels[..count], &mut work[..count])
}

/// 5/3 back, of a copy made earlier, rows first: 4, 8, 9, 11.
pub fn inverse53_rows_first(
    depth: u8,
    levels: u8,
    plane: &[i32],
    width: usize,
    height: usize,
    pixels: &mut [u16],
    work: &mut [i32],
) -> Result<(), Refusal> {
    depth_and_levels(depth, levels)?;
    let count = sides(width, height)?;
    lengths(count, &[pixels.len(), plane.len(), work.len()])?;
    let order = Order::RowsFirst;
    let picture = reversible53::back(order, depth, levels, &plane[..count], width, height);
    hand_over(picture, &mut pixels[..count], &mut work[..count])
}

/// What a way back leaves, where there is a picture and where there is none
/// (11).
fn hand_over(
    picture: Option<Vec<u16>>,
    pixels: &mut [u16],
    work: &mut [i32],
) -> Result<(), Refusal> {
    work.fill(0);
    match picture {
        Some(picture) => {
            pixels.copy_from_slice(&picture);
            Ok(())
        }
        None => Err(Refusal::plain(11)),
    }
}

/// The table, where neither the judge nor viewing refuses it.
fn viewable_table(table: &[u8]) -> Result<WidthTable, Refusal> {
    let table = WidthTable::read(table)?;
    verdict(&table)?;
    viewing::viewable(&table)?;
    Ok(table)
}

fn depth_and_levels(depth: u8, levels: u8) -> Result<(), Refusal> {
    if (1..=12).contains(&depth) && (1..=5).contains(&levels) {
        Ok(())
    } else {
        Err(Refusal::plain(4))
    }
}

/// Width times height, where both sides are admitted.
fn sides(width: usize, height: usize) -> Result<usize, Refusal> {
    if side_admitted(width) && side_admitted(height) {
        Ok(width * height)
    } else {
        Err(Refusal::plain(8))
    }
}

pub(crate) fn lengths(count: usize, lent: &[usize]) -> Result<(), Refusal> {
    if lent.iter().all(|&n| n >= count) {
        Ok(())
    } else {
        Err(Refusal::plain(9))
    }
}

pub(crate) fn depth_of_pixels(pixels: &[u16], depth: u8) -> Result<(), Refusal> {
    if pixels.iter().all(|&p| p < 1 << depth) {
        Ok(())
    } else {
        Err(Refusal::plain(10))
    }
}

fn widths_of_coefficients(
    table: &WidthTable,
    plane: &[i128],
    width: usize,
    height: usize,
) -> Result<(), Refusal> {
    let holds = |(i, &v): (usize, &i128)| {
        let node = kept_node(width, height, table.levels, i % width, i / width);
        table.width(node).holds(v)
    };
    if plane.iter().enumerate().all(holds) {
        Ok(())
    } else {
        Err(Refusal::plain(12))
    }
}

#[cfg(test)]
mod tests {
    use super::*;

    fn generous(depth: u8, levels: u8) -> Vec<u8> {
        WidthTable::kept_and_others(depth, levels, 24, Width::new(12, 2), Width::new(12, 20))
            .bytes()
            .unwrap()
    }

    fn number(result: Result<(), Refusal>) -> u8 {
        result.unwrap_err().number
    }

    #[test]
    fn order_of_5_3_forward() {
        let pixels = [0u16, 1, 1, 0, 9];
        let run = |depth, levels, pixels: &[u16], w, h, plane_len: usize, work_len: usize| {
            let (mut plane, mut work) = (vec![7; plane_len], vec![7; work_len]);
            let number = number(forward53(
                depth, levels, pixels, w, h, &mut plane, &mut work,
            ));
            assert!(plane.iter().chain(&work).all(|&v| v == 7));
            number
        };
        assert_eq!(run(0, 1, &pixels, 1, 1, 0, 0), 4);
        assert_eq!(run(13, 1, &pixels, 2, 2, 4, 4), 4);
        assert_eq!(run(1, 0, &pixels, 2, 2, 4, 4), 4);
        assert_eq!(run(1, 6, &pixels, 2, 2, 4, 4), 4);
        assert_eq!(run(1, 1, &pixels, usize::MAX, usize::MAX, 0, 0), 8);
        for levels in 1..=5 {
            for (w, h) in WITHOUT_A_PICTURE {
                assert_eq!(run(1, levels, &pixels, w, h, 0, 0), 8);
            }
            assert_eq!(run(1, levels, &[], 1, 1, 1, 1), 9);
            assert_eq!(run(1, levels, &[2], 1, 2, 2, 2), 9);
            assert_eq!(run(1, levels, &[2], 1, 1, 0, 1), 9);
            assert_eq!(run(1, levels, &[2], 1, 1, 1, 1), 10);
        }
        assert_eq!(run(1, 1, &[2, 2, 2], 2, 2, 4, 4), 9);
        assert_eq!(run(1, 1, &[2, 2, 2, 2], 2, 2, 3, 4), 9);
        assert_eq!(run(1, 1, &[2, 2, 2, 2], 2, 2, 4, 3), 9);
        assert_eq!(run(1, 1, &[0, 1, 1, 2], 2, 2, 4, 4), 10);
    }

    /// Sides that are refused 8, whatever the levels.
    const WITHOUT_A_PICTURE: [(usize, usize); 6] =
        [(0, 0), (0, 1), (1, 0), (0, 4097), (1, 4097), (4097, 2)];

    /// A way back: depth, levels, plane, sides, pixels, work area.
    type WayBack = fn(u8, u8, &[i32], usize, usize, &mut [u16], &mut [i32]) -> Result<(), Refusal>;

    /// Both, with the copy that goes back by each to 5 7 over 4 4.
    const WAYS_BACK: [(WayBack, [i32; 4]); 2] = [
        (inverse53, [2, 1, -2, -2]),
        (inverse53_rows_first, [1, 1, -2, -2]),
    ];

    #[test]
    fn order_of_5_3_back() {
        let outside = [99; 5];
        for (back, _) in WAYS_BACK {
            let run = |depth, levels, plane: &[i32], w, h, pixels_len: usize, work_len: usize| {
                let (mut pixels, mut work) = (vec![7; pixels_len], vec![7; work_len]);
                let number = number(back(depth, levels, plane, w, h, &mut pixels, &mut work));
                assert!(pixels.iter().all(|&p| p == 7) && work.iter().all(|&v| v == 7));
                number
            };
            assert_eq!(run(0, 1, &outside, 1, 1, 0, 0), 4);
            assert_eq!(run(13, 1, &outside, 2, 2, 4, 4), 4);
            assert_eq!(run(1, 0, &outside, 2, 2, 4, 4), 4);
            assert_eq!(run(1, 6, &outside, 2, 2, 4, 4), 4);
            assert_eq!(run(1, 1, &outside, usize::MAX, usize::MAX, 0, 0), 8);
            for levels in 1..=5 {
                for (w, h) in WITHOUT_A_PICTURE {
                    assert_eq!(run(1, levels, &outside, w, h, 0, 0), 8);
                }
                assert_eq!(run(1, levels, &outside[..1], 2, 1, 2, 2), 9);
                assert_eq!(run(1, levels, &outside, 1, 1, 1, 0), 9);
            }
            assert_eq!(run(1, 1, &outside[..3], 2, 2, 4, 4), 9);
            assert_eq!(run(1, 1, &outside, 2, 2, 3, 4), 9);
            assert_eq!(run(1, 1, &outside, 2, 2, 4, 3), 9);
        }
    }

    /// Sides that were refused before job 6 are worked and come back; where one
    /// is a single sample, the two orders are one.
    #[test]
    fn strips_one_sample_wide() {
        for (w, h) in [(1, 1), (1, 5), (5, 1), (2, 2), (3, 5)] {
            let count = w * h;
            let pixels: Vec<u16> = (0..count).map(|i| (i * i * 5 % 8) as u16).collect();
            for levels in 1..=5 {
                let (mut plane, mut work) = (vec![50; count + 1], vec![60; count + 2]);
                forward53(3, levels, &pixels, w, h, &mut plane, &mut work).unwrap();
                assert_eq!((plane[count], &work[count..]), (50, &[60; 2][..]));
                assert!(work[..count].iter().all(|&v| v == 0));
                let ways = if w.min(h) == 1 { 2 } else { 1 };
                for (back, _) in &WAYS_BACK[..ways] {
                    let mut plane = plane.clone();
                    let (mut picture, mut work) = (vec![70; count + 1], vec![60; count]);
                    back(3, levels, &plane, w, h, &mut picture, &mut work).unwrap();
                    assert_eq!((&picture[..count], picture[count]), (&pixels[..], 70));
                    // So much more in LL leaves three bits.
                    plane[0] += 100;
                    let refused = back(3, levels, &plane, w, h, &mut picture, &mut work);
                    assert_eq!(number(refused), 11);
                    assert_eq!(&picture[..count], pixels);
                }
            }
        }
    }

    #[test]
    fn lent_memory_past_the_picture_stays() {
        let pixels = [5u16, 7, 4, 4, 999];
        let (mut plane, mut work) = ([50; 6], [60; 7]);
        forward53(3, 1, &pixels, 2, 2, &mut plane, &mut work).unwrap();
        assert_eq!(plane, [2, 1, -2, -2, 50, 50]);
        assert_eq!(work, [0, 0, 0, 0, 60, 60, 60]);
        for (back, copy) in WAYS_BACK {
            plane[..4].copy_from_slice(&copy);
            let mut pixels = [77u16; 6];
            let mut work = [60; 5];
            back(3, 1, &plane, 2, 2, &mut pixels, &mut work).unwrap();
            assert_eq!(pixels, [5, 7, 4, 4, 77, 77]);
            assert_eq!(work, [0, 0, 0, 0, 60]);
        }
    }

    #[test]
    fn refusal_11_zeroes_the_work_area_alone() {
        let plane = [i32::MAX, 1, i32::MIN, -2, 3];
        for (back, _) in WAYS_BACK {
            let mut pixels = [77u16; 5];
            let mut work = [60; 6];
            let refused = back(3, 1, &plane, 2, 2, &mut pixels, &mut work);
            assert_eq!(number(refused), 11);
            assert_eq!(pixels, [77; 5]);
            assert_eq!(work, [0, 0, 0, 0, 60, 60]);
        }
    }

    #[test]
    fn order_of_9_7() {
        let table = generous(1, 1);
        let run = |table: &[u8], pixels: &[u16], w, h, plane_len: usize| {
            let (mut plane, mut work) = (vec![7; plane_len], vec![7; 4]);
            let number = number(forward97(table, pixels, w, h, &mut plane, &mut work));
            assert!(plane.iter().chain(&work).all(|&v| v == 7));
            number
        };
        assert_eq!(run(&table[..55], &[2; 3], 1, 1, 0), 1);
        let mut tight = table.clone();
        tight[20] = 2;
        assert_eq!(run(&tight, &[2; 3], 0, 1, 0), 6);
        for levels in 1..=5 {
            for (w, h) in WITHOUT_A_PICTURE {
                assert_eq!(run(&generous(1, levels), &[2; 3], w, h, 0), 8);
            }
            assert_eq!(run(&generous(1, levels), &[2; 3], 1, 1, 0), 9);
            assert_eq!(run(&generous(1, levels), &[1, 2, 1], 1, 3, 3), 10);
        }
        assert_eq!(run(&table, &[2; 4], 2, 2, 3), 9);
        assert_eq!(run(&table, &[2; 3], 2, 2, 4), 9);
        assert_eq!(run(&table, &[1, 1, 1, 2], 2, 2, 4), 10);
        let (mut plane, mut work) = ([7; 5], [7; 5]);
        forward97(&table, &[1; 4], 2, 2, &mut plane, &mut work).unwrap();
        assert_eq!((plane[4], work), (7, [0, 0, 0, 0, 7]));
        // A white picture of depth 1 is 0 everywhere.
        assert_eq!(plane[..4], [0; 4]);
        // A dark one is -1/2, and one sample of it stays so: two bits.
        let (mut plane, mut work) = ([7; 2], [7; 2]);
        forward97(&table, &[0, 9], 1, 1, &mut plane, &mut work).unwrap();
        assert_eq!((plane, work), ([-2, 7], [0, 7]));
    }

    /// One level, one bit: kept nodes (3, 2), so that -16 .. 15 are held.
    fn narrow() -> Vec<u8> {
        WidthTable::kept_and_others(1, 1, 24, Width::new(3, 2), Width::new(12, 20))
            .bytes()
            .unwrap()
    }

    #[test]
    fn order_of_viewing() {
        let run = |table: &[u8], plane: &[i32], w, h, pixels_len: usize, work_len: usize| {
            let (mut pixels, mut work) = (vec![7; pixels_len], vec![7; work_len]);
            let number = number(view97(table, plane, w, h, &mut pixels, &mut work));
            assert!(pixels.iter().all(|&p| p == 7) && work.iter().all(|&v| v == 7));
            number
        };
        let table = narrow();
        let outside = [16; 4];
        assert_eq!(run(&table[..55], &outside[..3], 1, 1, 0, 0), 1);
        let mut tight = generous(12, 5);
        tight[20] = 2;
        assert_eq!(run(&tight, &outside[..3], 0, 1, 0, 0), 6);
        assert_eq!(run(&generous(12, 5), &outside[..3], 0, 1, 0, 0), 13);
        for (w, h) in WITHOUT_A_PICTURE {
            assert_eq!(run(&table, &outside[..3], w, h, 0, 0), 8);
        }
        assert_eq!(run(&table, &outside[..3], 1, 2, 1, 2), 9);
        assert_eq!(run(&table, &outside[..3], 1, 2, 2, 2), 12);
        assert_eq!(run(&table, &outside[..3], usize::MAX, usize::MAX, 0, 0), 8);
        assert_eq!(run(&table, &outside[..3], 2, 2, 4, 4), 9);
        assert_eq!(run(&table, &outside, 2, 2, 3, 4), 9);
        assert_eq!(run(&table, &outside, 2, 2, 4, 3), 9);
        for at in 0..4 {
            for (value, right) in [(-17, false), (-16, true), (15, true), (16, false)] {
                let mut plane = [0, 0, 0, 0, i32::MAX];
                plane[at] = value;
                if !right {
                    assert_eq!(run(&table, &plane, 2, 2, 4, 4), 12);
                    continue;
                }
                let (mut pixels, mut work) = ([7; 5], [7; 6]);
                view97(&table, &plane, 2, 2, &mut pixels, &mut work).unwrap();
                assert_eq!((pixels[4], work), (7, [0, 0, 0, 0, 7, 7]));
                assert!(pixels[..4].iter().all(|&p| p < 2));
            }
        }
    }

    /// A picture stored and viewed is near the scanned one, one sample wide or
    /// wider.
    #[test]
    fn a_stored_picture_is_viewed() {
        let table = WidthTable::kept_and_others(8, 2, 24, Width::new(6, 10), Width::new(12, 20))
            .bytes()
            .unwrap();
        assert_eq!(table_view(&table), Ok(()));
        let mut distance = 0;
        view_distance(&table, &mut distance).unwrap();
        // The rounding takes another half grey.
        let greys = distance as f64 / f64::from(1 << 24) + 0.5;
        assert!(greys < 20.0);
        for (width, height) in [(7, 5), (1, 35), (35, 1), (2, 17), (1, 1)] {
            let count = width * height;
            let scanned: Vec<u16> = (0..count).map(|i| (i * i * 7 % 256) as u16).collect();
            let (mut plane, mut work) = (vec![0; count], vec![0; count]);
            forward97(&table, &scanned, width, height, &mut plane, &mut work).unwrap();
            let (mut viewed, mut work) = (vec![0; count], vec![1; count]);
            view97(&table, &plane, width, height, &mut viewed, &mut work).unwrap();
            assert!(work.iter().all(|&v| v == 0));
            for (a, &b) in scanned.iter().zip(&viewed) {
                assert!(f64::from(a.abs_diff(b)) <= greys);
            }
        }
    }

    #[test]
    fn refusals_of_the_two_questions() {
        let ask = |table: &[u8]| {
            let mut distance = 77;
            let told = view_distance(table, &mut distance);
            assert_eq!(told, table_view(table));
            assert_eq!(told.is_err(), distance == 77);
            told.map_or_else(|refusal| refusal.number, |()| 0)
        };
        assert_eq!(ask(&narrow()), 0);
        assert_eq!(ask(&narrow()[..55]), 1);
        assert_eq!(ask(&[narrow(), vec![0]].concat()), 5);
        assert_eq!(ask(&generous(12, 5)), 13);
        let mut refused = generous(12, 5);
        refused[20] = 2;
        assert_eq!(ask(&refused), 6);
    }

    #[test]
    fn order_of_a_product_change() {
        let table = WidthTable::read(&generous(8, 2)).unwrap();
        let bytes = table.with_products(44).bytes().unwrap();
        let mut out = vec![9; bytes.len() + 1];
        let change = |table: &[u8], product, bits, out: &mut [u8]| {
            number(table_change_product(table, 2, 3, product, bits, out))
        };
        assert_eq!(change(&bytes[..10], 9, 99, &mut out[..0]), 1);
        assert_eq!(change(&[&bytes[..], &[0]].concat(), 9, 99, &mut []), 5);
        assert_eq!(change(&bytes, 5, 44, &mut out[..0]), 4);
        assert_eq!(change(&bytes, 4, 45, &mut out[..0]), 4);
        assert_eq!(change(&generous(8, 2), 4, 44, &mut out[..0]), 4);
        assert_eq!(change(&bytes, 4, 0, &mut out[..118]), 9);
        assert!(out.iter().all(|&b| b == 9));
        table_change_product(&bytes, 2, 3, 4, 0, &mut out).unwrap();
        assert_eq!(out[..118], bytes[..118]);
        assert_eq!(out[118..], [0, 9]);
        // A table that is only changed is not judged.
        assert_eq!(table_form(&out[..119]), Ok(()));
        assert_eq!(number(table_check(&out[..119])), 7);
    }

    #[test]
    fn order_of_writing_products() {
        let table = WidthTable::read(&generous(8, 2)).unwrap();
        let widths = table.parts();
        let mut products = [0; PRODUCTS];
        products[..24].fill(44);
        let write = |has: bool, products: &[u8; PRODUCTS], length: usize| {
            let mut out = vec![9; length];
            let written = table_write_products(8, 2, &[24; 6], &widths, has, products, &mut out);
            match written {
                Ok(()) => out,
                Err(refusal) => {
                    assert!(out.iter().all(|&b| b == 9));
                    vec![refusal.number]
                }
            }
        };
        let due = table.clone().with_products(44).bytes().unwrap();
        assert_eq!(write(true, &products, 120), [&due[..], &[9]].concat());
        assert_eq!(write(true, &products, 118), [9]);
        assert_eq!(write(false, &products, 0), [4]);
        assert_eq!(write(false, &[0; PRODUCTS], 92), table.bytes().unwrap());
        assert_eq!(write(false, &[0; PRODUCTS], 91), [9]);
        for (at, bits) in [(24, 1), (59, 44), (0, 45), (23, 255)] {
            let mut wrong = products;
            wrong[at] = bits;
            assert_eq!(write(true, &wrong, 0), [4]);
        }
    }

    #[test]
    fn order_of_a_change() {
        let table = generous(8, 2);
        let mut out = vec![9; table.len()];
        let change = |table: &[u8], level, bits, out: &mut [u8]| {
            number(table_change(table, level, 1, 1, Width::new(bits, 0), out))
        };
        assert_eq!(change(&table[..10], 9, 0, &mut out[..0]), 1);
        assert_eq!(change(&table, 3, 5, &mut out[..0]), 4);
        assert_eq!(change(&table, 2, 0, &mut out[..0]), 4);
        assert_eq!(change(&table, 2, 5, &mut out[..91]), 9);
        assert!(out.iter().all(|&b| b == 9));
        // A table that is only changed is not judged.
        table_change(&table, 1, 1, 1, Width::new(1, 0), &mut out).unwrap();
        assert_eq!(table_form(&out), Ok(()));
        assert_eq!(number(table_check(&out)), 6);
    }
}
