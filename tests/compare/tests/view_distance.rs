//! What is viewed held against the exact inverse of what is stored, and
//! against what was scanned (document 02, job 1).

use compare::chance::Chance;
use compare::hostile::{against, Shape, NINE_SEVEN};
use compare::rounds;
use compare::tables::{
    deepest_viewed, loose_viewable, narrow, tight_viewable, tight_viewable_products,
};
use reference::exact_inverse97::inverse;
use reference::fixed_inverse97::{pixel, undo, NODE_BITS};
use reference::{viewing, WidthTable};

/// A depth that is viewed with so many levels.
fn some_depth(chance: &mut Chance, levels: u8) -> u8 {
    let deepest = deepest_viewed(levels);
    match chance.one_in(2) {
        true => deepest,
        false => chance.within(1, deepest.into()) as u8,
    }
}

/// Views a plane and holds it against its exact inverse: every value before
/// rounding within the bound, every pixel one of the two greys nearest the
/// exact value, every node within its range plus error. Gives the values, which
/// are those that the engine's pixels show, and the largest distance over the
/// bound.
fn hold(table: &WidthTable, shape: Shape, stored: &[i32]) -> (Vec<i128>, f64) {
    let (width, height) = (shape.width, shape.height);
    let bytes = table.bytes().unwrap();
    let pixels = suzdrepa::view97_to_vec(&bytes, stored, width, height).unwrap();
    let stored: Vec<i128> = stored.iter().map(|&v| i128::from(v)).collect();
    let undone = undo(table, &stored, width, height);
    let shown: Vec<u16> = (undone.values.iter())
        .map(|&value| pixel(value, table.depth))
        .collect();
    assert_eq!(pixels, shown);
    let bounds = viewing::bounds(table);
    for (largest, bounds) in undone.largest.iter().zip(&bounds.passes) {
        for (&value, bound) in largest.iter().zip(bounds) {
            assert!(value << (32 - NODE_BITS) <= bound.range + bound.error);
        }
    }
    let bound = u64::try_from(bounds.pixel.error).unwrap();
    let exact = inverse(table, &stored, width, height);
    let off = exact.off(&undone.values, bound);
    assert!(off.within, "{} of the bound", off.of_bound);
    assert!(exact.shown(table.depth, &pixels));
    (undone.values, off.of_bound)
}

fn viewable_table(chance: &mut Chance, depth: u8, levels: u8) -> WidthTable {
    match chance.below(4) {
        0 => narrow(depth, levels),
        1 => loose_viewable(chance, depth, levels),
        2 => tight_viewable_products(chance, depth, levels),
        _ => tight_viewable(chance, depth, levels),
    }
}

#[test]
fn from_the_exact_inverse() {
    let mut chance = Chance::new(111);
    let mut largest = [0f64; 5];
    for round in 0..rounds(60) {
        let levels = 1 + (round % 5) as u8;
        let depth = some_depth(&mut chance, levels);
        let table = viewable_table(&mut chance, depth, levels);
        for hostile in [false, true] {
            let shape = Shape::small(&mut chance, depth, levels, 10);
            let (width, height) = (shape.width, shape.height);
            let stored = match hostile {
                false => chance.stored(&table, width, height),
                true => {
                    let (x, y) = (chance.below(width), chance.below(height));
                    NINE_SEVEN.plane(&table, shape, x, y, chance.one_in(2))
                }
            };
            let (_, of_bound) = hold(&table, shape, &stored);
            let most = &mut largest[usize::from(levels) - 1];
            *most = most.max(of_bound);
        }
    }
    println!("largest distance from the exact inverse over the bound, by levels: {largest:.3?}");
    assert!(largest
        .iter()
        .all(|&of_bound| of_bound > 0.005 && of_bound <= 1.0));
}

/// Scans, stores and views a picture: the value before rounding is as near to
/// the scanned pixel's as is told, the pixel half a grey more. Gives the largest
/// distance over what is told.
fn hold_scanned(table: &WidthTable, shape: Shape, picture: &[u16]) -> f64 {
    let (depth, width, height) = (table.depth, shape.width, shape.height);
    let bytes = table.bytes().unwrap();
    let distance = suzdrepa::view_distance(&bytes).unwrap();
    let stored = suzdrepa::forward97_to_vec(&bytes, picture, width, height).unwrap();
    let (values, _) = hold(table, shape, &stored);
    let mut largest = 0;
    for (&scanned, &value) in picture.iter().zip(&values) {
        // Both in 2^-32.
        let due = (i128::from(scanned) - (1 << (depth - 1))) << (32 - depth);
        let off = (value << (32 - NODE_BITS)).abs_diff(due);
        assert!(off <= u128::from(distance), "{off} {distance}");
        largest = largest.max(off);
        let shown = pixel(value, depth).abs_diff(scanned);
        let grey = 1u128 << (32 - depth);
        assert!(u128::from(shown) * grey <= u128::from(distance) + grey / 2);
    }
    largest as f64 / distance as f64
}

#[test]
fn from_what_was_scanned() {
    let mut chance = Chance::new(112);
    let mut largest = [0f64; 5];
    for round in 0..rounds(60) {
        let levels = 1 + (round % 5) as u8;
        let depth = some_depth(&mut chance, levels);
        let table = viewable_table(&mut chance, depth, levels);
        for hostile in [false, true] {
            let shape = Shape::small(&mut chance, depth, levels, 10);
            let picture = match hostile {
                false => chance.picture(depth, shape.count()),
                true => {
                    let place = *chance.of(&table.kept_places());
                    against(&NINE_SEVEN, &mut chance, shape, place)
                }
            };
            let most = &mut largest[usize::from(levels) - 1];
            *most = most.max(hold_scanned(&table, shape, &picture));
        }
    }
    println!("largest distance from the scan over what is told, by levels: {largest:.3?}");
    assert!(largest
        .iter()
        .all(|&of_told| of_told > 0.01 && of_told <= 1.0));
}

/// Both distances of strips one sample wide or high and of every other shape
/// with a single sample in some pass (document 02, job 6).
#[test]
fn of_strips_one_sample_wide() {
    let mut chance = Chance::new(113);
    let (mut planes, mut largest) = (0, [[0f64; 5]; 2]);
    for levels in 1..=5 {
        for _ in 0..rounds(2) {
            let depth = some_depth(&mut chance, levels);
            let table = viewable_table(&mut chance, depth, levels);
            for shape in Shape::newly_admitted(depth, levels) {
                let (width, height) = (shape.width, shape.height);
                let (x, y) = (chance.below(width), chance.below(height));
                let hostile = NINE_SEVEN.plane(&table, shape, x, y, chance.one_in(2));
                let stored = [chance.stored(&table, width, height), hostile];
                let picture = chance.picture(depth, shape.count());
                let from_inverse = stored.map(|stored| hold(&table, shape, &stored).1);
                let from_scan = [hold_scanned(&table, shape, &picture)];
                for (largest, offs) in largest.iter_mut().zip([&from_inverse[..], &from_scan]) {
                    let most = &mut largest[usize::from(levels) - 1];
                    *most = offs.iter().fold(*most, |most, &off| most.max(off));
                }
                planes += 3;
            }
        }
    }
    println!("{planes} planes, largest distances over the bound, by levels: {largest:.3?}");
    assert_eq!(planes, 3 * 575 * rounds(2));
    let mut offs = largest.iter().flatten();
    assert!(offs.all(|&off| off > 0.001 && off <= 1.0));
}
