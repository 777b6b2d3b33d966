//! The fixed-point 9/7 transform held against the exact one: at every place
//! less than two of the coefficient's own steps, and no value on the way
//! leaves its width.

use compare::chance::Chance;
use compare::farthest::{farthest, farthest_under, hold};
use compare::hostile::{against, Shape, NINE_SEVEN};
use compare::rounds;
use compare::tables::{accepted_products, generous, tight, tight_products};

/// The largest distance over tight tables, in steps.
fn measure(seed: u64) -> f64 {
    let found = farthest(seed, rounds(100), 20).unwrap();
    println!("largest distance, seed {seed}: {found}");
    found.steps
}

#[test]
fn tight_tables() {
    let largest = measure(61);
    assert!(largest > 0.5 && largest < 2.0);
}

#[test]
fn more_tight_tables() {
    let largest = measure(62);
    assert!(largest > 0.5 && largest < 2.0);
}

/// Tables with a width for each product (document 02, job 7).
#[test]
fn tables_with_products() {
    let found = farthest_under(accepted_products, 65, rounds(60), 20).unwrap();
    println!("largest distance with products, seed 65: {found}");
    assert!(found.steps > 0.5 && found.steps < 2.0);
}

#[test]
fn generous_tables_of_every_depth() {
    let mut chance = Chance::new(63);
    let mut largest = 0f64;
    for depth in 1..=12 {
        for levels in 1..=5 {
            let table = generous(depth, levels);
            let shape = Shape::small(&mut chance, depth, levels, 6);
            for place in table.places().into_iter().filter(|&p| table.is_kept(p)) {
                let picture = against(&NINE_SEVEN, &mut chance, shape, place);
                largest = largest.max(hold(&table, shape, &picture).steps);
            }
        }
    }
    println!("largest distance under generous tables: {largest:.3} steps");
    assert!(largest > 0.0 && largest < 2.0);
}

/// Every node of a tight table is driven to both of its ends, in a picture in
/// which it has values, and in one sample wide and one high, where it has any.
#[test]
fn every_node_driven_to_its_ends() {
    let mut chance = Chance::new(64);
    for (levels, products) in (1..=4u8).flat_map(|levels| [(levels, false), (levels, true)]) {
        let depth = chance.within(1, 12) as u8;
        let table = match products {
            true => tight_products(&mut chance, depth, levels),
            false => tight(&mut chance, depth, levels),
        };
        let full = Shape::small_full(&mut chance, depth, levels, 8);
        let (column, row) = (Shape { width: 1, ..full }, Shape { height: 1, ..full });
        for place in table.places() {
            for shape in [full, column, row] {
                let (columns, rows) = shape.values_of(place);
                if columns * rows == 0 {
                    assert!(shape.has_single_samples());
                    continue;
                }
                for largest in [true, false] {
                    let (x, y) = (columns / 2, rows / 2);
                    let picture = NINE_SEVEN.picture(shape, place, x, y, largest);
                    assert!(hold(&table, shape, &picture).steps < 2.0);
                }
            }
        }
    }
}
