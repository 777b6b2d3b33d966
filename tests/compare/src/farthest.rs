//! How far coefficients get from the exact ones: random tight tables, and
//! pictures that drive their values as far as they go.

use crate::chance::Chance;
use crate::hostile::{against, Shape, NINE_SEVEN};
use crate::tables::tight;
use reference::exact97::{self, Distance};
use reference::places::kept_node;
use reference::{fixed97, Place, WidthTable};
use std::fmt;

/// The largest distance of one picture. Asserts that the engine's plane is the
/// reference's, that every place of it is less than two of its own steps from
/// the exact one, and that no value on the way left its width.
pub fn hold(table: &WidthTable, shape: Shape, picture: &[u16]) -> Distance {
    let bytes = table.bytes().unwrap();
    let (width, height) = (shape.width, shape.height);
    let plane = suzdrepa::forward97_to_vec(&bytes, picture, width, height).unwrap();
    let worked = fixed97::transform(table, picture, width, height);
    assert_eq!(worked.left, None, "a value left its width");
    let plane: Vec<i128> = plane.into_iter().map(i128::from).collect();
    assert_eq!(plane, worked.plane);
    let exact = exact97::transform(shape.depth, shape.levels, picture, width, height);
    let distance = exact.distance(table, &plane);
    assert!(
        distance.below_two_steps,
        "{} steps at column {}, row {}",
        distance.steps, distance.x, distance.y
    );
    distance
}

/// The name of the band that a kept node gives.
pub fn band(node: Place) -> &'static str {
    match (node.pass, node.node) {
        (2, 5) => "LL",
        (2, _) => "LH",
        (_, 5) => "HL",
        _ => "HH",
    }
}

/// Where the largest distance stood.
#[derive(Clone, Copy, Debug)]
pub struct Farthest {
    pub steps: f64,
    /// The table, counted from 1.
    pub table: usize,
    pub shape: Shape,
    pub node: Place,
}

impl fmt::Display for Farthest {
    fn fmt(&self, f: &mut fmt::Formatter<'_>) -> fmt::Result {
        let Shape {
            depth,
            levels,
            width,
            height,
        } = self.shape;
        write!(
            f,
            "{:.3} steps (table {}: {depth} bits, {levels} levels; {width} x {height} pixels, at {} of level {})",
            self.steps,
            self.table,
            band(self.node),
            self.node.level
        )
    }
}

/// Rows of round holes in paper, as dense as they get.
fn holes(chance: &mut Chance, shape: Shape) -> Vec<u16> {
    let pitch = chance.within(2, 5);
    let top = (1u16 << shape.depth) - 1;
    let shift = chance.below(pitch);
    let mut picture = Vec::with_capacity(shape.count());
    for y in 0..shape.height {
        for x in 0..shape.width {
            let hole = (x + shift) % pitch < pitch / 2 && y % pitch < pitch.div_ceil(2);
            picture.push(if hole { 0 } else { top });
        }
    }
    picture
}

/// Works so many tight tables, one to five levels in turn, and so many pictures
/// under each; gives the largest distance. `None` where nothing was worked.
pub fn farthest(seed: u64, tables: usize, pictures: usize) -> Option<Farthest> {
    farthest_under(tight, seed, tables, pictures)
}

/// The same under tables of any kind: `draw` is given a depth and levels.
pub fn farthest_under(
    draw: fn(&mut Chance, u8, u8) -> WidthTable,
    seed: u64,
    tables: usize,
    pictures: usize,
) -> Option<Farthest> {
    let mut chance = Chance::new(seed);
    let mut farthest: Option<Farthest> = None;
    for number in 0..tables {
        let levels = 1 + (number % 5) as u8;
        let depth = chance.within(1, 12) as u8;
        let table = draw(&mut chance, depth, levels);
        let kept: Vec<Place> = table
            .places()
            .into_iter()
            .filter(|&p| table.is_kept(p))
            .collect();
        for _ in 0..pictures {
            let shape = Shape::small(&mut chance, depth, levels, 12);
            let picture = match chance.below(4) {
                0 => {
                    let place = *chance.of(&kept);
                    against(&NINE_SEVEN, &mut chance, shape, place)
                }
                1 => {
                    let place = *chance.of(&table.places());
                    against(&NINE_SEVEN, &mut chance, shape, place)
                }
                2 => holes(&mut chance, shape),
                _ => chance.picture(depth, shape.count()),
            };
            let distance = hold(&table, shape, &picture);
            if farthest.is_none_or(|farthest| distance.steps > farthest.steps) {
                farthest = Some(Farthest {
                    steps: distance.steps,
                    table: number + 1,
                    shape,
                    node: kept_node(shape.width, shape.height, levels, distance.x, distance.y),
                });
            }
        }
    }
    farthest
}
