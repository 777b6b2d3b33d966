//! Pictures that drive a chosen value as far as it goes: every pixel is the
//! lightest or the darkest, by the sign with which it counts in that value.
//! Planes that do so with a viewed value: every coefficient is the least or
//! the largest that its node holds.

use crate::chance::Chance;
use reference::places::{kept_node, low_count, side_at};
use reference::{Place, WidthTable};

/// The constants of a filter bank as doubles; signs are all that is asked.
pub struct Filter {
    stages: &'static [f64],
}

/// P1, U1, P2, U2; scaling changes no sign.
pub const NINE_SEVEN: Filter = Filter {
    stages: &[-1.586134342, -0.05298011854, 0.8829110762, 0.4435068522],
};

/// The two stages without their floors.
pub const FIVE_THREE: Filter = Filter {
    stages: &[-0.5, 0.25],
};

/// A value of one line, before a level or within its pass.
#[derive(Clone, Copy)]
enum Target {
    /// What enters the level.
    Entering,
    /// What the stage (from 0) of this level's pass leaves.
    Stage(usize),
}

impl Filter {
    /// One pass, up to and including `last`; lows at even places. A single
    /// sample is let through.
    fn pass(&self, line: &mut [f64], last: usize) {
        let n = line.len();
        if n == 1 {
            return;
        }
        for (stage, constant) in self.stages.iter().enumerate().take(last + 1) {
            for i in (1 - stage % 2..n).step_by(2) {
                let before = if i == 0 { 1 } else { i - 1 };
                let after = if i + 1 == n { n - 2 } else { i + 1 };
                line[i] += constant * (line[before] + line[after]);
            }
        }
    }

    /// The inverse of one pass; lows stand first, samples come back in their order.
    fn undone(&self, line: &[f64]) -> Vec<f64> {
        let n = line.len();
        if n == 1 {
            return line.to_vec();
        }
        let sample = |i: usize| match i % 2 {
            0 => line[i / 2],
            _ => line[low_count(n) + i / 2],
        };
        let mut line: Vec<f64> = (0..n).map(sample).collect();
        for (stage, constant) in self.stages.iter().enumerate().rev() {
            for i in (1 - stage % 2..n).step_by(2) {
                let before = if i == 0 { 1 } else { i - 1 };
                let after = if i + 1 == n { n - 2 } else { i + 1 };
                line[i] -= constant * (line[before] + line[after]);
            }
        }
        line
    }

    /// How each value of the line that a level left counts in the sample at
    /// `index`, where `n` samples were worked.
    fn weights_back(&self, n: usize, level: u8, index: usize) -> Vec<f64> {
        (0..side_at(n, level))
            .map(|place| {
                let mut line = vec![0.0; side_at(n, level)];
                line[place] = 1.0;
                for finer in (1..=level).rev() {
                    // What was worked is the low part of the finer level.
                    line.resize(side_at(n, finer), 0.0);
                    line = self.undone(&line);
                }
                line[index]
            })
            .collect()
    }

    /// The plane under a table that makes the value viewed at column `x` and
    /// row `y` as large as it gets, or as small.
    pub fn plane(
        &self,
        table: &WidthTable,
        shape: Shape,
        x: usize,
        y: usize,
        largest: bool,
    ) -> Vec<i32> {
        let levels = 1..=shape.levels;
        let weights: Vec<[Vec<f64>; 2]> = levels
            .map(|level| {
                [
                    self.weights_back(shape.width, level, x),
                    self.weights_back(shape.height, level, y),
                ]
            })
            .collect();
        let end = |i: usize| {
            let (column, row) = (i % shape.width, i / shape.width);
            let node = kept_node(shape.width, shape.height, shape.levels, column, row);
            let [across, down] = &weights[usize::from(node.level) - 1];
            let (least, most) = table.width(node).ends();
            match (across[column] * down[row] > 0.0) == largest {
                true => most as i32,
                false => least as i32,
            }
        };
        (0..shape.count()).map(end).collect()
    }

    /// How each of `n` samples counts in a value at `index`.
    fn weights(&self, n: usize, level: u8, target: Target, index: usize) -> Vec<f64> {
        (0..n)
            .map(|place| {
                let mut line = vec![0.0; n];
                line[place] = 1.0;
                for _ in 1..level {
                    self.pass(&mut line, self.stages.len() - 1);
                    line = line.into_iter().step_by(2).collect();
                }
                match target {
                    Target::Entering => line[index],
                    Target::Stage(stage) => {
                        self.pass(&mut line, stage);
                        line[2 * index + 1 - stage % 2]
                    }
                }
            })
            .collect()
    }

    /// The stage whose sign a node has: G1 is the last low, G2 the last high.
    fn stage_of(&self, node: u8) -> usize {
        match node {
            5 => self.stages.len() - 1,
            6 => self.stages.len() - 2,
            stage => usize::from(stage) - 1,
        }
    }

    /// The picture that makes the value of a node at column `x` and row `y`
    /// of its part as large as it gets, or as small.
    pub fn picture(
        &self,
        shape: Shape,
        place: Place,
        x: usize,
        y: usize,
        largest: bool,
    ) -> Vec<u16> {
        let node = Target::Stage(self.stage_of(place.node));
        let (across, down) = match place.pass {
            1 => (node, Target::Entering),
            2 => (Target::Stage(self.stage_of(5)), node),
            _ => (Target::Stage(self.stage_of(6)), node),
        };
        let across = self.weights(shape.width, place.level, across, x);
        let down = self.weights(shape.height, place.level, down, y);
        let lightest = (1u16 << shape.depth) - 1;
        let mut picture = Vec::with_capacity(across.len() * down.len());
        for d in &down {
            for a in &across {
                let light = (a * d > 0.0) == largest;
                picture.push(if light { lightest } else { 0 });
            }
        }
        picture
    }
}

/// The scaling of a low value; a high one is divided by it.
const ZETA: f64 = 1.149604398;

/// The 9/7 transform in doubles, uncut.
fn uncut(shape: Shape, picture: &[u16]) -> Vec<f64> {
    let middle = f64::from(1u16 << (shape.depth - 1));
    let value = |&p: &u16| (f64::from(p) - middle) / (2.0 * middle);
    let mut plane: Vec<f64> = picture.iter().map(value).collect();
    let mut line_at = |places: Vec<usize>| {
        let mut line: Vec<f64> = places.iter().map(|&at| plane[at]).collect();
        NINE_SEVEN.pass(&mut line, 3);
        let lows = low_count(line.len());
        for (i, value) in line.iter().enumerate() {
            let (to, scale) = match i % 2 {
                _ if line.len() == 1 => (0, 1.0),
                0 => (i / 2, ZETA),
                _ => (lows + i / 2, 1.0 / ZETA),
            };
            plane[places[to]] = value * scale;
        }
    };
    for level in 1..=shape.levels {
        let (width, height) = (side_at(shape.width, level), side_at(shape.height, level));
        for y in 0..height {
            line_at((0..width).map(|x| y * shape.width + x).collect());
        }
        for x in 0..width {
            line_at((0..height).map(|y| y * shape.width + x).collect());
        }
    }
    plane
}

/// The largest distance of a coefficient from the exact one, in its own steps,
/// as far as doubles tell.
fn distance(table: &WidthTable, shape: Shape, picture: &[u16]) -> f64 {
    let (width, height) = (shape.width, shape.height);
    let bytes = table.bytes().expect("it is sound");
    let plane = suzdrepa::forward97_to_vec(&bytes, picture, width, height);
    let plane = plane.expect("the table is accepted");
    let exact = uncut(shape, picture);
    let off = |i: usize| {
        let node = kept_node(width, height, shape.levels, i % width, i / width);
        let steps = f64::from(1u32 << table.width(node).fraction_bits);
        (f64::from(plane[i]) - steps * exact[i]).abs()
    };
    (0..shape.count()).map(off).fold(0.0, f64::max)
}

/// A picture that takes some coefficient far from the exact one: any picture,
/// and so many times some pixels of it set to other values, where that takes no
/// coefficient nearer than the farthest one was.
pub fn farther(
    chance: &mut Chance,
    table: &WidthTable,
    shape: Shape,
    mut picture: Vec<u16>,
    tries: usize,
) -> Vec<u16> {
    let mut far = distance(table, shape, &picture);
    for _ in 0..tries {
        let mut other = picture.clone();
        for _ in 0..chance.within(1, 3) {
            let pixel = &mut other[chance.below(shape.count())];
            *pixel = chance.below(1 << shape.depth) as u16;
        }
        let now = distance(table, shape, &other);
        if now >= far {
            (picture, far) = (other, now);
        }
    }
    picture
}

#[derive(Clone, Copy, Debug)]
pub struct Shape {
    pub depth: u8,
    pub levels: u8,
    pub width: usize,
    pub height: usize,
}

/// The least side with which no pass of so many levels has a single sample;
/// before job 6 of document 02 it was the least that was admitted.
pub fn least_full_side(levels: u8) -> usize {
    (1 << (levels - 1)) + 1
}

impl Shape {
    /// A shape with small sides, odd or even: now and then one sample wide or
    /// high, or with a single sample in a pass of some level.
    pub fn small(chance: &mut Chance, depth: u8, levels: u8, spread: usize) -> Shape {
        let mut shape = Shape::small_full(chance, depth, levels, spread);
        for side in [&mut shape.width, &mut shape.height] {
            match chance.below(6) {
                0 => *side = 1,
                1 => *side = chance.within(1, least_full_side(levels)),
                _ => {}
            }
        }
        shape
    }

    /// A shape with small sides, odd or even, no pass of which has a single
    /// sample, so that every node has values; often the smallest such.
    pub fn small_full(chance: &mut Chance, depth: u8, levels: u8, spread: usize) -> Shape {
        let least = least_full_side(levels);
        let mut side = || {
            if chance.one_in(4) {
                least
            } else {
                least + chance.below(spread)
            }
        };
        Shape {
            depth,
            levels,
            width: side(),
            height: side(),
        }
    }

    /// Shapes that are admitted since job 6 of document 02: every one with
    /// small sides and a single sample in some pass, one pixel among them, and
    /// longer lines one sample wide and one high, odd and even.
    pub fn newly_admitted(depth: u8, levels: u8) -> Vec<Shape> {
        let small = 1..=least_full_side(levels) + 1;
        let longer = small.end() + 1..=small.end() + 7;
        let pairs = small
            .clone()
            .flat_map(|width| small.clone().map(move |height| (width, height)));
        let lines = longer.chain([33, 64, 65, 129]);
        pairs
            .chain(lines.flat_map(|n| [(1, n), (n, 1)]))
            .map(|(width, height)| Shape {
                depth,
                levels,
                width,
                height,
            })
            .filter(Shape::has_single_samples)
            .collect()
    }

    /// Whether some pass has a single sample.
    pub fn has_single_samples(&self) -> bool {
        let least = least_full_side(self.levels);
        self.width < least || self.height < least
    }

    pub fn count(&self) -> usize {
        self.width * self.height
    }

    /// With width and height exchanged.
    pub fn turned(self) -> Shape {
        Shape {
            width: self.height,
            height: self.width,
            ..self
        }
    }

    /// Columns and rows of the values of a node. Of a single sample only G1,
    /// node 5, has one.
    pub fn values_of(&self, place: Place) -> (usize, usize) {
        let (w, h) = (
            side_at(self.width, place.level),
            side_at(self.height, place.level),
        );
        let part = |n: usize, node: u8| match node {
            1 | 3 | 6 => n / 2,
            2 | 4 if n == 1 => 0,
            _ => low_count(n),
        };
        match place.pass {
            1 => (part(w, place.node), h),
            2 => (low_count(w), part(h, place.node)),
            _ => (w / 2, part(h, place.node)),
        }
    }
}

/// A picture against a node at a place drawn by chance. Where the node has no
/// values, since its passes have single samples, it is any picture.
pub fn against(filter: &Filter, chance: &mut Chance, shape: Shape, place: Place) -> Vec<u16> {
    let (columns, rows) = shape.values_of(place);
    if columns == 0 || rows == 0 {
        return chance.picture(shape.depth, shape.count());
    }
    let (x, y) = (chance.below(columns), chance.below(rows));
    let largest = chance.one_in(2);
    let mut picture = filter.picture(shape, place, x, y, largest);
    // Some are roughened: errors of the cuts depend on low bits.
    if chance.one_in(3) {
        let top = (1u16 << shape.depth) - 1;
        for pixel in &mut picture {
            let off = chance.below(4) as u16;
            *pixel = if *pixel == 0 {
                off.min(top)
            } else {
                top - off.min(top)
            };
        }
    }
    picture
}

#[cfg(test)]
mod tests {
    use super::*;
    use crate::farthest::hold;
    use crate::tables::tight_products;
    use reference::places::{earlier_side_admitted, side_admitted};
    use reference::{fixed97, fixed_inverse97, Width};

    #[test]
    fn newly_admitted_shapes_were_refused() {
        for (levels, due) in [(1, 27), (2, 34), (3, 54), (4, 118), (5, 342)] {
            let shapes = Shape::newly_admitted(8, levels);
            assert_eq!(shapes.len(), due);
            for shape in shapes {
                let sides = [shape.width, shape.height];
                assert!(sides.into_iter().all(side_admitted));
                assert!(!sides
                    .iter()
                    .all(|&side| earlier_side_admitted(side, levels)));
            }
        }
    }

    #[test]
    fn nodes_of_single_samples_have_values_in_g1_alone() {
        let place = |level, pass, node| Place { level, pass, node };
        let shape = |width, height| Shape {
            depth: 8,
            levels: 2,
            width,
            height,
        };
        for node in 1..=6 {
            let due = if node == 5 { (1, 1) } else { (0, 1) };
            assert_eq!(shape(1, 1).values_of(place(1, 1, node)), due);
            let due = if node == 5 { (1, 1) } else { (1, 0) };
            assert_eq!(shape(1, 1).values_of(place(2, 2, node)), due);
            assert_eq!(shape(1, 1).values_of(place(2, 3, node)).0, 0);
        }
        assert_eq!(shape(3, 1).values_of(place(1, 1, 2)), (2, 1));
        assert_eq!(shape(3, 1).values_of(place(1, 3, 5)), (1, 1));
        assert_eq!(shape(2, 2).values_of(place(1, 2, 4)), (1, 1));
        assert_eq!(shape(2, 2).values_of(place(2, 2, 4)), (1, 0));
    }

    /// The chosen value of the hostile plane is the largest among many.
    #[test]
    fn no_other_plane_goes_farther() {
        let shape = Shape {
            depth: 8,
            levels: 3,
            width: 7,
            height: 6,
        };
        let table = WidthTable::uniform(8, 3, 24, Width::new(12, 2));
        let value = |plane: &[i32], at: usize| {
            let plane: Vec<i128> = plane.iter().map(|&v| i128::from(v)).collect();
            fixed_inverse97::undo(&table, &plane, 7, 6).values[at]
        };
        let mut chance = Chance::new(2);
        for (x, y) in [(0, 0), (3, 2), (6, 5), (2, 5), (5, 0)] {
            let at = y * shape.width + x;
            let most = NINE_SEVEN.plane(&table, shape, x, y, true);
            let least = NINE_SEVEN.plane(&table, shape, x, y, false);
            assert!(value(&least, at) < 0 && 0 < value(&most, at));
            for _ in 0..300 {
                let any = chance.stored(&table, shape.width, shape.height);
                assert!((value(&least, at)..=value(&most, at)).contains(&value(&any, at)));
            }
            // One coefficient turned round takes away from it, but for cuts.
            for i in 0..most.len() {
                let mut other = most.clone();
                other[i] = -1 - other[i];
                assert!(value(&other, at) <= value(&most, at) + 16);
            }
        }
    }

    /// What doubles tell of the distance is so, and the search makes it larger.
    #[test]
    fn the_search_takes_coefficients_farther() {
        let mut chance = Chance::new(3);
        let mut sums = [0.0; 2];
        for levels in 1..=5u8 {
            let table = tight_products(&mut chance, 6, levels);
            for _ in 0..4 {
                let shape = Shape::small(&mut chance, 6, levels, 4);
                let drawn = chance.picture(6, shape.count());
                let sought = farther(&mut chance, &table, shape, drawn.clone(), 40);
                let [before, after] = [drawn, sought].map(|picture| {
                    let steps = hold(&table, shape, &picture).steps;
                    assert!((distance(&table, shape, &picture) - steps).abs() < 1e-6);
                    steps
                });
                assert!(before <= after + 1e-6);
                sums[0] += before;
                sums[1] += after;
            }
        }
        assert!(1.1 * sums[0] < sums[1], "{sums:?}");
    }

    /// The chosen value of the hostile picture is the largest among many.
    #[test]
    fn no_other_picture_goes_farther() {
        let shape = Shape {
            depth: 8,
            levels: 2,
            width: 7,
            height: 6,
        };
        let table = WidthTable::uniform(8, 2, 24, Width::new(12, 18));
        // HL of level 2, at column 1 of its part: place 3 across, 0 down.
        let place = Place {
            level: 2,
            pass: 3,
            node: 5,
        };
        assert_eq!(shape.values_of(place), (2, 2));
        let value = |pixels: &[u16]| fixed97::transform(&table, pixels, 7, 6).plane[3];
        let most = value(&NINE_SEVEN.picture(shape, place, 1, 0, true));
        let least = value(&NINE_SEVEN.picture(shape, place, 1, 0, false));
        let mut chance = Chance::new(1);
        for _ in 0..2000 {
            let mut pixels = chance.picture(8, shape.count());
            if chance.one_in(2) {
                for p in &mut pixels {
                    *p = if *p > 127 { 255 } else { 0 };
                }
            }
            let v = value(&pixels);
            assert!(least < v && v < most);
        }
        // One pixel turned round takes away from it.
        let picture = NINE_SEVEN.picture(shape, place, 1, 0, true);
        for i in 0..picture.len() {
            let mut other = picture.clone();
            other[i] = 255 - other[i];
            assert!(value(&other) <= most + 1);
        }
    }
}
