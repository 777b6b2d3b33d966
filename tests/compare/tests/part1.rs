//! The engine's 5/3 transform held, bit for bit, against the procedures of
//! JPEG 2000 Part 1.

use compare::chance::Chance;
use compare::hostile::{least_full_side, Shape};
use compare::rounds;
use suzdrepa::Refusal;

/// Depth and levels of every kind.
fn kinds() -> impl Iterator<Item = (u8, u8)> {
    (1..=5).flat_map(|levels| (1..=12).map(move |depth| (depth, levels)))
}

fn lightest(shape: Shape) -> u16 {
    ((1u32 << shape.depth) - 1) as u16
}

/// Asserts that the engine and Part 1 make the same plane of a picture and
/// the picture of that plane.
fn assert_same(shape: Shape, pixels: &[u16], what: &str) {
    let Shape {
        depth,
        levels,
        width,
        height,
    } = shape;
    let due = part1::copy(depth.into(), levels.into(), pixels, width, height);
    let ours = suzdrepa::forward53_to_vec(depth, levels, pixels, width, height)
        .unwrap_or_else(|refusal| panic!("{what}, {shape:?}: {refusal}"));
    assert_eq!(ours.len(), due.len());
    for (i, (&ours, &due)) in ours.iter().zip(&due).enumerate() {
        let (column, row) = (i % width, i / width);
        assert_eq!(
            i64::from(ours),
            due,
            "{what}, {shape:?}: engine left, Part 1 right, at column {column}, row {row}"
        );
    }
    let back = suzdrepa::inverse53_to_vec(depth, levels, &ours, width, height)
        .unwrap_or_else(|refusal| panic!("{what}, {shape:?}, back: {refusal}"));
    assert!(back == pixels, "{what}, {shape:?}: the engine's way back");
    let due_back = part1::restored(depth.into(), levels.into(), &due, width, height);
    assert!(
        due_back.into_iter().eq(back.into_iter().map(i64::from)),
        "{what}, {shape:?}: Part 1's way back"
    );
}

/// Gives a plane to both inverses. Where Part 1's samples are a picture of the
/// depth the engine has to give that picture, else to refuse 11. True where it
/// is a picture.
fn judged_alike(shape: Shape, plane: &[i32]) -> bool {
    let Shape {
        depth,
        levels,
        width,
        height,
    } = shape;
    let wide: Vec<i64> = plane.iter().map(|&value| value.into()).collect();
    let samples = part1::restored(depth.into(), levels.into(), &wide, width, height);
    let range = 0..1i64 << depth;
    let is_picture = samples.iter().all(|sample| range.contains(sample));
    match suzdrepa::inverse53_to_vec(depth, levels, plane, width, height) {
        Ok(pixels) => {
            assert!(is_picture, "{shape:?}: accepted {plane:?}");
            assert!(pixels.into_iter().map(i64::from).eq(samples), "{shape:?}");
        }
        Err(refusal) => {
            assert!(!is_picture, "{shape:?}: {refusal}: {plane:?}");
            assert_eq!(refusal, Refusal::NoPicture, "{shape:?}");
            assert_eq!(refusal.number(), 11);
        }
    }
    is_picture
}

/// Part 1's plane of samples that need not be a picture.
fn plane_of(shape: Shape, samples: &[i64]) -> Vec<i32> {
    let (depth, levels) = (shape.depth.into(), shape.levels.into());
    part1::copy_of_samples(depth, levels, samples, shape.width, shape.height)
        .into_iter()
        .map(|value| value.try_into().expect("it fits in 32 bits"))
        .collect()
}

/// Light pixels where `light` says so, dark ones elsewhere.
fn drawn(shape: Shape, light: impl Fn(usize, usize) -> bool) -> Vec<u16> {
    let pixel = |i: usize| match light(i % shape.width, i / shape.width) {
        true => lightest(shape),
        false => 0,
    };
    (0..shape.count()).map(pixel).collect()
}

/// A picture of the darkest and the lightest pixel only: its name, and whether
/// the pixel at a column and row is light.
type Pattern = (&'static str, fn(usize, usize) -> bool);
const PATTERNS: [Pattern; 15] = [
    ("flat", |_, _| true),
    ("checkerboard", |x, y| (x + y) % 2 == 0),
    ("checkerboard of 2 x 2", |x, y| (x / 2 + y / 2) % 2 == 0),
    ("checkerboard of 4 x 4", |x, y| (x / 4 + y / 4) % 2 == 0),
    ("checkerboard of 3 x 1", |x, y| (x / 3 + y) % 2 == 0),
    ("stripes across", |_, y| y % 2 == 0),
    ("stripes across, 2 and 1", |_, y| y % 3 < 2),
    ("broad stripes across", |_, y| y % 8 < 4),
    ("stripes along", |x, _| x % 2 == 0),
    ("stripes along, 2 and 1", |x, _| x % 3 < 2),
    ("broad stripes along", |x, _| x % 8 < 4),
    ("rows of holes, dense", |x, y| y % 3 != 1 || x % 2 == 0),
    ("rows of holes, each row", |x, y| (x + y) % 3 != 1),
    ("rows of holes, shifted", |x, y| {
        (x + y / 2) % 3 != 1 || y % 2 == 0
    }),
    ("holes on a grid", |x, y| x % 2 == 1 || y % 2 == 1),
];

/// Every size with sides up to `largest`. Where a pass has a single sample,
/// Part 1 lets it through (1D_SD and 1D_SR at an even index).
fn sizes(largest: usize) -> impl Iterator<Item = (usize, usize)> {
    (1..=largest).flat_map(move |width| (1..=largest).map(move |height| (width, height)))
}

#[test]
fn the_worked_example() {
    let plane = suzdrepa::forward53_to_vec(3, 1, &[5, 7, 4, 4], 2, 2).unwrap();
    assert_eq!(plane, [2, 1, -2, -2]);
    let shape = Shape {
        depth: 3,
        levels: 1,
        width: 2,
        height: 2,
    };
    assert_same(shape, &[5, 7, 4, 4], "the worked example");
}

/// Every size with sides up to 40, on every number of levels. The depths take
/// turns; in a long run each size meets each of them.
#[test]
fn every_small_size() {
    let mut chance = Chance::new(1);
    let mut depths = (1..=12).cycle();
    for _ in 0..rounds(1) {
        for levels in 1..=5 {
            for (width, height) in sizes(40) {
                let shape = Shape {
                    depth: depths.next().expect("they go on"),
                    levels,
                    width,
                    height,
                };
                let pixels = chance.picture(shape.depth, shape.count());
                assert_same(shape, &pixels, "random");
            }
        }
    }
}

/// Every depth and number of levels with the smallest sides, even and odd, up
/// to some with which no pass has a single sample.
#[test]
fn every_depth_on_the_smallest_sizes() {
    let mut chance = Chance::new(2);
    for (depth, levels) in kinds() {
        for (width, height) in sizes(least_full_side(levels) + 4) {
            let shape = Shape {
                depth,
                levels,
                width,
                height,
            };
            for _ in 0..rounds(1) {
                assert_same(shape, &chance.picture(depth, shape.count()), "random");
            }
        }
    }
}

#[test]
fn extreme_pictures() {
    for (depth, levels) in kinds() {
        let full = least_full_side(levels);
        for (width, height) in [
            (full, full),
            (full + 1, full),
            (24, 33),
            (37, 40),
            (1, 1),
            (2, 2),
            (1, 33),
            (24, 1),
        ] {
            let shape = Shape {
                depth,
                levels,
                width,
                height,
            };
            for (what, light) in PATTERNS {
                assert_same(shape, &drawn(shape, light), what);
                let negative = drawn(shape, |x, y| !light(x, y));
                assert_same(shape, &negative, what);
            }
        }
    }
}

/// One dark pixel on light ground and the reverse, in the corners and at a
/// place drawn by chance.
#[test]
fn single_holes() {
    let mut chance = Chance::new(3);
    for (depth, levels) in kinds() {
        let shape = Shape::small(&mut chance, depth, levels, 20);
        let (right, lower) = (shape.width - 1, shape.height - 1);
        let anywhere = (chance.below(shape.width), chance.below(shape.height));
        for hole in [(0, 0), (right, 0), (0, lower), (right, lower), anywhere] {
            let pixels = drawn(shape, |x, y| (x, y) != hole);
            assert_same(shape, &pixels, "a hole");
            let pixels = drawn(shape, |x, y| (x, y) == hole);
            assert_same(shape, &pixels, "a spot");
        }
    }
}

/// Long, narrow and large pictures, on every number of levels.
#[test]
fn large_sizes() {
    let mut chance = Chance::new(4);
    for (width, height) in [
        (4096, 17),
        (17, 4096),
        (1000, 777),
        (513, 1025),
        (4096, 1),
        (1, 4095),
        (2, 4096),
    ] {
        for (levels, depth) in (1..=5).zip([12, 8, 1, 5, 11]) {
            let shape = Shape {
                depth,
                levels,
                width,
                height,
            };
            assert_same(shape, &chance.picture(depth, shape.count()), "large");
        }
    }
}

/// A plane near a true one: some coefficients of a picture's copy are changed.
fn damaged(chance: &mut Chance, shape: Shape) -> Vec<i32> {
    let pixels = match chance.below(3) {
        // Greys from the middle leave room for changes.
        0 => {
            let middle = 1 << (shape.depth - 1);
            let spread = 1 + middle / 4;
            let mut grey = || (middle - spread / 2 + chance.below(spread)) as u16;
            (0..shape.count()).map(|_| grey()).collect()
        }
        1 => drawn(shape, chance.of(&PATTERNS).1),
        _ => chance.picture(shape.depth, shape.count()),
    };
    let samples: Vec<i64> = pixels.into_iter().map(i64::from).collect();
    let mut plane = plane_of(shape, &samples);
    for _ in 0..chance.within(1, 2) {
        let change = match chance.below(8) {
            0 => chance.within(0, 2 << shape.depth) as i32,
            1 => 1 << chance.below(32),
            2 => chance.bits() as i32,
            3 | 4 => chance.within(1, 3) as i32,
            _ => 1,
        };
        let at = chance.below(plane.len());
        plane[at] = match chance.one_in(2) {
            true => plane[at].saturating_add(change),
            false => plane[at].saturating_sub(change),
        };
    }
    plane
}

#[test]
fn damaged_planes() {
    let mut chance = Chance::new(5);
    for depth in 1..=12 {
        let mut pictures = 0;
        let count = rounds(400);
        for round in 0..count {
            let levels = (round % 5) as u8 + 1;
            let shape = Shape::small(&mut chance, depth, levels, 12);
            let plane = damaged(&mut chance, shape);
            pictures += usize::from(judged_alike(shape, &plane));
        }
        // Neither answer is rare.
        let share = pictures as f64 / count as f64;
        assert!((0.05..0.95).contains(&share), "depth {depth}: {share}");
    }
}

/// Planes of anything at all.
#[test]
fn wild_planes() {
    let mut chance = Chance::new(6);
    for (depth, levels) in kinds() {
        for _ in 0..rounds(5) {
            let shape = Shape::small(&mut chance, depth, levels, 12);
            let plane = chance.plane(shape.count());
            assert!(!judged_alike(shape, &plane));
        }
    }
}

/// A picture but for one sample, which is just outside the depth or would be a
/// pixel if it were cut to 16 bits. Refused; with the sample put right the
/// plane is that of a picture.
#[test]
fn one_sample_outside() {
    let mut chance = Chance::new(7);
    for (depth, levels) in kinds() {
        let shape = Shape::small(&mut chance, depth, levels, 6);
        let pixels = chance.picture(depth, shape.count());
        let mut samples: Vec<i64> = pixels.into_iter().map(i64::from).collect();
        for _ in 0..rounds(3) {
            let at = chance.below(samples.len());
            let right = samples[at];
            for wrong in [-1, 1 << depth, right + (1 << 16), right - (1 << 24)] {
                samples[at] = wrong;
                assert!(!judged_alike(shape, &plane_of(shape, &samples)));
            }
            samples[at] = right;
            assert!(judged_alike(shape, &plane_of(shape, &samples)));
        }
    }
}
