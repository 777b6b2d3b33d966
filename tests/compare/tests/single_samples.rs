//! Passes of a single sample (document 02, job 6): strips one sample wide or
//! high, and every side that was refused before it.

use compare::both::{self, Answer, Done, Lent};
use compare::chance::Chance;
use compare::hostile::{against, least_full_side, Shape, NINE_SEVEN};
use compare::scan::{Next, Scan};
use compare::tables::{
    accepted_products, any, coarse_lows, deepest_viewed, generous, loose_viewable, narrow, tight,
    tight_viewable, uneven,
};
use compare::{program, rounds};
use reference::places::kept_node;
use reference::precision::{self, earlier_verdict, verdict};
use reference::refusal::answer;
use reference::reversible53::{self, Order};
use reference::rolling::{HELD_LINES, OUT_LINES, STATE};
use reference::viewing::earlier_viewable;
use reference::{calls, exact_copy, fixed97, Place, Width, WidthTable};
use std::collections::BTreeMap;
use suzdrepa_sys as sys;

/// The longest lines, and sides about 2 to the power (levels - 1) beside them.
const LONG: [(usize, usize); 8] = [
    (1, 4096),
    (4096, 1),
    (1, 4095),
    (4095, 1),
    (2, 4096),
    (4096, 3),
    (16, 4095),
    (4096, 8),
];

/// Sides about the edges of what is admitted: 1 to 4,096, whatever the levels.
const SIDES: [usize; 12] = [
    0,
    1,
    2,
    3,
    16,
    17,
    4095,
    4096,
    4097,
    65536,
    1 << 32,
    usize::MAX,
];

fn number(answer: Answer) -> u8 {
    answer.map_or_else(|refusal| refusal.number, |()| 0)
}

fn shape(depth: u8, levels: u8, width: usize, height: usize) -> Shape {
    Shape {
        depth,
        levels,
        width,
        height,
    }
}

/// Accepted tables: as wide as they get, uneven ones and tight ones, so that
/// G1 has more bits than what enters it, as many, and fewer; one of them with
/// tag 5.
fn accepted_tables(chance: &mut Chance, depth: u8, levels: u8) -> Vec<WidthTable> {
    let mut tables = vec![generous(depth, levels)];
    for _ in 0..rounds(1) {
        tables.push(uneven(chance, depth, levels));
        tables.push(tight(chance, depth, levels));
        tables.push(coarse_lows(chance, depth, levels));
        tables.push(accepted_products(chance, depth, levels));
    }
    tables
}

/// Adds up in how many passes G1 has fewer bits than what enters, as many, and
/// more.
fn count_cuts(cuts: &mut [usize; 3], table: &WidthTable) {
    let mut entering = table.depth;
    for [row, of_low, of_high] in &table.widths[..usize::from(table.levels)] {
        let f = |widths: &[Width; 6], node: usize| widths[node].fraction_bits;
        for (entering, g1) in [
            (entering, f(row, 4)),
            (f(row, 4), f(of_low, 4)),
            (f(row, 5), f(of_high, 4)),
        ] {
            let more = g1.cmp(&entering) as i8;
            cuts[(more + 1) as usize] += 1;
        }
        entering = f(of_low, 4);
    }
}

/// Tables whose planes can be viewed.
fn viewable_tables(chance: &mut Chance, depth: u8, levels: u8) -> Vec<WidthTable> {
    let mut tables = vec![narrow(depth, levels)];
    for _ in 0..rounds(1) {
        tables.push(loose_viewable(chance, depth, levels));
        tables.push(tight_viewable(chance, depth, levels));
    }
    tables
}

/// Dark, light, each in turn, and two by chance, one of them against a node.
fn pictures(chance: &mut Chance, shape: Shape) -> Vec<Vec<u16>> {
    let (count, top) = (shape.count(), (1u16 << shape.depth) - 1);
    let place = Place {
        level: chance.within(1, shape.levels.into()) as u8,
        pass: chance.within(1, 3) as u8,
        node: chance.within(1, 6) as u8,
    };
    vec![
        vec![0; count],
        vec![top; count],
        (0..count).map(|i| top * (i % 2) as u16).collect(),
        chance.picture(shape.depth, count),
        against(&NINE_SEVEN, chance, shape, place),
    ]
}

/// Works a picture by both, in lent memory with something past it.
fn forward97(chance: &mut Chance, table: &WidthTable, shape: Shape, picture: &[u16]) -> Done<i32> {
    let more = [4; 3].map(|n| chance.below(n));
    let mut pixels = picture.to_vec();
    // What stands past the picture is not looked at, though it is no pixel.
    pixels.extend(vec![u16::MAX; more[0]]);
    let lent = Lent {
        input: &pixels,
        output: &chance.plane(shape.count() + more[1]),
        work: &chance.plane(shape.count() + more[2]),
    };
    let bytes = table.bytes().unwrap();
    both::forward97(&bytes, shape.width, shape.height, lent)
}

/// The largest whole number of 2^-f that is not above v / 2^bits.
fn cut(v: i128, bits: u8, f: u8) -> i128 {
    match f >= bits {
        true => v << (f - bits),
        false => v.div_euclid(1 << (bits - f)),
    }
}

/// What is left of one pixel: at each level cut to the bits of the row's G1,
/// then to those of G1 of the column of row-low.
fn one_pixel(table: &WidthTable, pixel: u16) -> i128 {
    let mut bits = table.depth;
    let mut value = i128::from(pixel) - (1 << (table.depth - 1));
    for level in &table.widths[..usize::from(table.levels)] {
        for widths in &level[..2] {
            let f = widths[4].fraction_bits;
            value = cut(value, bits, f);
            bits = f;
        }
    }
    value
}

#[test]
fn nine_seven_forward() {
    let mut chance = Chance::new(131);
    let (mut calls, mut cuts) = (0, [0usize; 3]);
    for levels in 1..=5 {
        let depth = chance.within(1, 12) as u8;
        for table in accepted_tables(&mut chance, depth, levels) {
            count_cuts(&mut cuts, &table);
            let long = LONG.map(|(width, height)| shape(depth, levels, width, height));
            for shape in Shape::newly_admitted(depth, levels).into_iter().chain(long) {
                let mut pictures = pictures(&mut chance, shape);
                if shape.count() > 1000 {
                    pictures.truncate(1);
                }
                for picture in pictures {
                    let done = forward97(&mut chance, &table, shape, &picture);
                    assert_eq!(done.answer, Ok(()), "{shape:?}");
                    if shape.count() == 1 {
                        let due = one_pixel(&table, picture[0]);
                        assert_eq!(i128::from(done.output[0]), due);
                    }
                    calls += 1;
                }
            }
        }
    }
    println!("9/7: {calls} pictures; passes with fewer, as many and more bits in G1: {cuts:?}");
    assert!(calls > 11_000 && cuts.iter().all(|&n| n > 20));
}

/// Every pixel value of every depth through two passes and through ten.
#[test]
fn every_pixel_alone() {
    let mut chance = Chance::new(132);
    let mut calls = 0;
    for depth in 1..=12 {
        for levels in [1, 5] {
            let tables = [
                coarse_lows(&mut chance, depth, levels),
                tight(&mut chance, depth, levels),
            ];
            for table in tables {
                let bytes = table.bytes().unwrap();
                for pixel in 0..1u16 << depth {
                    let plane = suzdrepa::forward97_to_vec(&bytes, &[pixel], 1, 1).unwrap();
                    assert_eq!(i128::from(plane[0]), one_pixel(&table, pixel));
                    let plane = suzdrepa::forward53_to_vec(depth, levels, &[pixel], 1, 1);
                    let value = i32::from(pixel) - (1 << (depth - 1));
                    assert_eq!(plane, Ok(vec![value]));
                    for back in [
                        suzdrepa::inverse53_to_vec,
                        suzdrepa::inverse53_rows_first_to_vec,
                    ] {
                        assert_eq!(back(depth, levels, &[value], 1, 1), Ok(vec![pixel]));
                    }
                    calls += 4;
                }
            }
        }
    }
    println!("one pixel: {calls} calls");
    assert_eq!(calls, 4 * 4 * 8190);
}

/// Demand 3: every coefficient less than two of its own steps from the exact
/// transform, no value on the way outside its width.
#[test]
fn near_the_exact_transform() {
    let mut chance = Chance::new(133);
    let (mut held, mut largest) = (0, [0f64; 5]);
    for levels in 1..=5u8 {
        for _ in 0..rounds(2) {
            let depth = chance.within(1, 12) as u8;
            let table = tight(&mut chance, depth, levels);
            for shape in Shape::newly_admitted(depth, levels) {
                let pictures = pictures(&mut chance, shape);
                for picture in &pictures[2..] {
                    let distance = compare::farthest::hold(&table, shape, picture);
                    let most = &mut largest[usize::from(levels) - 1];
                    *most = most.max(distance.steps);
                    held += 1;
                }
            }
        }
    }
    println!("{held} pictures, largest distance from the exact transform by levels: {largest:.3?}");
    assert!(held > 3000 && largest.iter().all(|steps| (0.3..2.0).contains(steps)));
}

/// A way back by both: depth, levels and sides, and what is lent.
type WayBack = fn(u8, u8, usize, usize, Lent<i32, u16>) -> Done<u16>;

const WAYS_BACK: [(Order, WayBack); 2] = [
    (Order::ColumnsFirst, both::inverse53),
    (Order::RowsFirst, both::inverse53_rows_first),
];

fn in_32_bits(plane: &[i128]) -> Vec<i32> {
    plane.iter().map(|&v| i32::try_from(v).unwrap()).collect()
}

/// The copy of a picture, a new one worked by both, an earlier one by its
/// definition.
fn copied(chance: &mut Chance, order: Order, shape: Shape, picture: &[u16]) -> Vec<i32> {
    let Shape {
        depth,
        levels,
        width,
        height,
    } = shape;
    if order == Order::RowsFirst {
        let plane = reversible53::forward(order, depth, levels, picture, width, height);
        return in_32_bits(&plane);
    }
    let more = chance.below(3);
    let pixels = [picture, &vec![u16::MAX; more]].concat();
    let lent = Lent {
        input: &pixels,
        output: &chance.plane(shape.count() + more),
        work: &chance.plane(shape.count() + 2),
    };
    let done = both::forward53(depth, levels, width, height, lent);
    assert_eq!(done.answer, Ok(()), "{shape:?}");
    done.output[..shape.count()].to_vec()
}

/// Back from a plane by both, in lent memory with something past it.
fn taken_back(chance: &mut Chance, back: WayBack, shape: Shape, plane: &[i32]) -> Done<u16> {
    let count = shape.count();
    let more = chance.below(3);
    let input = [plane, &chance.plane(more)].concat();
    let lent = Lent {
        input: &input,
        output: &chance.sixteen_bits(count + more),
        work: &chance.plane(count + 1),
    };
    let mut done = back(shape.depth, shape.levels, shape.width, shape.height, lent);
    done.output.truncate(count);
    done
}

/// Forward and back in both orders, new copies also against Part 1, and from
/// planes with one coefficient changed.
#[test]
fn five_three_forward_and_back() {
    let mut chance = Chance::new(134);
    let (mut copies, mut changed) = (0, [[0usize; 2]; 2]);
    for levels in 1..=5 {
        for depth in [1, 8, 12] {
            let long = LONG.map(|(width, height)| shape(depth, levels, width, height));
            for shape in Shape::newly_admitted(depth, levels).into_iter().chain(long) {
                for picture in &pictures(&mut chance, shape)[2..4] {
                    for (way, (order, back)) in WAYS_BACK.into_iter().enumerate() {
                        let mut plane = copied(&mut chance, order, shape, picture);
                        if order == Order::ColumnsFirst {
                            let (depth, levels) = (depth.into(), levels.into());
                            let due =
                                part1::copy(depth, levels, picture, shape.width, shape.height);
                            assert!(plane.iter().map(|&v| i64::from(v)).eq(due), "{shape:?}");
                        }
                        let done = taken_back(&mut chance, back, shape, &plane);
                        assert_eq!((done.answer, &done.output), (Ok(()), picture), "{shape:?}");
                        copies += 1;

                        let at = chance.below(plane.len());
                        plane[at] += *chance.of(&[1, -1, 3, -40, 1 << 20]);
                        let done = taken_back(&mut chance, back, shape, &plane);
                        match number(done.answer) {
                            0 => assert_ne!(done.output, *picture),
                            number => assert_eq!(number, 11),
                        }
                        changed[way][usize::from(done.answer.is_ok())] += 1;
                    }
                }
            }
        }
    }
    println!(
        "5/3: {copies} copies and back; one coefficient changed, refused 11 and not: {changed:?}"
    );
    assert!(
        copies > 6000 && changed.iter().flatten().all(|&n| n > 300),
        "{changed:?}"
    );
}

/// A side of one sample is left as it is: the copy of a strip one sample wide
/// is the first column of the copy of columns that are all alike, where no pass
/// has a single sample; and turned over.
#[test]
fn strips_are_columns_of_wider_pictures() {
    let mut chance = Chance::new(135);
    let mut strips = 0;
    for levels in 1..=5u8 {
        let full = least_full_side(levels);
        for n in (full..full + 9).chain([64, 65, 129, 4095, 4096]) {
            let depth = chance.within(1, 12) as u8;
            let line = chance.picture(depth, n);
            let copy = |pixels: &[u16], width, height| {
                suzdrepa::forward53_to_vec(depth, levels, pixels, width, height).unwrap()
            };
            let down = copy(&line, 1, n);
            assert_eq!(copy(&line, n, 1), down);
            let alike: Vec<u16> = line.iter().flat_map(|&p| vec![p; full]).collect();
            let wide = copy(&alike, full, n);
            assert!(wide.iter().step_by(full).eq(&down), "{levels} {n}");
            let high = copy(&line.repeat(full), n, full);
            assert_eq!(high[..n], down);
            for back in [
                suzdrepa::inverse53_to_vec,
                suzdrepa::inverse53_rows_first_to_vec,
            ] {
                assert_eq!(back(depth, levels, &down, 1, n).as_ref(), Ok(&line));
                assert_eq!(back(depth, levels, &down, n, 1).as_ref(), Ok(&line));
            }
            strips += 1;
        }
    }
    println!("{strips} strips against wider pictures");
    assert_eq!(strips, 5 * 14);
}

/// Every plane of one coefficient near and far, in both orders: a picture, or
/// 11.
#[test]
fn every_coefficient_alone() {
    let mut chance = Chance::new(136);
    let mut seen = [0usize; 2];
    for depth in 1..=12u8 {
        let middle = 1i32 << (depth - 1);
        let far = [
            i32::MIN,
            i32::MIN + 1,
            i32::MAX,
            1 << 16,
            1 << 20,
            -(1 << 30),
        ];
        for value in (-middle - 3..middle + 3).chain(far) {
            let levels = chance.within(1, 5) as u8;
            for (_, back) in WAYS_BACK {
                let shape = shape(depth, levels, 1, 1);
                let done = taken_back(&mut chance, back, shape, &[value]);
                let is_pixel = (-middle..middle).contains(&value);
                assert_eq!(number(done.answer), if is_pixel { 0 } else { 11 });
                if is_pixel {
                    assert_eq!(i32::from(done.output[0]), value + middle);
                }
                seen[usize::from(is_pixel)] += 1;
            }
        }
    }
    println!("one coefficient: refused 11 and not: {seen:?}");
    assert_eq!(seen, [2 * 12 * 12, 2 * 8190]);
}

/// Views a plane by both, in lent memory with something past it.
fn view97(chance: &mut Chance, table: &WidthTable, shape: Shape, stored: &[i32]) -> Done<u16> {
    let (count, more) = (shape.count(), chance.below(4));
    let plane = [stored, &vec![i32::MIN; more]].concat();
    let lent = Lent {
        input: &plane,
        output: &chance.sixteen_bits(count + 3),
        work: &chance.sixty_four_bits(count + more),
    };
    let bytes = table.bytes().unwrap();
    let mut done = both::view97(&bytes, shape.width, shape.height, lent);
    done.output.truncate(count);
    done
}

/// The pixel that shows one stored coefficient, which every pass lets through:
/// the nearest grey, halves up, within the depth.
fn one_coefficient(table: &WidthTable, value: i32) -> u16 {
    let level = table.levels;
    let low_low = Place {
        level,
        pass: 2,
        node: 5,
    };
    // Greys, with one bit more than the stored number has.
    let f = table.width(low_low).fraction_bits;
    let twice = i128::from(value) << (table.depth + 1);
    let nearest = (twice + (1 << f)).div_euclid(2 << f) + (1 << (table.depth - 1));
    nearest.clamp(0, (1 << table.depth) - 1) as u16
}

/// Planes at the ends of their widths, near them and anywhere, hostile ones,
/// and those of pictures.
#[test]
fn viewing() {
    let mut chance = Chance::new(137);
    let (mut views, mut outside) = (0, 0);
    for levels in 1..=5 {
        let depth = match chance.one_in(2) {
            true => deepest_viewed(levels),
            false => chance.within(1, deepest_viewed(levels).into()) as u8,
        };
        for table in viewable_tables(&mut chance, depth, levels) {
            let bytes = table.bytes().unwrap();
            let long = LONG.map(|(width, height)| shape(depth, levels, width, height));
            for shape in Shape::newly_admitted(depth, levels).into_iter().chain(long) {
                let (width, height) = (shape.width, shape.height);
                let mut planes = vec![chance.stored(&table, width, height)];
                if shape.count() < 1000 {
                    let (x, y) = (chance.below(width), chance.below(height));
                    let largest = chance.one_in(2);
                    planes.push(NINE_SEVEN.plane(&table, shape, x, y, largest));
                    for picture in pictures(&mut chance, shape) {
                        planes.push(
                            suzdrepa::forward97_to_vec(&bytes, &picture, width, height).unwrap(),
                        );
                    }
                }
                for mut stored in planes {
                    let done = view97(&mut chance, &table, shape, &stored);
                    assert_eq!(done.answer, Ok(()), "{shape:?}");
                    if shape.count() == 1 {
                        assert_eq!(done.output[0], one_coefficient(&table, stored[0]));
                    }
                    views += 1;

                    // One step outside its width at some place, where 32 bits
                    // have one.
                    let at = chance.below(stored.len());
                    let node = kept_node(width, height, levels, at % width, at / width);
                    let (least, most) = table.width(node).ends();
                    if let Ok(value) = i32::try_from(*chance.of(&[least - 1, most + 1])) {
                        stored[at] = value;
                        let done = view97(&mut chance, &table, shape, &stored);
                        assert_eq!(number(done.answer), 12);
                        outside += 1;
                    }
                }
            }
        }
    }
    println!("viewing: {views} planes, {outside} with a coefficient outside");
    assert!(views > 11_000 && outside > 10_000, "{views} {outside}");
}

/// Every call with these sides and lent slices of these lengths, its answers
/// by name. What the slices hold is right where they are long enough.
fn every_call(
    depth: u8,
    levels: u8,
    (width, height): (usize, usize),
    lengths: [usize; 3],
) -> [(&'static str, u8); 5] {
    let table = narrow(depth, levels).bytes().unwrap();
    let [input, output, work] = lengths;
    let (pixels, plane) = (vec![0; input], vec![0; input]);
    let (pixels_out, plane_out) = (vec![7; output], vec![7; output]);
    let (area, long_area) = (vec![7; work], vec![7; work]);
    let forward = || Lent {
        input: &pixels[..],
        output: &plane_out[..],
        work: &area[..],
    };
    let back = || Lent {
        input: &plane[..],
        output: &pixels_out[..],
        work: &area[..],
    };
    let view = Lent {
        input: &plane[..],
        output: &pixels_out[..],
        work: &long_area[..],
    };
    [
        (
            "forward97",
            both::forward97(&table, width, height, forward()).answer,
        ),
        ("view97", both::view97(&table, width, height, view).answer),
        (
            "forward53",
            both::forward53(depth, levels, width, height, forward()).answer,
        ),
        (
            "inverse53",
            both::inverse53(depth, levels, width, height, back()).answer,
        ),
        (
            "inverse53_rows_first",
            both::inverse53_rows_first(depth, levels, width, height, back()).answer,
        ),
    ]
    .map(|(call, answer)| (call, number(answer)))
}

/// Refusal 8 is a side of 0 or above 4,096, whatever the levels; with every
/// other side it is the slices that are too short.
#[test]
fn sides_that_are_refused() {
    let mut seen = BTreeMap::new();
    for levels in 1..=5 {
        for (width, height) in SIDES.into_iter().flat_map(|w| SIDES.map(|h| (w, h))) {
            let due = match [width, height].iter().all(|s| (1..=4096).contains(s)) {
                true => 9,
                false => 8,
            };
            for (call, number) in every_call(2, levels, (width, height), [0; 3]) {
                assert_eq!(number, due, "{call}: {width} x {height}, {levels} levels");
                *seen.entry((call, number)).or_insert(0) += 1;
            }
        }
    }
    println!("calls by answer: {seen:?}");
    // 144 sizes at each number of levels, 7 by 7 of them admitted.
    for call in ["forward97", "view97", "forward53", "inverse53"] {
        assert_eq!((seen[&(call, 8)], seen[&(call, 9)]), (5 * 95, 5 * 49));
    }
}

/// Each slice too short by one and by all, and all just long enough: 9, or
/// done. A plane of zeros is the middle grey's.
#[test]
fn short_slices() {
    let mut seen = [0usize; 2];
    for levels in 1..=5 {
        for (width, height) in [(1, 1), (1, 2), (2, 1), (1, 7), (6, 1), (2, 2), (3, 5)] {
            let count = width * height;
            for short in 0..3 {
                for length in [0, count - 1, count, count + 1] {
                    let mut lengths = [count; 3];
                    lengths[short] = length;
                    let due = if length < count { 9 } else { 0 };
                    for (call, number) in every_call(3, levels, (width, height), lengths) {
                        assert_eq!(number, due, "{call}: {width} x {height}");
                        seen[usize::from(due == 9)] += 1;
                    }
                }
            }
        }
    }
    println!("short slices: done and refused 9: {seen:?}");
    assert_eq!(seen, [5 * 7 * 3 * 2 * 5; 2]);
}

/// What comes before 8 comes before it, with sides that are admitted and with
/// others: 4 of depth and levels, 6, 7 and 13 of the table. 10 comes after 9, for
/// a pixel at any place of a strip.
#[test]
fn refusals_in_their_order() {
    let mut chance = Chance::new(138);
    let mut seen = BTreeMap::new();
    let mut count = |call: &'static str, answer: Answer, due: u8| {
        assert_eq!(number(answer), due, "{call}");
        *seen.entry((call, due)).or_insert(0) += 1;
    };
    // Pixels and coefficients that are refused, too, and slices that are short
    // for most of the sides.
    let (pixels, plane, out) = ([u16::MAX; 3], [i32::MAX; 3], [7; 3]);
    let (pixels_out, long_work) = ([7; 3], [7; 3]);
    let forward = || Lent {
        input: &pixels[..],
        output: &out[..],
        work: &out[..],
    };
    let back = || Lent {
        input: &plane[..],
        output: &pixels_out[..],
        work: &out[..],
    };
    let view = || Lent {
        input: &plane[..],
        output: &pixels_out[..],
        work: &long_work[..],
    };
    for levels in 1..=5u8 {
        let mut narrow_node = generous(8, levels);
        narrow_node.widths[0][0][0] = Width::new(2, 20);
        let mut fine_step = generous(8, levels);
        let low_low = Place {
            level: levels,
            pass: 2,
            node: 5,
        };
        *fine_step.width_mut(low_low) = Width::new(12, 20);
        let tables = [(narrow_node, 6), (fine_step, 7), (generous(12, levels), 13)];
        for (width, height) in [(0, 1), (1, 4097), (1, 1), (1, 5), (5, 1), (2, 2)] {
            for (table, due) in &tables {
                let bytes = table.bytes().unwrap();
                let done = both::view97(&bytes, width, height, view());
                count("view97", done.answer, *due);
                if *due < 8 {
                    let done = both::forward97(&bytes, width, height, forward());
                    count("forward97", done.answer, *due);
                }
            }
            for (depth, levels) in [(0, levels), (13, levels), (8, 0), (8, 6), (255, 255)] {
                let done = both::forward53(depth, levels, width, height, forward());
                count("forward53", done.answer, 4);
                for (_, way_back) in WAYS_BACK {
                    let done = way_back(depth, levels, width, height, back());
                    count("inverse53", done.answer, 4);
                }
            }
        }
        // One pixel too light at each place of a strip, and past it.
        for (width, height) in [(1, 1), (1, 6), (7, 1), (2, 2), (1, 33), (32, 1)] {
            let depth = chance.within(1, 12) as u8;
            let shape = shape(depth, levels, width, height);
            let bytes = generous(depth, levels).bytes().unwrap();
            for at in 0..=shape.count() {
                let mut pixels = chance.picture(depth, shape.count() + 1);
                pixels[at] = 1 << depth;
                let due = if at < shape.count() { 10 } else { 0 };
                let output = chance.plane(shape.count());
                let work = chance.plane(shape.count());
                let lent = || Lent {
                    input: &pixels[..],
                    output: &output[..],
                    work: &work[..],
                };
                let done = both::forward97(&bytes, width, height, lent());
                count("forward97", done.answer, due);
                let done = both::forward53(depth, levels, width, height, lent());
                count("forward53", done.answer, due);
            }
        }
    }
    println!("calls by answer: {seen:?}");
    for due in [
        ("forward97", 6),
        ("forward97", 7),
        ("forward97", 10),
        ("view97", 6),
        ("view97", 7),
        ("view97", 13),
        ("forward53", 4),
        ("forward53", 10),
        ("inverse53", 4),
    ] {
        assert!(seen[&due] >= 24, "{due:?}");
    }
}

/// A strip line by line, by both; the lines that came, and what each call gave.
fn scanned(
    chance: &mut Chance,
    table: &WidthTable,
    width: usize,
    lines: &[Vec<u16>],
) -> (Vec<i32>, Vec<usize>) {
    let past = chance.below(3);
    let state: Vec<u8> = (0..STATE + past).map(|_| chance.byte()).collect();
    let mut scan = Scan::begin(&table.bytes().unwrap(), &state);
    scan.held = chance.plane(HELD_LINES * width + past);
    let (mut came, mut counts) = (Vec::new(), Vec::new());
    for taken in 0..=lines.len() {
        let out = chance.plane(OUT_LINES * width + past);
        let next = match lines.get(taken) {
            Some(pixels) => Next::Line { pixels, width },
            None => Next::End,
        };
        let (answer, given) = scan.call(next, &out);
        assert_eq!(answer, Ok(()));
        counts.push(given.len() / width);
        came.extend(given);
    }
    // After the end nothing more is taken.
    let (held, out) = (scan.held.clone(), vec![7; OUT_LINES * width]);
    let line = Next::Line {
        pixels: &lines[0],
        width,
    };
    for next in [line, Next::End] {
        assert_eq!(scan.refused(next, &held, &out), 14);
    }
    (came, counts)
}

/// Strips of one line and more, one pixel wide and more: every call is that of
/// the second implementation, what came is the plane that `forward97` gives,
/// and of a single line each value is the row's, cut to the bits of its column.
#[test]
fn rolling_scans() {
    let mut chance = Chance::new(139);
    let (mut strips, mut lines_taken) = (0, 0);
    let widths = (1..=5).chain([16, 17, 64, 65, 4095, 4096]);
    for (width, height) in widths.flat_map(|w| (1..=9).map(move |h| (w, h))) {
        if width > 1000 && height > 2 {
            continue;
        }
        for round in 0..rounds(8) {
            let depth = chance.within(1, 12) as u8;
            let table = match round % 5 {
                0 => narrow(depth, 1),
                1 => uneven(&mut chance, depth, 1),
                2 => coarse_lows(&mut chance, depth, 1),
                3 => accepted_products(&mut chance, depth, 1),
                _ => tight(&mut chance, depth, 1),
            };
            let picture = chance.picture(depth, width * height);
            let lines: Vec<_> = picture.chunks(width).map(<[u16]>::to_vec).collect();
            let (came, counts) = scanned(&mut chance, &table, width, &lines);
            assert_eq!(counts.iter().sum::<usize>(), height);
            if height == 1 {
                assert_eq!(counts, [0, 1]);
                assert_eq!(came, one_line(&table, &picture));
            }
            let part = |first| {
                let lines = came.chunks(width).skip(first).step_by(2);
                lines.collect::<Vec<_>>().concat()
            };
            let bytes = table.bytes().unwrap();
            let whole = suzdrepa::forward97_to_vec(&bytes, &picture, width, height);
            assert_eq!(whole, Ok([part(0), part(1)].concat()));
            strips += 1;
            lines_taken += height;
        }
    }
    println!("scans: {strips} strips, {lines_taken} lines");
    assert_eq!(strips, rounds(8) * (9 * 9 + 2 * 2));
}

/// The coefficients of a strip of one line: its row, each value then cut to the
/// bits of G1 of its own column pass.
fn one_line(table: &WidthTable, pixels: &[u16]) -> Vec<i32> {
    let middle = 1i128 << (table.depth - 1);
    let line: Vec<i128> = pixels.iter().map(|&p| i128::from(p) - middle).collect();
    let [row, of_low, of_high] = &table.widths[0];
    let [.., lows, highs] = fixed97::pass(
        &line,
        table.depth,
        &table.constant_bits,
        row,
        table.products_of(1, 1),
    );
    let column = |values: &[i128], node: usize, to: &[Width; 6]| -> Vec<i128> {
        let (bits, f) = (row[node].fraction_bits, to[4].fraction_bits);
        values.iter().map(|&v| cut(v, bits, f)).collect()
    };
    in_32_bits(&[column(&lows, 4, of_low), column(&highs, 5, of_high)].concat())
}

/// An end without a line is refused 14, and so is the second end of a strip of
/// one line; a first line of 0 or of 4,097 pixels is refused 8, and the scan
/// goes on.
#[test]
fn refused_calls_of_short_scans() {
    let mut chance = Chance::new(140);
    let mut refused = BTreeMap::new();
    for width in [1, 2, 3, 4096] {
        for depth in [1, 8, 12] {
            let table = tight(&mut chance, depth, 1);
            let mut scan = Scan::begin(&table.bytes().unwrap(), &[9; STATE]);
            let held = chance.plane(HELD_LINES * width);
            let out = chance.plane(OUT_LINES * width);
            let mut refuse = |scan: &mut Scan, next: Next, due: u8| {
                assert_eq!(scan.refused(next, &held, &out), due);
                *refused.entry(due).or_insert(0) += 1;
            };
            let plenty = chance.picture(depth, 4097);
            let line = |width: usize| Next::Line {
                pixels: &plenty[..width.min(4097)],
                width,
            };
            refuse(&mut scan, Next::End, 14);
            for other in [0, 4097, usize::MAX] {
                refuse(&mut scan, line(other), 8);
            }
            let mut light = plenty[..width].to_vec();
            light[width - 1] = 1 << depth;
            let light = Next::Line {
                pixels: &light,
                width,
            };
            refuse(&mut scan, light, 10);
            let short = Next::Line {
                pixels: &plenty[..width - 1],
                width,
            };
            refuse(&mut scan, short, 9);
            for (less_held, less_out) in [(1, 0), (0, 1)] {
                let (held, out) = (&held[less_held..], &out[less_out..]);
                assert_eq!(scan.refused(line(width), held, out), 9);
            }

            scan.held = held.clone();
            let (answer, given) = scan.call(line(width), &out);
            assert_eq!((answer, given.len()), (Ok(()), 0));
            let after = scan.held.clone();
            for other in [0, width - 1, width + 1, 4097, usize::MAX] {
                assert_eq!(scan.refused(line(other), &after, &out), 14);
            }
            for (less_held, less_out) in [(1, 0), (0, 1)] {
                let (held, out) = (&after[less_held..], &out[less_out..]);
                assert_eq!(scan.refused(Next::End, held, out), 9);
            }
            let (answer, given) = scan.call(Next::End, &out);
            assert_eq!(answer, Ok(()));
            assert_eq!(given, one_line(&table, &plenty[..width]));
            assert_eq!(scan.refused(Next::End, &after, &out), 14);
            assert_eq!(scan.refused(line(width), &after, &out), 14);
        }
    }
    println!("refused before the first line: {refused:?}");
    assert_eq!(
        refused,
        BTreeMap::from([(8, 36), (9, 12), (10, 12), (14, 12)])
    );
}

fn program_bytes(depth: u8, levels: u8, width: u16, height: u16, pixels: &[u16]) -> Vec<u8> {
    let mut bytes = vec![depth, levels];
    for number in [width, height].iter().chain(pixels) {
        bytes.extend(number.to_be_bytes());
    }
    bytes
}

/// The exact-copy program on strips one sample wide and high, and on sides that
/// were refused; its refusals beside them.
#[test]
fn the_exact_copy_program() {
    let mut chance = Chance::new(141);
    let (mut copies, mut refused) = (0, BTreeMap::new());
    let mut same = |input: &[u8], due: Option<u8>| {
        let text = String::from_utf8(program::run("exact_copy", input)).expect("text");
        assert_eq!(text, exact_copy::exact_copy(input));
        match due {
            Some(number) => {
                assert_eq!(text, format!("refused {number}\n"));
                *refused.entry(number).or_insert(0) += 1;
            }
            None => {
                assert!(text.starts_with("53 "), "{text}");
                copies += 1;
            }
        }
        text
    };
    let text = same(&program_bytes(3, 5, 1, 1, &[6]), None);
    assert_eq!(text, "53 3 5 1 1\n2\n");
    let text = same(&program_bytes(3, 1, 1, 2, &[5, 7]), None);
    assert_eq!(text, "53 3 1 1 2\n2\n2\n");
    let text = same(&program_bytes(3, 5, 2, 1, &[5, 7]), None);
    assert_eq!(text, "53 3 5 2 1\n2 2\n");
    for levels in 1..=5 {
        for (width, height) in [
            (1, 1),
            (1, 2),
            (2, 1),
            (1, 3),
            (3, 1),
            (2, 2),
            (3, 5),
            (16, 16),
            (1, 17),
            (64, 1),
            (1, 4095),
            (4096, 1),
            (2, 2048),
        ] {
            let depth = chance.within(1, 12) as u8;
            let count = usize::from(width) * usize::from(height);
            let pixels = chance.picture(depth, count);
            let whole = program_bytes(depth, levels, width, height, &pixels);
            let text = same(&whole, None);
            assert_eq!(text.lines().count(), usize::from(height) + 1);
            same(&whole[..whole.len() - 1], Some(1));
            same(&[&whole[..], &[0]].concat(), Some(5));
            let mut light = pixels.clone();
            light[chance.below(count)] = 1 << depth;
            let light = program_bytes(depth, levels, width, height, &light);
            same(&light, Some(10));
        }
        for (width, height) in [(0, 0), (0, 1), (1, 0), (1, 4097), (4097, 1), (65535, 0)] {
            same(&program_bytes(8, levels, width, height, &[0; 3]), Some(8));
        }
        same(&program_bytes(8, levels, 3, 4096, &[300; 9]), Some(9));
    }
    println!("exact copies: {copies}; refused: {refused:?}");
    assert_eq!(copies, 3 + 5 * 13);
    let due = BTreeMap::from([(1, 65), (5, 65), (8, 30), (9, 5), (10, 65)]);
    assert_eq!(refused, due);
}

/// A slice with something on both sides, and whether that is as it was.
struct Guarded<T> {
    memory: Vec<T>,
    before: Vec<T>,
}

impl<T: Copy + PartialEq> Guarded<T> {
    fn new(chance: &mut Chance, lent: &[T], beside: impl Fn(&mut Chance) -> Vec<T>) -> Guarded<T> {
        let memory = [beside(chance), lent.to_vec(), beside(chance)].concat();
        Guarded {
            before: memory.clone(),
            memory,
        }
    }

    fn lent(&mut self) -> *mut T {
        self.memory[GUARD..].as_mut_ptr()
    }

    fn holds(&self, due: &[T]) -> bool {
        let end = GUARD + due.len();
        self.memory[..GUARD] == self.before[..GUARD]
            && self.memory[GUARD..end] == *due
            && self.memory[end..] == self.before[end..]
    }
}

/// Elements on each side of lent memory.
const GUARD: usize = 5;

/// The bare C calls with memory for the picture and not an element more.
#[test]
fn bare_calls_keep_to_one_element() {
    let mut chance = Chance::new(142);
    let mut calls = 0;
    for levels in 1..=5u8 {
        let depth = deepest_viewed(levels);
        let table = tight_viewable(&mut chance, depth, levels).bytes().unwrap();
        for (width, height) in [(1, 1), (1, 2), (2, 1), (1, 9), (8, 1), (2, 2), (3, 2)] {
            let count = width * height;
            let picture = chance.picture(depth, count);
            let zeros = vec![0; count];
            let mut plane = Guarded::new(&mut chance, &zeros, |c| c.plane(GUARD));
            let mut pixels = Guarded::new(&mut chance, &picture, |c| c.sixteen_bits(GUARD));
            let junk = chance.plane(count);
            let mut work = Guarded::new(&mut chance, &junk, |c| c.plane(GUARD));
            let junk = chance.sixty_four_bits(count);
            let mut long_work = Guarded::new(&mut chance, &junk, |c| c.sixty_four_bits(GUARD));

            let (mut due_plane, mut due_work) = (vec![0; count], vec![0; count]);
            let due = calls::forward97(
                &table,
                &picture,
                width,
                height,
                &mut due_plane,
                &mut due_work,
            );
            // SAFETY: the slices have `count` elements within their vectors.
            let bare = unsafe {
                sys::suz_forward97(
                    table.as_ptr(),
                    table.len(),
                    pixels.lent(),
                    count,
                    width,
                    height,
                    plane.lent(),
                    count,
                    work.lent(),
                    count,
                )
            };
            assert_eq!((bare, answer(due)), (0, 0));
            assert!(plane.holds(&due_plane) && work.holds(&zeros) && pixels.holds(&picture));

            let (mut due_pixels, mut due_long) = (vec![0; count], vec![0; count]);
            let due = calls::view97(
                &table,
                &due_plane,
                width,
                height,
                &mut due_pixels,
                &mut due_long,
            );
            // SAFETY: as above.
            let bare = unsafe {
                sys::suz_view97(
                    table.as_ptr(),
                    table.len(),
                    plane.lent(),
                    count,
                    width,
                    height,
                    pixels.lent(),
                    count,
                    long_work.lent(),
                    count,
                )
            };
            assert_eq!((bare, answer(due)), (0, 0));
            assert!(pixels.holds(&due_pixels) && long_work.holds(&due_long));
            assert!(plane.holds(&due_plane));

            let copy = reversible53::forward(
                Order::ColumnsFirst,
                depth,
                levels,
                &due_pixels,
                width,
                height,
            );
            // SAFETY: as above.
            let bare = unsafe {
                sys::suz_forward53(
                    depth,
                    levels,
                    pixels.lent(),
                    count,
                    width,
                    height,
                    plane.lent(),
                    count,
                    work.lent(),
                    count,
                )
            };
            assert_eq!(bare, 0);
            assert!(plane.holds(&in_32_bits(&copy)) && work.holds(&zeros));
            for (order, back) in [
                (Order::ColumnsFirst, sys::suz_inverse53 as BareBack),
                (Order::RowsFirst, sys::suz_inverse53_rows_first),
            ] {
                let copy = reversible53::forward(order, depth, levels, &picture, width, height);
                let copy = in_32_bits(&copy);
                let mut plane = Guarded::new(&mut chance, &copy, |c| c.plane(GUARD));
                // SAFETY: as above.
                let bare = unsafe {
                    back(
                        depth,
                        levels,
                        plane.lent(),
                        count,
                        width,
                        height,
                        pixels.lent(),
                        count,
                        work.lent(),
                        count,
                    )
                };
                assert_eq!(bare, 0);
                assert!(pixels.holds(&picture) && work.holds(&zeros) && plane.holds(&copy));
            }
            calls += 5;
        }
    }
    println!("bare calls: {calls}");
    assert_eq!(calls, 5 * 7 * 5);
}

/// A way back of the C interface.
type BareBack = unsafe extern "C" fn(
    u8,
    u8,
    *const i32,
    usize,
    usize,
    usize,
    *mut u16,
    usize,
    *mut i32,
    usize,
) -> u32;

/// No verdict by 6 or 7 is another than before job 6, and no bound: the larger
/// error of G1 is the old one. Any tables, tight ones, and every number of
/// those one more and one less.
#[test]
fn verdicts_are_those_before() {
    let mut chance = Chance::new(143);
    let mut seen = [0usize; 8];
    let mut ask = |table: &WidthTable| {
        let now = both::table_check(&table.bytes().unwrap());
        assert_eq!(now, earlier_verdict(table));
        assert_eq!(precision::bounds(table), precision::earlier_bounds(table));
        seen[usize::from(number(now))] += 1;
    };
    for _ in 0..rounds(4000) {
        ask(&any(&mut chance));
    }
    let mut nodes = 0;
    for round in 0..rounds(25) {
        let (depth, levels) = (chance.within(1, 12) as u8, 1 + (round % 5) as u8);
        let table = tight(&mut chance, depth, levels);
        let bytes = table.bytes().unwrap();
        for at in (11..17).chain(20..bytes.len()) {
            for by in [1, 255] {
                let mut beside = bytes.clone();
                beside[at] = beside[at].wrapping_add(by);
                if let Ok(table) = WidthTable::read(&beside) {
                    ask(&table);
                }
            }
        }
        // The engine's own bounds of every G1.
        for (place, bound) in precision::earlier_bounds(&table) {
            if place.node == 5 {
                let place = [place.level, place.pass, place.node];
                let (answer, told) = both::table_bound(&bytes, place, (7, 7));
                assert_eq!(answer, Ok(()));
                let told = (u128::from(told.0), u128::from(told.1));
                assert_eq!(told, (bound.range, bound.error));
                nodes += 1;
            }
        }
    }
    println!("tables by verdict: {seen:?}, {nodes} bounds of G1");
    assert_eq!(nodes, rounds(25) * 9);
    assert!([0, 6, 7].iter().all(|&n| seen[n] > 1000), "{seen:?}");
}

/// Asks both whether a table's planes can be viewed, and how far that leads.
/// Gives whether they can, and whether they could before job 6.
fn ask_view(table: &WidthTable) -> (bool, bool) {
    let bytes = table.bytes().unwrap();
    let answer = both::table_view(&bytes);
    let (told, _) = both::view_distance(&bytes, 7);
    assert_eq!(told, answer);
    let before = verdict(table).is_ok() && earlier_viewable(table).is_ok();
    assert!(before || answer.is_err(), "nothing is newly viewed");
    if before {
        assert!([0, 13].contains(&number(answer)));
    }
    (answer.is_ok(), before)
}

/// A table with these integer bits at its kept nodes.
fn kept_integer_bits(depth: u8, levels: u8, bits: &[u8]) -> WidthTable {
    let mut table = generous(depth, levels);
    for (place, &bits) in table.kept_places().into_iter().zip(bits) {
        table.width_mut(place).integer_bits = bits;
    }
    table
}

/// 13 is judged by the larger bounds: every mixture of 3 to 12 integer bits at
/// one level and some depth, and more levels with bits raised until 13 comes.
/// Some tables that could be viewed before are refused now.
#[test]
fn thirteen_by_the_larger_bounds() {
    let mut chance = Chance::new(144);
    let mut seen: BTreeMap<(bool, bool), usize> = BTreeMap::new();
    let bits = 3..=12u8;
    for number in 0..bits.len().pow(4) {
        let drawn = |at: u32| 3 + (number / bits.len().pow(at) % bits.len()) as u8;
        let depth = *chance.of(&[8, 9, 10, 10, 11, 12]);
        let table = kept_integer_bits(depth, 1, &[0, 1, 2, 3].map(drawn));
        *seen.entry(ask_view(&table)).or_insert(0) += 1;
    }
    for round in 0..rounds(1500) {
        let levels = 2 + (round % 4) as u8;
        let depth = chance.within(1, deepest_viewed(levels).into()) as u8;
        let mut table = narrow(depth, levels);
        let mut places = table.kept_places();
        loop {
            let (now, before) = ask_view(&table);
            *seen.entry((now, before)).or_insert(0) += 1;
            chance.shuffle(&mut places);
            let narrow = |&&place: &&Place| table.width(place).integer_bits < 12;
            match places.iter().find(narrow) {
                Some(&place) if now => table.width_mut(place).integer_bits += 1,
                _ => break,
            }
        }
    }
    // By the pixel bound, and by a node above 2^15.
    let by_node = [12, 12, 12, 8, 6, 7, 12, 8, 6, 12, 8, 12, 11, 10, 12, 10];
    for table in [
        kept_integer_bits(10, 1, &[10, 3, 3, 3]),
        kept_integer_bits(1, 5, &by_node),
    ] {
        assert_eq!(ask_view(&table), (false, true));
    }
    println!("tables by (viewed now, viewed before): {seen:?}");
    assert!(seen[&(true, true)] > 1000 && seen[&(false, false)] > 1000);
    assert!(seen[&(false, true)] > 10, "{seen:?}");
}
