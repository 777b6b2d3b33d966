//! The 5/3 transform: new copies, which are worked columns first, forward and
//! back, and copies made earlier, rows first, back.
//!
//! No call makes an earlier copy any more. The reference has kept its
//! definition, and those that go back here come from there.

use compare::both::{self, Done, Lent};
use compare::chance::Chance;
use compare::hostile::{against, Shape, FIVE_THREE};
use compare::rounds;
use reference::reversible53::{self, Order};
use reference::Place;

/// Each of these with each order.
fn in_both_orders<T: Copy>(items: impl IntoIterator<Item = T>) -> impl Iterator<Item = (T, Order)> {
    let with_orders = |item| Order::BOTH.map(|order| (item, order));
    items.into_iter().flat_map(with_orders)
}

/// The copy of a picture. A new one is worked by both, in lent memory with
/// something past the picture; an earlier one is that of the definition.
fn copied(chance: &mut Chance, order: Order, shape: Shape, picture: &[u16]) -> Vec<i32> {
    let Shape {
        depth,
        levels,
        width,
        height,
    } = shape;
    let count = shape.count();
    if order == Order::RowsFirst {
        return in_32_bits(&reversible53::forward(
            order, depth, levels, picture, width, height,
        ));
    }
    let [more_input, more_output, more_work] = [4; 3].map(|n| chance.below(n));
    let mut input = picture.to_vec();
    input.extend(chance.sixteen_bits(more_input));
    let lent = Lent {
        input: &input,
        output: &chance.plane(count + more_output),
        work: &chance.plane(count + more_work),
    };
    let done = both::forward53(depth, levels, width, height, lent);
    assert_eq!(done.answer, Ok(()));
    done.output[..count].to_vec()
}

fn in_32_bits(plane: &[i128]) -> Vec<i32> {
    plane.iter().map(|&v| i32::try_from(v).unwrap()).collect()
}

/// Depth, levels and sides, and what is lent.
type WayBack = fn(u8, u8, usize, usize, Lent<i32, u16>) -> Done<u16>;

/// The call for copies of an order, worked by both.
fn way_back(order: Order) -> WayBack {
    match order {
        Order::ColumnsFirst => both::inverse53,
        Order::RowsFirst => both::inverse53_rows_first,
    }
}

/// Back from a plane, in lent memory with something past it: the picture, or
/// nothing where it is refused 11. Whatever the answer is, both give it.
fn taken_back(chance: &mut Chance, order: Order, shape: Shape, plane: &[i32]) -> Option<Vec<u16>> {
    let Shape {
        depth,
        levels,
        width,
        height,
    } = shape;
    let count = shape.count();
    let [more_input, more_output, more_work] = [4; 3].map(|n| chance.below(n));
    let mut input = plane.to_vec();
    input.extend(chance.plane(more_input));
    let lent = Lent {
        input: &input,
        output: &chance.sixteen_bits(count + more_output),
        work: &chance.plane(count + more_work),
    };
    let done = way_back(order)(depth, levels, width, height, lent);
    match done.answer {
        Ok(()) => Some(done.output[..count].to_vec()),
        Err(refusal) => {
            assert_eq!(refusal.number, 11);
            None
        }
    }
}

/// The copy of a picture, which must come back from it.
fn there_and_back(chance: &mut Chance, order: Order, shape: Shape, picture: &[u16]) -> Vec<i32> {
    let plane = copied(chance, order, shape, picture);
    let back = taken_back(chance, order, shape, &plane);
    assert_eq!(back.as_deref(), Some(picture));
    plane
}

/// Whether a plane goes back. One that does comes out the same when worked
/// forward.
fn back(chance: &mut Chance, order: Order, shape: Shape, plane: &[i32]) -> bool {
    let Some(picture) = taken_back(chance, order, shape, plane) else {
        return false;
    };
    assert_eq!(copied(chance, order, shape, &picture), plane);
    true
}

/// Columns for rows and rows for columns.
fn turned<T: Copy>(plane: &[T], width: usize) -> Vec<T> {
    let column = |x: usize| plane.iter().skip(x).step_by(width).copied();
    (0..width).flat_map(column).collect()
}

/// A picture that drives values of a node as far as they go. Nodes are those of
/// a level that works its rows first; columns first, they are met by the
/// picture turned over.
fn hostile(chance: &mut Chance, order: Order, shape: Shape, place: Place) -> Vec<u16> {
    match order {
        Order::RowsFirst => against(&FIVE_THREE, chance, shape, place),
        Order::ColumnsFirst => {
            let on_its_side = shape.turned();
            let picture = against(&FIVE_THREE, chance, on_its_side, place);
            turned(&picture, on_its_side.width)
        }
    }
}

fn shape(depth: u8, levels: u8, width: usize, height: usize) -> Shape {
    Shape {
        depth,
        levels,
        width,
        height,
    }
}

#[test]
fn every_one_bit_picture_up_to_four_by_four() {
    let mut chance = Chance::new(31);
    for levels in 1..=2u8 {
        let sides = (1..=4).flat_map(|height| (1..=4).map(move |width| (width, height)));
        for ((width, height), order) in in_both_orders(sides) {
            let shape = shape(1, levels, width, height);
            let mut planes = std::collections::HashSet::new();
            for bits in 0..1u32 << shape.count() {
                let picture: Vec<u16> =
                    (0..shape.count()).map(|i| (bits >> i & 1) as u16).collect();
                planes.insert(there_and_back(&mut chance, order, shape, &picture));
            }
            // No two pictures have the same plane.
            assert_eq!(planes.len(), 1 << shape.count());
        }
    }
}

#[test]
fn every_small_plane_of_two_by_two() {
    let mut chance = Chance::new(32);
    for (depth, order) in in_both_orders([1, 2]) {
        let shape = shape(depth, 1, 2, 2);
        let mut found = 0;
        for number in 0..13usize.pow(4) {
            let plane: Vec<i32> = (0..4)
                .map(|i| (number / 13usize.pow(i) % 13) as i32 - 6)
                .collect();
            found += usize::from(back(&mut chance, order, shape, &plane));
        }
        // Every picture of that depth has one of these planes.
        assert_eq!(found, 1 << (4 * depth));
    }
}

/// Values about every power of two, where a width could end.
fn edges() -> Vec<i32> {
    let mut values = vec![0];
    for k in 0..31 {
        let power = 1i32 << k;
        values.extend([power, -power, power - 1, -power - 1, power + 1, 1 - power]);
    }
    values.extend([i32::MIN, i32::MIN + 1, i32::MAX, i32::MAX - 1]);
    values.sort_unstable();
    values.dedup();
    values
}

#[test]
fn large_values_of_two_by_two_in_all_mixtures() {
    // Sums of these leave 32 bits on the way.
    let mut values = vec![0, 1, -1, 3, i32::MIN, i32::MIN + 1, i32::MAX, i32::MAX - 1];
    for k in [16, 17, 18, 20, 29, 30] {
        values.extend([1 << k, -(1 << k)]);
    }
    values.extend([3 << 29, -(3 << 29)]);
    let mut chance = Chance::new(33);
    let count = values.len();
    for (depth, order) in in_both_orders([1, 12]) {
        let shape = shape(depth, 1, 2, 2);
        let mut found = 0;
        for number in 0..count.pow(4) {
            let plane: Vec<i32> = (0..4)
                .map(|i| values[number / count.pow(i) % count])
                .collect();
            found += usize::from(back(&mut chance, order, shape, &plane));
        }
        // The small ones go back at 12 bits, all of them; no other does.
        match depth {
            12 => assert_eq!(found, 4usize.pow(4)),
            _ => assert!(found > 0 && found < 16),
        }
    }
}

#[test]
fn one_extreme_value_at_every_place_of_a_true_plane() {
    let mut chance = Chance::new(34);
    let shapes = [
        shape(1, 1, 2, 3),
        shape(8, 2, 5, 4),
        shape(12, 3, 5, 6),
        shape(4, 5, 17, 18),
    ];
    for (shape, order) in in_both_orders(shapes) {
        let picture = chance.picture(shape.depth, shape.count());
        let plane = there_and_back(&mut chance, order, shape, &picture);
        let edges = edges();
        for place in 0..plane.len() {
            // At large planes a sample of the edges at each place.
            let some = if plane.len() > 50 { 12 } else { edges.len() };
            for i in 0..some {
                let value = match some == edges.len() {
                    true => edges[i],
                    false => *chance.of(&edges),
                };
                let mut damaged = plane.clone();
                damaged[place] = value;
                let same = value == plane[place];
                let went_back = back(&mut chance, order, shape, &damaged);
                assert!(went_back || !same);
            }
        }
    }
}

#[test]
fn planes_of_extreme_values_alone() {
    let mut chance = Chance::new(35);
    let edges = edges();
    for _ in 0..rounds(6000) {
        let (depth, levels) = (chance.within(1, 12) as u8, chance.within(1, 5) as u8);
        let shape = Shape::small(&mut chance, depth, levels, 9);
        let small = chance.one_in(2);
        let plane: Vec<i32> = (0..shape.count())
            .map(|_| match chance.below(3) {
                0 => *chance.of(&edges),
                _ if small => 0,
                _ => *chance.of(&[i32::MIN, i32::MAX, 1 << 30, -(1 << 30)]),
            })
            .collect();
        for order in Order::BOTH {
            back(&mut chance, order, shape, &plane);
        }
    }
}

#[test]
fn true_planes_with_small_damage() {
    let mut chance = Chance::new(36);
    for order in Order::BOTH {
        let (mut good, mut bad) = (0, 0);
        for _ in 0..rounds(6000) {
            let (depth, levels) = (chance.within(1, 12) as u8, chance.within(1, 5) as u8);
            let shape = Shape::small(&mut chance, depth, levels, 12);
            let picture = match chance.below(3) {
                // Pictures far from black and white often bear a small change.
                0 => vec![1 << (depth - 1); shape.count()],
                _ => chance.picture(depth, shape.count()),
            };
            let mut plane = there_and_back(&mut chance, order, shape, &picture);
            for _ in 0..chance.within(1, 3) {
                let place = chance.below(plane.len());
                let by = *chance.of(&[1, -1, 2, -2, 7, -40, 1000]);
                plane[place] += by;
            }
            match back(&mut chance, order, shape, &plane) {
                true => good += 1,
                false => bad += 1,
            }
        }
        assert!(good > 100 && bad > 100, "{order:?} {good} {bad}");
    }
}

/// Planes of pictures whose pixels just leave the depth, and of some that
/// leave it far, are refused 11; the same ones within it go back.
#[test]
fn pictures_that_just_leave_their_depth() {
    let mut chance = Chance::new(37);
    for order in Order::BOTH {
        for _ in 0..rounds(3000) {
            let (depth, levels) = (chance.within(1, 12) as u8, chance.within(1, 5) as u8);
            let shape = Shape::small(&mut chance, depth, levels, 9);
            let middle = 1i128 << (depth - 1);
            let mut values: Vec<i128> = chance
                .picture(depth, shape.count())
                .iter()
                .map(|&p| i128::from(p) - middle)
                .collect();
            let place = chance.below(values.len());
            let off = *chance.of(&[0i128, 0, 1, 2, 1 << 12, 1 << 20]);
            values[place] = if chance.one_in(2) {
                middle - 1 + off
            } else {
                -middle - off
            };
            // The plane of these whole numbers, without a depth.
            reversible53::forward_levels(order, levels, &mut values, shape.width, shape.height);
            let plane = in_32_bits(&values);
            assert_eq!(back(&mut chance, order, shape, &plane), off == 0);
        }
    }
}

/// A copy of one order in the hands of the other call: it is refused 11, or
/// taken for the copy of another picture, or, where both orders give the same
/// numbers, comes back. Engine and reference agree, whichever it is.
#[test]
fn copies_of_the_other_order() {
    let mut chance = Chance::new(43);
    for (order, other) in [
        (Order::ColumnsFirst, Order::RowsFirst),
        (Order::RowsFirst, Order::ColumnsFirst),
    ] {
        let (mut refused, mut another, mut same) = (0, 0, 0);
        for _ in 0..rounds(6000) {
            let (depth, levels) = (chance.within(1, 12) as u8, chance.within(1, 5) as u8);
            let shape = Shape::small(&mut chance, depth, levels, 12);
            let picture = match chance.below(4) {
                0 => {
                    let grey = chance.below(1 << depth) as u16;
                    vec![grey; shape.count()]
                }
                // Greys about the middle: what comes out stays in the depth.
                1 => {
                    let most = (1u16 << depth) - 1;
                    let grey = |p: u16| p / 2 + most / 4;
                    let drawn = chance.picture(depth, shape.count());
                    drawn.into_iter().map(grey).collect()
                }
                _ => chance.picture(depth, shape.count()),
            };
            let plane = there_and_back(&mut chance, order, shape, &picture);
            match taken_back(&mut chance, other, shape, &plane) {
                None => refused += 1,
                Some(taken) if taken != picture => {
                    // A copy in the other order all the same, of that picture.
                    assert_eq!(copied(&mut chance, other, shape, &taken), plane);
                    another += 1;
                }
                Some(_) => same += 1,
            }
        }
        let seen = [refused, another, same];
        assert!(seen.iter().all(|&n| n > 100), "{order:?} {seen:?}");
    }
}

/// New copies and earlier ones are in general not the same; their subbands lie
/// in the same places.
#[test]
fn the_two_orders_differ_in_numbers_and_not_in_places() {
    let mut chance = Chance::new(44);
    let mut differ = 0;
    for _ in 0..rounds(500) {
        let (depth, levels) = (chance.within(1, 12) as u8, chance.within(1, 5) as u8);
        let shape = Shape::small(&mut chance, depth, levels, 12);
        let picture = chance.picture(depth, shape.count());
        let [new, earlier] = Order::BOTH.map(|o| copied(&mut chance, o, shape, &picture));
        differ += usize::from(new != earlier);

        // Where all rows are alike nothing is high down the columns, and the
        // columns leave the rows as they are; and turned over.
        let rows: Vec<u16> = picture[..shape.width].repeat(shape.height);
        let columns = turned(&picture[..shape.height].repeat(shape.width), shape.height);
        for alike in [rows, columns] {
            let [new, earlier] = Order::BOTH.map(|o| copied(&mut chance, o, shape, &alike));
            assert_eq!(new, earlier);
        }
    }
    assert!(differ > rounds(300), "{differ}");
}

#[test]
fn hostile_and_random_pictures() {
    let mut chance = Chance::new(38);
    for _ in 0..rounds(4000) {
        let (depth, levels) = (chance.within(1, 12) as u8, chance.within(1, 5) as u8);
        let shape = Shape::small(&mut chance, depth, levels, 20);
        let place = Place {
            level: chance.within(1, levels as usize) as u8,
            pass: chance.within(1, 3) as u8,
            node: chance.within(1, 2) as u8,
        };
        for order in Order::BOTH {
            let picture = hostile(&mut chance, order, shape, place);
            there_and_back(&mut chance, order, shape, &picture);
            let random = chance.picture(depth, shape.count());
            there_and_back(&mut chance, order, shape, &random);
        }
    }
}

/// The largest coefficients that pictures have: HH at the last level, 12 bits.
/// They come close to 2^14, and the picture must come back all the same.
#[test]
fn the_largest_coefficients_go_back() {
    let mut chance = Chance::new(42);
    let mut most = [0; 2];
    for (width, height) in [(97, 97), (98, 97), (113, 128)] {
        let shape = shape(12, 5, width, height);
        let place = Place {
            level: 5,
            pass: 3,
            node: 1,
        };
        let (columns, rows) = shape.values_of(place);
        for (x, y) in (0..columns).flat_map(|x| (0..rows).map(move |y| (x, y))) {
            for largest in [true, false] {
                let picture = FIVE_THREE.picture(shape, place, x, y, largest);
                for (order, most) in Order::BOTH.into_iter().zip(&mut most) {
                    let plane = there_and_back(&mut chance, order, shape, &picture);
                    let size = plane.iter().map(|v| v.unsigned_abs()).max().unwrap();
                    *most = size.max(*most);
                }
            }
        }
    }
    assert!(
        most.iter().all(|m| (16_201..1 << 14).contains(m)),
        "{most:?}"
    );
}

#[test]
fn long_narrow_and_large_pictures() {
    let mut chance = Chance::new(39);
    for (levels, width, height) in [
        (1, 4096, 2),
        (1, 2, 4096),
        (1, 4095, 3),
        (1, 4096, 1),
        (1, 1, 4095),
        (5, 4096, 17),
        (5, 17, 4095),
        (5, 4095, 1),
        (5, 1, 4096),
        (5, 16, 4096),
        (5, 4096, 3),
        (5, 513, 257),
        (3, 600, 401),
    ] {
        let shape = shape(12, levels, width, height);
        for order in Order::BOTH {
            let picture = chance.picture(12, shape.count());
            there_and_back(&mut chance, order, shape, &picture);
            let light = vec![4095; shape.count()];
            there_and_back(&mut chance, order, shape, &light);
        }
    }
}

/// The engine works columns in strips of 64: sides about one strip and about
/// two, and those of one sample and a few, with an extreme value anywhere in
/// such a plane.
#[test]
fn sides_about_a_strip() {
    let mut chance = Chance::new(45);
    let edges = edges();
    let sides = [1, 2, 3, 17, 18, 62, 63, 64, 65, 66, 127, 128, 129, 130];
    for (width, height) in sides.into_iter().flat_map(|w| sides.map(|h| (w, h))) {
        let (depth, levels) = (chance.within(1, 12) as u8, chance.within(1, 5) as u8);
        for order in Order::BOTH {
            let shape = shape(depth, levels, width, height);
            let picture = chance.picture(depth, shape.count());
            let mut plane = there_and_back(&mut chance, order, shape, &picture);
            let place = chance.below(plane.len());
            plane[place] = *chance.of(&edges);
            back(&mut chance, order, shape, &plane);
        }
    }
}

#[test]
fn every_refusal_in_its_order() {
    let mut chance = Chance::new(40);
    let mut forward_seen = [0usize; 12];
    let mut back_seen = [[0usize; 12]; 2];
    let sides = [
        0,
        1,
        2,
        3,
        4,
        5,
        8,
        9,
        16,
        17,
        18,
        4097,
        65536,
        1 << 32,
        usize::MAX,
    ];
    for _ in 0..rounds(60_000) {
        let depth = *chance.of(&[0u8, 1, 2, 8, 12, 13, 255]);
        let levels = *chance.of(&[0u8, 1, 2, 3, 4, 5, 6, 255]);
        let (width, height) = (*chance.of(&sides), *chance.of(&sides));
        let count = width.checked_mul(height).filter(|&n| n <= 400).unwrap_or(4);
        let mut length = || match chance.below(5) {
            0 => count.saturating_sub(1),
            1 => 0,
            _ => count + chance.below(3),
        };
        let (input, output, work) = (length(), length(), length());
        let wide = chance.one_in(2);
        let mut pixels = chance.picture(depth.clamp(1, 12), input);
        if wide && !pixels.is_empty() {
            let at = chance.below(pixels.len());
            pixels[at] = 1 << depth.clamp(1, 12);
        }
        let lent = Lent {
            input: &pixels,
            output: &chance.plane(output),
            work: &chance.plane(work),
        };
        let done = both::forward53(depth, levels, width, height, lent);
        let number = done.answer.map_or_else(|refusal| refusal.number, |()| 0);
        forward_seen[number as usize] += 1;
        for (order, seen) in Order::BOTH.into_iter().zip(&mut back_seen) {
            let lent = Lent {
                input: &chance.plane(input),
                output: &chance.sixteen_bits(output),
                work: &chance.plane(work),
            };
            let done = way_back(order)(depth, levels, width, height, lent);
            let number = done.answer.map_or_else(|refusal| refusal.number, |()| 0);
            seen[number as usize] += 1;
        }
    }
    for (number, seen) in forward_seen.into_iter().enumerate() {
        assert_eq!(seen > 20, matches!(number, 0 | 4 | 8 | 9 | 10));
    }
    for (number, seen) in back_seen.iter().flat_map(|seen| seen.iter().enumerate()) {
        assert_eq!(*seen > 20, matches!(number, 4 | 8 | 9 | 11));
    }
}

/// A pixel too large is found at every place, and none past the picture.
#[test]
fn the_pixel_rule_looks_at_the_picture_alone() {
    let mut chance = Chance::new(41);
    for depth in 1..=12u8 {
        let shape = shape(depth, 2, 5, 4);
        for place in 0..24 {
            let mut pixels = chance.picture(depth, 24);
            pixels[place] = 1 << depth;
            let lent = Lent {
                input: &pixels,
                output: &chance.plane(22),
                work: &chance.plane(21),
            };
            let done = both::forward53(depth, 2, shape.width, shape.height, lent);
            let number = done.answer.map_or_else(|refusal| refusal.number, |()| 0);
            assert_eq!(number, if place < 20 { 10 } else { 0 });
        }
    }
}

#[test]
fn the_numbers_of_the_document() {
    // A line is worked alone where the picture repeats it: the other pass
    // leaves the value first and 0 after it.
    let cases: [(&[i32], &[i32]); 6] = [
        (&[0, 0], &[0, 0]),
        (&[1, 3], &[2, 2]),
        (&[-1, 0], &[0, 1]),
        (&[0, -3], &[-1, -3]),
        (&[3, 0, -2], &[3, -2, 0]),
        (&[0, 0, 0, 1], &[0, 0, 0, 1]),
    ];
    for (line, due) in cases {
        let n = line.len();
        let pixels: Vec<u16> = line.iter().chain(line).map(|v| (v + 4) as u16).collect();
        let due = [due, &vec![0; n]].concat();
        let plane = suzdrepa::forward53_to_vec(3, 1, &pixels, n, 2).unwrap();
        assert_eq!(plane, due);
        let plane = suzdrepa::forward53_to_vec(3, 1, &turned(&pixels, n), 2, n).unwrap();
        assert_eq!(plane, turned(&due, n));
    }
    let picture = [5, 7, 4, 4];
    let plane = suzdrepa::forward53_to_vec(3, 1, &picture, 2, 2).unwrap();
    assert_eq!(plane, [2, 1, -2, -2]);
    let back = suzdrepa::inverse53_to_vec(3, 1, &plane, 2, 2).unwrap();
    assert_eq!(back, picture);
    let earlier = [1, 1, -2, -2];
    let back = suzdrepa::inverse53_rows_first_to_vec(3, 1, &earlier, 2, 2).unwrap();
    assert_eq!(back, picture);
}
