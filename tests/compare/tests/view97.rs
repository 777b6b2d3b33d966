//! Viewing a stored 9/7 plane (document 02, job 1).

use compare::both::{self, Lent};
use compare::chance::Chance;
use compare::hostile::{least_full_side, Shape, NINE_SEVEN};
use compare::rounds;
use compare::tables::{
    any, damaged, deepest_viewed, generous, loose_viewable, narrow, some_products, tight,
    tight_viewable, tight_viewable_products,
};
use reference::places::kept_node;
use reference::{viewing, Refusal, Width, WidthTable};
use std::collections::BTreeMap;

/// Views a plane in lent memory with something past it; gives the pixels.
fn view(chance: &mut Chance, table: &WidthTable, shape: Shape, stored: &[i32]) -> Vec<u16> {
    let bytes = table.bytes().unwrap();
    let (count, more) = (shape.count(), chance.below(4));
    let mut plane = stored.to_vec();
    // What stands past the plane is not looked at, though no node holds it.
    plane.extend([i32::MIN, i32::MAX].iter().cycle().take(more));
    let lent = Lent {
        input: &plane,
        output: &chance.sixteen_bits(count + 3),
        work: &chance.sixty_four_bits(count + more),
    };
    let done = both::view97(&bytes, shape.width, shape.height, lent);
    assert_eq!(done.answer, Ok(()));
    done.output[..count].to_vec()
}

/// The number that viewing a plane is refused by. Asserts that nothing of the
/// lent memory changed.
fn refused(chance: &mut Chance, table: &WidthTable, shape: Shape, stored: &[i32]) -> u8 {
    let bytes = table.bytes().unwrap();
    let output = chance.sixteen_bits(shape.count());
    let lent = Lent {
        input: stored,
        output: &output,
        work: &chance.sixty_four_bits(shape.count() + 1),
    };
    // The work area is compared with the reference's, which leaves it.
    let done = both::view97(&bytes, shape.width, shape.height, lent);
    assert_eq!(done.output, output);
    done.answer.unwrap_err().number
}

/// Levels and a depth that is viewed with them.
fn depth_and_levels(chance: &mut Chance) -> (u8, u8) {
    let levels = chance.within(1, 5) as u8;
    let deepest = deepest_viewed(levels);
    let depth = match chance.one_in(3) {
        true => deepest,
        false => chance.within(1, deepest.into()) as u8,
    };
    (depth, levels)
}

fn viewable_table(chance: &mut Chance, depth: u8, levels: u8) -> WidthTable {
    match chance.below(4) {
        0 => narrow(depth, levels),
        1 => loose_viewable(chance, depth, levels),
        2 => tight_viewable_products(chance, depth, levels),
        _ => tight_viewable(chance, depth, levels),
    }
}

#[test]
fn random_and_hostile_planes() {
    let mut chance = Chance::new(91);
    let mut ends = [0usize; 2];
    for _ in 0..rounds(200) {
        let (depth, levels) = depth_and_levels(&mut chance);
        let table = viewable_table(&mut chance, depth, levels);
        for _ in 0..6 {
            let shape = Shape::small(&mut chance, depth, levels, 24);
            let (width, height) = (shape.width, shape.height);
            let stored = chance.stored(&table, width, height);
            view(&mut chance, &table, shape, &stored);
            // One value as far as it goes: the pixel is the darkest or the
            // lightest.
            let (x, y) = (chance.below(width), chance.below(height));
            let largest = chance.one_in(2);
            let hostile = NINE_SEVEN.plane(&table, shape, x, y, largest);
            let pixel = view(&mut chance, &table, shape, &hostile)[y * width + x];
            assert_eq!(pixel, if largest { (1 << depth) - 1 } else { 0 });
            ends[usize::from(largest)] += 1;
            // What a picture gives.
            let picture = chance.picture(depth, shape.count());
            let bytes = table.bytes().unwrap();
            let stored = suzdrepa::forward97_to_vec(&bytes, &picture, width, height).unwrap();
            view(&mut chance, &table, shape, &stored);
        }
    }
    assert!(ends.iter().all(|&n| n > 100));
}

/// Every coefficient at the same end of its width, and ends in turn.
#[test]
fn ends_of_every_width() {
    let mut chance = Chance::new(92);
    for levels in 1..=5 {
        for depth in 1..=deepest_viewed(levels) {
            let table = viewable_table(&mut chance, depth, levels);
            let shape = Shape::small(&mut chance, depth, levels, 9);
            for pattern in 0..4 {
                let end = |i: usize| {
                    let (x, y) = (i % shape.width, i / shape.width);
                    let node = kept_node(shape.width, shape.height, levels, x, y);
                    let (least, most) = table.width(node).ends();
                    let turned = match pattern {
                        0 => 0,
                        1 => 1,
                        2 => x + y,
                        _ => x,
                    };
                    (if turned % 2 == 0 { most } else { least }) as i32
                };
                let stored: Vec<i32> = (0..shape.count()).map(end).collect();
                view(&mut chance, &table, shape, &stored);
            }
        }
    }
}

/// Every plane of two by two under the narrowest widths.
#[test]
fn every_small_plane_of_two_by_two() {
    let mut chance = Chance::new(93);
    let table = WidthTable::kept_and_others(1, 1, 24, Width::new(3, 0), Width::new(12, 20));
    let shape = Shape {
        depth: 1,
        levels: 1,
        width: 2,
        height: 2,
    };
    let mut pictures = BTreeMap::new();
    for number in 0..8i32.pow(4) {
        let stored: Vec<i32> = (0..4).map(|i| number / 8i32.pow(i) % 8 - 4).collect();
        let pixels = view(&mut chance, &table, shape, &stored);
        *pictures.entry(pixels).or_insert(0) += 1;
    }
    // Every picture of one bit is shown by some plane.
    assert_eq!(pictures.len(), 16);
}

#[test]
fn long_narrow_and_large_planes() {
    let mut chance = Chance::new(94);
    for (depth, levels, width, height) in [
        (12, 1, 4096, 2),
        (12, 1, 2, 4096),
        (12, 1, 4095, 3),
        (12, 1, 1, 4096),
        (12, 1, 4095, 1),
        (11, 2, 3, 4096),
        (9, 3, 1, 4095),
        (5, 5, 4096, 1),
        (5, 5, 16, 4096),
        (9, 3, 4096, 5),
        (5, 5, 4096, 17),
        (5, 5, 17, 4095),
        (5, 5, 513, 257),
        (8, 3, 300, 401),
        (8, 3, 65, 33),
        (8, 3, 32, 64),
    ] {
        let shape = Shape {
            depth,
            levels,
            width,
            height,
        };
        let tables = [
            narrow(depth, levels),
            tight_viewable(&mut chance, depth, levels),
        ];
        for table in tables {
            let stored = chance.stored(&table, width, height);
            view(&mut chance, &table, shape, &stored);
        }
    }
}

/// Both sides large, up to the largest that are admitted: what a picture gives
/// comes back within the distance.
#[test]
fn both_sides_large() {
    let mut chance = Chance::new(102);
    for (depth, levels, width, height) in
        [(5, 5, 4096, 4096), (12, 1, 4095, 2047), (8, 3, 1025, 4095)]
    {
        let shape = Shape {
            depth,
            levels,
            width,
            height,
        };
        let table = tight_viewable(&mut chance, depth, levels);
        let bytes = table.bytes().unwrap();
        let picture = chance.picture(depth, shape.count());
        let mut stored = suzdrepa::forward97_to_vec(&bytes, &picture, width, height).unwrap();
        let shown = view(&mut chance, &table, shape, &stored);
        let grey = suzdrepa::Bound::ONE >> depth;
        let most = (suzdrepa::view_distance(&bytes).unwrap() + grey / 2) / grey;
        let near = |(&one, &other): (&u16, &u16)| u64::from(one.abs_diff(other)) <= most;
        assert!(picture.iter().zip(&shown).all(near));
        // The last coefficient of all is looked at, too.
        *stored.last_mut().unwrap() = i32::MIN;
        assert_eq!(refused(&mut chance, &table, shape, &stored), 12);
    }
}

/// One step outside each end of each kept node, at the first, the last and
/// some place of its part; the ends themselves are held. Where passes have
/// single samples some nodes have no part.
#[test]
fn one_step_outside_every_width() {
    let mut chance = Chance::new(95);
    for levels in 1..=5 {
        for round in 0..6 {
            let depth = chance.within(1, deepest_viewed(levels).into()) as u8;
            let table = viewable_table(&mut chance, depth, levels);
            let full = Shape::small_full(&mut chance, depth, levels, 6);
            let shape = match round {
                0 => Shape { width: 1, ..full },
                1 => Shape { height: 1, ..full },
                _ => full,
            };
            let (width, height) = (shape.width, shape.height);
            let node_of = |i: usize| kept_node(width, height, levels, i % width, i / width);
            for place in table.kept_places() {
                let part: Vec<usize> = (0..shape.count())
                    .filter(|&i| node_of(i) == place)
                    .collect();
                if part.is_empty() {
                    assert!(shape.has_single_samples());
                    continue;
                }
                let (least, most) = table.width(place).ends();
                let (least, most) = (least as i64, most as i64);
                for at in [part[0], *part.last().unwrap(), *chance.of(&part)] {
                    let mut stored = chance.stored(&table, width, height);
                    for end in [least, most] {
                        stored[at] = end as i32;
                        view(&mut chance, &table, shape, &stored);
                    }
                    // A width of 32 bits has nothing outside.
                    for outside in [
                        least - 1,
                        most + 1,
                        i64::from(i32::MIN),
                        i64::from(i32::MAX),
                    ] {
                        if let Ok(value) = i32::try_from(outside) {
                            if (least..=most).contains(&outside) {
                                continue;
                            }
                            stored[at] = value;
                            assert_eq!(refused(&mut chance, &table, shape, &stored), 12);
                        }
                    }
                }
            }
        }
    }
}

/// What makes a table of so many bits be refused 13.
#[derive(Clone, Copy, Debug, PartialEq, Eq, PartialOrd, Ord)]
enum Cause {
    /// Some node's range plus error is above 2^15.
    Node,
    /// The pixel bound is not below half a grey.
    Pixel,
    Both,
}

/// The cause by the reference's bounds; none where the table can be viewed.
fn cause(table: &WidthTable) -> Option<Cause> {
    let bounds = viewing::bounds(table);
    let nodes = bounds.passes.iter().flatten();
    let large = nodes.into_iter().any(|b| b.range + b.error > 1 << 47);
    let far = bounds.pixel.error >= 1 << (31 - table.depth);
    match (large, far) {
        (false, false) => None,
        (true, false) => Some(Cause::Node),
        (false, true) => Some(Cause::Pixel),
        (true, true) => Some(Cause::Both),
    }
}

/// Asks both for a table's viewing in all three ways, with something small as
/// the plane; the answers are one.
fn ask(chance: &mut Chance, table: &WidthTable) -> Result<u64, Refusal> {
    let bytes = table.bytes().unwrap();
    let answer = both::table_view(&bytes);
    let before = chance.bits();
    let (told, distance) = both::view_distance(&bytes, before);
    assert_eq!(told, answer);
    assert!(answer.is_ok() || distance == before);
    let shape = Shape::small(chance, table.depth, table.levels, 3);
    let stored = vec![0; shape.count()];
    match answer {
        Ok(()) => {
            view(chance, table, shape, &stored);
        }
        Err(refusal) => {
            let number = refused(chance, table, shape, &stored);
            assert_eq!(number, refusal.number);
        }
    }
    answer.map(|()| distance)
}

/// Integer bits of kept nodes raised one by one until 13 comes: each table on
/// the way is asked, and both sides of the edge.
#[test]
fn thirteen_by_each_cause() {
    let mut chance = Chance::new(96);
    let mut seen: BTreeMap<Option<Cause>, usize> = BTreeMap::new();
    for round in 0..rounds(60) {
        let levels = 1 + (round % 5) as u8;
        let depth = match chance.below(3) {
            0 => 1,
            1 => deepest_viewed(levels),
            _ => chance.within(1, deepest_viewed(levels).into()) as u8,
        };
        let mut table = viewable_table(&mut chance, depth, levels);
        loop {
            let due = cause(&table);
            *seen.entry(due).or_insert(0) += 1;
            let told = ask(&mut chance, &table);
            assert_eq!(told.is_err(), due.is_some());
            let narrow: Vec<_> = (table.kept_places().into_iter())
                .filter(|&place| table.width(place).integer_bits < 12)
                .collect();
            if told.is_err() || narrow.is_empty() {
                break;
            }
            table.width_mut(*chance.of(&narrow)).integer_bits += 1;
        }
    }
    // Every node as wide as it gets, at every depth and number of levels.
    for levels in 1..=5 {
        for depth in 1..=12 {
            for table in [generous(depth, levels), narrow(depth, levels)] {
                let due = cause(&table);
                *seen.entry(due).or_insert(0) += 1;
                let told = ask(&mut chance, &table);
                assert_eq!(told.is_err(), due.is_some());
                assert!(told.is_err() || depth <= deepest_viewed(levels));
            }
        }
    }
    println!("tables by cause of 13: {seen:?}");
    for cause in [
        None,
        Some(Cause::Node),
        Some(Cause::Pixel),
        Some(Cause::Both),
    ] {
        assert!(seen.get(&cause).is_some_and(|&n| n > 2), "{cause:?}");
    }
}

/// The two questions of many tables, right and damaged.
#[test]
fn questions_of_many_tables() {
    let mut chance = Chance::new(97);
    let mut seen = [0usize; 14];
    for round in 0..rounds(20_000) {
        let (depth, levels) = (chance.within(1, 12) as u8, chance.within(1, 5) as u8);
        let table = match round % 8 {
            0 if round % 64 == 0 => tight(&mut chance, depth, levels),
            1 if depth <= deepest_viewed(levels) => loose_viewable(&mut chance, depth, levels),
            2 | 3 => generous(depth, levels),
            4 => narrow(depth, levels),
            _ => any(&mut chance),
        };
        let mut bytes = some_products(&mut chance, table).bytes().unwrap();
        if chance.one_in(3) {
            bytes = damaged(&mut chance, &bytes);
        }
        let answer = both::table_view(&bytes);
        let before = chance.bits();
        let (told, distance) = both::view_distance(&bytes, before);
        assert_eq!(told, answer);
        assert!(answer.is_ok() || distance == before);
        let number = answer.map_or_else(|refusal| refusal.number, |()| 0);
        seen[usize::from(number)] += 1;
    }
    for number in [0, 1, 2, 3, 4, 5, 6, 7, 13] {
        assert!(seen[number] > 20, "{seen:?}");
    }
    assert_eq!(seen[8..13], [0; 5]);
}

/// Sides at every edge of what is admitted, now and before job 6.
#[test]
fn sides_at_every_edge() {
    let mut chance = Chance::new(98);
    for levels in 1..=5u8 {
        let table = narrow(deepest_viewed(levels), levels);
        let full = least_full_side(levels);
        let sides = [
            0,
            1,
            2,
            full - 1,
            full,
            full + 1,
            4095,
            4096,
            4097,
            usize::MAX,
        ];
        for width in sides {
            for height in sides {
                let admitted = [width, height].iter().all(|s| (1..=4096).contains(s));
                // A plane of 4,096 by 4,096 is not needed for this.
                if admitted && width.min(height) > full + 1 {
                    continue;
                }
                let shape = Shape {
                    depth: table.depth,
                    levels,
                    width,
                    height,
                };
                if admitted {
                    let stored = chance.stored(&table, width, height);
                    view(&mut chance, &table, shape, &stored);
                    continue;
                }
                let bytes = table.bytes().unwrap();
                let lent = Lent {
                    input: &chance.plane(40),
                    output: &chance.sixteen_bits(40),
                    work: &chance.sixty_four_bits(40),
                };
                let done = both::view97(&bytes, width, height, lent);
                assert_eq!(done.answer.unwrap_err().number, 8);
            }
        }
    }
}

/// Each of the three slices too short by one, by all, and just long enough.
#[test]
fn short_slices() {
    let mut chance = Chance::new(99);
    for levels in 1..=5 {
        let table = narrow(deepest_viewed(levels), levels);
        let bytes = table.bytes().unwrap();
        let shape = Shape::small(&mut chance, table.depth, levels, 4);
        let count = shape.count();
        let stored = chance.stored(&table, shape.width, shape.height);
        for short in 0..3 {
            for length in [0, 1, count - 1, count] {
                let mut lengths = [count; 3];
                lengths[short] = length;
                let lent = Lent {
                    input: &stored[..lengths[0]],
                    output: &chance.sixteen_bits(lengths[1]),
                    work: &chance.sixty_four_bits(lengths[2]),
                };
                let done = both::view97(&bytes, shape.width, shape.height, lent);
                let due = if length < count { 9 } else { 0 };
                let number = done.answer.map_or_else(|refusal| refusal.number, |()| 0);
                assert_eq!(number, due);
            }
        }
    }
}

#[test]
fn every_refusal_in_its_order() {
    let mut chance = Chance::new(100);
    let mut seen = [0usize; 14];
    let sides = [
        0,
        1,
        2,
        3,
        4,
        5,
        8,
        9,
        16,
        17,
        18,
        4097,
        1 << 32,
        usize::MAX,
    ];
    for _ in 0..rounds(40_000) {
        let (depth, levels) = (chance.within(1, 12) as u8, chance.within(1, 5) as u8);
        let table = match chance.below(4) {
            0 => any(&mut chance),
            1 => generous(depth, levels),
            _ => narrow(depth.min(deepest_viewed(levels)), levels),
        };
        let mut bytes = table.bytes().unwrap();
        if chance.one_in(4) {
            bytes = damaged(&mut chance, &bytes);
        }
        let (width, height) = (*chance.of(&sides), *chance.of(&sides));
        let small = width.checked_mul(height).filter(|&n| n <= 400);
        let count = small.unwrap_or(4);
        let mut length = || match chance.below(8) {
            0 => count.saturating_sub(1),
            1 => 0,
            _ => count + chance.below(3),
        };
        let (input, output, work) = (length(), length(), length());
        let mut plane = match small {
            Some(_) if width > 0 && height > 0 => chance.stored(&table, width, height),
            _ => Vec::new(),
        };
        plane.resize(input, i32::MAX);
        if chance.one_in(3) && !plane.is_empty() {
            let at = chance.below(plane.len());
            plane[at] = chance.bits() as i32;
        }
        let lent = Lent {
            input: &plane,
            output: &chance.sixteen_bits(output),
            work: &chance.sixty_four_bits(work),
        };
        let done = both::view97(&bytes, width, height, lent);
        let number = done.answer.map_or_else(|refusal| refusal.number, |()| 0);
        seen[usize::from(number)] += 1;
    }
    for number in [0, 1, 2, 3, 4, 5, 6, 7, 8, 9, 12, 13] {
        assert!(seen[number] > 20, "{seen:?}");
    }
    assert_eq!(seen[10..12], [0; 2]);
}

#[test]
fn the_allocating_call_gives_the_same_picture() {
    let mut chance = Chance::new(101);
    let shape = Shape {
        depth: 8,
        levels: 3,
        width: 21,
        height: 14,
    };
    let table = narrow(8, 3);
    let stored = chance.stored(&table, 21, 14);
    let pixels = view(&mut chance, &table, shape, &stored);
    let bytes = table.bytes().unwrap();
    let viewed = suzdrepa::view97_to_vec(&bytes, &stored, 21, 14);
    assert_eq!(viewed, Ok(pixels));
    let refusal = suzdrepa::view97_to_vec(&bytes, &stored, 21, 15).unwrap_err();
    assert_eq!(refusal.number(), 9);
}
