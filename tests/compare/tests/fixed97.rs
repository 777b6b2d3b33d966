//! The 9/7 transform in fixed point.

use compare::both::{self, Lent};
use compare::chance::Chance;
use compare::hostile::{against, Shape, NINE_SEVEN};
use compare::rounds;
use compare::tables::{accepted_products, any, any_form, damaged, generous, tight};
use reference::{Place, WidthTable};

/// Works a picture in lent memory with something past it.
fn work(chance: &mut Chance, table: &WidthTable, shape: Shape, picture: &[u16]) -> Vec<i32> {
    let bytes = table.bytes().unwrap();
    let more = chance.below(4);
    let mut pixels = picture.to_vec();
    pixels.extend(chance.sixteen_bits(more));
    let lent = Lent {
        input: &pixels,
        output: &chance.plane(shape.count() + 3),
        work: &chance.plane(shape.count() + more),
    };
    let done = both::forward97(&bytes, shape.width, shape.height, lent);
    assert_eq!(done.answer, Ok(()));
    done.output[..shape.count()].to_vec()
}

fn some_place(chance: &mut Chance, levels: u8) -> Place {
    Place {
        level: chance.within(1, levels as usize) as u8,
        pass: chance.within(1, 3) as u8,
        node: chance.within(1, 6) as u8,
    }
}

#[test]
fn tight_tables_and_hostile_pictures() {
    let mut chance = Chance::new(51);
    for round in 0..rounds(150) {
        let (depth, levels) = (chance.within(1, 12) as u8, chance.within(1, 5) as u8);
        let table = match round % 3 {
            0 => accepted_products(&mut chance, depth, levels),
            _ => tight(&mut chance, depth, levels),
        };
        for _ in 0..10 {
            let shape = Shape::small(&mut chance, depth, levels, 24);
            let place = some_place(&mut chance, levels);
            let hostile = against(&NINE_SEVEN, &mut chance, shape, place);
            work(&mut chance, &table, shape, &hostile);
            let random = chance.picture(depth, shape.count());
            work(&mut chance, &table, shape, &random);
        }
    }
}

/// Tables drawn freely are seldom accepted; generous ones with some numbers
/// drawn freely often are.
#[test]
fn uneven_tables() {
    let mut chance = Chance::new(52);
    let mut worked = 0;
    for _ in 0..rounds(2000) {
        let (depth, levels) = (chance.within(1, 12) as u8, chance.within(1, 5) as u8);
        let mut table = generous(depth, levels);
        let drawn = any(&mut chance);
        for bits in 0..6 {
            if chance.one_in(2) {
                table.constant_bits[bits] = drawn.constant_bits[bits].max(8);
            }
        }
        for place in table.places() {
            let kept = table.is_kept(place);
            let width = table.width_mut(place);
            match chance.below(3) {
                0 if !kept => width.fraction_bits = chance.within(6, 20) as u8,
                1 if kept => width.fraction_bits = chance.within(0, 5) as u8,
                _ => {}
            }
        }
        let shape = Shape::small(&mut chance, depth, levels, 12);
        if both::table_check(&table.bytes().unwrap()).is_ok() {
            worked += 1;
            let random = chance.picture(depth, shape.count());
            work(&mut chance, &table, shape, &random);
        }
    }
    assert!(worked > 200, "{worked}");
}

#[test]
fn every_one_bit_picture_up_to_four_by_four() {
    let mut chance = Chance::new(53);
    for levels in 1..=3u8 {
        let table = tight(&mut chance, 1, levels);
        for height in 1..=4 {
            for width in 1..=4 {
                let shape = Shape {
                    depth: 1,
                    levels,
                    width,
                    height,
                };
                // All but the largest in whole, the largest by every fifth.
                let stride = if shape.count() > 12 { 5 } else { 1 };
                for bits in (0..1u32 << shape.count()).step_by(stride) {
                    let picture: Vec<u16> =
                        (0..shape.count()).map(|i| (bits >> i & 1) as u16).collect();
                    work(&mut chance, &table, shape, &picture);
                }
            }
        }
    }
}

#[test]
fn long_narrow_and_large_pictures() {
    let mut chance = Chance::new(54);
    for (levels, width, height) in [
        (1, 4096, 2),
        (1, 2, 4096),
        (1, 4095, 3),
        (1, 4096, 1),
        (1, 1, 4095),
        (5, 4096, 17),
        (5, 17, 4095),
        (5, 4095, 1),
        (5, 1, 4096),
        (5, 16, 4096),
        (5, 4096, 3),
        (5, 513, 257),
        (3, 300, 401),
    ] {
        let shape = Shape {
            depth: 12,
            levels,
            width,
            height,
        };
        for table in [generous(12, levels), tight(&mut chance, 12, levels)] {
            let picture = chance.picture(12, shape.count());
            work(&mut chance, &table, shape, &picture);
        }
    }
}

#[test]
fn every_refusal_in_its_order() {
    let mut chance = Chance::new(55);
    let mut seen = [0usize; 12];
    let sides = [
        0,
        1,
        2,
        3,
        4,
        5,
        8,
        9,
        16,
        17,
        18,
        4097,
        1 << 32,
        usize::MAX,
    ];
    for _ in 0..rounds(60_000) {
        let (depth, levels) = (chance.within(1, 12) as u8, chance.within(1, 5) as u8);
        let table = match chance.below(5) {
            0 => any_form(&mut chance),
            1 => generous(depth, levels).with_products(44),
            _ => generous(depth, levels),
        };
        let mut bytes = table.bytes().unwrap();
        if chance.one_in(4) {
            bytes = damaged(&mut chance, &bytes);
        }
        let (width, height) = (*chance.of(&sides), *chance.of(&sides));
        let count = width.checked_mul(height).filter(|&n| n <= 400).unwrap_or(4);
        let mut length = || match chance.below(8) {
            0 => count.saturating_sub(1),
            1 => 0,
            _ => count + chance.below(3),
        };
        let (input, output, work) = (length(), length(), length());
        let mut pixels = chance.picture(table.depth, input);
        if chance.one_in(2) && !pixels.is_empty() {
            let at = chance.below(pixels.len());
            pixels[at] = 1 << table.depth;
        }
        let lent = Lent {
            input: &pixels,
            output: &chance.plane(output),
            work: &chance.plane(work),
        };
        let done = both::forward97(&bytes, width, height, lent);
        let number = done.answer.map_or_else(|refusal| refusal.number, |()| 0);
        seen[number as usize] += 1;
    }
    assert!(seen[..11].iter().all(|&n| n > 20), "{seen:?}");
    assert_eq!(seen[11], 0);
}

#[test]
fn the_allocating_call_gives_the_same_plane() {
    let mut chance = Chance::new(56);
    let shape = Shape {
        depth: 8,
        levels: 3,
        width: 21,
        height: 14,
    };
    let table = generous(8, 3);
    let picture = chance.picture(8, shape.count());
    let plane = work(&mut chance, &table, shape, &picture);
    let bytes = table.bytes().unwrap();
    assert_eq!(
        suzdrepa::forward97_to_vec(&bytes, &picture, 21, 14).unwrap(),
        plane
    );
    let refusal = suzdrepa::forward97_to_vec(&bytes, &picture, 21, 15).unwrap_err();
    assert_eq!(refusal.number(), 9);
}
