//! Tables from their parts, and constants changed.

use compare::chance::Chance;
use compare::tables::{any, any_form, damaged, drawn_products, generous};
use compare::{both, rounds};
use reference::table::WIDTHS;
use reference::{Width, WidthTable};

fn number(answer: both::Answer) -> u8 {
    match answer {
        Ok(()) => 0,
        Err(refusal) => refusal.number,
    }
}

/// Both write the table of these parts; gives the number of the answer.
fn write(table: &WidthTable, out: &[u8]) -> u8 {
    let WidthTable {
        depth,
        levels,
        constant_bits,
        ..
    } = *table;
    let answer = both::table_write(depth, levels, &constant_bits, &table.parts(), out);
    number(answer)
}

/// As long as any table.
const LONG: [u8; 200] = [0xA5; 200];

#[test]
fn every_constant_change_of_a_small_table() {
    for table in [generous(8, 2), generous(8, 2).with_products(30)] {
        let bytes = table.bytes().unwrap();
        let out = vec![0xA5; bytes.len() + 3];
        let mut done = 0;
        for node in 0..=255 {
            for bits in 0..=255 {
                let answer = number(both::table_change_constant(&bytes, node, bits, &out));
                let right = (1..=6).contains(&node) && (1..=24).contains(&bits);
                assert_eq!(answer, if right { 0 } else { 4 });
                done += usize::from(right);
            }
        }
        assert_eq!(done, 6 * 24);
    }
}

#[test]
fn constant_changes_of_any_bytes_into_any_memory() {
    let mut chance = Chance::new(91);
    let mut seen = [0usize; 10];
    for _ in 0..rounds(30_000) {
        let mut bytes = any_form(&mut chance).bytes().unwrap();
        if chance.one_in(3) {
            bytes = damaged(&mut chance, &bytes);
        }
        let length = match chance.below(4) {
            0 => bytes.len(),
            1 => bytes.len().saturating_sub(1),
            2 => chance.below(bytes.len() + 1),
            _ => bytes.len() + chance.below(9),
        };
        let out: Vec<u8> = (0..length).map(|_| chance.byte()).collect();
        let (node, bits) = (chance.within(0, 7) as u8, chance.within(0, 25) as u8);
        let answer = both::table_change_constant(&bytes, node, bits, &out);
        seen[number(answer) as usize] += 1;
    }
    assert_eq!((seen[6], seen[7], seen[8]), (0, 0, 0));
    for number in [0, 1, 2, 3, 4, 5, 9] {
        assert!(seen[number] > 20, "{seen:?}");
    }
}

/// Where two rules apply, the lower number is told.
#[test]
fn the_order_of_refusals() {
    let bytes = generous(8, 2).bytes().unwrap();
    let change =
        |table: &[u8], node, out: &[u8]| number(both::table_change_constant(table, node, 24, out));
    assert_eq!(change(&bytes[..50], 7, &[]), 1);
    assert_eq!(change(&[&bytes[..], &[0]].concat(), 7, &[]), 5);
    assert_eq!(change(&bytes, 7, &[]), 4);
    assert_eq!(change(&bytes, 6, &[]), 9);
    let mut table = generous(8, 2);
    assert_eq!(write(&table, &[]), 9);
    table.constant_bits[5] = 0;
    assert_eq!(write(&table, &[]), 4);
}

/// Changes one after the other, and each changed back.
#[test]
fn constants_changed_and_changed_back() {
    let mut chance = Chance::new(92);
    for _ in 0..rounds(500) {
        let table = any_form(&mut chance);
        let bytes = table.bytes().unwrap();
        for (old, node) in table.constant_bits.into_iter().zip(suzdrepa::Node::ALL) {
            let bits = chance.within(1, 24) as u8;
            let new = suzdrepa::change_constant(&bytes, node, bits).unwrap();
            let (due, done) = table.clone().constant_changed(node.number(), bits);
            assert_eq!((Ok(new.clone()), done), (due.bytes(), Ok(())));
            assert_eq!(suzdrepa::change_constant(&new, node, old).unwrap(), bytes);
        }
    }
}

/// Each of the numbers of a table set to each value: depth, levels, constants,
/// widths at used and unused levels.
#[test]
fn every_number_of_the_parts_set_to_every_value() {
    for levels in 1..=5u8 {
        let table = generous(8, levels);
        let mut done = 0;
        for byte in 0..=255 {
            let mut depth = table.clone();
            depth.depth = byte;
            done += usize::from(write(&depth, &LONG) == 0);
            let mut other_levels = table.clone();
            other_levels.levels = byte;
            assert_eq!(write(&other_levels, &LONG) == 0, byte == levels);
            for node in 0..6 {
                let mut constant = table.clone();
                constant.constant_bits[node] = byte;
                done += usize::from(write(&constant, &LONG) == 0);
            }
            for at in 0..WIDTHS {
                let mut widths = table.parts();
                widths[at] = byte;
                let answer = both::table_write(8, levels, &table.constant_bits, &widths, &LONG);
                done += usize::from(answer.is_ok());
            }
        }
        // 12 depths, 24 bits of six constants; at used levels 12 and 21 widths
        // of 18 nodes, at unused ones zeros alone.
        let levels = usize::from(levels);
        let due = 12 + 6 * 24 + levels * 18 * (12 + 21) + (5 - levels) * 36;
        assert_eq!(done, due);
    }
}

#[test]
fn every_depth_and_levels() {
    let parts: Vec<[u8; WIDTHS]> = (1..=5).map(|levels| generous(8, levels).parts()).collect();
    let mut done = 0;
    for depth in 0..=255 {
        for levels in 0..=255 {
            for widths in [&parts[0], &parts[2], &parts[4], &[0; WIDTHS]] {
                let answer = both::table_write(depth, levels, &[24; 6], widths, &LONG);
                done += usize::from(answer.is_ok());
            }
        }
    }
    assert_eq!(done, 3 * 12);
}

#[test]
fn every_length_of_lent_memory() {
    let mut chance = Chance::new(93);
    for levels in 1..=5 {
        let table = generous(8, levels);
        let bytes = table.bytes().unwrap();
        for length in 0..=bytes.len() + 20 {
            let out: Vec<u8> = (0..length).map(|_| chance.byte()).collect();
            let due = if length < bytes.len() { 9 } else { 0 };
            assert_eq!(write(&table, &out), due);
            assert_eq!(number(both::table_change_constant(&bytes, 3, 7, &out)), due);
        }
    }
}

/// Parts that are sound, or wrong in one to three numbers of any kind.
#[test]
fn any_parts_into_any_memory() {
    let mut chance = Chance::new(94);
    let mut seen = [0usize; 10];
    for _ in 0..rounds(60_000) {
        let mut table = any(&mut chance);
        let whole = 20 + 36 * usize::from(table.levels);
        for _ in 0..chance.below(4) {
            let (level, pass, node) = (chance.below(5), chance.below(3), chance.below(6));
            let width = &mut table.widths[level][pass][node];
            match chance.below(6) {
                0 => table.depth = chance.within(0, 14) as u8,
                1 => table.levels = chance.within(0, 7) as u8,
                2 => table.constant_bits[node] = chance.within(0, 26) as u8,
                3 => *width = Width::new(chance.within(0, 13) as u8, chance.within(0, 21) as u8),
                4 => *width = Width::default(),
                _ => *width = Width::new(chance.byte(), chance.byte()),
            }
        }
        let length = match chance.below(4) {
            0 => whole,
            1 => whole - 1,
            2 => chance.below(whole),
            _ => whole + chance.below(40),
        };
        let out: Vec<u8> = (0..length).map(|_| chance.byte()).collect();
        seen[usize::from(write(&table, &out))] += 1;
    }
    let [done, .., short] = seen;
    assert!(done > 1000 && seen[4] > 1000 && short > 1000, "{seen:?}");
    assert_eq!(done + seen[4] + short, seen.iter().sum::<usize>());
}

/// Numbers without any order.
#[test]
fn any_bytes_as_parts() {
    let mut chance = Chance::new(95);
    for _ in 0..rounds(20_000) {
        let most = *chance.of(&[1, 12, 20, 24, 255]);
        let mut byte = || chance.within(0, most) as u8;
        let (depth, levels) = (byte(), byte());
        let constants = [(); 6].map(|()| byte());
        let widths = [(); WIDTHS].map(|()| byte());
        let _ = both::table_write(depth, levels, &constants, &widths, &LONG);
    }
}

/// What is written is read, and has the same parts.
#[test]
fn written_tables_are_read_again() {
    let mut chance = Chance::new(96);
    for _ in 0..rounds(5000) {
        let table = any(&mut chance);
        let width = |place: suzdrepa::Place| {
            let [level, pass, node] = place.numbers();
            let due = table.width(reference::Place { level, pass, node });
            suzdrepa::Width::new(due.integer_bits, due.fraction_bits)
        };
        let (depth, levels) = (table.depth, table.levels);
        let ours =
            suzdrepa::WidthTable::from_parts(depth, levels, table.constant_bits, width).unwrap();
        assert_eq!(Ok(ours.to_bytes()), table.bytes());
        let again = suzdrepa::WidthTable::from_bytes(ours.as_bytes()).unwrap();
        assert_eq!(again, ours);
        let value = suzdrepa::table_value(ours.as_bytes(), 4).unwrap();
        assert_eq!(value, &table.parts()[..value.len()]);
        // And as text.
        let text = roll::text::write(&ours);
        assert_eq!(roll::text::read(text.as_bytes()), Ok(ours));
        // The same with tag 5.
        let table = drawn_products(&mut chance, table.clone());
        let product = |place: suzdrepa::Place| {
            let [level, pass, node] = place.numbers();
            table.product(reference::Place { level, pass, node })
        };
        let ours = suzdrepa::WidthTable::from_parts_with_products(
            depth,
            levels,
            table.constant_bits,
            width,
            product,
        )
        .unwrap();
        assert_eq!(Ok(ours.to_bytes()), table.bytes());
        let value = suzdrepa::table_value(ours.as_bytes(), 5).unwrap();
        assert_eq!(value, &table.product_parts()[..value.len()]);
        let text = roll::text::write(&ours);
        assert_eq!(roll::text::read(text.as_bytes()), Ok(ours));
    }
}
