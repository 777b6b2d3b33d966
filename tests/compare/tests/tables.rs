//! Width tables: form, verdict, value of a tag, change.

use compare::chance::Chance;
use compare::tables::{accepted_products, any_form, damaged, drawn_products, generous, tight};
use compare::{both, rounds};
use reference::{precision, Place, Width, WidthTable};

fn place(level: u8, pass: u8, node: u8) -> Place {
    Place { level, pass, node }
}

fn number(answer: both::Answer) -> u8 {
    match answer {
        Ok(()) => 0,
        Err(refusal) => refusal.number,
    }
}

/// Form, verdict and every tag that matters; gives the verdict's number.
fn all_reads(bytes: &[u8]) -> u8 {
    let form = number(both::table_form(bytes));
    let verdict = number(both::table_check(bytes));
    assert_eq!(if verdict > 5 { 0 } else { verdict }, form);
    let lacks_products = WidthTable::read(bytes).is_ok_and(|table| !table.has_products);
    for tag in [0, 1, 2, 3, 4, 5, 6, 255] {
        let named = number(both::table_value(bytes, tag));
        let due = match tag {
            1..=4 => form,
            5 if !lacks_products => form,
            _ => 2,
        };
        assert_eq!(named, due, "tag {tag}");
    }
    verdict
}

/// The bytes of a table up to the start of its field `tag`.
fn before_field(bytes: &[u8], tag: u8) -> Vec<u8> {
    bytes[..[0, 4, 8, 17][tag as usize - 1]].to_vec()
}

#[test]
fn every_tag_and_length_of_the_later_fields() {
    for levels in 1..=5u8 {
        let whole = generous(8, levels).bytes().unwrap();
        for field in 2..=4u8 {
            let start = before_field(&whole, field).len();
            for tag in 0..=255u8 {
                let mut bytes = whole.clone();
                bytes[start] = tag;
                assert_eq!(
                    number(both::table_form(&bytes)),
                    if tag == field { 0 } else { 2 }
                );
            }
            for length in 0..=65535u16 {
                let mut bytes = whole.clone();
                bytes[start + 1..start + 3].copy_from_slice(&length.to_be_bytes());
                let right = u16::from_be_bytes([whole[start + 1], whole[start + 2]]);
                let due = if length == right { 0 } else { 3 };
                assert_eq!(number(both::table_form(&bytes)), due);
            }
        }
    }
}

#[test]
fn every_byte_of_a_table_set_to_every_value() {
    for levels in [1, 2, 5] {
        let whole = generous(8, levels).bytes().unwrap();
        let mut seen = [0usize; 8];
        for at in 0..whole.len() {
            for byte in 0..=255 {
                let mut bytes = whole.clone();
                bytes[at] = byte;
                seen[number(both::table_check(&bytes)) as usize] += 1;
            }
        }
        // No byte is missing: where a head says otherwise, its tag or length is
        // wrong.
        assert_eq!((seen[1], seen[5]), (0, 0));
        for number in [0, 2, 3, 4, 6, 7] {
            assert!(seen[number] > 0, "{seen:?}");
        }
        // The same with tag 5: another byte than its tag is 5.
        let whole = generous(8, levels).with_products(30).bytes().unwrap();
        let mut seen = [0usize; 8];
        for at in 0..whole.len() {
            for byte in 0..=255 {
                let mut bytes = whole.clone();
                bytes[at] = byte;
                seen[number(both::table_check(&bytes)) as usize] += 1;
            }
        }
        assert_eq!((seen[1], seen[5]), (0, 255));
    }
}

#[test]
fn every_length_of_a_table() {
    for levels in 1..=5 {
        let mut bytes = generous(8, levels).bytes().unwrap();
        let whole = bytes.len();
        assert_eq!(whole, 20 + 36 * levels as usize);
        for length in 0..whole {
            assert_eq!(all_reads(&bytes[..length]), 1);
        }
        assert_eq!(all_reads(&bytes), 0);
        for byte in [0, 1, 5, 255] {
            bytes.push(byte);
            assert_eq!(all_reads(&bytes), 5);
        }
        // With tag 5 a table may end after the fourth field, or after the fifth.
        let mut bytes = generous(8, levels).with_products(30).bytes().unwrap();
        assert_eq!(bytes.len(), 23 + 48 * levels as usize);
        for length in 0..=bytes.len() {
            let due = [whole, bytes.len()].contains(&length);
            assert_eq!(all_reads(&bytes[..length]), if due { 0 } else { 1 });
        }
        for byte in [5, 0, 1, 255] {
            bytes.push(byte);
            assert_eq!(all_reads(&bytes), 5);
        }
    }
}

#[test]
fn every_tag_that_a_caller_may_name() {
    let bytes = generous(12, 3).bytes().unwrap();
    let with_products = generous(12, 3).with_products(30).bytes().unwrap();
    let mut long = bytes.clone();
    long.push(4);
    for tag in 0..=255 {
        let known = (1..=5).contains(&tag);
        for (bytes, due) in [
            (&bytes[..], if tag == 5 { 2 } else { 0 }),
            (&with_products, 0),
            (&long, 5),
            (&[], 1),
        ] {
            let answer = number(both::table_value(bytes, tag));
            assert_eq!(answer, if known { due } else { 2 }, "tag {tag}");
        }
    }
}

#[test]
fn damaged_tables() {
    let mut chance = Chance::new(11);
    let mut seen = [0usize; 8];
    for _ in 0..rounds(60_000) {
        let levels = chance.within(1, 5) as u8;
        let table = match chance.below(4) {
            0 => any_form(&mut chance),
            1 => generous(chance.within(1, 12) as u8, levels).with_products(44),
            _ => generous(chance.within(1, 12) as u8, levels),
        };
        let bytes = damaged(&mut chance, &table.bytes().unwrap());
        seen[all_reads(&bytes) as usize] += 1;
    }
    assert!(seen.iter().all(|&n| n > 100), "{seen:?}");
}

#[test]
fn verdicts_of_any_numbers() {
    let mut chance = Chance::new(12);
    for _ in 0..rounds(40_000) {
        let bytes = any_form(&mut chance).bytes().unwrap();
        let number = all_reads(&bytes);
        assert!(number == 0 || number == 6 || number == 7);
    }
}

/// Around the line between accepted and refused: every number of a tight
/// table one more and one less.
#[test]
fn verdicts_beside_tight_tables() {
    let mut chance = Chance::new(13);
    let mut seen = [0usize; 8];
    for round in 0..rounds(60) {
        let (depth, levels) = (chance.within(1, 12) as u8, chance.within(1, 5) as u8);
        let table = match round % 3 {
            0 => accepted_products(&mut chance, depth, levels),
            _ => tight(&mut chance, depth, levels),
        };
        let bytes = table.bytes().unwrap();
        assert_eq!(all_reads(&bytes), 0);
        // All numbers but depth and levels, and not the head of tag 5.
        let fifth = 20 + 36 * usize::from(levels);
        for at in (11..17).chain(20..fifth).chain(fifth + 3..bytes.len()) {
            for by in [1, 255] {
                let mut beside = bytes.clone();
                beside[at] = beside[at].wrapping_add(by);
                seen[all_reads(&beside) as usize] += 1;
            }
        }
    }
    for number in [0, 4, 6, 7] {
        assert!(seen[number] > 100, "{seen:?}");
    }
}

/// Tables whose bounds lie exactly on the line: at most is accepted, two steps
/// are refused.
#[test]
fn tables_exactly_on_the_line() {
    let one = 1u128 << 32;
    let widths = |fractions: [u8; 6]| fractions.map(|f| Width::new(12, f));
    // Range plus error of G1 of the first rows is what one integer bit holds.
    for (constants, fractions) in [
        ([10, 16, 24, 22, 16, 24], [7, 12, 6, 12, 13, 20]),
        ([24, 11, 15, 15, 19, 24], [20, 10, 16, 6, 17, 20]),
        ([14, 21, 24, 6, 20, 24], [15, 18, 10, 17, 9, 20]),
    ] {
        let mut table =
            WidthTable::kept_and_others(8, 1, 24, Width::new(12, 1), Width::new(12, 20));
        table.constant_bits = constants;
        table.widths[0][0] = widths(fractions);
        table.widths[0][0][4].integer_bits = 1;
        let bound = precision::bounds(&table)[4].1;
        assert_eq!(bound.range + bound.error, one - (one >> fractions[4]));
        assert_eq!(both::table_check(&table.bytes().unwrap()), Ok(()));
    }
    // The error of LL is two of its steps.
    for (constants, rows, columns) in [
        (
            [23, 23, 21, 21, 20, 18],
            [16, 17, 18, 19, 17, 17],
            [16, 20, 19, 19, 13, 1],
        ),
        (
            [18, 21, 23, 22, 23, 23],
            [20, 20, 17, 19, 19, 16],
            [20, 19, 20, 18, 14, 1],
        ),
        (
            [24, 22, 22, 23, 23, 19],
            [16, 18, 16, 20, 17, 20],
            [17, 18, 19, 19, 13, 1],
        ),
    ] {
        let mut table =
            WidthTable::kept_and_others(8, 1, 24, Width::new(12, 1), Width::new(12, 20));
        table.constant_bits = constants;
        table.widths[0][0] = widths(rows);
        table.widths[0][1] = widths(columns);
        let bound = precision::bounds(&table)[10].1;
        assert_eq!(bound.error, 2 * (one >> columns[4]));
        let refusal = both::table_check(&table.bytes().unwrap()).unwrap_err();
        assert_eq!((refusal.number, refusal.place), (7, Some(place(1, 2, 5))));
        // One bit less, and the error is below two steps.
        table.widths[0][1][4].fraction_bits -= 1;
        assert_eq!(both::table_check(&table.bytes().unwrap()), Ok(()));
    }
}

#[test]
fn tables_that_the_document_names() {
    for depth in 1..=12 {
        for levels in 1..=5 {
            let table = generous(depth, levels);
            assert_eq!(both::table_check(&table.bytes().unwrap()), Ok(()));
            for fraction in 0..=20 {
                let (narrow, done) = table.clone().changed(1, 1, 1, Width::new(2, fraction));
                assert_eq!(done, Ok(()));
                let refusal = both::table_check(&narrow.bytes().unwrap()).unwrap_err();
                assert_eq!((refusal.number, refusal.place), (6, Some(place(1, 1, 1))));
            }
        }
        let rough =
            WidthTable::kept_and_others(depth, 1, 24, Width::new(12, 20), Width::new(12, 0));
        let refusal = both::table_check(&rough.bytes().unwrap()).unwrap_err();
        assert_eq!((refusal.number, refusal.place), (7, Some(place(1, 2, 5))));
    }
}

/// Two integer bits or one are too few for the first node, whatever the other
/// numbers of the table are.
#[test]
fn the_first_node_of_any_table() {
    let mut chance = Chance::new(17);
    for _ in 0..rounds(6000) {
        let mut table = any_form(&mut chance);
        table.width_mut(place(1, 1, 1)).integer_bits = chance.within(1, 2) as u8;
        let refusal = both::table_check(&table.bytes().unwrap()).unwrap_err();
        assert_eq!((refusal.number, refusal.place), (6, Some(place(1, 1, 1))));
    }
}

#[test]
fn every_node_can_be_the_refused_one() {
    for levels in 1..=5 {
        let table = generous(8, levels);
        for (at, bound) in precision::bounds(&table) {
            // The most integer bits that do not fit, where there are any.
            let width = |bits| Width::new(bits, table.width(at).fraction_bits);
            let narrow = (1..12).rev().find(|&b| !precision::fits(bound, width(b)));
            if let Some(bits) = narrow {
                let (narrow, _) = table
                    .clone()
                    .changed(at.level, at.pass, at.node, width(bits));
                let refusal = both::table_check(&narrow.bytes().unwrap()).unwrap_err();
                assert_eq!((refusal.number, refusal.place), (6, Some(at)));
            }
            // Some nodes of the first rows fit into one bit.
            assert!(narrow.is_some() || (at.level, at.pass) == (1, 1));
            let mut fine = table.clone();
            fine.width_mut(at).fraction_bits = 20;
            let answer = both::table_check(&fine.bytes().unwrap());
            if table.is_kept(at) {
                let refusal = answer.unwrap_err();
                assert_eq!((refusal.number, refusal.place), (7, Some(at)));
            } else {
                assert_eq!(answer, Ok(()));
            }
        }
    }
}

#[test]
fn every_change_of_a_small_table() {
    let mut chance = Chance::new(16);
    let with_products = drawn_products(&mut chance, generous(8, 2));
    for table in [generous(8, 2), with_products] {
        every_change_of(&table);
    }
}

fn every_change_of(table: &WidthTable) {
    let bytes = table.bytes().unwrap();
    let out = vec![0xA5; bytes.len() + 3];
    let mut done = 0;
    for level in (0..=7).chain([255]) {
        for pass in (0..=5).chain([255]) {
            for node in (0..=8).chain([255]) {
                for integer_bits in [0, 1, 2, 12, 13, 255] {
                    for fraction_bits in [0, 1, 20, 21, 255] {
                        let width = Width::new(integer_bits, fraction_bits);
                        let answer = both::table_change(&bytes, [level, pass, node], width, &out);
                        done += usize::from(answer.is_ok());
                    }
                }
            }
        }
    }
    // 36 nodes, 3 integer widths and 3 fractional ones within their limits.
    assert_eq!(done, 36 * 9);
}

#[test]
fn changes_of_any_bytes_into_any_memory() {
    let mut chance = Chance::new(14);
    let mut seen = [0usize; 10];
    for _ in 0..rounds(30_000) {
        let mut bytes = any_form(&mut chance).bytes().unwrap();
        if chance.one_in(3) {
            bytes = damaged(&mut chance, &bytes);
        }
        let length = match chance.below(4) {
            0 => bytes.len(),
            1 => bytes.len().saturating_sub(1),
            2 => chance.below(bytes.len() + 1),
            _ => bytes.len() + chance.below(9),
        };
        let out: Vec<u8> = (0..length).map(|_| chance.byte()).collect();
        let place = [
            chance.within(0, 6) as u8,
            chance.within(0, 4) as u8,
            chance.within(0, 7) as u8,
        ];
        let width = Width::new(chance.within(0, 13) as u8, chance.within(0, 21) as u8);
        let answer = both::table_change(&bytes, place, width, &out);
        seen[number(answer) as usize] += 1;
    }
    assert_eq!((seen[6], seen[7], seen[8]), (0, 0, 0));
    for number in [0, 1, 2, 3, 4, 5, 9] {
        assert!(seen[number] > 20, "{seen:?}");
    }
}

#[test]
fn the_allocating_change_gives_the_same_table() {
    let bytes = generous(8, 3).bytes().unwrap();
    let place = |level| suzdrepa::Place::new(level, suzdrepa::Pass::LowColumns, suzdrepa::Node::G2);
    let width = suzdrepa::Width::new(7, 9);
    let new = suzdrepa::change_width(&bytes, place(3), width).unwrap();
    let (due, _) = generous(8, 3).changed(3, 2, 6, Width::new(7, 9));
    assert_eq!(new, due.bytes().unwrap());
    let refusal = suzdrepa::change_width(&bytes, place(4), width).unwrap_err();
    assert_eq!(refusal.number(), 4);
}

/// The wrapper's type says of a table what the reference says.
#[test]
fn the_type_of_the_wrapper() {
    let mut chance = Chance::new(15);
    for _ in 0..rounds(3000) {
        let table = any_form(&mut chance);
        let bytes = table.bytes().unwrap();
        let ours = suzdrepa::WidthTable::from_bytes(&bytes).unwrap();
        assert_eq!((ours.depth(), ours.levels()), (table.depth, table.levels));
        let constants = suzdrepa::Node::ALL.map(|node| ours.constant_bits(node));
        assert_eq!(constants, table.constant_bits);
        let widths = |width: suzdrepa::Width| (width.integer_bits, width.fraction_bits);
        for (ours_at, at) in ours.places().zip(table.places()) {
            assert_eq!(ours_at.numbers(), [at.level, at.pass, at.node]);
            assert_eq!(ours.is_kept(ours_at), table.is_kept(at));
            let due = table.width(at);
            assert_eq!(
                ours.width(ours_at).map(widths),
                Some((due.integer_bits, due.fraction_bits))
            );
        }
        assert_eq!(ours.places().count(), table.places().len());
        assert_eq!(ours.to_bytes(), bytes);
        let _ = both::same(ours.check(), precision::verdict(&table));
        // A change of a width and one of a constant.
        let at = *chance.of(&table.places());
        let width = Width::new(chance.within(0, 13) as u8, chance.within(0, 21) as u8);
        let (due, done) = table.clone().changed(at.level, at.pass, at.node, width);
        let place = suzdrepa::Place::from_numbers(at.level, at.pass, at.node).unwrap();
        let new = ours.with_width(
            place,
            suzdrepa::Width::new(width.integer_bits, width.fraction_bits),
        );
        match both::same(new.as_ref().map(|_| ()).map_err(|r| *r), done) {
            Ok(()) => assert_eq!(new.unwrap().to_bytes(), due.bytes().unwrap()),
            Err(_) => assert_eq!(due, table),
        }
        let (node, bits) = (*chance.of(&suzdrepa::Node::ALL), chance.within(0, 26) as u8);
        let mut due = table.clone();
        due.constant_bits[usize::from(node.number()) - 1] = bits;
        let new = ours.with_constant(node, bits);
        match both::same(new.as_ref().map(|_| ()).map_err(|r| *r), due.sound()) {
            Ok(()) => assert_eq!(new.unwrap().to_bytes(), due.bytes().unwrap()),
            Err(refusal) => assert_eq!(refusal.number, 4),
        }
    }
    // Tables built from nothing.
    for depth in 0..=13 {
        for levels in (0..=6).chain([255]) {
            let width = suzdrepa::Width::new;
            let ours = suzdrepa::WidthTable::kept_and_others(
                depth,
                levels,
                24,
                width(12, 2),
                width(12, 20),
            );
            let right = (1..=12).contains(&depth) && (1..=5).contains(&levels);
            assert_eq!(ours.is_ok(), right);
            if let Ok(ours) = ours {
                assert_eq!(ours.to_bytes(), generous(depth, levels).bytes().unwrap());
            }
        }
    }
}
