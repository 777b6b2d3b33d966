//! The tag program run on many inputs: it writes the part of its input that is
//! the named tag's value, and nothing where that is refused.

use compare::chance::Chance;
use compare::tables::{any_form, damaged, generous};
use compare::{program, rounds};
use reference::tag_value::tag_value;

/// Runs the program and compares; gives what it wrote.
fn same(tag: u8, table: &[u8]) -> Vec<u8> {
    let input = [&[tag], table].concat();
    let value = program::run("tag_value", &input);
    assert_eq!(value, tag_value(&input), "tag {tag}");
    value
}

#[test]
fn every_value_of_right_tables() {
    let mut chance = Chance::new(81);
    for number in 0..rounds(50) {
        let table = match number {
            0..5 => generous(8, number as u8 + 1),
            5..10 => generous(8, number as u8 - 4).with_products(30),
            _ => any_form(&mut chance),
        };
        let bytes = table.bytes().unwrap();
        assert_eq!(same(1, &bytes), [table.depth]);
        assert_eq!(same(2, &bytes), [table.levels]);
        assert_eq!(same(3, &bytes), table.constant_bits);
        let fifth = 20 + 36 * usize::from(table.levels);
        assert_eq!(same(4, &bytes), bytes[20..fifth]);
        let due = if table.has_products { fifth + 3 } else { fifth };
        assert_eq!(same(5, &bytes), bytes[due..]);
    }
}

#[test]
fn every_tag() {
    for (table, last) in [(generous(12, 5), 4), (generous(12, 5).with_products(30), 5)] {
        let bytes = table.bytes().unwrap();
        for tag in 0..=255 {
            let written = !same(tag, &bytes).is_empty();
            assert_eq!(written, (1..=last).contains(&tag));
        }
    }
}

/// Nothing is written where a byte is missing, or one too many is there.
#[test]
fn every_length() {
    assert_eq!(program::run("tag_value", &[]), []);
    for levels in [1, 5] {
        let bytes = generous(8, levels).bytes().unwrap();
        for length in 0..bytes.len() {
            assert_eq!(same(3, &bytes[..length]), []);
        }
        for more in [1, 2, 3, 35, 36, 37, 200, 5000, 200_000] {
            let long = [&bytes[..], &vec![4; more]].concat();
            for tag in 1..=4 {
                assert_eq!(same(tag, &long), []);
            }
        }
        // Two tables, one after the other.
        assert_eq!(same(1, &bytes.repeat(2)), []);
        // With tag 5: every length but that of the first four fields.
        let with_products = generous(8, levels).with_products(30).bytes().unwrap();
        for length in 0..with_products.len() {
            let four = length == bytes.len();
            let due = if four { vec![24; 6] } else { vec![] };
            assert_eq!(same(3, &with_products[..length]), due);
            assert_eq!(same(5, &with_products[..length]), []);
        }
        for more in [1, 2, 3, 12, 15, 5000] {
            let long = [&with_products[..], &vec![5; more]].concat();
            for tag in 1..=5 {
                assert_eq!(same(tag, &long), []);
            }
        }
    }
}

/// Announced lengths that run past what the program reads, and end within what
/// it is given.
#[test]
fn fields_longer_than_any_table() {
    let bytes = generous(8, 2).with_products(30).bytes().unwrap();
    for (start, value) in [(0, 1), (4, 1), (8, 6), (17, 72), (92, 24)] {
        let lengths = [0, 1, 6, 12, 24, 36, 60, 72, 180, 181, 199, 200, 201];
        for length in lengths.into_iter().chain([262, 263, 264, 500, 65535u16]) {
            let mut long = bytes.clone();
            long[start + 1..start + 3].copy_from_slice(&length.to_be_bytes());
            long.extend(vec![0; usize::from(length)]);
            assert_eq!(same(4, &long), []);
            long.truncate(bytes.len());
            assert_eq!(same(4, &long).is_empty(), length != value);
        }
    }
}

#[test]
fn damaged_tables() {
    let mut chance = Chance::new(82);
    let (mut written, mut nothing) = (0, 0);
    for _ in 0..rounds(1500) {
        let table = any_form(&mut chance);
        let bytes = damaged(&mut chance, &table.bytes().unwrap());
        let tag = chance.within(0, 6) as u8;
        match same(tag, &bytes).is_empty() {
            true => nothing += 1,
            false => written += 1,
        }
    }
    assert!(written > 50 && nothing > 500, "{written} {nothing}");
}

#[test]
fn any_bytes() {
    let mut chance = Chance::new(83);
    for _ in 0..rounds(200) {
        let length = chance.below(300);
        let bytes: Vec<u8> = (0..length).map(|_| chance.within(0, 6) as u8).collect();
        same(chance.within(1, 5) as u8, &bytes);
    }
}
