//! Range and error of single nodes, and the lent numbers they are written to.

use compare::chance::Chance;
use compare::tables::{accepted_products, any_form, damaged, generous, tight};
use compare::{both, rounds};
use reference::{precision, Place, Width, WidthTable};

/// What the two lent numbers hold before a call.
fn lent(chance: &mut Chance) -> (u64, u64) {
    (chance.bits(), chance.bits())
}

fn numbers(place: Place) -> [u8; 3] {
    [place.level, place.pass, place.node]
}

/// Asks for every node of a table: those up to the first refused one have
/// their bounds, the others its refusal, with the lent numbers untouched.
/// Gives the first refused node.
fn every_node(chance: &mut Chance, table: &WidthTable) -> Option<Place> {
    let bytes = table.bytes().unwrap();
    let refusal = both::table_check(&bytes).err();
    let refused = refusal.map(|refusal| refusal.place.unwrap());
    for (place, bound) in precision::bounds(table) {
        let before = lent(chance);
        let (answer, after) = both::table_bound(&bytes, numbers(place), before);
        if refused.is_none_or(|refused| place <= refused) {
            assert_eq!(answer, Ok(()));
            let after = (u128::from(after.0), u128::from(after.1));
            assert_eq!(after, (bound.range, bound.error));
        } else {
            assert_eq!((answer.err(), after), (refusal, before));
        }
    }
    refused
}

#[test]
fn every_node_of_many_tables() {
    let mut chance = Chance::new(81);
    let (mut accepted, mut refused) = (0, 0);
    for round in 0..rounds(1500) {
        let (depth, levels) = (chance.within(1, 12) as u8, chance.within(1, 5) as u8);
        let table = match round % 20 {
            0 => tight(&mut chance, depth, levels),
            1 => generous(depth, levels),
            2 => accepted_products(&mut chance, depth, levels),
            _ => any_form(&mut chance),
        };
        match every_node(&mut chance, &table) {
            None => accepted += 1,
            Some(_) => refused += 1,
        }
    }
    assert!(accepted > 100 && refused > 1000, "{accepted} {refused}");
}

/// Each node of a generous table made the first refused one: by too few
/// integer bits, and where it is kept by too fine a step.
#[test]
fn every_node_as_the_refused_one() {
    let mut chance = Chance::new(82);
    for levels in 1..=5 {
        let table = generous(8, levels);
        for (at, bound) in precision::bounds(&table) {
            let width = |bits| Width::new(bits, table.width(at).fraction_bits);
            let narrow = (1..12).rev().find(|&b| !precision::fits(bound, width(b)));
            if let Some(bits) = narrow {
                let mut narrow = table.clone();
                *narrow.width_mut(at) = width(bits);
                assert_eq!(every_node(&mut chance, &narrow), Some(at));
            }
            if table.is_kept(at) {
                let mut fine = table.clone();
                fine.width_mut(at).fraction_bits = 20;
                assert_eq!(every_node(&mut chance, &fine), Some(at));
            }
        }
    }
}

/// Every number of a tight table one more and one less.
#[test]
fn beside_tight_tables() {
    let mut chance = Chance::new(83);
    for _ in 0..rounds(8) {
        let (depth, levels) = (chance.within(1, 12) as u8, chance.within(1, 3) as u8);
        let bytes = tight(&mut chance, depth, levels).bytes().unwrap();
        for at in (11..17).chain(20..bytes.len()) {
            for by in [1, 255] {
                let mut beside = bytes.clone();
                beside[at] = beside[at].wrapping_add(by);
                if let Ok(table) = WidthTable::read(&beside) {
                    every_node(&mut chance, &table);
                }
            }
        }
    }
}

/// Every level, pass and node that a caller may name, with bytes that are
/// right, refused at the first node, and malformed.
#[test]
fn every_place_that_a_caller_may_name() {
    let mut chance = Chance::new(84);
    let right = generous(8, 2).bytes().unwrap();
    let mut narrow = right.clone();
    narrow[20] = 2;
    let mut long = right.clone();
    long.push(0);
    for (bytes, due) in [(right, None), (narrow, Some(6)), (long, Some(5))] {
        let mut done = 0;
        for level in 0..=255 {
            for pass in (0..=5).chain([255]) {
                for node in (0..=8).chain([255]) {
                    let before = lent(&mut chance);
                    let (answer, after) = both::table_bound(&bytes, [level, pass, node], before);
                    let there = (1..=2).contains(&level)
                        && (1..=3).contains(&pass)
                        && (1..=6).contains(&node);
                    match answer {
                        Ok(()) => done += 1,
                        Err(refusal) => {
                            assert_eq!(after, before);
                            let lacking = if due == Some(5) { 5 } else { 4 };
                            let due = if there { due } else { Some(lacking) };
                            assert_eq!(Some(refusal.number), due);
                        }
                    }
                }
            }
        }
        let nodes = match due {
            None => 36,
            Some(6) => 1,
            _ => 0,
        };
        assert_eq!(done, nodes);
    }
}

#[test]
fn damaged_bytes_and_any_places() {
    let mut chance = Chance::new(85);
    let mut seen = [0usize; 8];
    for _ in 0..rounds(60_000) {
        let table = match chance.below(3) {
            0 => any_form(&mut chance),
            _ => generous(chance.within(1, 12) as u8, chance.within(1, 5) as u8),
        };
        let bytes = table.bytes().unwrap();
        let bytes = match chance.one_in(4) {
            true => bytes,
            false => damaged(&mut chance, &bytes),
        };
        let place = match chance.below(8) {
            0 => [chance.byte(), chance.byte(), chance.byte()],
            _ => [6, 4, 7].map(|max| chance.within(0, max) as u8),
        };
        let before = lent(&mut chance);
        let (answer, after) = both::table_bound(&bytes, place, before);
        let number = answer.map_or_else(|refusal| refusal.number, |()| 0);
        seen[usize::from(number)] += 1;
        assert!(answer.is_ok() || after == before);
    }
    assert!(seen.iter().all(|&n| n > 100), "{seen:?}");
}
