//! The exact-copy program run on many inputs.

use compare::chance::Chance;
use compare::{program, rounds};
use reference::exact_copy::exact_copy;

/// Runs the program and compares; gives the text.
fn same(input: &[u8]) -> String {
    let text = String::from_utf8(program::run("exact_copy", input)).expect("text");
    assert_eq!(text, exact_copy(input));
    text
}

fn bytes(depth: u8, levels: u8, width: u16, height: u16, pixels: &[u16]) -> Vec<u8> {
    let mut bytes = vec![depth, levels];
    for number in [width, height].iter().chain(pixels) {
        bytes.extend(number.to_be_bytes());
    }
    bytes
}

#[test]
fn the_listing_of_the_document() {
    let input = bytes(3, 1, 2, 2, &[5, 7, 4, 4]);
    assert_eq!(same(&input), "53 3 1 2 2\n2 1\n-2 -2\n");
}

#[test]
fn its_own_order_of_refusals() {
    for (input, number) in [
        (vec![], 1),
        (vec![0; 5], 1),
        (vec![255; 5], 1),
        (vec![0; 6], 4),
        (bytes(13, 1, 2, 2, &[0; 4]), 4),
        (bytes(8, 6, 2, 2, &[0; 4]), 4),
        (bytes(8, 0, 2, 2, &[0; 4]), 4),
        (bytes(8, 1, 0, 2, &[]), 8),
        (bytes(8, 5, 1, 0, &[]), 8),
        (bytes(8, 5, 0, 0, &[]), 8),
        (bytes(8, 1, 4097, 2, &[]), 8),
        (bytes(8, 5, 1, 4097, &[0; 4097]), 8),
        (bytes(8, 1, 65535, 65535, &[]), 8),
        (bytes(8, 1, 64, 65, &[]), 9),
        (bytes(8, 1, 4096, 4096, &[]), 9),
        (bytes(8, 1, 4096, 2, &[300; 8192]), 9),
        (bytes(8, 5, 3, 4096, &[300; 12288]), 9),
        (bytes(8, 1, 64, 64, &[]), 1),
        (bytes(8, 5, 1, 4096, &[300; 4095]), 1),
        (bytes(8, 5, 1, 1, &[]), 1),
        (bytes(8, 5, 1, 1, &[256, 0]), 5),
        (bytes(8, 5, 1, 1, &[256]), 10),
        (bytes(8, 1, 2, 2, &[256, 256, 256]), 1),
        (bytes(8, 1, 2, 2, &[256, 0, 0, 0, 0]), 5),
        (bytes(8, 1, 2, 2, &[0, 0, 0, 256]), 10),
    ] {
        assert_eq!(same(&input), format!("refused {number}\n"));
    }
}

#[test]
fn bodies_one_byte_short_and_long() {
    for (width, height) in [
        (2, 2),
        (3, 2),
        (64, 64),
        (2048, 2),
        (1, 1),
        (1, 4096),
        (4096, 1),
    ] {
        let whole = bytes(
            4,
            1,
            width,
            height,
            &vec![9; usize::from(width) * usize::from(height)],
        );
        assert!(same(&whole).starts_with("53 4 1 "));
        assert_eq!(same(&whole[..whole.len() - 1]), "refused 1\n");
        let mut long = whole.clone();
        long.push(0);
        assert_eq!(same(&long), "refused 5\n");
        long.extend(vec![1; 40_000]);
        assert_eq!(same(&long), "refused 5\n");
    }
}

#[test]
fn every_length_of_a_small_input() {
    let whole = bytes(3, 1, 2, 3, &[5, 7, 4, 4, 0, 1]);
    for length in 0..whole.len() {
        assert_eq!(same(&whole[..length]), "refused 1\n");
    }
    assert_eq!(same(&whole).lines().count(), 4);
}

#[test]
fn pictures_of_all_shapes() {
    let mut chance = Chance::new(71);
    for _ in 0..rounds(400) {
        let (depth, levels) = (chance.within(1, 12) as u8, chance.within(1, 5) as u8);
        let width = chance.within(1, 60);
        let height = match chance.one_in(4) {
            true => 1,
            false => chance.within(1, 4096 / width),
        };
        let (width, height) = *chance.of(&[(width, height), (height, width)]);
        let mut pixels = chance.picture(depth, width * height);
        if chance.one_in(3) {
            let top = (1 << depth) - 1;
            for pixel in &mut pixels {
                *pixel = if *pixel & 1 == 1 { top } else { 0 };
            }
        }
        let text = same(&bytes(depth, levels, width as u16, height as u16, &pixels));
        assert_eq!(text.lines().count(), height + 1);
    }
}

#[test]
fn damaged_inputs() {
    let mut chance = Chance::new(72);
    let mut refused = 0;
    for _ in 0..rounds(400) {
        let levels = chance.within(1, 3) as u8;
        let (width, height) = (chance.within(5, 9), chance.within(5, 9));
        let pixels = chance.picture(6, width * height);
        let mut input = bytes(6, levels, width as u16, height as u16, &pixels);
        match chance.below(4) {
            0 => input.truncate(chance.below(input.len())),
            1 => input.push(chance.byte()),
            2 => {
                let at = chance.below(6);
                input[at] = chance.byte();
            }
            _ => {
                let at = chance.below(input.len());
                input[at] = chance.byte();
            }
        }
        refused += usize::from(same(&input).starts_with("refused "));
    }
    assert!(refused > 100, "{refused}");
}
