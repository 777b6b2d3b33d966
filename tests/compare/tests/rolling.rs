//! The rolling scan (document 02, job 5).

use compare::chance::Chance;
use compare::hostile::{against, Shape, NINE_SEVEN};
use compare::rounds;
use compare::scan::{begin, foreign, width_in, Next, Scan};
use compare::tables::{
    accepted_products, any_form, damaged, generous, narrow, some_products, tight, uneven,
};
use reference::rolling::{self, HELD_LINES, OUT_LINES, STATE, TABLE};
use reference::{exact97, fixed97, Place, Width, WidthTable};
use std::collections::BTreeMap;

/// What was run, for the documents.
#[derive(Debug, Default)]
struct Counts {
    strips: usize,
    lines: usize,
    /// By why they are refused.
    refused: BTreeMap<&'static str, usize>,
}

impl Counts {
    fn refused(&mut self, why: &'static str) {
        *self.refused.entry(why).or_insert(0) += 1;
    }
}

/// An accepted table of one level: tight, uneven, or with room, with tag 5 or
/// without.
fn table(chance: &mut Chance, depth: u8) -> WidthTable {
    match chance.below(8) {
        0 => generous(depth, 1),
        1 => narrow(depth, 1),
        2 => uneven(chance, depth, 1),
        3 | 4 => accepted_products(chance, depth, 1),
        _ => tight(chance, depth, 1),
    }
}

/// A strip of a table's depth: chance, or a picture that drives a value of the
/// columns or the rows as far as it goes.
fn strip(chance: &mut Chance, depth: u8, width: usize, height: usize) -> Vec<Vec<u16>> {
    let shape = Shape {
        depth,
        levels: 1,
        width,
        height,
    };
    let picture = match chance.one_in(2) {
        true => chance.picture(depth, width * height),
        false => {
            let place = Place {
                level: 1,
                pass: chance.within(1, 3) as u8,
                node: chance.within(1, 6) as u8,
            };
            against(&NINE_SEVEN, chance, shape, place)
        }
    };
    picture.chunks(width).map(<[u16]>::to_vec).collect()
}

/// State bytes of a scan that begins, with something past them.
fn begun(chance: &mut Chance, table: &WidthTable) -> Scan {
    let past = chance.below(4);
    let state: Vec<u8> = (0..STATE + past).map(|_| chance.byte()).collect();
    Scan::begin(&table.bytes().unwrap(), &state)
}

/// The line as it is lent, with something past it that no picture has.
fn lent(chance: &mut Chance, line: &[u16]) -> Vec<u16> {
    let past = chance.below(3);
    [line, &vec![u16::MAX; past]].concat()
}

fn out(chance: &mut Chance, width: usize) -> Vec<i32> {
    let past = chance.below(4);
    chance.plane(OUT_LINES * width + past)
}

/// A width that is not the strip's, and one that no line has.
fn other_width(chance: &mut Chance, width: usize) -> usize {
    let widths = [0, 1, 2, 3, width - 1, width + 1, 4096, 4097, usize::MAX];
    let others: Vec<usize> = widths.into_iter().filter(|&w| w != width).collect();
    *chance.of(&others)
}

/// Some call that is refused, of a scan that has taken so many lines; half of
/// them are lent other memory to hold.
fn refuse(
    chance: &mut Chance,
    scan: &mut Scan,
    depth: u8,
    width: usize,
    taken: usize,
    counts: &mut Counts,
) {
    let mut held = scan.held.clone();
    if taken == 0 || chance.one_in(2) {
        let past = chance.below(3);
        held = chance.plane(HELD_LINES * width + past);
    }
    let out = out(chance, width);
    let line = chance.picture(depth, width);
    let pixels = lent(chance, &line);
    let right = Next::Line {
        pixels: &pixels,
        width,
    };
    match chance.below(9) {
        0 => {
            let other = other_width(chance, width);
            let plenty = chance.picture(depth, other.min(4097));
            let next = Next::Line {
                pixels: &plenty,
                width: other,
            };
            let due = match other {
                0 | 4097.. if taken == 0 => 8,
                // A first line may be of any other width that is admitted.
                _ if taken == 0 => return,
                _ => 14,
            };
            assert_eq!(scan.refused(next, &held, &out), due);
            counts.refused(if due == 8 { "8" } else { "14, another width" });
        }
        1 => {
            let length = chance.below(STATE);
            let next = *chance.of(&[right, Next::End]);
            let number = scan.refused_with_a_short_state(length, next, &held, &out);
            assert_eq!(number, 9);
            counts.refused("9, state");
        }
        2 => {
            let short = &pixels[..chance.below(width)];
            let next = Next::Line {
                pixels: short,
                width,
            };
            assert_eq!(scan.refused(next, &held, &out), 9);
            counts.refused("9, pixels");
        }
        3 => {
            held.truncate(chance.below(HELD_LINES * width));
            assert_eq!(scan.refused(right, &held, &out), 9);
            counts.refused("9, held");
        }
        4 => {
            let short = &out[..chance.below(OUT_LINES * width)];
            assert_eq!(scan.refused(right, &held, short), 9);
            counts.refused("9, out");
        }
        5 | 6 => {
            let mut pixels = pixels.clone();
            let over = chance.within(1 << depth, u16::MAX.into()) as u16;
            pixels[chance.below(width)] = *chance.of(&[over, 1 << depth, u16::MAX]);
            let next = Next::Line {
                pixels: &pixels,
                width,
            };
            assert_eq!(scan.refused(next, &held, &out), 10);
            counts.refused("10");
        }
        7 if taken == 0 => {
            assert_eq!(scan.refused(Next::End, &held, &out), 14);
            counts.refused("14, end too early");
        }
        7 => {
            held.truncate(chance.below(HELD_LINES * width));
            assert_eq!(scan.refused(Next::End, &held, &out), 9);
            counts.refused("9, held at the end");
        }
        _ if taken == 0 => {
            assert_eq!(scan.refused(Next::End, &[], &[]), 14);
            counts.refused("14, end too early");
        }
        _ => {
            let short = &out[..chance.below(OUT_LINES * width)];
            assert_eq!(scan.refused(Next::End, &held, short), 9);
            counts.refused("9, out at the end");
        }
    }
}

/// Takes a line, or ends; gives the values of the lines given.
fn take(chance: &mut Chance, scan: &mut Scan, line: Option<&Vec<u16>>, width: usize) -> Vec<i32> {
    let out = out(chance, width);
    let pixels = line.map(|line| lent(chance, line));
    let next = match &pixels {
        Some(pixels) => Next::Line { pixels, width },
        None => Next::End,
    };
    let (answer, given) = scan.call(next, &out);
    assert_eq!(answer, Ok(()));
    given
}

/// Scans a strip in lent memory with something past it, with refused calls
/// between, where they are asked for: before a line as many as `between` draws.
/// Holds what came out against the whole strip.
fn scan(
    chance: &mut Chance,
    table: &WidthTable,
    lines: &[Vec<u16>],
    between: usize,
    counts: &mut Counts,
) {
    let (depth, width, height) = (table.depth, lines[0].len(), lines.len());
    let mut scan = begun(chance, table);
    let past = chance.below(4);
    scan.held = chance.plane(HELD_LINES * width + past);
    let mut given = Vec::new();
    for taken in 0..=height {
        for _ in 0..chance.below(between + 1) {
            refuse(chance, &mut scan, depth, width, taken, counts);
        }
        given.extend(take(chance, &mut scan, lines.get(taken), width));
    }
    if between > 0 {
        after_the_end(chance, &mut scan, &lines[0], counts);
    }
    counts.strips += 1;
    counts.lines += height;
    same_as_the_whole(table, lines, &given);
}

/// A line or an end after the end is refused, whatever else is wrong with it.
fn after_the_end(chance: &mut Chance, scan: &mut Scan, line: &[u16], counts: &mut Counts) {
    let width = line.len();
    for (held, width) in [
        (scan.held.clone(), width),
        (Vec::new(), width),
        (scan.held.clone(), 0),
    ] {
        let out = out(chance, width);
        let next = Next::Line {
            pixels: line,
            width,
        };
        assert_eq!(scan.refused(next, &held, &out), 14);
        counts.refused("14, line after the end");
        assert_eq!(scan.refused(Next::End, &held, &out), 14);
        counts.refused("14, end after the end");
    }
}

/// The lines given, in their order, are those of the second implementation's
/// transform of the strip, and of the engine's, where it takes the strip.
fn same_as_the_whole(table: &WidthTable, lines: &[Vec<u16>], given: &[i32]) {
    let (width, height) = (lines[0].len(), lines.len());
    let due = rolling::strip(table, lines).in_order().concat();
    assert_eq!(given.len(), due.len());
    let same = given.iter().zip(&due).all(|(&g, &d)| i128::from(g) == d);
    assert!(same, "{width} x {height}");
    if height <= 4096 {
        let bytes = table.bytes().unwrap();
        let whole = suzdrepa::forward97_to_vec(&bytes, &lines.concat(), width, height).unwrap();
        assert!(whole == plane(given, width), "{width} x {height}");
    }
}

#[test]
fn many_strips_with_refused_calls_between() {
    let mut chance = Chance::new(111);
    let mut counts = Counts::default();
    for _ in 0..rounds(500) {
        let depth = chance.within(1, 12) as u8;
        let table = table(&mut chance, depth);
        for _ in 0..8 {
            let mut side = |most| match chance.below(6) {
                0 => 1,
                1 | 2 => chance.within(1, 7),
                _ => chance.within(1, most),
            };
            let (width, height) = (side(40), side(40));
            let lines = strip(&mut chance, depth, width, height);
            scan(&mut chance, &table, &lines, 2, &mut counts);
        }
    }
    println!("{counts:?}");
    assert_eq!(counts.refused.len(), 12);
    assert!(counts.refused.values().all(|&n| n > 100), "{counts:?}");
}

/// Every strip of one bit, up to three pixels wide, under a tight table.
#[test]
fn every_small_strip_of_one_bit() {
    let mut chance = Chance::new(112);
    let mut counts = Counts::default();
    let table = tight(&mut chance, 1, 1);
    for (width, highest) in [(1, 10), (2, 6), (3, 4)] {
        for height in 1..=highest {
            for bits in 0..1u32 << (width * height) {
                let pixel = |i: usize| (bits >> i & 1) as u16;
                let line = |y: usize| (0..width).map(|x| pixel(y * width + x)).collect();
                let lines: Vec<_> = (0..height).map(line).collect();
                scan(&mut chance, &table, &lines, 0, &mut counts);
            }
        }
    }
    println!("{counts:?}");
    // 2^1 to 2^10, 4^1 to 4^6, 8^1 to 8^4.
    assert_eq!(counts.strips, 2046 + 5460 + 4680);
}

#[test]
fn wide_and_high_strips() {
    let mut chance = Chance::new(113);
    let mut counts = Counts::default();
    for (width, height) in [
        (4096, 1),
        (4095, 1),
        (1, 1),
        (1, 4096),
        (1, 4097),
        (4096, 2),
        (4096, 3),
        (4096, 4),
        (4095, 9),
        (4096, 16),
        (1025, 40),
        (300, 301),
        (3, 4095),
        (2, 4096),
        (5, 4097),
        (2, 4098),
        (7, 10_001),
    ] {
        for table in [generous(12, 1), tight(&mut chance, 12, 1)] {
            let picture = chance.picture(12, width * height);
            let lines: Vec<_> = picture.chunks(width).map(<[u16]>::to_vec).collect();
            scan(&mut chance, &table, &lines, 1, &mut counts);
        }
    }
    println!("{counts:?}");
    assert_eq!(counts.strips, 34);
}

/// A roll of so many lines, of an even and of an odd number.
#[test]
fn a_hundred_thousand_lines() {
    let mut chance = Chance::new(114);
    let mut counts = Counts::default();
    for height in [100_000, 100_001] {
        let table = match height % 2 {
            0 => tight(&mut chance, 8, 1),
            _ => accepted_products(&mut chance, 8, 1),
        };
        let picture = chance.picture(8, 3 * height);
        let lines: Vec<_> = picture.chunks(3).map(<[u16]>::to_vec).collect();
        scan(&mut chance, &table, &lines, 1, &mut counts);
    }
    println!("{counts:?}");
    assert_eq!((counts.strips, counts.lines), (2, 200_001));
}

/// The rows of a plane from its lines in the order in which they are given.
fn plane(lines: &[i32], width: usize) -> Vec<i32> {
    let part = |first| {
        let lines = lines.chunks(width).skip(first).step_by(2);
        lines.collect::<Vec<_>>().concat()
    };
    [part(0), part(1)].concat()
}

/// What a scan gives is less than two steps from the exact transform, and no
/// value on the way leaves its width, also where no picture is so high.
#[test]
fn near_the_exact_transform() {
    let mut chance = Chance::new(122);
    let mut largest = 0f64;
    for height in (1..20).chain([1, 1, 4097, 4500]) {
        let (depth, width) = (chance.within(1, 12) as u8, chance.within(1, 5));
        let table = match height % 3 {
            0 => accepted_products(&mut chance, depth, 1),
            _ => tight(&mut chance, depth, 1),
        };
        let lines = strip(&mut chance, depth, width, height);
        let mut scan = begun(&mut chance, &table);
        scan.held = chance.plane(HELD_LINES * width);
        let mut given = Vec::new();
        for taken in 0..=height {
            given.extend(take(&mut chance, &mut scan, lines.get(taken), width));
        }
        let given: Vec<i128> = plane(&given, width).into_iter().map(i128::from).collect();
        let picture = lines.concat();
        let worked = fixed97::transform(&table, &picture, width, height);
        assert_eq!((&worked.plane, worked.left), (&given, None));
        let exact = exact97::transform(depth, 1, &picture, width, height);
        let distance = exact.distance(&table, &given);
        assert!(distance.below_two_steps, "{distance:?}");
        largest = largest.max(distance.steps);
    }
    println!("largest distance: {largest:.3} steps");
    assert!(largest > 0.5);
}

/// Scans with memory of their own do not touch each other.
#[test]
fn scans_in_turn() {
    let mut chance = Chance::new(115);
    let mut counts = Counts::default();
    for _ in 0..rounds(100) {
        let mut scans: Vec<_> = (0..4)
            .map(|_| {
                let depth = chance.within(1, 12) as u8;
                let table = table(&mut chance, depth);
                let (width, height) = (chance.within(1, 12), chance.within(1, 20));
                let lines = strip(&mut chance, depth, width, height);
                let mut scan = begun(&mut chance, &table);
                scan.held = chance.plane(HELD_LINES * width);
                (scan, table, lines, 0, Vec::new())
            })
            .collect();
        while !scans.is_empty() {
            let at = chance.below(scans.len());
            let (scan, table, lines, taken, given) = &mut scans[at];
            let width = lines[0].len();
            given.extend(take(&mut chance, scan, lines.get(*taken), width));
            *taken += 1;
            if *taken > lines.len() {
                same_as_the_whole(table, lines, given);
                counts.strips += 1;
                counts.lines += lines.len();
                scans.swap_remove(at);
            }
        }
    }
    println!("{counts:?}");
    assert_eq!(counts.strips, 4 * rounds(100));
}

#[test]
fn beginnings_with_every_refusal() {
    let mut chance = Chance::new(116);
    let mut seen = [0usize; 15];
    for _ in 0..rounds(40_000) {
        let (depth, levels) = (chance.within(1, 12) as u8, chance.within(1, 5) as u8);
        let mut table = match chance.below(6) {
            0 => any_form(&mut chance),
            1 => generous(depth, levels),
            2 => narrow(depth, 1),
            _ => generous(depth, 1),
        };
        if chance.one_in(3) {
            table = some_products(&mut chance, table);
        }
        if chance.one_in(2) {
            let place = *chance.of(&table.places());
            let width = table.width_mut(place);
            match chance.one_in(2) {
                true => width.integer_bits = chance.within(1, 12) as u8,
                false => width.fraction_bits = chance.within(0, 20) as u8,
            }
        }
        let mut bytes = table.bytes().unwrap();
        if chance.one_in(4) {
            bytes = damaged(&mut chance, &bytes);
        }
        let length = match chance.below(4) {
            0 => chance.below(STATE),
            1 => STATE,
            _ => chance.within(STATE - 1, STATE + 9),
        };
        let state: Vec<u8> = (0..length).map(|_| chance.byte()).collect();
        let (answer, left) = begin(&bytes, &state);
        let number = answer.map_or_else(|refusal| refusal.number, |()| 0);
        seen[usize::from(number)] += 1;
        if number != 0 {
            assert_eq!(left, state, "a refused beginning touches nothing");
        }
    }
    println!("begins by number: {seen:?}");
    for number in [0, 1, 2, 3, 4, 5, 6, 7, 9, 14] {
        assert!(seen[number] > 100, "{seen:?}");
    }
    assert_eq!((seen[8], &seen[10..14]), (0, &[0; 4][..]));
}

/// For each refusal that a beginning has by its table, bytes with that one.
fn refused_tables(depth: u8) -> [(u8, Vec<u8>); 8] {
    let right = generous(depth, 1).bytes().unwrap();
    let with = |at: usize, byte: u8| {
        let mut bytes = right.clone();
        bytes[at] = byte;
        bytes
    };
    let (rough, full) = (Width::new(12, 0), Width::new(12, 20));
    let bytes = |table: WidthTable| table.bytes().unwrap();
    [
        (1, right[..right.len() - 1].to_vec()),
        // The first tag, its length and its number, the depth.
        (2, with(0, 2)),
        (3, with(2, 2)),
        (4, with(3, 13)),
        (5, [&right[..], &[0]].concat()),
        (14, bytes(generous(depth, 2))),
        (
            6,
            bytes(WidthTable::uniform(depth, 1, 24, Width::new(2, 20))),
        ),
        (
            7,
            bytes(WidthTable::kept_and_others(depth, 1, 24, full, rough)),
        ),
    ]
}

/// A beginning that is refused leaves the scan in its state, wherever it
/// stands: that scan goes on, ends, and gives its lines.
#[test]
fn refused_beginnings_over_a_running_scan() {
    let mut chance = Chance::new(123);
    let mut seen = [0usize; 15];
    let mut refuse = |table: &[u8], due: u8, state: &[u8]| {
        let (answer, left) = begin(table, state);
        assert_eq!(answer.unwrap_err().number, due);
        assert_eq!(left, state, "after {due}");
        seen[usize::from(due)] += 1;
    };
    for _ in 0..rounds(100) {
        let depth = chance.within(1, 12) as u8;
        let table = table(&mut chance, depth);
        let refused = refused_tables(chance.within(1, 12) as u8);
        let right = generous(depth, 1).bytes().unwrap();
        let (width, height) = (chance.within(1, 12), chance.within(1, 12));
        let lines = strip(&mut chance, depth, width, height);
        let mut scan = begun(&mut chance, &table);
        scan.held = chance.plane(HELD_LINES * width);
        let mut given = Vec::new();
        for taken in 0..=height {
            for (due, table) in &refused {
                refuse(table, *due, &scan.state);
                refuse(table, *due, &scan.state[..chance.below(STATE)]);
            }
            refuse(&right, 9, &scan.state[..chance.below(STATE)]);
            given.extend(take(&mut chance, &mut scan, lines.get(taken), width));
        }
        // Nor does one leave an ended scan that goes on.
        for (due, table) in &refused {
            refuse(table, *due, &scan.state);
        }
        after_the_end(&mut chance, &mut scan, &lines[0], &mut Counts::default());
        same_as_the_whole(&table, &lines, &given);
    }
    println!("begins by number: {seen:?}");
    for number in [1, 2, 3, 4, 5, 6, 7, 9, 14] {
        assert!(seen[number] > rounds(100), "{seen:?}");
    }
}

/// State and held lines of a scan of this width after so many lines.
fn after(chance: &mut Chance, table: &WidthTable, width: usize, taken: usize) -> Scan {
    let mut scan = begun(chance, table);
    scan.held = chance.plane(HELD_LINES * width);
    for _ in 0..taken {
        let line = chance.picture(table.depth, width);
        take(chance, &mut scan, Some(&line), width);
    }
    scan
}

/// A line and an end for a state that may be no scan's, with memory enough for
/// the width that stands in it, or now and then too little. Gives the answers.
fn ask(chance: &mut Chance, state: &[u8], depth: u8) -> [u8; 2] {
    let stands = width_in(state);
    let width = match stands {
        1..=4096 => stands,
        _ => chance.within(1, 6),
    };
    let lent = if chance.one_in(8) { width - 1 } else { width };
    let (held, out) = (
        chance.plane(HELD_LINES * lent),
        chance.plane(OUT_LINES * lent + 1),
    );
    let pixels = chance.picture(depth, width);
    let line = Next::Line {
        pixels: &pixels,
        width,
    };
    [line, Next::End].map(|next| {
        let (answer, _) = foreign(next, state, &held, &out);
        answer.map_or_else(|refusal| refusal.number, |()| 0)
    })
}

/// Each byte of a true state in turn takes every other value.
#[test]
fn states_with_one_byte_changed() {
    let mut chance = Chance::new(117);
    let mut seen = [[0usize; 2]; 15];
    let scans = [
        (0, 2),
        (1, 1),
        (1, 3),
        (2, 4),
        (3, 2),
        (4, 1),
        (4, 5),
        (5, 3),
        (6, 2),
    ];
    for (taken, width) in scans {
        let depth = chance.within(2, 12) as u8;
        let table = table(&mut chance, depth);
        let state = after(&mut chance, &table, width, taken).state;
        for at in 0..STATE {
            for value in (0..=255).filter(|&value| value != state[at]) {
                let mut state = state.clone();
                state[at] = value;
                for (call, number) in ask(&mut chance, &state, depth).into_iter().enumerate() {
                    seen[usize::from(number)][call] += 1;
                }
            }
        }
    }
    println!("lines and ends by number: {seen:?}");
    let calls = scans.len() * STATE * 255 * 2;
    assert_eq!(seen.iter().flatten().sum::<usize>(), calls);
    for (number, calls) in [(0, 2), (9, 2), (10, 1), (14, 2)] {
        assert!(seen[number][..calls].iter().all(|&n| n > 20), "{seen:?}");
    }
    assert_eq!(seen[10][1], 0);
}

/// A generous table as it stands in a state: zeros past one without tag 5.
fn table_in_state(chance: &mut Chance, depth: u8) -> Vec<u8> {
    let mut table = generous(depth, 1);
    if chance.one_in(2) {
        table = table.with_products(chance.within(30, 44) as u8);
    }
    let mut bytes = table.bytes().unwrap();
    bytes.resize(TABLE, 0);
    bytes
}

/// Bytes by chance, and a true table with any end.
#[test]
fn states_that_no_scan_left() {
    let mut chance = Chance::new(118);
    let (mut random, mut ends) = ([0usize; 15], [0usize; 15]);
    for _ in 0..rounds(20_000) {
        let length = chance.within(STATE, STATE + 8);
        let mut state: Vec<u8> = (0..length).map(|_| chance.byte()).collect();
        for number in ask(&mut chance, &state, 8) {
            random[usize::from(number)] += 1;
        }
        let depth = chance.within(1, 12) as u8;
        state[..TABLE].copy_from_slice(&table_in_state(&mut chance, depth));
        let width = *chance.of(&[0u16, 0, 1, 2, 3, 4, 255, 256, 4096, 4097, u16::MAX]);
        state[TABLE..TABLE + 2].copy_from_slice(&width.to_be_bytes());
        state[TABLE + 2] = chance.below(9) as u8;
        state[TABLE + 3] = *chance.of(&[0, 0, 0, 1, 2, 255]);
        for number in ask(&mut chance, &state, depth) {
            ends[usize::from(number)] += 1;
        }
    }
    println!("random bytes: {random:?}\nany end: {ends:?}");
    assert_eq!(random[14], 2 * rounds(20_000));
    for number in [0, 9, 14] {
        assert!(ends[number] > 500, "{ends:?}");
    }
}

/// Several things wrong at once: the first in the order of the call is told.
#[test]
fn every_refusal_in_its_order() {
    let mut chance = Chance::new(121);
    let mut seen = [[0usize; 2]; 15];
    let widths = [0, 1, 2, 3, 4, 5, 4096, 4097, 1 << 32, 1 << 61, usize::MAX];
    for _ in 0..rounds(40_000) {
        let depth = chance.within(1, 12) as u8;
        let mut state = table_in_state(&mut chance, depth);
        let stands = chance.within(1, 5);
        state.extend(match chance.below(4) {
            0 => [0, 0, 0, 0],
            1 => [0, stands as u8, chance.within(1, 6) as u8, 1],
            _ => [0, stands as u8, chance.within(1, 6) as u8, 0],
        });
        match chance.below(8) {
            0 => state.truncate(chance.below(STATE)),
            1 => state = damaged(&mut chance, &state),
            2 => state.push(chance.byte()),
            _ => {}
        }
        let width = match chance.one_in(3) {
            true => *chance.of(&widths),
            false => stands,
        };
        let mut length = |lines: usize| match chance.below(8) {
            0 => chance.below(lines * stands),
            1 => (lines * stands).saturating_sub(1),
            _ => lines * stands + chance.below(3),
        };
        let (pixels, held, out) = (length(1), length(HELD_LINES), length(OUT_LINES));
        let mut pixels = chance.picture(depth, pixels);
        if chance.one_in(3) && !pixels.is_empty() {
            let at = chance.below(pixels.len());
            pixels[at] = 1 << depth;
        }
        let (held, out) = (chance.plane(held), chance.plane(out));
        let line = Next::Line {
            pixels: &pixels,
            width,
        };
        for (call, next) in [line, Next::End].into_iter().enumerate() {
            let (answer, _) = foreign(next, &state, &held, &out);
            let number = answer.map_or_else(|refusal| refusal.number, |()| 0);
            seen[usize::from(number)][call] += 1;
        }
    }
    println!("lines and ends by number: {seen:?}");
    for (number, calls) in [(0, 2), (8, 1), (9, 2), (10, 1), (14, 2)] {
        assert!(seen[number][..calls].iter().all(|&n| n > 100), "{seen:?}");
    }
    let due = 2 * rounds(40_000);
    let told = [0, 8, 9, 10, 14].map(|number| seen[number]);
    assert_eq!(told.iter().flatten().sum::<usize>(), due);
}

/// Held lines that no scan left, the largest values among them, at every turn
/// of a scan: answer, count and state are as always.
#[test]
fn held_lines_that_no_scan_left() {
    let mut chance = Chance::new(119);
    let mut given = BTreeMap::new();
    for round in 0..rounds(4000) {
        let depth = chance.within(1, 12) as u8;
        let table = match round % 4 {
            0 => tight(&mut chance, depth, 1),
            1 => uneven(&mut chance, depth, 1),
            2 => generous(depth, 1).with_products(chance.within(30, 44) as u8),
            _ => generous(depth, 1),
        };
        let (width, taken) = (chance.within(1, 9), chance.below(8));
        let state = after(&mut chance, &table, width, taken).state;
        let past = chance.below(3);
        let mut held = chance.plane(HELD_LINES * width + past);
        match chance.below(4) {
            0 => held.fill(i32::MIN),
            1 => held.fill(i32::MAX),
            2 => held.fill_with(|| *chance.of(&[i32::MIN, -1, 0, i32::MAX])),
            _ => {}
        }
        let out = out(&mut chance, width);
        let pixels = chance.picture(depth, width);
        let line = Next::Line {
            pixels: &pixels,
            width,
        };
        let (answer, count) = foreign(line, &state, &held, &out);
        assert_eq!(answer, Ok(()));
        *given.entry(("line", count)).or_insert(0) += 1;
        let (answer, count) = foreign(Next::End, &state, &held, &out);
        assert_eq!(answer.is_ok(), taken >= 1);
        *given.entry(("end", count)).or_insert(0) += 1;
    }
    println!("calls by lines given: {given:?}");
    let kinds: Vec<_> = given.keys().copied().collect();
    let due = [
        ("end", 0),
        ("end", 1),
        ("end", 2),
        ("end", 3),
        ("end", 4),
        ("line", 0),
        ("line", 2),
    ];
    assert_eq!(kinds, due);
}

/// The safe type gives the same lines, by kind and number, whatever is refused
/// between.
#[test]
fn the_owning_scan_gives_the_same_lines() {
    let mut chance = Chance::new(120);
    let mut counts = Counts::default();
    for _ in 0..rounds(400) {
        let depth = chance.within(1, 12) as u8;
        let table = table(&mut chance, depth);
        let bytes = table.bytes().unwrap();
        let (width, height) = (chance.within(1, 20), chance.within(1, 20));
        let lines = strip(&mut chance, depth, width, height);
        let due = rolling::strip(&table, &lines);
        let mut scan = suzdrepa::Scan::begin(&bytes).unwrap();
        let mut came = Vec::new();
        for taken in 0..=height {
            for _ in 0..chance.below(3) {
                let mut wrong = chance.picture(depth, width + 1);
                let (number, why) = match taken {
                    1.. if chance.one_in(2) => (14, "14, another width"),
                    _ => {
                        wrong.pop();
                        wrong[chance.below(width)] = 1 << depth;
                        (10, "10")
                    }
                };
                assert_eq!(scan.line(&wrong).unwrap_err().number(), number);
                counts.refused(why);
            }
            assert_eq!(scan.lines(), taken as u64);
            let given = match lines.get(taken) {
                Some(line) => scan.line(line),
                None => scan.end(),
            };
            for line in given.unwrap() {
                let (strip, part) = match line.kind {
                    suzdrepa::LineKind::Low => (&due.lows, 0),
                    suzdrepa::LineKind::High => (&due.highs, 1),
                };
                let values: Vec<i128> = line.values.iter().map(|&v| v.into()).collect();
                assert_eq!(values, strip[line.number as usize]);
                came.push(2 * line.number + part);
            }
        }
        assert_eq!(came, (0..height as u64).collect::<Vec<_>>());
        counts.strips += 1;
        counts.lines += height;
    }
    println!("{counts:?}");
    assert!(counts.refused.values().all(|&n| n > 100), "{counts:?}");
}
