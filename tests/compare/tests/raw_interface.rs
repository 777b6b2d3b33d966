//! The bare C interface: whole answers, and what the safe wrapper does not
//! show.

use compare::both::Parts;
use compare::chance::Chance;
use compare::tables::{any, damaged, generous, narrow, some_products};
use reference::refusal::answer;
use reference::reversible53::{self, Order};
use reference::{calls, Refusal, Width};
use std::ptr::{null, null_mut};
use suzdrepa_sys::{
    suz_forward53, suz_forward97, suz_inverse53, suz_inverse53_rows_first, suz_scan_begin,
    suz_scan_end, suz_scan_line, suz_table_bound, suz_table_change, suz_table_change_constant,
    suz_table_change_product, suz_table_check, suz_table_form, suz_table_value, suz_table_view,
    suz_table_write, suz_table_write_products, suz_view97, suz_view_distance, SUZ_SCAN_LENGTH,
    SUZ_TABLE_CONSTANTS, SUZ_TABLE_PRODUCTS, SUZ_TABLE_WIDTHS,
};

fn some_table(chance: &mut Chance) -> Vec<u8> {
    let (depth, levels) = (chance.within(1, 12) as u8, chance.within(1, 5) as u8);
    let table = match chance.below(4) {
        0 | 1 => any(chance),
        2 => generous(depth, levels),
        _ => narrow(depth, levels),
    };
    let bytes = some_products(chance, table).bytes().unwrap();
    match chance.below(3) {
        0 => damaged(chance, &bytes),
        _ => bytes,
    }
}

#[test]
fn table_answers_in_whole() {
    let mut chance = Chance::new(21);
    for _ in 0..20_000 {
        let table = some_table(&mut chance);
        // SAFETY: pointer and length are those of a vector.
        let (check, form, view) = unsafe {
            (
                suz_table_check(table.as_ptr(), table.len()),
                suz_table_form(table.as_ptr(), table.len()),
                suz_table_view(table.as_ptr(), table.len()),
            )
        };
        assert_eq!(check, answer(calls::table_check(&table)));
        assert_eq!(form, answer(calls::table_form(&table)));
        assert_eq!(view, answer(calls::table_view(&table)));
    }
}

#[test]
fn the_distance_is_untouched_on_refusal() {
    let mut chance = Chance::new(25);
    let mut seen = std::collections::BTreeSet::new();
    for _ in 0..20_000 {
        let table = some_table(&mut chance);
        let before = chance.bits();
        let (mut ours, mut due) = (before, before);
        // SAFETY: pointer and length are those of a vector; the distance is a
        // number of its own.
        let told = unsafe { suz_view_distance(table.as_ptr(), table.len(), &mut ours) };
        assert_eq!(told, answer(calls::view_distance(&table, &mut due)));
        assert_eq!(ours, due);
        assert!(told == 0 || ours == before);
        seen.insert(told & 255);
    }
    assert_eq!(Vec::from_iter(seen), [0, 1, 2, 3, 4, 5, 6, 7, 13]);
}

#[test]
fn start_and_length_are_untouched_on_refusal() {
    let mut chance = Chance::new(22);
    let (mut done, mut refused) = (0, 0);
    for _ in 0..20_000 {
        let table = some_table(&mut chance);
        let tag = chance.within(0, 6) as u8;
        let before = (chance.bits() as u32, chance.bits() as u32);
        let (mut start, mut length) = before;
        // SAFETY: pointer and length are those of a vector; the two places
        // are its own.
        let ours =
            unsafe { suz_table_value(table.as_ptr(), table.len(), tag, &mut start, &mut length) };
        match calls::table_value(&table, tag) {
            Ok(stretch) => {
                assert_eq!(ours, 0);
                let due = (stretch.start as u32, stretch.len() as u32);
                assert_eq!((start, length), due);
                done += 1;
            }
            Err(refusal) => {
                assert_eq!(ours, refusal.code());
                assert_eq!((start, length), before);
                refused += 1;
            }
        }
    }
    assert!(done > 1000 && refused > 1000);
}

#[test]
fn change_answers_in_whole() {
    let mut chance = Chance::new(23);
    for _ in 0..10_000 {
        let table = some_table(&mut chance);
        let mut out = vec![0u8; chance.within(0, 280)];
        let mut due_out = out.clone();
        let [level, pass, node] = [6, 4, 7].map(|max| chance.within(0, max) as u8);
        let [integer_bits, fraction_bits] = [13, 21].map(|max| chance.within(0, max) as u8);
        // SAFETY: pointers and lengths are those of two vectors.
        let ours = unsafe {
            suz_table_change(
                table.as_ptr(),
                table.len(),
                level,
                pass,
                node,
                integer_bits,
                fraction_bits,
                out.as_mut_ptr(),
                out.len(),
            )
        };
        let width = Width::new(integer_bits, fraction_bits);
        let due = calls::table_change(&table, level, pass, node, width, &mut due_out);
        assert_eq!(ours, answer(due));
        assert_eq!(out, due_out);

        let bits = chance.within(0, 46) as u8;
        // SAFETY: as above.
        let ours = unsafe {
            suz_table_change_product(
                table.as_ptr(),
                table.len(),
                level,
                pass,
                node,
                bits,
                out.as_mut_ptr(),
                out.len(),
            )
        };
        let due = calls::table_change_product(&table, level, pass, node, bits, &mut due_out);
        assert_eq!(ours, answer(due));
        assert_eq!(out, due_out);
    }
}

/// Whatever says that there is a tag 5, and any numbers.
#[test]
fn write_answers_in_whole() {
    let mut chance = Chance::new(26);
    let mut seen = std::collections::BTreeSet::new();
    for _ in 0..20_000 {
        let table = any(&mut chance);
        let mut parts = Parts::of(&some_products(&mut chance, table));
        if chance.one_in(3) {
            parts.has_products = chance.byte();
        }
        if chance.one_in(3) {
            let at = chance.below(parts.products.len());
            parts.products[at] = chance.within(0, 46) as u8;
        }
        let mut out = vec![0u8; chance.within(0, 280)];
        let mut due_out = out.clone();
        // SAFETY: the arrays have the counts that the call reads; pointer and
        // length are those of a vector.
        let ours = unsafe {
            suz_table_write_products(
                parts.depth,
                parts.levels,
                &parts.constants,
                &parts.widths,
                parts.has_products,
                &parts.products,
                out.as_mut_ptr(),
                out.len(),
            )
        };
        let due = calls::table_write_products(
            parts.depth,
            parts.levels,
            &parts.constants,
            &parts.widths,
            parts.has_products != 0,
            &parts.products,
            &mut due_out,
        );
        assert_eq!(ours, answer(due));
        assert_eq!(out, due_out);
        seen.insert((parts.has_products != 0, ours));
    }
    let due = [false, true].map(|has| [0, 4, 9].map(|number| (has, number)));
    assert_eq!(Vec::from_iter(seen), due.concat());
}

/// A way back of the C interface, and of the reference.
type BareBack = unsafe extern "C" fn(
    u8,
    u8,
    *const i32,
    usize,
    usize,
    usize,
    *mut u16,
    usize,
    *mut i32,
    usize,
) -> u32;
type DueBack = fn(u8, u8, &[i32], usize, usize, &mut [u16], &mut [i32]) -> Result<(), Refusal>;

/// Both ways back, of new copies and of earlier ones.
const WAYS_BACK: [(&str, BareBack, DueBack); 2] = [
    ("inverse53", suz_inverse53, calls::inverse53),
    (
        "inverse53_rows_first",
        suz_inverse53_rows_first,
        calls::inverse53_rows_first,
    ),
];

#[test]
fn transform_answers_in_whole() {
    let mut chance = Chance::new(24);
    let mut seen = std::collections::BTreeSet::new();
    for _ in 0..20_000 {
        let table = some_table(&mut chance);
        let (depth, levels) = (chance.within(0, 13) as u8, chance.within(0, 6) as u8);
        let (width, height) = (chance.within(0, 20), chance.within(0, 20));
        let mut length = || chance.within(0, 420);
        let lengths = [length(), length(), length()];
        let deepest = chance.within(1, 13) as u8;
        let pixels = chance.picture(deepest, lengths[0]);
        let (plane, work) = (chance.plane(lengths[1]), chance.plane(lengths[2]));

        let (mut our_plane, mut our_work) = (plane.clone(), work.clone());
        let (mut due_plane, mut due_work) = (plane.clone(), work.clone());
        // SAFETY: pointers and lengths are those of vectors.
        let ours = unsafe {
            suz_forward97(
                table.as_ptr(),
                table.len(),
                pixels.as_ptr(),
                pixels.len(),
                width,
                height,
                our_plane.as_mut_ptr(),
                our_plane.len(),
                our_work.as_mut_ptr(),
                our_work.len(),
            )
        };
        let due = calls::forward97(
            &table,
            &pixels,
            width,
            height,
            &mut due_plane,
            &mut due_work,
        );
        assert_eq!(ours, answer(due));
        assert_eq!((&our_plane, &our_work), (&due_plane, &due_work));
        seen.insert(("forward97", ours & 255));

        // Viewed is what that left in the plane: coefficients, or anything.
        let work64 = chance.sixty_four_bits(lengths[2]);
        let (mut our_pixels, mut due_pixels) = (pixels.clone(), pixels.clone());
        let (mut our_work, mut due_work) = (work64.clone(), work64);
        // SAFETY: pointers and lengths are those of vectors.
        let ours = unsafe {
            suz_view97(
                table.as_ptr(),
                table.len(),
                our_plane.as_ptr(),
                our_plane.len(),
                width,
                height,
                our_pixels.as_mut_ptr(),
                our_pixels.len(),
                our_work.as_mut_ptr(),
                our_work.len(),
            )
        };
        let due = calls::view97(
            &table,
            &due_plane,
            width,
            height,
            &mut due_pixels,
            &mut due_work,
        );
        assert_eq!(ours, answer(due));
        assert_eq!((our_pixels, our_work), (due_pixels, due_work));
        assert_eq!(our_plane, due_plane);
        seen.insert(("view97", ours & 255));

        let (mut our_plane, mut our_work) = (plane.clone(), work.clone());
        let (mut due_plane, mut due_work) = (plane.clone(), work.clone());
        // SAFETY: pointers and lengths are those of vectors.
        let ours = unsafe {
            suz_forward53(
                depth,
                levels,
                pixels.as_ptr(),
                pixels.len(),
                width,
                height,
                our_plane.as_mut_ptr(),
                our_plane.len(),
                our_work.as_mut_ptr(),
                our_work.len(),
            )
        };
        let due = calls::forward53(
            depth,
            levels,
            &pixels,
            width,
            height,
            &mut due_plane,
            &mut due_work,
        );
        assert_eq!(ours, answer(due));
        assert_eq!((&our_plane, &our_work), (&due_plane, &due_work));
        seen.insert(("forward53", ours & 255));

        // Back from what that left in the plane, a copy or anything, and from
        // an earlier copy in its place.
        let mut earlier = our_plane.clone();
        if ours == 0 {
            let picture = &pixels[..width * height];
            let order = Order::RowsFirst;
            let copy = reversible53::forward(order, depth, levels, picture, width, height);
            for (place, value) in earlier.iter_mut().zip(copy) {
                *place = value as i32;
            }
        }
        for (name, bare, due) in WAYS_BACK {
            for plane in [&our_plane, &earlier] {
                let before = plane.clone();
                let (mut our_pixels, mut due_pixels) = (pixels.clone(), pixels.clone());
                let (mut our_work, mut due_work) = (work.clone(), work.clone());
                // SAFETY: pointers and lengths are those of vectors.
                let ours = unsafe {
                    bare(
                        depth,
                        levels,
                        plane.as_ptr(),
                        plane.len(),
                        width,
                        height,
                        our_pixels.as_mut_ptr(),
                        our_pixels.len(),
                        our_work.as_mut_ptr(),
                        our_work.len(),
                    )
                };
                let due = due(
                    depth,
                    levels,
                    &before,
                    width,
                    height,
                    &mut due_pixels,
                    &mut due_work,
                );
                assert_eq!(ours, answer(due));
                assert_eq!((our_pixels, our_work), (due_pixels, due_work));
                assert_eq!(*plane, before);
                seen.insert((name, ours & 255));
            }
        }
    }
    // Every number that the five calls have was seen, and no other.
    let due = [
        ("forward53", &[0, 4, 8, 9, 10][..]),
        ("forward97", &[0, 1, 2, 3, 4, 5, 6, 7, 8, 9, 10][..]),
        ("inverse53", &[0, 4, 8, 9, 11][..]),
        ("inverse53_rows_first", &[0, 4, 8, 9, 11][..]),
        ("view97", &[0, 1, 2, 3, 4, 5, 6, 7, 8, 9, 12, 13][..]),
    ];
    let due: Vec<(&str, u32)> = due
        .iter()
        .flat_map(|(call, numbers)| numbers.iter().map(|&n| (*call, n)))
        .collect();
    assert_eq!(seen.into_iter().collect::<Vec<_>>(), due);
}

/// Header and declarations allow a null pointer where a length is 0.
#[test]
fn null_pointers_of_length_0() {
    for table in [narrow(8, 1), narrow(8, 1).with_products(44)] {
        null_pointers(&table.bytes().unwrap(), table.has_products);
    }
}

fn null_pointers(table: &[u8], has_products: bool) {
    let (at, len) = (table.as_ptr(), table.len());
    let (mut start, mut length, mut range, mut error) = (5, 6, 7, 8);
    let (mut distance, mut given) = (9, 10);
    let mut state = [0; SUZ_SCAN_LENGTH];
    let state_at = state.as_mut_ptr();
    let (constants, widths) = ([24; SUZ_TABLE_CONSTANTS], [0; SUZ_TABLE_WIDTHS]);
    let products = [0; SUZ_TABLE_PRODUCTS];
    // SAFETY: what is null has length 0; the rest are a vector's and its own.
    unsafe {
        assert_eq!(suz_table_check(null(), 0), 1);
        assert_eq!(suz_table_form(null(), 0), 1);
        assert_eq!(suz_table_value(null(), 0, 4, &mut start, &mut length), 1);
        assert_eq!(suz_table_value(null(), 0, 9, &mut start, &mut length), 2);
        let bound = suz_table_bound(null(), 0, 1, 1, 1, &mut range, &mut error);
        assert_eq!(bound, 1);
        assert_eq!(suz_table_view(null(), 0), 1);
        assert_eq!(suz_view_distance(null(), 0, &mut distance), 1);
        assert_eq!(suz_table_change(null(), 0, 1, 1, 1, 9, 9, null_mut(), 0), 1);
        assert_eq!(suz_table_change(at, len, 1, 1, 1, 9, 9, null_mut(), 0), 9);
        assert_eq!(suz_table_change(at, len, 9, 1, 1, 9, 9, null_mut(), 0), 4);
        assert_eq!(suz_table_change_constant(null(), 0, 1, 9, null_mut(), 0), 1);
        assert_eq!(suz_table_change_constant(at, len, 1, 9, null_mut(), 0), 9);
        let change = suz_table_change_product;
        assert_eq!(change(null(), 0, 1, 1, 1, 9, null_mut(), 0), 1);
        let due = if has_products { 9 } else { 4 };
        assert_eq!(change(at, len, 1, 1, 1, 9, null_mut(), 0), due);
        assert_eq!(change(at, len, 1, 1, 5, 9, null_mut(), 0), 4);
        assert_eq!(suz_table_write(8, 1, &constants, &widths, null_mut(), 0), 4);
        let write = |widths, has, products| {
            let out = null_mut();
            suz_table_write_products(8, 1, &constants, widths, has, products, out, 0)
        };
        let right: [u8; SUZ_TABLE_WIDTHS] = narrow(8, 1).parts();
        for has in [0, 1, 255] {
            assert_eq!(write(&widths, has, &products), 4);
            assert_eq!(write(&right, has, &products), 9);
            assert_eq!(write(&right, has, &[44; SUZ_TABLE_PRODUCTS]), 4);
        }
        for (w, h, due) in [
            (0, 0, 8),
            (0, 1, 8),
            (1, 4097, 8),
            (usize::MAX, usize::MAX, 8),
            (1, 1, 9),
            (4, 4, 9),
        ] {
            let (i, o) = (null_mut::<i32>(), null_mut::<u16>());
            assert_eq!(suz_forward97(at, len, null(), 0, w, h, i, 0, i, 0), due);
            assert_eq!(suz_forward53(8, 1, null(), 0, w, h, i, 0, i, 0), due);
            for (_, bare, _) in WAYS_BACK {
                assert_eq!(bare(8, 1, null(), 0, w, h, o, 0, i, 0), due);
                assert_eq!(bare(0, 1, null(), 0, w, h, o, 0, i, 0), 4);
            }
            let long = null_mut::<i64>();
            assert_eq!(suz_view97(at, len, null(), 0, w, h, o, 0, long, 0), due);
            assert_eq!(suz_view97(null(), 0, null(), 0, w, h, o, 0, long, 0), 1);
        }

        let (i, none) = (null_mut::<i32>(), null_mut::<u8>());
        let line = |state, length, width, given| {
            suz_scan_line(state, length, null(), 0, width, i, 0, i, 0, given)
        };
        let length = SUZ_SCAN_LENGTH;
        assert_eq!(suz_scan_begin(null(), 0, none, 0), 1);
        assert_eq!(suz_scan_begin(at, len, none, 0), 9);
        assert_eq!(suz_scan_begin(null(), 0, state_at, length), 1);
        assert_eq!(line(none, 0, 4, &mut given), 9);
        assert_eq!(line(state_at, length, 4, &mut given), 14);
        assert_eq!(suz_scan_end(none, 0, i, 0, i, 0, &mut given), 9);
        assert_eq!(suz_scan_end(state_at, length, i, 0, i, 0, &mut given), 14);
        assert_eq!(suz_scan_begin(at, len, state_at, length), 0);
        // A beginning that is refused leaves the scan that began.
        assert_eq!(suz_scan_begin(null(), 0, state_at, length), 1);
        assert_eq!(line(state_at, length, 4, &mut given), 9);
        assert_eq!(line(state_at, length, 1, &mut given), 9);
        assert_eq!(line(state_at, length, 0, &mut given), 8);
        assert_eq!(line(state_at, length, usize::MAX, &mut given), 8);
        assert_eq!(suz_scan_end(state_at, length, i, 0, i, 0, &mut given), 14);
        // After a line of one pixel, and after two lines of four: an end gets
        // as far as its memory.
        for taken in [[0, 1, 1, 0], [0, 4, 2, 0]] {
            state[length - 4..].copy_from_slice(&taken);
            let state_at = state.as_mut_ptr();
            assert_eq!(line(state_at, length, 0, &mut given), 14);
            assert_eq!(suz_scan_end(state_at, length, i, 0, i, 0, &mut given), 9);
        }
    }
    assert_eq!((start, length, range, error), (5, 6, 7, 8));
    assert_eq!((distance, given), (9, 10));
}
