//! The proved library against the equations of source documents 003 and 004,
//! which give the ends of a line apart from its middle (document 02, job 2).
//! One level, so that every line of the picture is one of the papers' lines;
//! the reference's own transforms are not asked.

use compare::chance::Chance;
use compare::rounds;
use compare::tables::{accepted_products, generous, loose_viewable, narrow, tight, tight_viewable};
use reference::fixed_inverse97::{pixel, Half, NODE_BITS};
use reference::papers::{back53, back97, forward53, forward97};
use reference::places::{kept_node, low_count};
use reference::WidthTable;
use std::path::Path;
use suzdrepa::Refusal;

/// Width and height of a picture.
type Size = (usize, usize);

/// Every mixture of even and odd from the shortest lines on.
fn small_sizes() -> Vec<Size> {
    let sides = 2..=9;
    sides
        .clone()
        .flat_map(|height| sides.clone().map(move |width| (width, height)))
        .collect()
}

/// Long lines, even and odd, along rows and along columns.
const STRIPS: [Size; 6] = [(2, 257), (257, 2), (3, 256), (256, 3), (3, 257), (2, 256)];

/// Depths from the least to the largest.
const DEPTHS: [u8; 4] = [1, 2, 8, 12];

/// Extreme pictures and some drawn by chance.
fn pictures(chance: &mut Chance, depth: u8, (width, height): Size) -> Vec<Vec<u16>> {
    let (count, top) = (width * height, (1u16 << depth) - 1);
    let drawn_by = |light: &dyn Fn(usize, usize) -> bool| -> Vec<u16> {
        let pixel = |i: usize| top * u16::from(light(i % width, i / width));
        (0..count).map(pixel).collect()
    };
    let mut pictures = vec![
        vec![0; count],
        vec![top; count],
        drawn_by(&|x, y| (x + y) % 2 == 0),
        drawn_by(&|x, y| (x + y) % 2 == 1),
    ];
    for corner_x in [0, width - 1] {
        for corner_y in [0, height - 1] {
            pictures.push(drawn_by(&|x, y| (x, y) == (corner_x, corner_y)));
            pictures.push(drawn_by(&|x, y| (x, y) != (corner_x, corner_y)));
        }
    }
    pictures.extend((0..rounds(4)).map(|_| chance.picture(depth, count)));
    pictures
}

/// The integers that enter.
fn entering(depth: u8, picture: &[u16]) -> Vec<i128> {
    let middle = 1i128 << (depth - 1);
    picture.iter().map(|&p| i128::from(p) - middle).collect()
}

fn without_limit(plane: &[i32]) -> Vec<i128> {
    plane.iter().map(|&v| i128::from(v)).collect()
}

/// Puts what `pass` makes of each row in its place.
fn rows(plane: &mut [i128], width: usize, pass: impl Fn(&[i128]) -> Vec<i128>) {
    for row in plane.chunks_mut(width) {
        row.copy_from_slice(&pass(row));
    }
}

/// Puts what `pass` makes of each column in its place; it is told whether the
/// column is one of row-low.
fn columns(plane: &mut [i128], width: usize, pass: impl Fn(bool, &[i128]) -> Vec<i128>) {
    for x in 0..width {
        let column: Vec<i128> = plane.iter().skip(x).step_by(width).copied().collect();
        let worked = pass(x < low_count(width), &column);
        assert_eq!(worked.len(), column.len());
        for (y, value) in worked.into_iter().enumerate() {
            plane[y * width + x] = value;
        }
    }
}

/// An order of the 5/3: 004's equations along rows and columns of a plane of
/// some width, forward and inverse, and the library's way back.
struct Order53 {
    forward: fn(&mut [i128], usize),
    back: fn(&mut [i128], usize),
    library_back: LibraryBack,
}

/// Depth, levels, plane and sides.
type LibraryBack = fn(u8, u8, &[i32], usize, usize) -> Result<Vec<u16>, Refusal>;

/// New copies.
const COLUMNS_FIRST: Order53 = Order53 {
    forward: |plane, width| {
        columns(plane, width, |_, column| forward53(column));
        rows(plane, width, forward53);
    },
    back: |plane, width| {
        rows(plane, width, back53);
        columns(plane, width, |_, column| back53(column));
    },
    library_back: suzdrepa::inverse53_to_vec,
};

/// Earlier copies.
const ROWS_FIRST: Order53 = Order53 {
    forward: |plane, width| {
        rows(plane, width, forward53);
        columns(plane, width, |_, column| forward53(column));
    },
    back: |plane, width| {
        columns(plane, width, |_, column| back53(column));
        rows(plane, width, back53);
    },
    library_back: suzdrepa::inverse53_rows_first_to_vec,
};

/// The plane of a picture by the equations.
fn copy53(order: &Order53, depth: u8, width: usize, picture: &[u16]) -> Vec<i32> {
    let mut plane = entering(depth, picture);
    (order.forward)(&mut plane, width);
    plane.iter().map(|&v| i32::try_from(v).unwrap()).collect()
}

/// The library's 5/3 plane is that of 004's equations along columns, then
/// rows; from it and from an earlier copy the library and the equations taken
/// back give the picture again.
fn hold53(depth: u8, size: Size, picture: &[u16]) {
    let (width, height) = size;
    let plane = suzdrepa::forward53_to_vec(depth, 1, picture, width, height).unwrap();
    let due = copy53(&COLUMNS_FIRST, depth, width, picture);
    assert_eq!(plane, due, "{size:?} {picture:?}");
    for order in [COLUMNS_FIRST, ROWS_FIRST] {
        let plane = copy53(&order, depth, width, picture);
        let back = (order.library_back)(depth, 1, &plane, width, height);
        assert_eq!(back.as_deref(), Ok(picture), "{size:?}");
        let mut values = without_limit(&plane);
        (order.back)(&mut values, width);
        assert_eq!(values, entering(depth, picture), "{size:?} {picture:?}");
    }
}

/// The library's 9/7 plane is that of 003's equations along rows, then
/// columns. Gives the plane.
fn hold97(table: &WidthTable, size: Size, picture: &[u16]) -> Vec<i32> {
    let (width, height) = size;
    let [row, of_row_low, of_row_high] = &table.widths[0];
    let pass = |line: &[i128], bits, widths, number| {
        let products = table.products_of(1, number);
        let [.., low, high] = forward97(line, bits, &table.constant_bits, widths, products);
        [low, high].concat()
    };
    let mut due = entering(table.depth, picture);
    rows(&mut due, width, |line| pass(line, table.depth, row, 1));
    columns(&mut due, width, |row_low, line| match row_low {
        true => pass(line, row[4].fraction_bits, of_row_low, 2),
        false => pass(line, row[5].fraction_bits, of_row_high, 3),
    });
    let bytes = table.bytes().unwrap();
    let plane = suzdrepa::forward97_to_vec(&bytes, picture, width, height).unwrap();
    assert_eq!(without_limit(&plane), due, "{size:?} {table:?} {picture:?}");
    plane
}

/// What the library shows of a plane is what the inverse of 003's equations
/// gives along columns, then rows. Gives the pixels.
fn hold_view97(table: &WidthTable, size: Size, plane: &[i32]) -> Vec<u16> {
    let (width, height) = size;
    let [_, of_row_low, of_row_high] = &table.widths[0];
    let pass = |line: &[i128], low_bits, high_bits| {
        let (low, high) = line.split_at(low_count(line.len()));
        let half = |values, bits| Half { values, bits };
        let [.., even, odd] = back97(half(low, low_bits), half(high, high_bits));
        let sample = |k: usize| [&even, &odd][k % 2][k / 2];
        (0..line.len()).map(sample).collect()
    };
    let mut values = without_limit(plane);
    columns(&mut values, width, |row_low, line| {
        let widths = if row_low { of_row_low } else { of_row_high };
        pass(line, widths[4].fraction_bits, widths[5].fraction_bits)
    });
    rows(&mut values, width, |line| pass(line, NODE_BITS, NODE_BITS));
    let due: Vec<u16> = values.iter().map(|&v| pixel(v, table.depth)).collect();
    let bytes = table.bytes().unwrap();
    let pixels = suzdrepa::view97_to_vec(&bytes, plane, width, height).unwrap();
    assert_eq!(pixels, due, "{size:?} {table:?} {plane:?}");
    pixels
}

/// Planes of coefficients within their widths: all at one end, ends in turn,
/// one coefficient alone at an end of it, some drawn by chance.
fn stored_planes(chance: &mut Chance, table: &WidthTable, size: Size) -> Vec<Vec<i32>> {
    let (width, height) = size;
    let set_by = |chosen: &dyn Fn(usize, usize, [i32; 2]) -> i32| -> Vec<i32> {
        let coefficient = |i: usize| {
            let (x, y) = (i % width, i / width);
            let (least, most) = table.width(kept_node(width, height, 1, x, y)).ends();
            chosen(x, y, [least as i32, most as i32])
        };
        (0..width * height).map(coefficient).collect()
    };
    let mut planes = Vec::new();
    for end in [0, 1] {
        planes.push(set_by(&|_, _, ends| ends[end]));
        planes.push(set_by(&|x, y, ends| ends[(x + y + end) % 2]));
        // The first and the last of the lows and of the highs of a line.
        let of_a_line = |n: usize| [0, low_count(n) - 1, low_count(n), n - 1];
        for alone_x in of_a_line(width) {
            for alone_y in of_a_line(height) {
                planes.push(set_by(&|x, y, ends| match (x, y) == (alone_x, alone_y) {
                    true => ends[end],
                    false => 0,
                }));
            }
        }
    }
    planes.extend((0..rounds(4)).map(|_| chance.stored(table, width, height)));
    planes
}

/// Every picture of a size, worked and shown, and every stored plane shown.
/// Gives how many pixels were neither the darkest nor the lightest.
fn hold_views97(chance: &mut Chance, table: &WidthTable, size: Size) -> usize {
    let mut planes = stored_planes(chance, table, size);
    for picture in pictures(chance, table.depth, size) {
        planes.push(hold97(table, size, &picture));
    }
    let top = (1 << table.depth) - 1;
    let grey = |plane: Vec<i32>| {
        let pixels = hold_view97(table, size, &plane);
        pixels.into_iter().filter(|&p| 0 < p && p < top).count()
    };
    planes.into_iter().map(grey).sum()
}

/// Accepted tables of one level, with tag 5 and without.
fn accepted_tables(chance: &mut Chance, depth: u8) -> Vec<WidthTable> {
    let mut tables = vec![generous(depth, 1)];
    tables.extend((0..3).map(|_| tight(chance, depth, 1)));
    tables.extend((0..2).map(|_| accepted_products(chance, depth, 1)));
    tables
}

/// Tables of one level whose planes can be viewed.
fn viewable_tables(chance: &mut Chance, depth: u8) -> Vec<WidthTable> {
    vec![
        narrow(depth, 1),
        loose_viewable(chance, depth, 1),
        tight_viewable(chance, depth, 1),
        tight_viewable(chance, depth, 1),
    ]
}

#[test]
fn the_5_3_of_every_small_size_is_that_of_004_forward_and_back() {
    let mut chance = Chance::new(121);
    for depth in DEPTHS {
        for size in small_sizes() {
            for picture in pictures(&mut chance, depth, size) {
                hold53(depth, size, &picture);
            }
        }
    }
}

/// Planes near those of pictures: the library gives back the picture that the
/// inverse equations give, and 11 where that one is not of the depth.
#[test]
fn a_5_3_plane_goes_back_where_the_inverse_equations_of_004_stay_in_the_depth() {
    let mut chance = Chance::new(122);
    for order in [COLUMNS_FIRST, ROWS_FIRST] {
        let (mut good, mut bad) = (0, 0);
        for (width, height) in small_sizes() {
            for _ in 0..rounds(20) {
                let depth = *chance.of(&DEPTHS);
                let picture = chance.picture(depth, width * height);
                let mut plane = copy53(&order, depth, width, &picture);
                let place = chance.below(plane.len());
                plane[place] += *chance.of(&[1, -1, 2, -3, 40]);

                let mut values = without_limit(&plane);
                (order.back)(&mut values, width);
                let middle = 1i128 << (depth - 1);
                let in_depth = |v: &i128| (0..2 * middle).contains(&(v + middle));
                let back = (order.library_back)(depth, 1, &plane, width, height);
                if values.iter().all(in_depth) {
                    let back = entering(depth, &back.unwrap());
                    assert_eq!(back, values, "{width} x {height} {plane:?}");
                    good += 1;
                } else {
                    let number = back.unwrap_err().number();
                    assert_eq!(number, 11, "{width} x {height} {plane:?}");
                    bad += 1;
                }
            }
        }
        assert!(good > 100 && bad > 100, "{good} {bad}");
    }
}

#[test]
fn the_9_7_of_every_small_size_is_that_of_003() {
    let mut chance = Chance::new(123);
    for depth in DEPTHS {
        for table in accepted_tables(&mut chance, depth) {
            for size in small_sizes() {
                for picture in pictures(&mut chance, depth, size) {
                    hold97(&table, size, &picture);
                }
            }
        }
    }
}

#[test]
fn what_is_viewed_of_every_small_size_is_the_inverse_of_003() {
    let mut chance = Chance::new(124);
    for depth in DEPTHS {
        for table in viewable_tables(&mut chance, depth) {
            let sizes = small_sizes();
            let greys = sizes
                .iter()
                .map(|&size| hold_views97(&mut chance, &table, size));
            // A picture of one bit has no greys between its two.
            assert_eq!(greys.sum::<usize>() > 1000, depth > 1);
        }
    }
}

#[test]
fn the_5_3_of_long_strips_even_and_odd_is_that_of_004_forward_and_back() {
    let mut chance = Chance::new(125);
    for size in STRIPS {
        for depth in DEPTHS {
            for picture in pictures(&mut chance, depth, size) {
                hold53(depth, size, &picture);
            }
        }
    }
}

#[test]
fn the_9_7_of_long_strips_even_and_odd_is_that_of_003_forward_and_back() {
    let mut chance = Chance::new(126);
    for depth in DEPTHS {
        for table in accepted_tables(&mut chance, depth) {
            for size in STRIPS {
                for picture in pictures(&mut chance, depth, size) {
                    hold97(&table, size, &picture);
                }
            }
        }
        for table in viewable_tables(&mut chance, depth) {
            for size in STRIPS {
                let greys = hold_views97(&mut chance, &table, size);
                assert_eq!(greys > 1000, depth > 1);
            }
        }
    }
}

/// Every name and line of code that the tables of docs/EDGES.md put before a
/// file stands in that file.
#[test]
fn the_page_of_equations_names_what_is_there() {
    let root = Path::new(env!("CARGO_MANIFEST_DIR")).join("../..");
    let page = std::fs::read_to_string(root.join("docs/EDGES.md")).unwrap();
    let mut looked = 0;
    for row in page.lines().filter(|line| line.starts_with("| ")) {
        // A cell is parts like "`name`, `line of code` file".
        for part in row.split(['|', ';']) {
            let mut pieces: Vec<&str> = part.split('`').collect();
            let file = pieces.pop().unwrap().trim();
            if pieces.is_empty() || !file.contains('/') {
                continue;
            }
            let text = std::fs::read_to_string(root.join("crates").join(file)).unwrap();
            for quoted in pieces.iter().skip(1).step_by(2) {
                assert!(text.contains(quoted), "{file} has no `{quoted}`");
                looked += 1;
            }
        }
    }
    assert!(looked > 80, "{looked}");
}
