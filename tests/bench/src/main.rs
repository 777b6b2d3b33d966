//! The engine timed against a plain Rust program, on the same memory.
//!
//! `bench [SIDE...]` prints a Markdown table of medians in milliseconds; the
//! sides are 256, 512, 1024, 2048 and 4096 where none is named. In each row
//! the two programs run in turn, and must leave equal planes and pictures.

use bench::inputs::{
    far_cut, picture, tight_table, view_table, wide_table, with_products_of, DEPTH, LEVELS,
    MIN_SIDE, VIEW_LEVELS,
};
use bench::plain::{self, Order};
use std::process::ExitCode;
use std::time::{Duration, Instant};
use suzdrepa::{WidthTable, MAX_SIDE};

/// Memory that is lent to both programs in turn.
struct Buffers {
    side: usize,
    pixels: Vec<u16>,
    /// The exact copy of the picture.
    copy: Vec<i32>,
    /// The same as it was made earlier, rows first.
    earlier: Vec<i32>,
    /// Its coefficients under the table for viewing.
    stored: Vec<i32>,
    plane: Vec<i32>,
    back: Vec<u16>,
    work: Vec<i32>,
    /// The work area of viewing.
    view_work: Vec<i64>,
}

impl Buffers {
    fn new(side: usize, view_table: &WidthTable) -> Buffers {
        let pixels = picture(side);
        let copy = suzdrepa::forward53_to_vec(DEPTH, LEVELS, &pixels, side, side)
            .expect("the picture is admitted");
        let stored = suzdrepa::forward97_to_vec(view_table.as_bytes(), &pixels, side, side)
            .expect("the picture is admitted");
        let (mut earlier, mut work) = (vec![0; side * side], vec![0; side * side]);
        let done = plain::forward53(
            Order::RowsFirst,
            DEPTH,
            LEVELS,
            &pixels,
            (side, side),
            &mut earlier,
            &mut work,
        );
        assert!(done);
        Buffers {
            side,
            pixels,
            copy,
            earlier,
            stored,
            plane: vec![0; side * side],
            back: vec![0; side * side],
            work,
            view_work: vec![0; side * side],
        }
    }

    /// Puts something else in place of all results.
    fn spoil(&mut self) {
        self.plane.fill(-1);
        self.back.fill(u16::MAX);
        self.work.fill(1);
        self.view_work.fill(1);
    }

    /// Whether the work area of the call, which is one of the two, is zero.
    fn zeroed(&self) -> bool {
        self.work.iter().all(|&value| value == 0) || self.view_work.iter().all(|&value| value == 0)
    }
}

/// A plain program for viewing: table, plane, sides, pixels, work area.
type View = fn(&[u8], &[i32], (usize, usize), &mut [u16], &mut [i64]) -> bool;

/// The plain programs for viewing, by the passes that they make.
const VIEWS: [(&str, View); 3] = [
    ("pipeline", plain::view97_pipeline),
    ("stage by stage", plain::view97_in_place),
    ("stage by stage from the plane", plain::view97),
];

/// A call on lent memory; it says whether it was done.
type Call<'a> = &'a dyn Fn(&mut Buffers) -> bool;

/// Runs both programs in turn, asserts that they leave the same, and gives
/// the medians in milliseconds.
fn compare(buffers: &mut Buffers, engine: Call, plain: Call) -> [f64; 2] {
    let runs = match buffers.side {
        ..=512 => 21,
        513..=2048 => 11,
        _ => 7,
    };
    let mut times = [Vec::new(), Vec::new()];
    let mut due = None;
    // The first round warms the caches and is not counted.
    for round in 0..=runs {
        for (call, times) in [engine, plain].into_iter().zip(&mut times) {
            buffers.spoil();
            let start = Instant::now();
            let done = call(buffers);
            let time = start.elapsed();
            assert!(done && buffers.zeroed());
            let (plane, back) = due.get_or_insert((buffers.plane.clone(), buffers.back.clone()));
            assert!(
                *plane == buffers.plane && *back == buffers.back,
                "the two programs differ"
            );
            if round > 0 {
                times.push(time);
            }
        }
    }
    times.map(median)
}

fn median(mut times: Vec<Duration>) -> f64 {
    times.sort();
    times[times.len() / 2].as_secs_f64() * 1e3
}

fn row(name: &str, buffers: &mut Buffers, engine: Call, plain: Call) {
    let [engine, plain] = compare(buffers, engine, plain);
    println!(
        "| {name} | {side} x {side} | {engine:.2} | {plain:.2} | {:.2} |",
        engine / plain,
        side = buffers.side
    );
}

fn measure(side: usize, tables: &[(&str, WidthTable)], view_table: &WidthTable) {
    let mut buffers = Buffers::new(side, view_table);
    let size = (side, side);
    row(
        "5/3 forward",
        &mut buffers,
        &|Buffers {
              pixels,
              plane,
              work,
              ..
          }| {
            suzdrepa::forward53(DEPTH, LEVELS, pixels, side, side, plane, work).is_ok()
        },
        &|Buffers {
              pixels,
              plane,
              work,
              ..
          }| {
            let order = Order::ColumnsFirst;
            plain::forward53(order, DEPTH, LEVELS, pixels, size, plane, work)
        },
    );
    row(
        "5/3 back",
        &mut buffers,
        &|Buffers {
              copy, back, work, ..
          }| { suzdrepa::inverse53(DEPTH, LEVELS, copy, side, side, back, work).is_ok() },
        &|Buffers {
              copy, back, work, ..
          }| {
            let order = Order::ColumnsFirst;
            plain::inverse53(order, DEPTH, LEVELS, copy, size, back, work)
        },
    );
    assert!(
        buffers.back == buffers.pixels,
        "the picture came back changed"
    );
    row(
        "5/3 back, rows first",
        &mut buffers,
        &|Buffers {
              earlier,
              back,
              work,
              ..
          }| {
            suzdrepa::inverse53_rows_first(DEPTH, LEVELS, earlier, side, side, back, work).is_ok()
        },
        &|Buffers {
              earlier,
              back,
              work,
              ..
          }| {
            let order = Order::RowsFirst;
            plain::inverse53(order, DEPTH, LEVELS, earlier, size, back, work)
        },
    );
    assert!(
        buffers.back == buffers.pixels,
        "the picture of an earlier copy came back changed"
    );
    for (name, table) in tables {
        let table = table.as_bytes();
        row(
            &format!("9/7 forward, {name}"),
            &mut buffers,
            &|Buffers {
                  pixels,
                  plane,
                  work,
                  ..
              }| {
                suzdrepa::forward97(table, pixels, side, side, plane, work).is_ok()
            },
            &|Buffers {
                  pixels,
                  plane,
                  work,
                  ..
              }| { plain::forward97(table, pixels, size, plane, work) },
        );
    }
    let table = view_table.as_bytes();
    for (name, plain) in VIEWS {
        row(
            &format!("9/7 view, {VIEW_LEVELS} levels, {name}"),
            &mut buffers,
            &|Buffers {
                  stored,
                  back,
                  view_work,
                  ..
              }| {
                suzdrepa::view97(table, stored, side, side, back, view_work).is_ok()
            },
            &|Buffers {
                  stored,
                  back,
                  view_work,
                  ..
              }| { plain(table, stored, size, back, view_work) },
        );
    }
}

fn main() -> ExitCode {
    let mut sides = Vec::new();
    for argument in std::env::args().skip(1) {
        match argument.parse() {
            Ok(side) if (MIN_SIDE..=MAX_SIDE).contains(&side) => sides.push(side),
            _ => {
                eprintln!("usage: bench [SIDE...]   sides from {MIN_SIDE} to {MAX_SIDE}");
                return ExitCode::from(2);
            }
        }
    }
    if sides.is_empty() {
        sides = vec![256, 512, 1024, 2048, 4096];
    }
    let tables = [
        ("tight table", tight_table()),
        ("wide table", wide_table()),
        ("tight table, cut products", far_cut(&tight_table())),
        (
            "wide table, products of 15 bits",
            with_products_of(&wide_table(), 15),
        ),
    ];
    let view_table = view_table();
    println!("Depth {DEPTH}, {LEVELS} levels where none are named, medians in milliseconds.");
    println!();
    println!("| transform | picture | engine | plain Rust | engine / plain |");
    println!("|---|---|---:|---:|---:|");
    for side in sides {
        measure(side, &tables, &view_table);
    }
    ExitCode::SUCCESS
}

/// The plain program is only a fair measure if it does the same work.
#[cfg(test)]
mod tests {
    use super::*;
    use ::compare::chance::Chance;
    use ::compare::hostile::Shape;
    use ::compare::tables;
    use suzdrepa::{Place, Refusal, Width};

    fn shape(chance: &mut Chance) -> Shape {
        let (depth, levels) = (chance.within(1, 12) as u8, chance.within(1, 5) as u8);
        Shape::small_full(chance, depth, levels, 90)
    }

    #[test]
    fn the_same_copies() {
        let mut chance = Chance::new(1);
        for _ in 0..500 {
            let Shape {
                depth,
                levels,
                width,
                height,
            } = shape(&mut chance);
            let (count, size) = (width * height, (width, height));
            let mut pixels = chance.picture(depth, count);
            let (mut plane, mut work) = (chance.plane(count), chance.plane(count));
            let mut copy = |order, pixels: &[u16]| {
                work.fill(1);
                let done =
                    plain::forward53(order, depth, levels, pixels, size, &mut plane, &mut work);
                done.then(|| {
                    assert_eq!(work, vec![0; count]);
                    plane.clone()
                })
            };
            let due = suzdrepa::forward53_to_vec(depth, levels, &pixels, width, height);
            assert_eq!(copy(Order::ColumnsFirst, &pixels), due.ok());
            // The engine makes no earlier copies, but knows whose they are.
            let earlier = copy(Order::RowsFirst, &pixels).unwrap();
            let back =
                suzdrepa::inverse53_rows_first_to_vec(depth, levels, &earlier, width, height);
            assert_eq!(back.as_ref(), Ok(&pixels));
            pixels[chance.below(count)] = 1 << depth;
            assert_eq!(copy(Order::ColumnsFirst, &pixels), None);
            assert_eq!(copy(Order::RowsFirst, &pixels), None);
        }
    }

    /// From copies, and from planes with one coefficient changed, a little or
    /// beyond all measure.
    #[test]
    fn the_same_pictures() {
        for (order, engine) in [
            (Order::ColumnsFirst, suzdrepa::inverse53_to_vec as Back),
            (Order::RowsFirst, suzdrepa::inverse53_rows_first_to_vec),
        ] {
            let mut chance = Chance::new(4);
            let mut refused = 0;
            for _ in 0..500 {
                let Shape {
                    depth,
                    levels,
                    width,
                    height,
                } = shape(&mut chance);
                let (count, size) = (width * height, (width, height));
                let pixels = chance.picture(depth, count);
                let (mut plane, mut work) = (chance.plane(count), chance.plane(count));
                let worked =
                    plain::forward53(order, depth, levels, &pixels, size, &mut plane, &mut work);
                assert!(worked);
                let mut back = |plane: &[i32]| {
                    let mut pixels = vec![u16::MAX; count];
                    work.fill(1);
                    let done =
                        plain::inverse53(order, depth, levels, plane, size, &mut pixels, &mut work);
                    assert_eq!(work, vec![0; count]);
                    assert!(done || pixels == vec![u16::MAX; count]);
                    done.then_some(pixels)
                };
                assert_eq!(back(&plane), Some(pixels));
                let reach = *chance.of(&[2, 1 << depth, 1 << 20, 1 << 24, 1 << 31]);
                let by = chance.below(2 * reach) as i64 - reach as i64;
                plane[chance.below(count)] = by as i32;
                let due = engine(depth, levels, &plane, width, height);
                refused += usize::from(due.is_err());
                assert_eq!(back(&plane), due.ok());
            }
            assert!((100..450).contains(&refused), "{refused}");
        }
    }

    /// The engine's way back: depth, levels, plane and sides.
    type Back = fn(u8, u8, &[i32], usize, usize) -> Result<Vec<u16>, Refusal>;

    /// Product widths at random, as long as the table is accepted; half of them
    /// near to where the judge draws the line.
    fn cut_at_random(chance: &mut Chance, table: &WidthTable) -> WidthTable {
        let mut table = match chance.one_in(2) {
            true => with_products_of(table, 44),
            false => far_cut(table),
        };
        let steps: Vec<Place> = Place::steps(table.levels()).collect();
        for _ in 0..2 * steps.len() {
            let bits = chance.within(0, 44) as u8;
            let next = table.with_product(*chance.of(&steps), bits).unwrap();
            table = Some(next)
                .filter(|next| next.check().is_ok())
                .unwrap_or(table);
        }
        table
    }

    /// Under the tables of the benchmark, tight ones, and generous ones with
    /// numbers changed for as long as they are accepted, with and without product
    /// widths: every form of a stage comes up.
    #[test]
    fn the_same_coefficients() {
        let mut chance = Chance::new(2);
        let mut differ = 0;
        for round in 0..400 {
            let shape = shape(&mut chance);
            let mut table = match round % 4 {
                0 => tight_table(),
                1 => wide_table(),
                2 => {
                    let table = tables::tight(&mut chance, shape.depth, shape.levels);
                    WidthTable::from_bytes(&table.bytes().unwrap()).unwrap()
                }
                _ => {
                    let table = tables::generous(shape.depth, shape.levels);
                    WidthTable::from_bytes(&table.bytes().unwrap()).unwrap()
                }
            };
            if round % 4 == 3 {
                let places: Vec<Place> = table.places().collect();
                for _ in 0..20 {
                    let width = Width::new(12, chance.within(0, 20) as u8);
                    let next = match chance.one_in(4) {
                        true => table.with_constant(
                            *chance.of(&suzdrepa::Node::ALL),
                            chance.within(1, 24) as u8,
                        ),
                        false => table.with_width(*chance.of(&places), width),
                    };
                    table = next
                        .ok()
                        .filter(|next| next.check().is_ok())
                        .unwrap_or(table);
                }
            }
            let plain_table = table.clone();
            if round % 8 > 3 {
                table = cut_at_random(&mut chance, &table);
            }
            // No pass of a single sample, whatever the number of levels.
            let (width, height) = (shape.width + 16, shape.height + 16);
            let count = width * height;
            let pixels = chance.picture(table.depth(), count);
            let table = table.as_bytes();
            let due = suzdrepa::forward97_to_vec(table, &pixels, width, height).unwrap();
            if table.len() > plain_table.as_bytes().len() {
                let plain_table = plain_table.as_bytes();
                let uncut = suzdrepa::forward97_to_vec(plain_table, &pixels, width, height);
                differ += usize::from(uncut.unwrap() != due);
            }
            let (mut plane, mut work) = (chance.plane(count), chance.plane(count));
            assert!(plain::forward97(
                table,
                &pixels,
                (width, height),
                &mut plane,
                &mut work
            ));
            assert_eq!((plane, work), (due, vec![0; count]));
        }
        // Most of the 200 tables with product widths cut something.
        assert!(differ > 150, "{differ}");
    }

    /// Under tables of every viewable depth and number of levels; a
    /// coefficient outside its width is found, and nothing is touched.
    #[test]
    fn the_same_views() {
        let mut chance = Chance::new(3);
        let mut refused = 0;
        for round in 0..400 {
            let levels = 1 + (round % 5) as u8;
            let depth = chance.within(1, tables::deepest_viewed(levels).into()) as u8;
            let shape = Shape::small_full(&mut chance, depth, levels, 90);
            let table = match round % 3 {
                0 => tables::narrow(depth, levels),
                1 => tables::tight_viewable(&mut chance, depth, levels),
                _ => tables::loose_viewable(&mut chance, depth, levels),
            };
            let (width, height) = (shape.width, shape.height);
            let count = shape.count();
            let mut stored = chance.stored(&table, width, height);
            let bytes = table.bytes().unwrap();
            let due = suzdrepa::view97_to_vec(&bytes, &stored, width, height).unwrap();
            let size = (width, height);
            for (name, view) in VIEWS {
                let mut pixels = chance.sixteen_bits(count);
                let mut work = chance.sixty_four_bits(count);
                assert!(view(&bytes, &stored, size, &mut pixels, &mut work));
                assert_eq!((&pixels, &work), (&due, &vec![0; count]), "{name}");
            }
            stored[chance.below(count)] = chance.bits() as i32 >> chance.below(32);
            let due = suzdrepa::view97_to_vec(&bytes, &stored, width, height);
            refused += usize::from(due.is_err());
            let (pixels, work) = (chance.sixteen_bits(count), chance.sixty_four_bits(count));
            for (name, view) in VIEWS {
                let (mut shown, mut area) = (pixels.clone(), work.clone());
                let done = view(&bytes, &stored, size, &mut shown, &mut area);
                assert_eq!(done, due.is_ok(), "{name}");
                match &due {
                    Ok(due) => assert_eq!((&shown, area), (due, vec![0; count]), "{name}"),
                    Err(_) => assert_eq!((&shown, &area), (&pixels, &work), "{name}"),
                }
            }
        }
        assert!((100..400).contains(&refused), "{refused}");
    }
}
