//! The 9/7 under tables with product widths timed against the same tables without
//! them, in the same library.
//!
//! `products [SIDE...]` prints a Markdown table for pictures of 256 by 256 and
//! 2,048 by 2,048 where no side is named: the median time of either, and the time
//! with product widths over that without, median and quartiles over many pairs
//! of calls on the same memory. Which one is called first turns from pair to
//! pair. Every call must be done. The last column counts the coefficients that
//! the cuts change; where they must change some, they do on pictures of 256 by
//! 256 or more. Exit status 1 where a median ratio is above 1.5.

use bench::inputs::{
    evenly_cut, far_cut, picture, tight_table, wide_table, with_products_of, DEPTH, LEVELS,
    MIN_SIDE,
};
use bench::turns;
use std::process::ExitCode;
use std::time::Instant;
use suzdrepa::{Place, WidthTable, MAX_SIDE};

/// The most that a table with product widths may take of the time without.
const MOST: f64 = 1.5;

/// A table with product widths, and whether they change coefficients.
struct Timed {
    name: String,
    table: WidthTable,
    changes: bool,
}

impl Timed {
    fn new(name: &str, table: WidthTable, changes: bool) -> Timed {
        table.check().expect("it is accepted");
        let bits = || Place::steps(table.levels()).filter_map(|place| table.product_bits(place));
        let range = match (bits().min(), bits().max()) {
            (Some(least), Some(most)) if least < most => format!("{least} to {most}"),
            (least, _) => format!("{}", least.expect("it has products")),
        };
        Timed {
            name: format!("{name}: {range} bits"),
            table,
            changes,
        }
    }
}

fn tables() -> [Timed; 5] {
    let (wide, tight) = (wide_table(), tight_table());
    [
        Timed::new(
            "wide table, nothing cut",
            with_products_of(&wide, 44),
            false,
        ),
        Timed::new("wide table", with_products_of(&wide, 15), true),
        Timed::new("wide table, each cut far", far_cut(&wide), true),
        // More bits than its nodes have: the cut of the sum leaves the same.
        Timed::new("tight table", evenly_cut(&tight), false),
        Timed::new("tight table, each cut far", far_cut(&tight), true),
    ]
}

/// Times a table and the same without its product widths; gives the median
/// ratio.
fn row(timed: &Timed, side: usize, pixels: &[u16]) -> f64 {
    let count = side * side;
    let (mut plane, mut work) = (vec![0; count], vec![0; count]);
    let tables = [timed.table.without_products(), timed.table.clone()];
    let mut left = [Vec::new(), Vec::new()];
    let pairs = turns::time(turns::pairs_for(side), |pair, which| {
        plane.fill(-1);
        work.fill(1);
        let table = tables[which].as_bytes();
        let start = Instant::now();
        let done = suzdrepa::forward97(table, pixels, side, side, &mut plane, &mut work);
        let time = start.elapsed().as_secs_f64();
        assert_eq!(done, Ok(()));
        if pair == 0 {
            left[which] = plane.clone();
        }
        time
    });
    let [uncut, cut] = &left;
    let changed = uncut.iter().zip(cut).filter(|(a, b)| a != b).count();
    assert!(timed.changes || changed == 0, "{}", timed.name);
    assert!(
        !timed.changes || changed > 0 || side < 256,
        "{}",
        timed.name
    );
    let [without, with] = pairs.medians().map(|seconds| 1e3 * seconds);
    println!(
        "| {} | {side} x {side} | {} | {without:.2} | {with:.2} | {} | {changed} |",
        timed.name,
        pairs.count(),
        pairs.in_words()
    );
    pairs.ratio()
}

fn main() -> ExitCode {
    let mut sides = Vec::new();
    for argument in std::env::args().skip(1) {
        match argument.parse() {
            Ok(side) if (MIN_SIDE..=MAX_SIDE).contains(&side) => sides.push(side),
            _ => {
                eprintln!("usage: products [SIDE...]   sides from {MIN_SIDE} to {MAX_SIDE}");
                return ExitCode::from(2);
            }
        }
    }
    if sides.is_empty() {
        sides = vec![256, 2048];
    }
    let tables = tables();
    println!("9/7 forward, depth {DEPTH}, {LEVELS} levels, medians in milliseconds.");
    println!();
    println!(
        "| product widths | picture | pairs | without | with | with / without (quartiles) | changed |"
    );
    println!("|---|---|---:|---:|---:|---|---:|");
    let mut most: f64 = 0.0;
    for side in sides {
        let pixels = picture(side);
        for timed in &tables {
            most = most.max(row(timed, side, &pixels));
        }
    }
    if most > MOST {
        eprintln!("a median ratio is {most:.2}, above {MOST}");
        return ExitCode::from(1);
    }
    ExitCode::SUCCESS
}
