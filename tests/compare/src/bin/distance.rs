//! `distance TABLE IN.pgm [SIDE]`: how far the engine's 9/7 coefficients stand
//! from the exact ones, in steps, on a part from the middle of the picture.
//!
//! The part is at most SIDE wide and high (64 where no SIDE is named): exact
//! fractions are slow. Exit status 0 where every coefficient is less than two
//! of its own steps off, 1 where one is not or the engine refuses, 2 for a
//! wrong command line or file.

use compare::farthest::band;
use reference::exact97;
use reference::places::kept_node;
use reference::WidthTable;
use roll::pgm::Picture;
use std::process::ExitCode;
use suzdrepa::MAX_SIDE;

fn measure(arguments: &[String]) -> Result<bool, (u8, String)> {
    let (table_path, picture_path, side) = match arguments {
        [table, picture] => (table, picture, 64),
        [table, picture, side] => match side.parse() {
            Ok(side) if (1..=MAX_SIDE).contains(&side) => (table, picture, side),
            _ => return Err((2, format!("SIDE is 1 to {MAX_SIDE}, not `{side}`"))),
        },
        _ => return Err((2, "usage: distance TABLE IN.pgm [SIDE]".into())),
    };
    let read = |path: &str| std::fs::read(path).map_err(|error| (2, format!("{path}: {error}")));
    let bytes = read(table_path)?;
    suzdrepa::check_table(&bytes).map_err(|r| (1, format!("{table_path}: {r}")))?;
    let table = WidthTable::read(&bytes).expect("the engine accepted it");
    let picture = Picture::read(&read(picture_path)?)
        .map_err(|text| (2, format!("{picture_path}: {text}")))?
        .middle(side);
    let (width, height) = (picture.width, picture.height);
    let plane = suzdrepa::forward97_to_vec(&bytes, &picture.pixels, width, height)
        .map_err(|r| (1, format!("{picture_path}: {r}")))?;
    let plane: Vec<i128> = plane.into_iter().map(i128::from).collect();
    let exact = exact97::transform(table.depth, table.levels, &picture.pixels, width, height);
    let distance = exact.distance(&table, &plane);
    let node = kept_node(width, height, table.levels, distance.x, distance.y);
    println!(
        "{table_path}: largest distance from the exact transform {:.4} steps \
         ({width} x {height} pixels, at {} of level {}, {} fractional bits)",
        distance.steps,
        band(node),
        node.level,
        table.width(node).fraction_bits
    );
    Ok(distance.below_two_steps)
}

fn main() -> ExitCode {
    let arguments: Vec<String> = std::env::args().skip(1).collect();
    match measure(&arguments) {
        Ok(true) => ExitCode::SUCCESS,
        Ok(false) => {
            eprintln!("distance: two steps or more");
            ExitCode::from(1)
        }
        Err((status, text)) => {
            eprintln!("distance: {text}");
            ExitCode::from(status)
        }
    }
}
