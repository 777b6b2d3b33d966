//! `farthest SEED [TABLES]`: the largest distance of the engine's 9/7
//! coefficients from the exact ones, in steps, over so many tight tables drawn
//! from the seed (100 where no number is named) and 20 pictures under each.
//!
//! Exit status 0, or 2 for a wrong command line; it panics where a distance
//! is two steps or more.

use compare::farthest::farthest;
use std::process::ExitCode;

/// Pictures under each table.
const PICTURES: usize = 20;

fn numbers(arguments: &[String]) -> Option<(u64, usize)> {
    match arguments {
        [seed] => Some((seed.parse().ok()?, 100)),
        [seed, tables] => Some((seed.parse().ok()?, tables.parse().ok()?)),
        _ => None,
    }
}

fn main() -> ExitCode {
    let arguments: Vec<String> = std::env::args().skip(1).collect();
    let found = numbers(&arguments)
        .and_then(|(seed, tables)| Some((seed, tables, farthest(seed, tables, PICTURES)?)));
    match found {
        Some((seed, tables, found)) => {
            println!("seed {seed}, {tables} tables, {PICTURES} pictures each: largest distance from the exact transform {found}");
            ExitCode::SUCCESS
        }
        None => {
            eprintln!("usage: farthest SEED [TABLES], both numbers, TABLES from 1");
            ExitCode::from(2)
        }
    }
}
