//! The rolling scan timed against the transform of the whole strip.
//!
//! `scan [WIDTH...]` prints a Markdown table for strips of 2,048 lines, 2,048
//! wide where no width is named: the time of a line by the rolling scan, by
//! `suz_forward97` with one level, and by `suz_table_check` alone, which is a
//! part of every line's time; medians over runs in turn. Both must give the
//! same coefficients.

use bench::inputs::{strip, tight_table_of, wide_table_of, DEPTH};
use std::hint::black_box;
use std::process::ExitCode;
use std::time::Instant;
use suzdrepa::{Scan, WidthTable, MAX_SIDE};

const LINES: usize = 2048;
const RUNS: usize = 21;

/// What a call took for each line, in microseconds.
fn time(call: impl FnOnce()) -> f64 {
    let start = Instant::now();
    call();
    start.elapsed().as_secs_f64() * 1e6 / LINES as f64
}

fn median(mut times: Vec<f64>) -> f64 {
    times.sort_by(f64::total_cmp);
    times[times.len() / 2]
}

/// The plane that a scan gives, line by line.
fn scanned(table: &[u8], pixels: &[u16], width: usize) -> Vec<i32> {
    let mut plane = vec![0; pixels.len()];
    let lines = Scan::over(table, pixels.chunks(width), |line| {
        let row = line.row(LINES as u64) as usize;
        plane[row * width..][..width].copy_from_slice(line.values);
    });
    assert_eq!(lines, Ok(LINES as u64));
    plane
}

fn row(name: &str, table: &WidthTable, width: usize) {
    let table = table.as_bytes();
    let pixels = strip(width, LINES);
    let (mut plane, mut work) = (vec![0; pixels.len()], vec![0; pixels.len()]);
    let mut times = [Vec::new(), Vec::new(), Vec::new()];
    // The first round warms the caches and is not counted.
    for round in 0..=RUNS {
        let took = [
            time(|| {
                let lines = Scan::over(table, pixels.chunks(width), |line| {
                    black_box(line);
                });
                assert_eq!(lines, Ok(LINES as u64));
            }),
            time(|| {
                let done = suzdrepa::forward97(table, &pixels, width, LINES, &mut plane, &mut work);
                assert_eq!(done, Ok(()));
            }),
            time(|| {
                for _ in 0..LINES {
                    assert_eq!(suzdrepa::check_table(black_box(table)), Ok(()));
                }
            }),
        ];
        if round == 0 {
            assert!(
                scanned(table, &pixels, width) == plane,
                "the coefficients differ"
            );
        } else {
            for (times, took) in times.iter_mut().zip(took) {
                times.push(took);
            }
        }
    }
    let [scan, whole, check] = times.map(median);
    println!(
        "| {name} | {width} x {LINES} | {scan:.2} | {:.0} | {whole:.2} | {:.2} | {check:.2} |",
        1e6 / scan,
        scan / whole
    );
}

fn main() -> ExitCode {
    let mut widths = Vec::new();
    for argument in std::env::args().skip(1) {
        match argument.parse() {
            Ok(width) if (1..=MAX_SIDE).contains(&width) => widths.push(width),
            _ => {
                eprintln!("usage: scan [WIDTH...]   widths from 1 to {MAX_SIDE}");
                return ExitCode::from(2);
            }
        }
    }
    if widths.is_empty() {
        widths = vec![2048];
    }
    println!("Depth {DEPTH}, one level, medians in microseconds a line.");
    println!();
    println!("| table | strip | scan | lines a second | whole strip | scan / whole | check |");
    println!("|---|---|---:|---:|---:|---:|---:|");
    for width in widths {
        row("tight", &tight_table_of(1), width);
        row("wide", &wide_table_of(1), width);
    }
    ExitCode::SUCCESS
}
