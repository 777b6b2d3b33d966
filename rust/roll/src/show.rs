//! A width table in words and numbers.

use crate::counted;
use suzdrepa::{Bound, Node, Place, Refusal, Width, WidthTable};

/// What a node holds beyond range and error; below zero where it does not fit.
fn head_room(width: Width, bound: Bound) -> f64 {
    let max = 2f64.powi(i32::from(width.integer_bits) - 1) - step(width);
    max - bound.range_as_f64() - bound.error_as_f64()
}

fn step(width: Width) -> f64 {
    2f64.powi(-i32::from(width.fraction_bits))
}

/// The node's line after its width: range, error, head-room, the error of a
/// kept one in steps, and a remark on the first refused one.
fn bounds(table: &WidthTable, place: Place, width: Width, verdict: Result<(), Refusal>) -> String {
    let bound = match table.bound(place) {
        Ok(bound) => bound,
        // A node before it is refused.
        Err(_) => return format!("{:>10}  {:>10}  {:>10}", "-", "-", "-"),
    };
    let steps = match table.is_kept(place) {
        true => format!("{:.3}", bound.error_as_f64() / step(width)),
        false => String::new(),
    };
    let remark = match verdict {
        Err(refusal) if refusal.place() == Some(place) => refusal.meaning(),
        _ => "",
    };
    format!(
        "{:>10.5}  {:>10.3e}  {:>10.5}  {steps:<7}  {remark}",
        bound.range_as_f64(),
        bound.error_as_f64(),
        head_room(width, bound),
    )
}

/// The bits of a step's product: what it is cut to, and what it has uncut. Empty
/// where the table has no product widths.
fn product(table: &WidthTable, place: Place) -> String {
    if !table.has_products() {
        return String::new();
    }
    let number = |bits: Option<u8>| bits.map_or(String::new(), |bits| bits.to_string());
    let bits = table.product_bits(place);
    let full = table.full_product_bits(place);
    format!("  {:>3} {:>3}", number(bits), number(full))
}

/// Depth and levels in words.
pub fn bits_and_levels(depth: u8, levels: u8) -> String {
    format!("{}, {}", counted(depth, "bit"), counted(levels, "level"))
}

/// The table as text: widths, bounds and head-room of every node, and the bits
/// of its product where the table has product widths. The nodes after the first
/// refused one have no bounds.
pub fn text(table: &WidthTable) -> String {
    let mut text = format!("depth {}\n", bits_and_levels(table.depth(), table.levels()));
    text += "bits of the constants:";
    for node in Node::ALL {
        text += &format!(" {node} {}", table.constant_bits(node));
    }
    text += "\n\n";
    let products = match table.has_products() {
        true => {
            text += "fp: fractional bits that a step's product is cut to before it is added,\n";
            text += "    where it has more; of: those that it has uncut\n\n";
            "   fp  of"
        }
        false => "",
    };
    text += &format!(
        "level  pass          node   IB   f{products}       range       error   head-room  error of kept ones in steps\n"
    );
    let verdict = table.check();
    for place in table.places() {
        let Some(width) = table.width(place) else {
            continue;
        };
        let line = format!(
            "{:>5}  {:<12}  {:<4}  {:>3} {:>3}{}  {}",
            place.level,
            place.pass,
            place.node,
            width.integer_bits,
            width.fraction_bits,
            product(table, place),
            bounds(table, place, width, verdict),
        );
        text += line.trim_end();
        text += "\n";
    }
    text
}

#[cfg(test)]
mod tests {
    use super::*;

    const WIDE: Width = Width::new(12, 20);

    fn table() -> WidthTable {
        WidthTable::kept_and_others(8, 2, 24, Width::new(12, 2), WIDE).unwrap()
    }

    #[test]
    fn every_node_has_its_line() {
        let shown = text(&table());
        assert_eq!(shown.lines().count(), 4 + 36);
        assert!(shown.starts_with("depth 8 bits, 2 levels\n"));
        // Seven kept nodes have their error in steps as a seventh number.
        let numbers = |line: &str| {
            line.split_whitespace()
                .filter(|w| w.parse::<f64>().is_ok())
                .count()
        };
        assert_eq!(shown.lines().skip(4).filter(|l| numbers(l) == 7).count(), 7);
        let first = shown.lines().nth(4).unwrap();
        assert_eq!(
            first.split_whitespace().collect::<Vec<_>>(),
            [
                "1",
                "rows",
                "P1",
                "12",
                "20",
                "2.08614",
                "9.835e-7",
                "2045.91386"
            ]
        );
    }

    /// Every step has two numbers more, and stands below its heading.
    #[test]
    fn product_widths_are_shown_where_there_are_some() {
        let plain = text(&table());
        assert!(!plain.contains("fp"), "{plain}");
        let cut = table().with_products(|place| 20 + place.node.number());
        let shown = text(&cut.unwrap());
        assert_eq!(shown.lines().count(), 4 + 3 + 36);
        let lines: Vec<&str> = shown.lines().skip(6).collect();
        let end = lines[0].find("fp  of").unwrap() + "fp  of".len();
        for (line, place) in lines[1..].iter().zip(table().places()) {
            let numbers = &line[end - 9..end];
            let due = match (place.is_step(), place.node) {
                (true, Node::P1) if place.numbers() == [1, 1, 1] => "   21  32".into(),
                (true, node) => format!("   {}  44", 20 + node.number()),
                (false, _) => " ".repeat(9),
            };
            // What is multiplied has 20 bits, but the pixels' 8.
            assert_eq!(numbers, due, "{line}");
        }
    }

    #[test]
    fn the_refused_node_has_a_remark_and_those_after_it_no_bounds() {
        let places: Vec<Place> = table().places().collect();
        for (at, width, remark) in [
            (0, Width::new(2, 20), "a node does not fit"),
            (35, WIDE, "a kept node's error is not below two steps"),
        ] {
            let shown = text(&table().with_width(places[at], width).unwrap());
            let lines: Vec<&str> = shown.lines().skip(4).collect();
            assert!(lines[at].ends_with(remark), "{shown}");
            assert_eq!(shown.matches(remark).count(), 1);
            let blank = |line: &&str| line.ends_with("-           -           -");
            assert!(!lines[..=at].iter().any(blank) && lines[at + 1..].iter().all(blank));
        }
    }
}
