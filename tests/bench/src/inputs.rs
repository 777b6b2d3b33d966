//! Pictures and tables that are timed.

use suzdrepa::{Place, Width, WidthTable};

pub const DEPTH: u8 = 8;
pub const LEVELS: u8 = 5;

/// Levels of what is viewed: more cannot be at this depth.
pub const VIEW_LEVELS: u8 = 3;

/// The least side with which no pass of so many levels has a single sample: the
/// plain program has no case for one.
pub const MIN_SIDE: usize = (1 << (LEVELS - 1)) + 1;

/// All nodes (12, 20), kept ones (12, 2), constants with 24 bits.
pub fn wide_table() -> WidthTable {
    wide_table_of(LEVELS)
}

/// The same with other levels.
pub fn wide_table_of(levels: u8) -> WidthTable {
    WidthTable::kept_and_others(DEPTH, levels, 24, Width::new(12, 2), Width::new(12, 20))
        .expect("the numbers are within their limits")
}

/// The table with the width that `change` gives a node step by step, for as
/// long as it is accepted.
fn pushed(
    mut table: WidthTable,
    place: Place,
    change: impl Fn(Width) -> Option<Width>,
) -> WidthTable {
    loop {
        let next = table
            .width(place)
            .and_then(&change)
            .and_then(|width| table.with_width(place, width).ok())
            .filter(|next| next.check().is_ok());
        match next {
            Some(next) => table = next,
            None => return table,
        }
    }
}

/// Constants with 16 bits, inner nodes 16 to 12 fractional bits, kept ones as
/// many as are accepted up to 12, integer bits as few as are accepted.
pub fn tight_table() -> WidthTable {
    tight_table_of(LEVELS)
}

/// The same with other levels.
pub fn tight_table_of(levels: u8) -> WidthTable {
    let mut table = WidthTable::uniform(DEPTH, levels, 16, Width::new(12, 0)).expect("in limits");
    let places: Vec<Place> = table.places().collect();
    for &place in &places {
        if !table.is_kept(place) {
            let width = Width::new(12, 17 - place.level);
            table = table.with_width(place, width).expect("in limits");
        }
    }
    table.check().expect("it is accepted");
    for &place in &places {
        if table.is_kept(place) {
            table = pushed(table, place, |width| {
                let finer = Width::new(width.integer_bits, width.fraction_bits + 1);
                Some(finer).filter(|finer| finer.fraction_bits <= 12)
            });
        }
    }
    for &place in &places {
        table = pushed(table, place, |width| {
            Some(Width::new(width.integer_bits - 1, width.fraction_bits))
        });
    }
    table
}

/// The table with every product cut to so many fractional bits.
pub fn with_products_of(table: &WidthTable, bits: u8) -> WidthTable {
    table.with_products(|_| bits).expect("in limits")
}

/// The table with every product cut to the same fractional bits, as few as are
/// accepted.
pub fn evenly_cut(table: &WidthTable) -> WidthTable {
    (0..=WidthTable::MAX_PRODUCT_BITS)
        .map(|bits| with_products_of(table, bits))
        .find(|table| table.check().is_ok())
        .expect("the last one cuts nothing")
}

/// The table with its products cut evenly, then each by itself, the last one
/// first, as far as is accepted.
pub fn far_cut(table: &WidthTable) -> WidthTable {
    let mut table = evenly_cut(table);
    let steps: Vec<Place> = Place::steps(table.levels()).collect();
    for &place in steps.iter().rev() {
        table = (0..table.product_bits(place).expect("it has them"))
            .map(|bits| table.with_product(place, bits).expect("in limits"))
            .find(|next| next.check().is_ok())
            .unwrap_or(table);
    }
    table
}

/// Steps as fine as a pixel's, kept nodes with as few integer bits as are
/// accepted, all else as wide as it gets: a table whose planes can be viewed.
pub fn view_table() -> WidthTable {
    let (kept, others) = (Width::new(12, DEPTH), Width::new(12, 20));
    let mut table = WidthTable::kept_and_others(DEPTH, VIEW_LEVELS, 24, kept, others)
        .expect("the numbers are within their limits");
    let places: Vec<Place> = table.places().collect();
    for place in places {
        if table.is_kept(place) {
            table = pushed(table, place, |width| {
                Some(Width::new(width.integer_bits - 1, width.fraction_bits))
            });
        }
    }
    table.viewable().expect("its planes can be viewed");
    table
}

/// Paper with a dense row of holes and some noise.
pub fn picture(side: usize) -> Vec<u16> {
    strip(side, side)
}

/// The same with sides of their own.
pub fn strip(width: usize, height: usize) -> Vec<u16> {
    let mut state = 0x2545_F491_4F6C_DD1Du64;
    let mut pixels = Vec::with_capacity(width * height);
    for y in 0..height {
        for x in 0..width {
            state ^= state << 13;
            state ^= state >> 7;
            state ^= state << 17;
            let (dx, dy) = ((x % 12) as i32 - 6, (y % 20) as i32 - 10);
            let base = if dx * dx + dy * dy < 16 { 20 } else { 210 };
            pixels.push(base + (state % 23) as u16);
        }
    }
    pixels
}
