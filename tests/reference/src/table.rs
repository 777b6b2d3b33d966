//! Width tables (document 01: books): in memory, as bytes, changed, and the
//! value of a named tag.

use crate::refusal::{Place, Refusal};
use std::ops::Range;

pub const MAX_LEVELS: u8 = 5;
pub const MAX_DEPTH: u8 = 12;
pub const MAX_INTEGER_BITS: u8 = 12;
pub const MAX_FRACTION_BITS: u8 = 20;
pub const MAX_CONSTANT_BITS: u8 = 24;
pub const MAX_PRODUCT_BITS: u8 = 44;

/// Numbers of all nodes of a table with the most levels.
pub const WIDTHS: usize = 36 * MAX_LEVELS as usize;

/// Numbers of all products of a table with the most levels.
pub const PRODUCTS: usize = 12 * MAX_LEVELS as usize;

/// The bits to which one pass cuts the products of P1, U1, P2 and U2 (document
/// 02, job 7); none where the table has no tag 5 and cuts no product.
pub type Products = Option<[u8; 4]>;

/// Integer and fractional bits of a node.
#[derive(Clone, Copy, Debug, Default, PartialEq, Eq)]
pub struct Width {
    pub integer_bits: u8,
    pub fraction_bits: u8,
}

impl Width {
    pub fn new(integer_bits: u8, fraction_bits: u8) -> Width {
        Width {
            integer_bits,
            fraction_bits,
        }
    }

    pub fn within_limits(self) -> bool {
        (1..=MAX_INTEGER_BITS).contains(&self.integer_bits)
            && self.fraction_bits <= MAX_FRACTION_BITS
    }

    /// The least and the largest integer that the node can hold.
    pub fn ends(self) -> (i128, i128) {
        let half = 1i128 << (self.integer_bits + self.fraction_bits - 1);
        (-half, half - 1)
    }

    /// Whether the integer `v` is one that the node can hold.
    pub fn holds(self, v: i128) -> bool {
        let (least, most) = self.ends();
        least <= v && v <= most
    }
}

/// A width table in memory. Its numbers may stand outside their limits; then
/// [`WidthTable::sound`] says so.
#[derive(Clone, Debug, PartialEq, Eq)]
pub struct WidthTable {
    pub depth: u8,
    pub levels: u8,
    /// F of P1, U1, P2, U2, G1, G2.
    pub constant_bits: [u8; 6],
    /// By level, pass and node; zeros at unused levels.
    pub widths: [[[Width; 6]; 3]; MAX_LEVELS as usize],
    /// Whether it has tag 5 (document 02, job 7).
    pub has_products: bool,
    /// By level, pass and product; zeros at unused levels, and everywhere in a
    /// table without tag 5.
    pub products: [[[u8; 4]; 3]; MAX_LEVELS as usize],
}

impl WidthTable {
    /// The same width at every node, without tag 5.
    pub fn uniform(depth: u8, levels: u8, constant_bits: u8, width: Width) -> WidthTable {
        let mut table = WidthTable {
            depth,
            levels,
            constant_bits: [constant_bits; 6],
            widths: [[[Width::default(); 6]; 3]; MAX_LEVELS as usize],
            has_products: false,
            products: [[[0; 4]; 3]; MAX_LEVELS as usize],
        };
        for level in &mut table.widths[..levels as usize] {
            *level = [[width; 6]; 3];
        }
        table
    }

    /// The same table with tag 5, and these bits for every product.
    pub fn with_products(mut self, bits: u8) -> WidthTable {
        self.has_products = true;
        for level in &mut self.products[..self.levels as usize] {
            *level = [[bits; 4]; 3];
        }
        self
    }

    /// The same table without tag 5.
    pub fn without_products(mut self) -> WidthTable {
        self.has_products = false;
        self.products = [[[0; 4]; 3]; MAX_LEVELS as usize];
        self
    }

    /// One width at the kept nodes, another at all others, without tag 5.
    pub fn kept_and_others(
        depth: u8,
        levels: u8,
        constant_bits: u8,
        kept: Width,
        others: Width,
    ) -> WidthTable {
        let mut table = WidthTable::uniform(depth, levels, constant_bits, others);
        for place in table.places() {
            if table.is_kept(place) {
                *table.width_mut(place) = kept;
            }
        }
        table
    }

    /// Every node in table order.
    pub fn places(&self) -> Vec<Place> {
        let mut places = Vec::new();
        for level in 1..=self.levels {
            for pass in 1..=3 {
                for node in 1..=6 {
                    places.push(Place { level, pass, node });
                }
            }
        }
        places
    }

    /// G1 and G2 of the columns, but G1 of the columns of row-low at the last
    /// level only.
    pub fn is_kept(&self, place: Place) -> bool {
        let column_gain = place.pass >= 2 && place.node >= 5;
        let low_low = place.pass == 2 && place.node == 5;
        column_gain && (!low_low || place.level == self.levels)
    }

    /// Every kept node in table order.
    pub fn kept_places(&self) -> Vec<Place> {
        let kept = |&place: &Place| self.is_kept(place);
        self.places().into_iter().filter(kept).collect()
    }

    pub fn width(&self, place: Place) -> Width {
        self.widths[place.level as usize - 1][place.pass as usize - 1][place.node as usize - 1]
    }

    pub fn width_mut(&mut self, place: Place) -> &mut Width {
        &mut self.widths[place.level as usize - 1][place.pass as usize - 1][place.node as usize - 1]
    }

    /// Every product in table order; P1, U1, P2 and U2 have the numbers of
    /// their nodes.
    pub fn product_places(&self) -> Vec<Place> {
        let mut places = self.places();
        places.retain(|place| place.node <= 4);
        places
    }

    /// The bits of a product, 0 in a table without tag 5.
    pub fn product(&self, place: Place) -> u8 {
        self.products[place.level as usize - 1][place.pass as usize - 1][place.node as usize - 1]
    }

    pub fn product_mut(&mut self, place: Place) -> &mut u8 {
        &mut self.products[place.level as usize - 1][place.pass as usize - 1]
            [place.node as usize - 1]
    }

    /// What a pass cuts its products to.
    pub fn products_of(&self, level: u8, pass: u8) -> Products {
        let bits = self.products[level as usize - 1][pass as usize - 1];
        self.has_products.then_some(bits)
    }

    /// The node whose values a product multiplies; none where these are the
    /// pixels.
    pub fn multiplied_by(&self, place: Place) -> Option<Place> {
        let Place { level, pass, node } = place;
        let at = |level: u8, pass: u8, node: u8| Some(Place { level, pass, node });
        match (node, pass, level) {
            (1, 1, 1) => None,
            (1, 1, _) => at(level - 1, 2, 5),
            (1, 2, _) => at(level, 1, 5),
            (1, _, _) => at(level, 1, 6),
            _ => at(level, pass, node - 1),
        }
    }

    /// The fractional bits of a product that is not cut: those of its constant
    /// and those of the value that it multiplies.
    pub fn uncut_product_bits(&self, place: Place) -> u8 {
        let multiplied = match self.multiplied_by(place) {
            Some(node) => self.width(node).fraction_bits,
            None => self.depth,
        };
        self.constant_bits[place.node as usize - 1] + multiplied
    }

    /// Refused 4 where a number is outside its limits, an unused level is not
    /// zero, or a product of a table without tag 5 is not.
    pub fn sound(&self) -> Result<(), Refusal> {
        let numbers = depth_allowed(self.depth)
            && levels_allowed(self.levels)
            && self.constant_bits.iter().all(|&f| constant_allowed(f));
        if !numbers {
            return Err(Refusal::plain(4));
        }
        let (used, unused) = self.widths.split_at(self.levels as usize);
        let right = used.iter().flatten().flatten().all(|w| w.within_limits())
            && unused
                .iter()
                .flatten()
                .flatten()
                .all(|w| *w == Width::default());
        if right && self.products_sound() {
            Ok(())
        } else {
            Err(Refusal::plain(4))
        }
    }

    fn products_sound(&self) -> bool {
        let used = match self.has_products {
            true => self.levels as usize,
            false => 0,
        };
        let (used, others) = self.products.split_at(used);
        used.iter().flatten().flatten().all(|&b| product_allowed(b))
            && others.iter().flatten().flatten().all(|&b| b == 0)
    }

    /// Reads a table from bytes: field by field 1, 2, 3, 1, 4; then 5. After
    /// the fourth field a table ends, or a byte 5 begins the fifth.
    pub fn read(bytes: &[u8]) -> Result<WidthTable, Refusal> {
        let (mut table, bytes) = WidthTable::four_fields(bytes, field)?;
        if bytes.first() != Some(&5) {
            return nothing_after(table, bytes);
        }
        let (value, bytes) = field(bytes, 5, 12 * usize::from(table.levels))?;
        table.has_products = true;
        for (place, &bits) in table.product_places().into_iter().zip(value) {
            *table.product_mut(place) = bits;
        }
        table.sound()?;
        nothing_after(table, bytes)
    }

    /// The first four fields, and what follows them.
    fn four_fields(bytes: &[u8], field: HeadRule) -> Result<(WidthTable, &[u8]), Refusal> {
        let (value, bytes) = field(bytes, 1, 1)?;
        let depth = value[0];
        if !depth_allowed(depth) {
            return Err(Refusal::plain(4));
        }
        let (value, bytes) = field(bytes, 2, 1)?;
        let levels = value[0];
        if !levels_allowed(levels) {
            return Err(Refusal::plain(4));
        }
        let (value, bytes) = field(bytes, 3, 6)?;
        if !value.iter().all(|&f| constant_allowed(f)) {
            return Err(Refusal::plain(4));
        }
        let mut table = WidthTable::uniform(depth, levels, 1, Width::new(1, 0));
        table.constant_bits.copy_from_slice(value);
        let (value, bytes) = field(bytes, 4, 36 * usize::from(levels))?;
        for (place, pair) in table.places().into_iter().zip(value.chunks(2)) {
            *table.width_mut(place) = Width::new(pair[0], pair[1]);
        }
        table.sound()?;
        Ok((table, bytes))
    }

    /// The bytes of the table; refused 4.
    pub fn bytes(&self) -> Result<Vec<u8>, Refusal> {
        self.sound()?;
        let mut bytes = vec![1, 0, 1, self.depth, 2, 0, 1, self.levels, 3, 0, 6];
        bytes.extend(self.constant_bits);
        bytes.push(4);
        bytes.extend((36 * u16::from(self.levels)).to_be_bytes());
        for place in self.places() {
            let width = self.width(place);
            bytes.extend([width.integer_bits, width.fraction_bits]);
        }
        if self.has_products {
            bytes.push(5);
            bytes.extend((12 * u16::from(self.levels)).to_be_bytes());
            let places = self.product_places().into_iter();
            bytes.extend(places.map(|place| self.product(place)));
        }
        Ok(bytes)
    }

    /// Writes the table to the start of `out`; refused 4, 9.
    pub fn write(&self, out: &mut [u8]) -> Result<(), Refusal> {
        let bytes = self.bytes()?;
        match out.get_mut(..bytes.len()) {
            Some(start) => {
                start.copy_from_slice(&bytes);
                Ok(())
            }
            None => Err(Refusal::plain(9)),
        }
    }

    /// A new table with another width at one node; refused 4, with the old
    /// table, where the table lacks the node or the width is outside its
    /// limits.
    pub fn changed(
        self,
        level: u8,
        pass: u8,
        node: u8,
        width: Width,
    ) -> (WidthTable, Result<(), Refusal>) {
        let place = Place { level, pass, node };
        let there = (1..=self.levels).contains(&level)
            && (1..=3).contains(&pass)
            && (1..=6).contains(&node);
        if self.sound().is_err() || !there || !width.within_limits() {
            return (self, Err(Refusal::plain(4)));
        }
        let mut new = self;
        *new.width_mut(place) = width;
        (new, Ok(()))
    }

    /// A new table with other bits for the constant of a node; refused 4, with
    /// the old table, where there is no such node or the bits are outside
    /// their limits.
    pub fn constant_changed(self, node: u8, bits: u8) -> (WidthTable, Result<(), Refusal>) {
        let there = (1..=6).contains(&node);
        if self.sound().is_err() || !there || !constant_allowed(bits) {
            return (self, Err(Refusal::plain(4)));
        }
        let mut new = self;
        new.constant_bits[node as usize - 1] = bits;
        (new, Ok(()))
    }

    /// A new table with other bits for one product, 1 to 4; refused 4, with
    /// the old table, where the table has no tag 5 or lacks the product or the
    /// bits are outside their limits.
    pub fn product_changed(
        self,
        level: u8,
        pass: u8,
        product: u8,
        bits: u8,
    ) -> (WidthTable, Result<(), Refusal>) {
        let there = (1..=self.levels).contains(&level)
            && (1..=3).contains(&pass)
            && (1..=4).contains(&product);
        if self.sound().is_err() || !self.has_products || !there || !product_allowed(bits) {
            return (self, Err(Refusal::plain(4)));
        }
        let mut new = self;
        let node = product;
        *new.product_mut(Place { level, pass, node }) = bits;
        (new, Ok(()))
    }

    /// The table of these parts, whatever they are, without tag 5; widths in
    /// table order, integer bits then fractional bits, for every level that a
    /// table can have.
    pub fn of_parts(
        depth: u8,
        levels: u8,
        constant_bits: [u8; 6],
        widths: &[u8; WIDTHS],
    ) -> WidthTable {
        let mut table = WidthTable {
            depth,
            levels,
            constant_bits,
            widths: [[[Width::default(); 6]; 3]; MAX_LEVELS as usize],
            has_products: false,
            products: [[[0; 4]; 3]; MAX_LEVELS as usize],
        };
        let nodes = table.widths.iter_mut().flatten().flatten();
        for (node, pair) in nodes.zip(widths.chunks(2)) {
            *node = Width::new(pair[0], pair[1]);
        }
        table
    }

    /// The same table with or without tag 5, and with these numbers for the
    /// products of every level that a table can have, whatever they are.
    pub fn and_products(mut self, has_products: bool, products: &[u8; PRODUCTS]) -> WidthTable {
        self.has_products = has_products;
        let places = self.products.iter_mut().flatten().flatten();
        for (place, &bits) in places.zip(products) {
            *place = bits;
        }
        self
    }

    /// The widths as [`WidthTable::of_parts`] takes them.
    pub fn parts(&self) -> [u8; WIDTHS] {
        let mut parts = [0; WIDTHS];
        let nodes = self.widths.iter().flatten().flatten();
        for (pair, node) in parts.chunks_mut(2).zip(nodes) {
            pair.copy_from_slice(&[node.integer_bits, node.fraction_bits]);
        }
        parts
    }

    /// The products as [`WidthTable::and_products`] takes them.
    pub fn product_parts(&self) -> [u8; PRODUCTS] {
        let mut parts = [0; PRODUCTS];
        let products = self.products.iter().flatten().flatten();
        for (part, &bits) in parts.iter_mut().zip(products) {
            *part = bits;
        }
        parts
    }
}

fn depth_allowed(depth: u8) -> bool {
    (1..=MAX_DEPTH).contains(&depth)
}

fn levels_allowed(levels: u8) -> bool {
    (1..=MAX_LEVELS).contains(&levels)
}

fn constant_allowed(bits: u8) -> bool {
    (1..=MAX_CONSTANT_BITS).contains(&bits)
}

fn product_allowed(bits: u8) -> bool {
    bits <= MAX_PRODUCT_BITS
}

/// The table, or 5 where bytes follow its last field.
fn nothing_after(table: WidthTable, bytes: &[u8]) -> Result<WidthTable, Refusal> {
    match bytes {
        [] => Ok(table),
        _ => Err(Refusal::plain(5)),
    }
}

/// Gives the value of the field at the start, of the tag that is due and its
/// length, and what follows the field; refused 1, 2, 3.
type HeadRule = for<'a> fn(&'a [u8], u8, usize) -> Result<(&'a [u8], &'a [u8]), Refusal>;

/// Tag, then length, are judged once the three head bytes are there, and
/// missing value bytes after that (document 02, job 3).
fn field(bytes: &[u8], due: u8, length: usize) -> Result<(&[u8], &[u8]), Refusal> {
    let Some((&[tag, high, low], rest)) = bytes.split_first_chunk() else {
        return Err(Refusal::plain(1));
    };
    if tag != due {
        return Err(Refusal::plain(2));
    }
    if usize::from(u16::from_be_bytes([high, low])) != length {
        return Err(Refusal::plain(3));
    }
    rest.split_at_checked(length).ok_or(Refusal::plain(1))
}

/// The order before job 3: a value that is cut short comes before tag and
/// length.
fn earlier_field(bytes: &[u8], due: u8, length: usize) -> Result<(&[u8], &[u8]), Refusal> {
    if bytes.len() < 3 {
        return Err(Refusal::plain(1));
    }
    let announced = usize::from(bytes[1]) * 256 + usize::from(bytes[2]);
    if bytes.len() - 3 < announced {
        return Err(Refusal::plain(1));
    }
    if bytes[0] != due {
        return Err(Refusal::plain(2));
    }
    if announced != length {
        return Err(Refusal::plain(3));
    }
    Ok(bytes[3..].split_at(announced))
}

/// What reading gave before document 02, job 3.
pub fn earlier_read(bytes: &[u8]) -> Result<WidthTable, Refusal> {
    let (table, bytes) = WidthTable::four_fields(bytes, earlier_field)?;
    nothing_after(table, bytes)
}

/// What reading gave before document 02, job 7, when no table had tag 5: any
/// byte after the fourth field is 5.
pub fn earlier_form(bytes: &[u8]) -> Result<WidthTable, Refusal> {
    let (table, bytes) = WidthTable::four_fields(bytes, field)?;
    nothing_after(table, bytes)
}

/// Where the value of a tag stands in the bytes: the name is judged, then the
/// whole form, then whether the table has tag 5 (document 02, job 7).
pub fn value_of_tag(bytes: &[u8], tag: u8) -> Result<Range<usize>, Refusal> {
    if !(1..=5).contains(&tag) {
        return Err(Refusal::plain(2));
    }
    let table = WidthTable::read(bytes)?;
    if tag == 5 && !table.has_products {
        return Err(Refusal::plain(2));
    }
    let mut start = 0;
    loop {
        let length = usize::from(bytes[start + 1]) * 256 + usize::from(bytes[start + 2]);
        if bytes[start] == tag {
            return Ok(start + 3..start + 3 + length);
        }
        start += 3 + length;
    }
}

#[cfg(test)]
mod tests {
    use super::*;

    fn sample(levels: u8) -> WidthTable {
        WidthTable::kept_and_others(8, levels, 24, Width::new(12, 2), Width::new(12, 20))
    }

    fn number<T: std::fmt::Debug>(result: Result<T, Refusal>) -> u8 {
        result.unwrap_err().number
    }

    /// With tag 5 and another number at every product.
    fn with_products(levels: u8) -> WidthTable {
        let mut table = sample(levels).with_products(0);
        for (place, bits) in table.product_places().into_iter().zip((0..=44).cycle()) {
            *table.product_mut(place) = bits;
        }
        table
    }

    #[test]
    fn length_and_round_trip() {
        for levels in 1..=5u8 {
            for (due, length) in [
                (sample(levels), 20 + 36 * levels as usize),
                (with_products(levels), 23 + 48 * levels as usize),
            ] {
                let bytes = due.bytes().unwrap();
                assert_eq!(bytes.len(), length);
                let table = WidthTable::read(&bytes).unwrap();
                assert_eq!(table, due);
                let mut out = vec![0xAA; bytes.len() + 5];
                table.write(&mut out).unwrap();
                assert_eq!(out[..bytes.len()], bytes[..]);
                assert!(out[bytes.len()..].iter().all(|&b| b == 0xAA));
                let mut short = vec![0xAA; bytes.len() - 1];
                assert_eq!(number(table.write(&mut short)), 9);
                assert!(short.iter().all(|&b| b == 0xAA));
            }
        }
    }

    /// The fifth field starts where a table without it ends, and has the
    /// products level by level, pass by pass.
    #[test]
    fn the_fifth_field() {
        let table = with_products(2);
        let bytes = table.bytes().unwrap();
        let value: Vec<u8> = (0..24).collect();
        let fifth = [&[5, 0, 24], &value[..]].concat();
        let fourth = sample(2).bytes().unwrap();
        assert_eq!(bytes, [fourth, fifth].concat());
        assert_eq!(table.products_of(1, 1), Some([0, 1, 2, 3]));
        assert_eq!(table.products_of(2, 3), Some([20, 21, 22, 23]));
        assert_eq!(table.products_of(3, 1), Some([0; 4]));
        assert_eq!(sample(2).products_of(1, 1), None);
        assert_eq!(table.without_products(), sample(2));
        // A table whose tag 5 holds zeros is not one without it.
        let zeros = sample(2).with_products(0);
        assert_ne!(zeros, sample(2));
        assert_eq!(zeros.bytes().unwrap().len(), 119);
        assert_eq!(zeros.products_of(1, 1), Some([0; 4]));
    }

    #[test]
    fn order_of_refusals_in_bytes() {
        let read = |bytes: &[u8]| number(WidthTable::read(bytes));
        assert_eq!(read(&[]), 1);
        assert_eq!(read(&[9, 9]), 1);
        // Tag, then length, are judged once the head is whole, and a value
        // that is cut short after that.
        assert_eq!(read(&[9, 0, 2, 1]), 2);
        assert_eq!(read(&[9, 0, 1]), 2);
        assert_eq!(read(&[9, 0, 1, 1]), 2);
        assert_eq!(read(&[9, 0, 2, 1, 1]), 2);
        assert_eq!(read(&[1, 0, 0]), 3);
        assert_eq!(read(&[1, 0, 2, 8]), 3);
        assert_eq!(read(&[1, 0, 2, 8, 8]), 3);
        assert_eq!(read(&[1, 0, 1]), 1);
        assert_eq!(read(&[1, 0, 1, 8, 2, 1]), 1);
        assert_eq!(read(&[1, 0, 1, 8, 3, 0, 6]), 2);
        assert_eq!(read(&[1, 0, 1, 8, 2, 1, 1]), 3);
        assert_eq!(read(&[1, 0, 1, 8, 2, 0, 1]), 1);
        // Depth 0 is 4 even if the rest is missing.
        assert_eq!(read(&[1, 0, 1, 0]), 4);
        assert_eq!(read(&[1, 0, 1, 13]), 4);
        assert_eq!(read(&[1, 0, 1, 8]), 1);
        assert_eq!(read(&[1, 0, 1, 8, 2, 0, 1, 6]), 4);
        assert_eq!(read(&[1, 0, 1, 8, 1, 0, 1, 1]), 2);
        assert_eq!(
            read(&[1, 0, 1, 8, 2, 0, 1, 1, 3, 0, 6, 1, 1, 25, 1, 1, 1]),
            4
        );
    }

    #[test]
    fn bytes_after_the_fourth_field() {
        let mut bytes = sample(2).bytes().unwrap();
        bytes.push(0);
        assert_eq!(number(WidthTable::read(&bytes)), 5);
        // Field 4 is judged before what follows it, with the levels of field 2.
        bytes[20] = 0;
        assert_eq!(number(WidthTable::read(&bytes)), 4);
        let mut bytes = sample(2).bytes().unwrap();
        bytes[7] = 1;
        assert_eq!(number(WidthTable::read(&bytes)), 3);
        bytes[7] = 3;
        assert_eq!(number(WidthTable::read(&bytes)), 3);
    }

    /// Any byte but 5 right after the fourth field is 5; a byte 5 begins the
    /// fifth, in job 3's order; anything after it is 5 again. Before, every
    /// byte there was 5.
    #[test]
    fn bytes_of_the_fifth_field() {
        let four = sample(2).bytes().unwrap();
        let read = |more: &[u8]| {
            let bytes = [&four[..], more].concat();
            assert_eq!(number(earlier_form(&bytes)), 5);
            WidthTable::read(&bytes).map_or_else(|refusal| refusal.number, |_| 0)
        };
        for byte in (0..=255).filter(|&byte| byte != 5) {
            assert_eq!(read(&[byte]), 5);
            assert_eq!(read(&[byte, 0, 24]), 5);
            assert_eq!(read(&[&[byte, 0, 24][..], &[0; 24]].concat()), 5);
        }
        assert_eq!(read(&[5]), 1);
        assert_eq!(read(&[5, 0]), 1);
        assert_eq!(read(&[5, 0, 24]), 1);
        assert_eq!(read(&[5, 0, 23]), 3);
        assert_eq!(read(&[5, 1, 24]), 3);
        assert_eq!(read(&[&[5, 0, 12][..], &[0; 12]].concat()), 3);
        assert_eq!(read(&[&[5, 0, 24][..], &[45; 23]].concat()), 1);
        assert_eq!(read(&[&[5, 0, 24][..], &[45; 24]].concat()), 4);
        assert_eq!(read(&[&[5, 0, 24][..], &[44; 24]].concat()), 0);
        assert_eq!(read(&[&[5, 0, 24][..], &[44; 24], &[5]].concat()), 5);
        assert_eq!(read(&[&[5, 0, 24][..], &[44; 24], &[0]].concat()), 5);
        assert_eq!(read(&[&[5, 0, 24][..], &[45; 24], &[0]].concat()), 4);
        // What comes before the fifth field is judged before it.
        let mut wrong = [&four[..], &[5]].concat();
        wrong[20] = 0;
        assert_eq!(number(WidthTable::read(&wrong)), 4);
        assert_eq!(number(earlier_form(&wrong)), 4);
        assert_eq!(earlier_form(&four), Ok(sample(2)));
        assert_eq!(earlier_read(&four), Ok(sample(2)));
        assert_eq!(number(earlier_read(&[&four[..], &[5]].concat())), 5);
    }

    /// Numbers of products in memory: zeros without tag 5 and at unused levels,
    /// 0 to 44 elsewhere.
    #[test]
    fn limits_of_products() {
        for levels in 1..=5usize {
            for (level, pass, product) in (0..5).flat_map(|level| [(level, 0, 3), (level, 2, 0)]) {
                for (bits, due) in [(0, true), (1, level < levels), (44, level < levels)] {
                    let mut table = sample(levels as u8).with_products(7);
                    table.products[level][pass][product] = bits;
                    assert_eq!(table.sound().is_ok(), due);
                    let mut without = sample(levels as u8);
                    without.products[level][pass][product] = bits;
                    assert_eq!(without.sound().is_ok(), bits == 0);
                    let mut above = table;
                    above.products[level][pass][product] = 45 + bits;
                    assert_eq!(number(above.bytes()), 4);
                    let (same, refused) = above.clone().changed(1, 1, 1, Width::new(5, 5));
                    assert_eq!((same, refused), (above, Err(Refusal::plain(4))));
                }
            }
        }
    }

    #[test]
    fn bits_of_products_that_are_not_cut() {
        let mut table = sample(2);
        let places = table.places();
        for (place, bits) in places.into_iter().zip((0..18).cycle()) {
            table.width_mut(place).fraction_bits = bits;
        }
        table.constant_bits = [10, 11, 12, 13, 1, 2];
        let bits = |place: &Place| table.uncut_product_bits(*place);
        let due = [
            [10 + 8, 11, 12 + 1, 13 + 2],
            [10 + 4, 11 + 6, 12 + 7, 13 + 8],
            [10 + 5, 11 + 12, 12 + 13, 13 + 14],
            [10 + 10, 11, 12 + 1, 13 + 2],
            [10 + 4, 11 + 6, 12 + 7, 13 + 8],
            [10 + 5, 11 + 12, 12 + 13, 13 + 14],
        ];
        let places = table.product_places();
        assert_eq!(places.iter().map(bits).collect::<Vec<_>>(), due.concat());
    }

    #[test]
    fn limits_of_nodes() {
        let place = Place {
            level: 2,
            pass: 3,
            node: 4,
        };
        for (integer_bits, fraction_bits, right) in [
            (0, 0, false),
            (1, 0, true),
            (12, 20, true),
            (13, 20, false),
            (12, 21, false),
        ] {
            let mut table = sample(2);
            *table.width_mut(place) = Width::new(integer_bits, fraction_bits);
            assert_eq!(table.sound().is_ok(), right);
        }
        let mut table = sample(2);
        table.widths[2][0][0].fraction_bits = 1;
        assert_eq!(number(table.bytes()), 4);
    }

    #[test]
    fn naming_a_tag() {
        let bytes = sample(1).bytes().unwrap();
        assert_eq!(value_of_tag(&bytes, 1).unwrap(), 3..4);
        assert_eq!(value_of_tag(&bytes, 2).unwrap(), 7..8);
        assert_eq!(value_of_tag(&bytes, 3).unwrap(), 11..17);
        assert_eq!(value_of_tag(&bytes, 4).unwrap(), 20..56);
        assert_eq!(number(value_of_tag(&bytes, 0)), 2);
        assert_eq!(number(value_of_tag(&bytes, 5)), 2);
        assert_eq!(number(value_of_tag(&bytes, 6)), 2);
        assert_eq!(number(value_of_tag(&[], 0)), 2);
        assert_eq!(number(value_of_tag(&[], 1)), 1);
        let mut long = bytes.clone();
        long.push(0);
        assert_eq!(number(value_of_tag(&long, 1)), 5);
        // That there is no tag 5 comes after the whole form.
        assert_eq!(number(value_of_tag(&[], 5)), 1);
        assert_eq!(number(value_of_tag(&long, 5)), 5);
        assert_eq!(number(value_of_tag(&long, 6)), 2);
        for levels in 1..=5u8 {
            let bytes = with_products(levels).bytes().unwrap();
            let start = 23 + 36 * usize::from(levels);
            assert_eq!(value_of_tag(&bytes, 5), Ok(start..bytes.len()));
            assert_eq!(value_of_tag(&bytes, 4), Ok(20..start - 3));
            assert_eq!(number(value_of_tag(&bytes, 6)), 2);
            assert_eq!(number(value_of_tag(&bytes[..start], 5)), 1);
        }
    }

    #[test]
    fn changing_a_width() {
        let (new, done) = sample(2).changed(2, 3, 6, Width::new(7, 9));
        assert_eq!(done, Ok(()));
        let old = sample(2);
        for place in old.places() {
            let here = (place.level, place.pass, place.node) == (2, 3, 6);
            let due = if here {
                Width::new(7, 9)
            } else {
                old.width(place)
            };
            assert_eq!(new.width(place), due);
        }
        for (level, pass, node, width) in [
            (0, 1, 1, Width::new(1, 0)),
            (3, 1, 1, Width::new(1, 0)),
            (3, 1, 1, Width::new(0, 0)),
            (1, 0, 1, Width::new(1, 0)),
            (1, 4, 1, Width::new(1, 0)),
            (1, 1, 0, Width::new(1, 0)),
            (1, 1, 7, Width::new(1, 0)),
            (1, 1, 1, Width::new(0, 0)),
            (1, 1, 1, Width::new(13, 0)),
            (1, 1, 1, Width::new(1, 21)),
        ] {
            let (same, refused) = sample(2).changed(level, pass, node, width);
            assert_eq!(refused, Err(Refusal::plain(4)));
            assert_eq!(same, sample(2));
        }
        // A malformed table is not mended by a change.
        let mut broken = sample(2);
        broken.widths[0][0][0] = Width::new(0, 0);
        let (same, refused) = broken.clone().changed(1, 1, 1, Width::new(5, 5));
        assert_eq!(refused, Err(Refusal::plain(4)));
        assert_eq!(same, broken);
    }

    #[test]
    fn changing_a_product() {
        let old = with_products(2);
        let (new, done) = old.clone().product_changed(2, 3, 4, 44);
        assert_eq!(done, Ok(()));
        assert_eq!((&new.widths, new.has_products), (&old.widths, true));
        for place in old.product_places() {
            let here = (place.level, place.pass, place.node) == (2, 3, 4);
            let due = if here { 44 } else { old.product(place) };
            assert_eq!(new.product(place), due);
        }
        for (level, pass, product, bits) in [
            (0, 1, 1, 5),
            (3, 1, 1, 5),
            (3, 1, 1, 0),
            (1, 0, 1, 5),
            (1, 4, 1, 5),
            (1, 1, 0, 5),
            (1, 1, 5, 5),
            (1, 1, 6, 5),
            (1, 1, 1, 45),
            (1, 1, 1, 255),
        ] {
            let (same, refused) = old.clone().product_changed(level, pass, product, bits);
            assert_eq!((same, refused), (old.clone(), Err(Refusal::plain(4))));
        }
        // Without tag 5 there is nothing to change, not even to 0.
        for bits in [0, 1, 44] {
            let (same, refused) = sample(2).product_changed(1, 1, 1, bits);
            assert_eq!((same, refused), (sample(2), Err(Refusal::plain(4))));
        }
        // A malformed table is not mended by a change.
        let mut broken = old.clone();
        broken.products[0][0][0] = 45;
        let (same, refused) = broken.clone().product_changed(1, 1, 1, 5);
        assert_eq!((same, refused), (broken, Err(Refusal::plain(4))));
        // Changes of a width and of a constant keep tag 5.
        let (new, done) = old.clone().changed(1, 1, 1, Width::new(7, 9));
        assert_eq!((done, new.has_products), (Ok(()), true));
        assert_eq!(new.products, old.products);
        let (new, done) = old.clone().constant_changed(1, 9);
        assert_eq!((done, new.has_products), (Ok(()), true));
        assert_eq!(new.products, old.products);
    }

    #[test]
    fn changing_a_constant() {
        let (new, done) = sample(2).constant_changed(5, 7);
        assert_eq!(done, Ok(()));
        assert_eq!(new.constant_bits, [24, 24, 24, 24, 7, 24]);
        assert_eq!(new.widths, sample(2).widths);
        for (node, bits) in [(0, 7), (7, 7), (1, 0), (1, 25)] {
            let (same, refused) = sample(2).constant_changed(node, bits);
            assert_eq!(refused, Err(Refusal::plain(4)));
            assert_eq!(same, sample(2));
        }
        // A malformed table is not mended by a change.
        let mut broken = sample(2);
        broken.constant_bits[0] = 0;
        let (same, refused) = broken.clone().constant_changed(1, 5);
        assert_eq!(refused, Err(Refusal::plain(4)));
        assert_eq!(same, broken);
    }

    #[test]
    fn parts_of_a_table() {
        for levels in 1..=5 {
            let table = sample(levels);
            let parts = table.parts();
            assert_eq!(parts[..36 * levels as usize], table.bytes().unwrap()[20..]);
            assert!(parts[36 * levels as usize..].iter().all(|&b| b == 0));
            let again = WidthTable::of_parts(8, levels, [24; 6], &parts);
            assert_eq!(again, table);
            assert_eq!(table.product_parts(), [0; PRODUCTS]);
            // The same with tag 5.
            let table = with_products(levels);
            let products = table.product_parts();
            let value = &table.bytes().unwrap()[23 + 36 * levels as usize..];
            assert_eq!(products[..value.len()], *value);
            assert!(products[value.len()..].iter().all(|&b| b == 0));
            assert_eq!(again.clone().and_products(true, &products), table);
            assert_eq!(number(again.and_products(false, &products).bytes()), 4);
        }
        // With a level less, what was its last is not zero.
        let parts = sample(3).parts();
        assert_eq!(
            number(WidthTable::of_parts(8, 2, [24; 6], &parts).bytes()),
            4
        );
    }

    #[test]
    fn what_a_node_holds() {
        assert!(Width::new(1, 0).holds(-1) && Width::new(1, 0).holds(0));
        assert!(!Width::new(1, 0).holds(1) && !Width::new(1, 0).holds(-2));
        assert!(Width::new(12, 20).holds(i128::from(i32::MIN)));
        assert!(!Width::new(12, 20).holds(i128::from(i32::MAX) + 1));
    }
}
