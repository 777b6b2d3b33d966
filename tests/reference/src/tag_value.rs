//! The tag program: bytes in, the value of a tag out.

use crate::table::value_of_tag;

/// What the program writes for these bytes, the first of which is the tag and
/// the others a table: the part of them that is the tag's value, or nothing
/// where there is no tag or the call is refused.
pub fn tag_value(input: &[u8]) -> &[u8] {
    let Some((&tag, table)) = input.split_first() else {
        return &[];
    };
    match value_of_tag(table, tag) {
        Ok(stretch) => &table[stretch],
        Err(_) => &[],
    }
}

#[cfg(test)]
mod tests {
    use super::*;
    use crate::{Width, WidthTable};

    #[test]
    fn the_value_or_nothing() {
        let table = WidthTable::uniform(8, 1, 24, Width::new(12, 2));
        let input = |tag| [vec![tag], table.bytes().unwrap()].concat();
        assert_eq!(tag_value(&input(1)), [8]);
        assert_eq!(tag_value(&input(2)), [1]);
        assert_eq!(tag_value(&input(3)), [24; 6]);
        assert_eq!(tag_value(&input(4)), [12, 2].repeat(18));
        assert_eq!(tag_value(&input(0)), []);
        assert_eq!(tag_value(&input(5)), []);
        let with_products = table.clone().with_products(31).bytes().unwrap();
        let input_with = |tag| [&[tag], &with_products[..]].concat();
        assert_eq!(tag_value(&input_with(4)), [12, 2].repeat(18));
        assert_eq!(tag_value(&input_with(5)), [31; 12]);
        assert_eq!(tag_value(&input_with(6)), []);
        assert_eq!(tag_value(&[]), []);
        assert_eq!(tag_value(&[1]), []);
        assert_eq!(tag_value(&input(1)[..56]), []);
        assert_eq!(tag_value(&[input(1), vec![0]].concat()), []);
    }
}
