//! Files of coefficients.
//!
//! Two lines of text, then bytes:
//!
//! ```text
//! suzdrepa-53 columns-first        or one of the other first lines below
//! DEPTH LEVELS WIDTH HEIGHT        decimal numbers, one space between
//! (suzdrepa-97 only) the width table, 20 + 36 * LEVELS bytes
//! WIDTH * HEIGHT coefficients, 32-bit signed, low byte first, row by row
//! ```
//!
//! The first line is `suzdrepa-53 columns-first` or `suzdrepa-53` for an exact
//! copy, `suzdrepa-97` or `suzdrepa-97 product-widths` for 9/7 coefficients.
//!
//! Nothing follows the last coefficient. HEIGHT is any number: where a rolling
//! scan gave the plane (suzdrepa-97 with one level) it may be above 4096.
//!
//! The numbers of an exact copy do not tell in which order rows and columns
//! were worked, so its first line does. Files written before there were two
//! orders have no mark: their copies were worked rows first. A tool of that
//! time does not know the mark and says so; it never takes a new copy for one
//! of its own.
//!
//! `suzdrepa-97 product-widths` is the mark of a width table with tag 5, which
//! is 23 + 48 * LEVELS bytes: a first coefficient may begin with a byte 5 too.

use suzdrepa::WidthTable;

/// A plane of coefficients as it is kept in a file.
#[derive(Clone, Debug, PartialEq, Eq)]
pub struct Plane {
    pub depth: u8,
    pub levels: u8,
    pub width: usize,
    pub height: usize,
    pub kind: Kind,
    pub values: Vec<i32>,
}

/// What the coefficients are, with what is needed to take them back.
#[derive(Clone, Debug, PartialEq, Eq)]
pub enum Kind {
    /// An exact 5/3 copy.
    ExactCopy(Order),
    /// 9/7 coefficients under their width table.
    Fixed(WidthTable),
}

/// What each level of an exact copy worked first.
#[derive(Clone, Copy, Debug, PartialEq, Eq)]
pub enum Order {
    /// As JPEG 2000 Part 1 does, and as copies are made now.
    ColumnsFirst,
    /// As copies were made earlier.
    RowsFirst,
}

const COLUMNS_FIRST: &str = "suzdrepa-53 columns-first";
const ROWS_FIRST: &str = "suzdrepa-53";
const FIXED: &str = "suzdrepa-97";
const FIXED_WITH_PRODUCTS: &str = "suzdrepa-97 product-widths";

/// Every first line.
const FIRST_LINES: [&str; 4] = [COLUMNS_FIRST, ROWS_FIRST, FIXED, FIXED_WITH_PRODUCTS];

impl Kind {
    fn first_line(&self) -> &'static str {
        match self {
            Kind::ExactCopy(Order::ColumnsFirst) => COLUMNS_FIRST,
            Kind::ExactCopy(Order::RowsFirst) => ROWS_FIRST,
            Kind::Fixed(table) if table.has_products() => FIXED_WITH_PRODUCTS,
            Kind::Fixed(_) => FIXED,
        }
    }
}

/// The line up to the next newline, and the rest; a line is short.
fn line(bytes: &[u8]) -> Option<(&str, &[u8])> {
    let end = bytes.iter().take(64).position(|&b| b == b'\n')?;
    let text = std::str::from_utf8(&bytes[..end]).ok()?;
    Some((text, &bytes[end + 1..]))
}

/// A decimal number without sign or leading blanks.
fn number<T: std::str::FromStr>(text: Option<&str>) -> Option<T> {
    text.filter(|t| t.bytes().all(|b| b.is_ascii_digit()))?
        .parse()
        .ok()
}

/// What stands before the coefficients.
pub fn head(kind: &Kind, depth: u8, levels: u8, width: usize, height: usize) -> Vec<u8> {
    let first = kind.first_line();
    let mut bytes = format!("{first}\n{depth} {levels} {width} {height}\n").into_bytes();
    if let Kind::Fixed(table) = kind {
        bytes.extend(table.as_bytes());
    }
    bytes
}

/// The bytes of coefficients.
pub fn coefficients(values: &[i32]) -> impl Iterator<Item = u8> + '_ {
    values.iter().flat_map(|value| value.to_le_bytes())
}

impl Plane {
    pub fn read(bytes: &[u8]) -> Result<Plane, String> {
        let unknown = "not a file of coefficients (suzdrepa-53 columns-first, \
                       suzdrepa-53, suzdrepa-97 or suzdrepa-97 product-widths)";
        let (first, rest) = line(bytes)
            .filter(|(first, _)| FIRST_LINES.contains(first))
            .ok_or(unknown)?;
        let wrong = "the second line is not depth, levels, width and height";
        let (shape, mut rest) = line(rest).ok_or(wrong)?;
        let mut words = shape.split(' ');
        let depth: u8 = number(words.next()).ok_or(wrong)?;
        let levels: u8 = number(words.next()).ok_or(wrong)?;
        let width: usize = number(words.next()).ok_or(wrong)?;
        let height: usize = number(words.next()).ok_or(wrong)?;
        if words.next().is_some() {
            return Err(wrong.into());
        }
        let kind = match first {
            COLUMNS_FIRST => Kind::ExactCopy(Order::ColumnsFirst),
            ROWS_FIRST => Kind::ExactCopy(Order::RowsFirst),
            _ => {
                let length = match first {
                    FIXED_WITH_PRODUCTS => WidthTable::length_with_products(levels),
                    _ => WidthTable::length(levels),
                };
                if rest.len() < length {
                    return Err("the file ends within its width table".into());
                }
                let (table, values) = rest.split_at(length);
                rest = values;
                let table = WidthTable::from_bytes(table)
                    .map_err(|refusal| format!("the width table is {refusal}"))?;
                if (table.depth(), table.levels()) != (depth, levels) {
                    return Err("the width table does not agree with the second line".into());
                }
                Kind::Fixed(table)
            }
        };
        let due = width.checked_mul(height).and_then(|n| n.checked_mul(4));
        match due {
            Some(due) if rest.len() == due => {}
            Some(due) if rest.len() > due => {
                return Err(format!(
                    "{} bytes follow the last coefficient",
                    rest.len() - due
                ));
            }
            _ => return Err("the file ends before its last coefficient".into()),
        }
        let values = rest
            .chunks_exact(4)
            .map(|b| i32::from_le_bytes([b[0], b[1], b[2], b[3]]))
            .collect();
        Ok(Plane {
            depth,
            levels,
            width,
            height,
            kind,
            values,
        })
    }

    pub fn write(&self) -> Vec<u8> {
        let mut bytes = head(&self.kind, self.depth, self.levels, self.width, self.height);
        bytes.extend(coefficients(&self.values));
        bytes
    }
}

#[cfg(test)]
mod tests {
    use super::*;
    use suzdrepa::Width;

    fn copy(order: Order) -> Plane {
        Plane {
            depth: 3,
            levels: 1,
            width: 2,
            height: 3,
            kind: Kind::ExactCopy(order),
            values: vec![1, 1, -2, i32::MIN, i32::MAX, 0],
        }
    }

    fn fixed() -> Plane {
        let table = WidthTable::uniform(3, 1, 24, Width::new(12, 2));
        Plane {
            kind: Kind::Fixed(table.unwrap()),
            ..copy(Order::ColumnsFirst)
        }
    }

    fn fixed_with_products() -> Plane {
        let Kind::Fixed(table) = fixed().kind else {
            panic!("not under a table");
        };
        Plane {
            kind: Kind::Fixed(table.with_products(|_| 15).unwrap()),
            ..fixed()
        }
    }

    /// A plane of each kind.
    fn planes() -> [Plane; 4] {
        [
            copy(Order::ColumnsFirst),
            copy(Order::RowsFirst),
            fixed(),
            fixed_with_products(),
        ]
    }

    #[test]
    fn round_trips() {
        let starts = [
            &b"suzdrepa-53 columns-first\n3 1 2 3\n\x01\x00\x00\x00"[..],
            b"suzdrepa-53\n3 1 2 3\n\x01\x00\x00\x00",
            b"suzdrepa-97\n3 1 2 3\n\x01\x00\x01\x03",
            b"suzdrepa-97 product-widths\n3 1 2 3\n\x01\x00\x01\x03",
        ];
        for (plane, start) in planes().into_iter().zip(starts) {
            let bytes = plane.write();
            assert!(bytes.starts_with(start), "{:?}", plane.kind);
            let again = Plane::read(&bytes).unwrap();
            assert_eq!(again.write(), bytes);
            assert_eq!(again, plane);
        }
    }

    /// The mark alone tells the two orders apart.
    #[test]
    fn a_copy_with_its_mark_taken_away_is_one_of_the_other_order() {
        let (new, earlier) = (copy(Order::ColumnsFirst), copy(Order::RowsFirst));
        let bytes = new.write();
        let (kept, rest) = bytes.split_at("suzdrepa-53".len());
        let unmarked = [kept, rest.strip_prefix(b" columns-first").unwrap()].concat();
        assert_eq!(unmarked, earlier.write());
        assert_eq!(Plane::read(&unmarked), Ok(earlier));
    }

    /// The mark alone tells whether tag 5 follows: the coefficients may begin as
    /// it does.
    #[test]
    fn coefficients_that_look_like_tag_5() {
        let mut values = vec![0x000C_0005, 0, 0, 0x0500_0000];
        values.resize(6, 0);
        let plane = Plane { values, ..fixed() };
        let bytes = plane.write();
        let table = WidthTable::length(1);
        let at = b"suzdrepa-97\n3 1 2 3\n".len() + table;
        assert_eq!(bytes[at..][..3], [5, 0, 12]);
        assert_eq!(Plane::read(&bytes), Ok(plane));
        // With the mark taken away, and with one put in.
        let read = |bytes: &[u8], from: &str, to: &str| {
            let rest = bytes.strip_prefix(from.as_bytes()).unwrap();
            Plane::read(&[to.as_bytes(), rest].concat()).unwrap_err()
        };
        let marked = fixed_with_products().write();
        let error = read(&marked, FIXED_WITH_PRODUCTS, FIXED);
        assert!(error.contains("15 bytes follow"), "{error}");
        let error = read(&fixed().write(), FIXED, FIXED_WITH_PRODUCTS);
        assert!(error.contains("refused 5"), "{error}");
        let error = read(&bytes, FIXED, FIXED_WITH_PRODUCTS);
        assert!(error.contains("before its last coefficient"), "{error}");
    }

    #[test]
    fn every_cut_and_every_addition_is_told() {
        for plane in planes() {
            let mut bytes = plane.write();
            for length in 0..bytes.len() {
                assert!(Plane::read(&bytes[..length]).is_err());
            }
            bytes.push(0);
            assert!(Plane::read(&bytes).unwrap_err().contains("1 bytes follow"));
        }
    }

    #[test]
    fn damaged_heads_are_told() {
        for first in [
            "",
            "suzdrepa-54",
            "suzdrepa-53 ",
            "suzdrepa-53 rows-first",
            "suzdrepa-53 columns-first ",
            "suzdrepa-53  columns-first",
            "suzdrepa-53 columns",
            "suzdrepa-53 Columns-first",
            "suzdrepa-53 columns-first rows-first",
            "suzdrepa-53\tcolumns-first",
            "suzdrepa-53 columns-first\r",
            " suzdrepa-53",
            "suzdrepa-97 ",
            "suzdrepa-97 columns-first",
            "suzdrepa-97 product-widths ",
            "suzdrepa-97 products",
            "suzdrepa-53 product-widths",
        ] {
            let rest = &copy(Order::RowsFirst).write()["suzdrepa-53".len()..];
            let error = Plane::read(&[first.as_bytes(), rest].concat()).unwrap_err();
            assert!(error.starts_with("not a file of coefficients"), "{first}");
        }
        for (bytes, text) in [
            (&b"suzdrepa-53"[..], "not a file of coefficients"),
            (b"suzdrepa-53 columns-first", "not a file of coefficients"),
            (b"suzdrepa-53 columns-first\n3 1 2\n", "second line"),
            (b"suzdrepa-53\n3 1 2\n", "second line"),
            (b"suzdrepa-53\n3 1 2 3 4\n", "second line"),
            (b"suzdrepa-53\n3 1 2  3\n", "second line"),
            (b"suzdrepa-53\n3 1 2 +3\n", "second line"),
            (b"suzdrepa-53\n300 1 2 3\n", "second line"),
            (b"suzdrepa-53\n3 1 99999999999999999999 3\n", "second line"),
            (
                b"suzdrepa-53\n3 1 18446744073709551615 18446744073709551615\n",
                "last coefficient",
            ),
            (b"suzdrepa-53\n3 1 2 \xff\n", "second line"),
            (b"suzdrepa-97\n3 255 2 3\n", "within its width table"),
        ] {
            let error = Plane::read(bytes).unwrap_err();
            assert!(error.contains(text), "{error} / {text}");
        }
        let mut bytes = fixed().write();
        bytes[12] = b'4';
        assert!(Plane::read(&bytes).unwrap_err().contains("does not agree"));
        let mut bytes = fixed().write();
        bytes[20] = 9;
        assert!(Plane::read(&bytes).unwrap_err().contains("refused 2"));
    }
}
