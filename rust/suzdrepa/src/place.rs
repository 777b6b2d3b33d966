//! Nodes of a width table, their widths and their bounds.

use std::fmt;

/// A pass of a level. Its number is the one of document 01, 1 to 3.
#[derive(Clone, Copy, Debug, PartialEq, Eq, PartialOrd, Ord, Hash)]
#[repr(u8)]
pub enum Pass {
    /// Every row.
    Rows = 1,
    /// The columns of the low values that the rows left: LL above LH.
    LowColumns = 2,
    /// The columns of the high values that the rows left: HL above HH.
    HighColumns = 3,
}

impl Pass {
    /// All passes of a level, in table order.
    pub const ALL: [Pass; 3] = [Pass::Rows, Pass::LowColumns, Pass::HighColumns];

    /// 1, 2 or 3.
    pub const fn number(self) -> u8 {
        self as u8
    }

    /// The pass of a number from 1 to 3.
    pub fn from_number(number: u8) -> Option<Pass> {
        Pass::ALL.into_iter().find(|pass| pass.number() == number)
    }

    /// `rows`, `low-columns` or `high-columns`.
    pub const fn name(self) -> &'static str {
        match self {
            Pass::Rows => "rows",
            Pass::LowColumns => "low-columns",
            Pass::HighColumns => "high-columns",
        }
    }
}

impl fmt::Display for Pass {
    fn fmt(&self, f: &mut fmt::Formatter<'_>) -> fmt::Result {
        f.pad(self.name())
    }
}

/// A node of a pass: what one stage of the lifting leaves. Its number is the
/// one of document 01, 1 to 6.
#[derive(Clone, Copy, Debug, PartialEq, Eq, PartialOrd, Ord, Hash)]
#[repr(u8)]
pub enum Node {
    /// The first step, of the highs.
    P1 = 1,
    /// The second step, of the lows.
    U1 = 2,
    /// The third step, of the highs.
    P2 = 3,
    /// The fourth step, of the lows.
    U2 = 4,
    /// The low values that the pass gives.
    G1 = 5,
    /// The high values that the pass gives.
    G2 = 6,
}

impl Node {
    /// All nodes of a pass, in table order.
    pub const ALL: [Node; 6] = [Node::P1, Node::U1, Node::P2, Node::U2, Node::G1, Node::G2];

    /// The steps of the lifting, in table order: those that add a product, which
    /// a table may cut before the sum.
    pub const STEPS: [Node; 4] = [Node::P1, Node::U1, Node::P2, Node::U2];

    /// 1 to 6.
    pub const fn number(self) -> u8 {
        self as u8
    }

    /// The node of a number from 1 to 6.
    pub fn from_number(number: u8) -> Option<Node> {
        Node::ALL.into_iter().find(|node| node.number() == number)
    }

    /// `P1`, `U1`, `P2`, `U2`, `G1` or `G2`.
    pub const fn name(self) -> &'static str {
        match self {
            Node::P1 => "P1",
            Node::U1 => "U1",
            Node::P2 => "P2",
            Node::U2 => "U2",
            Node::G1 => "G1",
            Node::G2 => "G2",
        }
    }
}

impl fmt::Display for Node {
    fn fmt(&self, f: &mut fmt::Formatter<'_>) -> fmt::Result {
        f.pad(self.name())
    }
}

/// A node of a width table: its level, counted from 1, its pass and itself.
/// Places are ordered as in the table.
///
/// ```
/// use suzdrepa::{Node, Pass, Place};
///
/// let place = Place::new(2, Pass::LowColumns, Node::G1);
/// assert_eq!(place.numbers(), [2, 2, 5]);
/// assert_eq!(Place::from_numbers(2, 2, 5), Some(place));
/// assert_eq!(place.to_string(), "level 2, low-columns, G1");
/// ```
#[derive(Clone, Copy, Debug, PartialEq, Eq, PartialOrd, Ord, Hash)]
pub struct Place {
    pub level: u8,
    pub pass: Pass,
    pub node: Node,
}

impl Place {
    pub const fn new(level: u8, pass: Pass, node: Node) -> Place {
        Place { level, pass, node }
    }

    /// The place of three numbers, as the C interface has them; `None` where
    /// there is no such pass or node.
    pub fn from_numbers(level: u8, pass: u8, node: u8) -> Option<Place> {
        Some(Place {
            level,
            pass: Pass::from_number(pass)?,
            node: Node::from_number(node)?,
        })
    }

    /// Every node of so many levels, in table order.
    ///
    /// ```
    /// use suzdrepa::{Node, Pass, Place};
    ///
    /// let mut places = Place::all(2);
    /// assert_eq!(places.next(), Some(Place::new(1, Pass::Rows, Node::P1)));
    /// assert_eq!(places.last(), Some(Place::new(2, Pass::HighColumns, Node::G2)));
    /// assert_eq!(Place::all(2).count(), 36);
    /// ```
    pub fn all(levels: u8) -> impl Iterator<Item = Place> {
        (1..=levels).flat_map(|level| {
            Pass::ALL.into_iter().flat_map(move |pass| {
                let place = move |node| Place::new(level, pass, node);
                Node::ALL.into_iter().map(place)
            })
        })
    }

    /// Every step of the lifting of so many levels, in table order: the places
    /// that have a product.
    ///
    /// ```
    /// use suzdrepa::{Node, Pass, Place};
    ///
    /// let mut steps = Place::steps(2);
    /// assert_eq!(steps.next(), Some(Place::new(1, Pass::Rows, Node::P1)));
    /// assert_eq!(steps.last(), Some(Place::new(2, Pass::HighColumns, Node::U2)));
    /// assert_eq!(Place::steps(2).count(), 24);
    /// ```
    pub fn steps(levels: u8) -> impl Iterator<Item = Place> {
        Place::all(levels).filter(|place| place.is_step())
    }

    /// Whether the node is one of the [steps](Node::STEPS) of the lifting.
    pub fn is_step(self) -> bool {
        Node::STEPS.contains(&self.node)
    }

    /// Level, pass and node as the C interface has them.
    pub const fn numbers(self) -> [u8; 3] {
        [self.level, self.pass.number(), self.node.number()]
    }

    /// Whether a table of so many levels has this node's values in the plane:
    /// G1 and G2 of the columns, but the low-low, G1 of [`Pass::LowColumns`],
    /// at the last level only, as it is worked further at the others.
    ///
    /// ```
    /// use suzdrepa::{Node, Pass, Place};
    ///
    /// assert!(Place::new(1, Pass::HighColumns, Node::G2).is_kept(3));
    /// assert!(Place::new(3, Pass::LowColumns, Node::G1).is_kept(3));
    /// assert!(!Place::new(2, Pass::LowColumns, Node::G1).is_kept(3));
    /// assert!(!Place::new(3, Pass::Rows, Node::G1).is_kept(3));
    /// ```
    pub fn is_kept(self, levels: u8) -> bool {
        let there = (1..=levels).contains(&self.level);
        let gives = matches!(self.node, Node::G1 | Node::G2) && self.pass != Pass::Rows;
        let low_low = self.pass == Pass::LowColumns && self.node == Node::G1;
        there && gives && (!low_low || self.level == levels)
    }

    /// The kept node that gave the coefficient in column `x` and row `y` of a
    /// plane of `size` (width and height) and so many levels; `None` outside
    /// the plane.
    ///
    /// ```
    /// use suzdrepa::{Node, Pass, Place};
    ///
    /// let place = Place::of_coefficient(2, (5, 3), 2, 0);
    /// assert_eq!(place, Some(Place::new(2, Pass::HighColumns, Node::G1)));
    /// assert_eq!(Place::of_coefficient(2, (5, 3), 5, 0), None);
    /// ```
    pub fn of_coefficient(levels: u8, size: (usize, usize), x: usize, y: usize) -> Option<Place> {
        if levels == 0 || x >= size.0 || y >= size.1 {
            return None;
        }
        let mut level = 1;
        let mut low = (size.0.div_ceil(2), size.1.div_ceil(2));
        while level < levels && x < low.0 && y < low.1 {
            level += 1;
            low = (low.0.div_ceil(2), low.1.div_ceil(2));
        }
        Some(Place {
            level,
            pass: match x < low.0 {
                true => Pass::LowColumns,
                false => Pass::HighColumns,
            },
            node: match y < low.1 {
                true => Node::G1,
                false => Node::G2,
            },
        })
    }
}

impl fmt::Display for Place {
    fn fmt(&self, f: &mut fmt::Formatter<'_>) -> fmt::Result {
        write!(f, "level {}, {}, {}", self.level, self.pass, self.node)
    }
}

/// The width of a node: a node holds an integer `v` that means
/// `v / 2^fraction_bits`, with `v` from `-2^(integer_bits + fraction_bits - 1)`
/// to one less than the same power.
///
/// Integer bits are 1 to 12, fractional bits 0 to 20; a table with any other
/// number is refused 4.
///
/// ```
/// assert_eq!(suzdrepa::Width::new(12, 20).to_string(), "(12, 20)");
/// ```
#[derive(Clone, Copy, Debug, PartialEq, Eq, Hash)]
pub struct Width {
    pub integer_bits: u8,
    pub fraction_bits: u8,
}

impl Width {
    pub const fn new(integer_bits: u8, fraction_bits: u8) -> Width {
        Width {
            integer_bits,
            fraction_bits,
        }
    }
}

impl fmt::Display for Width {
    fn fmt(&self, f: &mut fmt::Formatter<'_>) -> fmt::Result {
        write!(f, "({}, {})", self.integer_bits, self.fraction_bits)
    }
}

/// What is known of a node's values under any picture, in units of 2^-32.
///
/// A node fits if range and error together are at most what its width holds,
/// `2^(integer_bits - 1) - 2^-fraction_bits`; a kept node's error must also be
/// below two steps, `2 * 2^-fraction_bits`.
#[derive(Clone, Copy, Debug, PartialEq, Eq, Hash)]
pub struct Bound {
    /// The size that an exact value reaches at most.
    pub range: u64,
    /// The distance of a value from the exact one.
    pub error: u64,
}

impl Bound {
    /// One in these units.
    pub const ONE: u64 = 1 << 32;

    /// The range as a number.
    pub fn range_as_f64(self) -> f64 {
        self.range as f64 / Bound::ONE as f64
    }

    /// The error as a number.
    pub fn error_as_f64(self) -> f64 {
        self.error as f64 / Bound::ONE as f64
    }
}

#[cfg(test)]
mod tests {
    use super::*;

    #[test]
    fn numbers_there_and_back() {
        for number in 0..=255 {
            let pass = Pass::from_number(number);
            assert_eq!(pass.is_some(), (1..=3).contains(&number));
            assert!(pass.is_none_or(|pass| pass.number() == number));
            let node = Node::from_number(number);
            assert_eq!(node.is_some(), (1..=6).contains(&number));
            assert!(node.is_none_or(|node| node.number() == number));
        }
        assert_eq!(Place::from_numbers(1, 0, 1), None);
        assert_eq!(Place::from_numbers(1, 1, 7), None);
        // A product has the number of its node.
        assert_eq!(Node::STEPS.map(Node::number), [1, 2, 3, 4]);
    }

    #[test]
    fn places_of_a_plane() {
        let numbers = |levels, size, x, y| Place::of_coefficient(levels, size, x, y).unwrap();
        assert_eq!(numbers(2, (5, 3), 0, 0).numbers(), [2, 2, 5]);
        assert_eq!(numbers(2, (5, 3), 2, 1).numbers(), [2, 3, 6]);
        assert_eq!(numbers(2, (5, 3), 3, 1).numbers(), [1, 3, 5]);
        assert_eq!(numbers(1, (5, 3), 0, 2).numbers(), [1, 2, 6]);
        // One sample wide: nothing is high across.
        assert_eq!(numbers(5, (1, 1), 0, 0).numbers(), [5, 2, 5]);
        assert_eq!(numbers(3, (1, 3), 0, 1).numbers(), [2, 2, 6]);
        assert_eq!(numbers(3, (3, 1), 2, 0).numbers(), [1, 3, 5]);
        assert_eq!(Place::of_coefficient(0, (5, 3), 0, 0), None);
        assert_eq!(Place::of_coefficient(1, (5, 3), 0, 3), None);
    }

    /// What a plane has is kept, at whatever size and number of levels.
    #[test]
    fn every_coefficient_is_of_a_kept_node() {
        for levels in 1..=5 {
            for (width, height) in [(18, 33), (1, 33), (18, 1), (2, 3), (1, 1)] {
                for (x, y) in (0..width).flat_map(|x| (0..height).map(move |y| (x, y))) {
                    let place = Place::of_coefficient(levels, (width, height), x, y).unwrap();
                    assert!(place.is_kept(levels));
                }
            }
        }
    }
}
