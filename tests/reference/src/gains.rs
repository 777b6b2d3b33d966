//! Gains between nodes, from their definition: the answers of the exact
//! lifting to a unit, on an endless line.

use crate::constants::{Ratio, ALPHA, BETA, DELTA, GAMMA, ONE_OVER_ZETA, ZETA};
use crate::fraction::Fraction;
use std::sync::OnceLock;

/// Gains of the forward pass in whole numbers of 2^-16.
#[derive(Clone, Debug, PartialEq, Eq)]
pub struct Gains {
    /// From the input to each node.
    pub input: [u64; 6],
    /// From each stage to each node; 0 where nothing gets through.
    pub stage: [[u64; 6]; 6],
}

/// Gains of the inverse pass (document 02, job 1) in whole numbers of 2^-16.
/// Its nodes in order: low over zeta, high times zeta, inverses of U2, P2, U1, P1.
#[derive(Clone, Debug, PartialEq, Eq)]
pub struct InverseGains {
    /// From the low input to each node.
    pub low: [u64; 6],
    /// From the high input to each node.
    pub high: [u64; 6],
    /// From each stage to each node; 0 where nothing gets through.
    pub stage: [[u64; 6]; 6],
}

/// What a stage reads.
#[derive(Clone, Copy)]
enum Operand {
    /// The line that enters: samples, or low values at even places and high
    /// values at odd ones.
    Input,
    Node(usize),
}

use Operand::{Input, Node};

/// One stage. With an own operand it adds to it the constant times the two
/// neighbours of the other one; without, it multiplies the other one.
struct Stage {
    /// Low values stand at even places, high values at odd ones.
    high: bool,
    own: Option<Operand>,
    multiplied: Operand,
    constant: Fraction,
}

/// A stage that adds.
fn lift(high: bool, own: Operand, multiplied: Operand, constant: Fraction) -> Stage {
    Stage {
        high,
        own: Some(own),
        multiplied,
        constant,
    }
}

/// A scaling.
fn scale(high: bool, multiplied: Operand, constant: Ratio) -> Stage {
    Stage {
        high,
        own: None,
        multiplied,
        constant: constant.fraction(),
    }
}

/// P1, U1, P2, U2, G1, G2.
fn forward() -> [Stage; 6] {
    [
        lift(true, Input, Input, ALPHA.fraction()),
        lift(false, Input, Node(0), BETA.fraction()),
        lift(true, Node(0), Node(1), GAMMA.fraction()),
        lift(false, Node(1), Node(2), DELTA.fraction()),
        scale(false, Node(3), ZETA),
        scale(true, Node(2), ONE_OVER_ZETA),
    ]
}

/// Low over zeta, high times zeta, then the inverses of U2, P2, U1, P1.
fn inverse() -> [Stage; 6] {
    let minus = |constant: Ratio| constant.fraction().times(&Fraction::whole(-1));
    [
        scale(false, Input, ONE_OVER_ZETA),
        scale(true, Input, ZETA),
        lift(false, Node(0), Node(1), minus(DELTA)),
        lift(true, Node(1), Node(2), minus(GAMMA)),
        lift(false, Node(2), Node(3), minus(BETA)),
        lift(true, Node(3), Node(4), minus(ALPHA)),
    ]
}

/// Where the unit is put.
#[derive(Clone, Copy, PartialEq, Eq)]
enum Source {
    /// Any place of the input.
    Input,
    /// An even place of it.
    LowInput,
    /// An odd place of it.
    HighInput,
    Stage(usize),
}

impl Source {
    fn has_place(self, stages: &[Stage; 6], place: usize) -> bool {
        match self {
            Source::Input => true,
            Source::LowInput => place.is_multiple_of(2),
            Source::HighInput => !place.is_multiple_of(2),
            Source::Stage(node) => stages[node].has_place(place),
        }
    }
}

impl Stage {
    fn has_place(&self, place: usize) -> bool {
        self.high != place.is_multiple_of(2)
    }
}

/// The stretch of the endless line that is looked at. A unit near its middle
/// moves nothing near its ends.
const STRETCH: usize = 41;
const MIDDLE: usize = 20;

/// What every node has at every place where a unit is put at one place of one
/// source and all else is zero.
fn answers(stages: &[Stage; 6], source: Source, unit: usize) -> Vec<Vec<Fraction>> {
    let zeros = || vec![Fraction::whole(0); STRETCH];
    let mut input = zeros();
    if !matches!(source, Source::Stage(_)) {
        input[unit] = Fraction::whole(1);
    }
    let mut nodes: Vec<Vec<Fraction>> = Vec::new();
    for (number, stage) in stages.iter().enumerate() {
        let line = |operand: Operand| match operand {
            Input => &input,
            Node(node) => &nodes[node],
        };
        let multiplied = line(stage.multiplied);
        let mut values = zeros();
        for place in (1..STRETCH - 1).filter(|&place| stage.has_place(place)) {
            values[place] = match stage.own {
                Some(own) => {
                    let sum = multiplied[place - 1].plus(&multiplied[place + 1]);
                    line(own)[place].plus(&stage.constant.times(&sum))
                }
                None => multiplied[place].times(&stage.constant),
            };
        }
        if source == Source::Stage(number) {
            values[unit] = values[unit].plus(&Fraction::whole(1));
        }
        for end in [0, 1, 2, STRETCH - 3, STRETCH - 2, STRETCH - 1] {
            assert!(values[end].is_zero(), "the unit reaches the end");
        }
        nodes.push(values);
    }
    nodes
}

fn gains_from(stages: &[Stage; 6], source: Source) -> [u64; 6] {
    let mut sums: [Fraction; 6] = std::array::from_fn(|_| Fraction::whole(0));
    for unit in MIDDLE - 8..=MIDDLE + 8 {
        if !source.has_place(stages, unit) {
            continue;
        }
        let nodes = answers(stages, source, unit);
        for (node, sum) in sums.iter_mut().enumerate() {
            // One place of the node; all its places answer alike.
            let place = match stages[node].has_place(MIDDLE) {
                true => MIDDLE,
                false => MIDDLE + 1,
            };
            let answer = nodes[node][place].magnitude();
            let rim = unit == MIDDLE - 8 || unit == MIDDLE + 8;
            assert!(!rim || answer.is_zero(), "a farther unit would count");
            *sum = sum.plus(&answer);
        }
    }
    sums.map(|sum| sum.rounded_up(16).to_u64().expect("a gain is small"))
}

/// All gains of the forward pass, computed once.
pub fn gains() -> &'static Gains {
    static GAINS: OnceLock<Gains> = OnceLock::new();
    GAINS.get_or_init(|| Gains {
        input: gains_from(&forward(), Source::Input),
        stage: std::array::from_fn(|node| gains_from(&forward(), Source::Stage(node))),
    })
}

/// All gains of the inverse pass, computed once.
pub fn inverse_gains() -> &'static InverseGains {
    static GAINS: OnceLock<InverseGains> = OnceLock::new();
    GAINS.get_or_init(|| InverseGains {
        low: gains_from(&inverse(), Source::LowInput),
        high: gains_from(&inverse(), Source::HighInput),
        stage: std::array::from_fn(|node| gains_from(&inverse(), Source::Stage(node))),
    })
}

#[cfg(test)]
mod tests {
    use super::*;

    #[test]
    fn the_numbers_of_the_document() {
        let gains = gains();
        assert_eq!(gains.input[0], 273_434);
        assert_eq!(gains.stage[0][1], 6_945);
        assert_eq!(gains.stage[3][4], 75_341);
    }

    #[test]
    fn all_gains() {
        let gains = gains();
        assert_eq!(
            gains.input,
            [273_434, 94_510, 138_260, 111_285, 127_934, 120_267]
        );
        assert_eq!(
            gains.stage,
            [
                [65_536, 6_945, 65_536, 45_749, 52_593, 57_008],
                [0, 65_536, 115_725, 168_186, 193_347, 100_665],
                [0, 0, 65_536, 58_132, 66_829, 57_008],
                [0, 0, 0, 65_536, 75_341, 0],
                [0, 0, 0, 0, 65_536, 0],
                [0, 0, 0, 0, 0, 65_536],
            ]
        );
    }

    #[test]
    fn all_gains_of_the_inverse() {
        let gains = inverse_gains();
        assert_eq!(gains.low, [57_008, 0, 57_008, 100_665, 57_008, 63_260]);
        assert_eq!(gains.high, [0, 75_341, 66_829, 193_347, 52_593, 75_341]);
        assert_eq!(
            gains.stage,
            [
                [65_536, 0, 65_536, 115_725, 65_536, 72_724],
                [0, 65_536, 58_132, 168_186, 45_749, 65_536],
                [0, 0, 65_536, 115_725, 65_536, 72_724],
                [0, 0, 0, 65_536, 6_945, 87_565],
                [0, 0, 0, 0, 65_536, 207_898],
                [0, 0, 0, 0, 0, 65_536],
            ]
        );
    }
}
