//! Why a picture, a plane or a width table comes back.

use crate::Place;
use std::fmt;

/// A line for each refusal: its number, its name (with the node where it has
/// one), its text.
macro_rules! refusals {
    ($(#[$about:meta])* $($number:literal $name:ident $(($place:ident))? $text:literal;)*) => {
        $(#[$about])*
        #[derive(Clone, Copy, Debug, PartialEq, Eq, Hash)]
        #[non_exhaustive]
        pub enum Refusal {
            $(#[doc = concat!($number, ": ", $text, ".")] $name $(($place))?,)*
            /// The answer of an engine that knows more refusals than this
            /// crate.
            Unknown(u32),
        }

        impl Refusal {
            /// The refusal of an answer other than 0; `None` where this crate
            /// does not know it.
            fn known(answer: u32) -> Option<Refusal> {
                let [number, level, pass, node] = answer.to_le_bytes();
                match number {
                    $($number => {
                        Some(Refusal::$name $(($place::from_numbers(level, pass, node)?))?)
                    })*
                    _ => None,
                }
            }

            /// The number, from 1.
            pub fn number(&self) -> u8 {
                match self {
                    $(Refusal::$name { .. } => $number,)*
                    Refusal::Unknown(answer) => answer.to_le_bytes()[0],
                }
            }

            /// What the number means.
            pub fn meaning(&self) -> &'static str {
                match self {
                    $(Refusal::$name { .. } => $text,)*
                    Refusal::Unknown(_) => "unknown",
                }
            }
        }
    };
}

refusals! {
    /// Why a call was refused: a number and, for 6 and 7, the first node of
    /// the width table that it holds of.
    ///
    /// Later versions have more of them, so a `match` needs a last arm.
    ///
    /// ```
    /// use suzdrepa::Refusal;
    ///
    /// // The first field of a width table is cut short.
    /// let refusal = suzdrepa::check_table(&[1, 0]).unwrap_err();
    /// assert_eq!(refusal, Refusal::CutShort);
    /// assert_eq!(refusal.number(), 1);
    /// assert_eq!(
    ///     refusal.to_string(),
    ///     "refused 1: the bytes end before a field's tag, length or announced value is whole"
    /// );
    /// ```
    1 CutShort "the bytes end before a field's tag, length or announced value is whole";
    2 WrongTag "the tag is not the next one due, or a caller names one outside 1 to 5 or one that the table lacks";
    3 WrongLength "the length is not that tag's";
    4 OutsideLimits "a number is outside its limits, or an unused level is not zero";
    5 TrailingBytes "bytes follow the last field: any byte but 5 after the fourth, or any after the fifth";
    6 DoesNotFit(Place) "a node does not fit";
    7 ErrorTooLarge(Place) "a kept node's error is not below two steps";
    8 SideNotAdmitted "a side is 0 or above 4,096";
    9 SliceTooShort "a lent slice is too short";
    10 PixelTooLarge "a pixel is 2^B or more";
    11 NoPicture "the 5/3 plane is the transform of no picture of that depth and size";
    12 OutsideWidth "a coefficient is outside its node's width";
    13 NotViewable "viewing is not accurate to half a grey, or a value may pass 2^15";
    14 OutOfTurn "a table not of one level, a line or an end out of turn, or a line of another width";
}

impl Refusal {
    /// What an answer of the C interface says: 0 is success.
    ///
    /// ```
    /// use suzdrepa::{Node, Pass, Place, Refusal};
    ///
    /// assert_eq!(Refusal::from_answer(0), Ok(()));
    /// let place = Place::new(1, Pass::LowColumns, Node::G1);
    /// assert_eq!(
    ///     Refusal::from_answer(0x0502_0107),
    ///     Err(Refusal::ErrorTooLarge(place))
    /// );
    /// ```
    pub fn from_answer(answer: u32) -> Result<(), Refusal> {
        match answer {
            0 => Ok(()),
            _ => Err(Refusal::known(answer).unwrap_or(Refusal::Unknown(answer))),
        }
    }

    /// For 6 and 7 the first node, in table order, that is refused.
    pub fn place(&self) -> Option<Place> {
        match *self {
            Refusal::DoesNotFit(place) | Refusal::ErrorTooLarge(place) => Some(place),
            _ => None,
        }
    }
}

impl fmt::Display for Refusal {
    fn fmt(&self, f: &mut fmt::Formatter<'_>) -> fmt::Result {
        write!(f, "refused {}: {}", self.number(), self.meaning())?;
        match self.place() {
            Some(place) => write!(f, " ({place})"),
            None => Ok(()),
        }
    }
}

impl std::error::Error for Refusal {}

#[cfg(test)]
mod tests {
    use super::*;
    use crate::{Node, Pass};

    fn refusal(answer: u32) -> Refusal {
        Refusal::from_answer(answer).unwrap_err()
    }

    /// The answer with a place that every refusal can have.
    fn some_answer(number: u32) -> u32 {
        number | 0x0101_0100
    }

    fn is_known(number: u32) -> bool {
        Refusal::known(some_answer(number)).is_some()
    }

    #[test]
    fn every_number_keeps_itself() {
        for number in 1..=255 {
            let refusal = refusal(some_answer(number));
            assert_eq!(u32::from(refusal.number()), number);
            assert_eq!(refusal.place().is_some(), number == 6 || number == 7);
        }
    }

    #[test]
    fn a_place_is_taken_apart() {
        let place = Place::new(2, Pass::HighColumns, Node::G1);
        assert_eq!(refusal(0x0503_0207), Refusal::ErrorTooLarge(place));
        assert_eq!(refusal(0x0503_0207).place(), Some(place));
    }

    #[test]
    fn text() {
        assert_eq!(
            refusal(0x0101_0106).to_string(),
            "refused 6: a node does not fit (level 1, rows, P1)"
        );
        assert_eq!(
            refusal(0x0602_0507).to_string(),
            "refused 7: a kept node's error is not below two steps (level 5, low-columns, G2)"
        );
        assert_eq!(
            refusal(8).to_string(),
            "refused 8: a side is 0 or above 4,096"
        );
    }

    #[test]
    fn what_is_not_known_is_told_as_such() {
        for answer in [255, 0x0707_0755, 0x0000_0006, 0x0701_0107, 0x0100_0000] {
            let refusal = refusal(answer);
            assert_eq!(refusal, Refusal::Unknown(answer));
            assert_eq!(refusal.place(), None);
            assert!(refusal.to_string().ends_with(": unknown"));
        }
    }

    #[test]
    fn the_header_has_the_same_numbers_and_texts() {
        let header = include_str!("../../../include/suzdrepa.h");
        for number in 1..=255 {
            let meaning = refusal(some_answer(number)).meaning();
            let line = format!("case {number}: return \"{meaning}\";");
            assert_eq!(header.contains(&line), is_known(number), "{line}");
            let case = format!("case {number}:");
            assert_eq!(header.contains(&case), is_known(number), "{case}");
        }
    }
}
