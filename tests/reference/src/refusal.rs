//! Why a strip or a width table comes back.

/// Where refusals 6 and 7 stand: level from 1, pass 1 to 3, node 1 to 6.
#[derive(Clone, Copy, Debug, PartialEq, Eq, PartialOrd, Ord)]
pub struct Place {
    pub level: u8,
    pub pass: u8,
    pub node: u8,
}

#[derive(Clone, Copy, Debug, PartialEq, Eq)]
pub struct Refusal {
    pub number: u8,
    /// With 6 and 7 alone.
    pub place: Option<Place>,
}

impl Refusal {
    pub fn plain(number: u8) -> Refusal {
        assert!((1..=14).contains(&number) && number != 6 && number != 7);
        Refusal {
            number,
            place: None,
        }
    }

    pub fn at(number: u8, place: Place) -> Refusal {
        assert!(number == 6 || number == 7);
        Refusal {
            number,
            place: Some(place),
        }
    }

    /// The answer of the C interface: number, level, pass and node, a byte
    /// each from the lowest up.
    pub fn code(self) -> u32 {
        let place = match self.place {
            Some(p) => [p.level, p.pass, p.node],
            None => [0, 0, 0],
        };
        u32::from_le_bytes([self.number, place[0], place[1], place[2]])
    }
}

/// The answer of the C interface to a call: 0 where it was done.
pub fn answer(result: Result<(), Refusal>) -> u32 {
    match result {
        Ok(()) => 0,
        Err(refusal) => refusal.code(),
    }
}

#[cfg(test)]
mod tests {
    use super::*;

    #[test]
    fn codes() {
        assert_eq!(answer(Ok(())), 0);
        assert_eq!(answer(Err(Refusal::plain(11))), 11);
        let place = Place {
            level: 5,
            pass: 3,
            node: 6,
        };
        assert_eq!(answer(Err(Refusal::at(7, place))), 0x0603_0507);
    }
}
