//! Every refusal of a call.

use std::fmt;

/// A refusal. Each has a number, by which `docs/HANDBOOK.md` says what to do.
#[derive(Clone, Copy, Debug, PartialEq, Eq)]
#[non_exhaustive]
pub enum Refusal {
    /// 1: an image or a message has too few bytes, or not as many as its length field says.
    Length,
    /// 2: an image or a message has a version that the engine does not read.
    Version,
    /// 3: an image has a table over its limit, or counts that do not match its length.
    Count,
    /// 4: an image has a value out of range, or a field not zero that has to be.
    Value,
    /// 5: an image has an id out of order or range, missing, of the wrong kind, or repeated.
    Reference,
    /// 6: a message has an unknown operation, or number 0.
    Operation,
    /// 7: a message before this one has not arrived yet.
    Ahead,
    /// 8: the drawing has no such curve.
    NoCurve,
    /// 9: the pick is not finite or beyond 1,000,000.
    Pick,
    /// 10: the edit is none for this kind of curve.
    Kind,
    /// 11: the edit is none while a freeform curve is in the drawing.
    Freeform,
    /// 12: there is no place to split at.
    NoPlace,
    /// 13: a relation is not met. It comes with the place of the first one in table order. Places count
    /// from 0, and all of the drawing's relations are looked at, not only those of the line to be extended.
    Unmet {
        /// The relation's place.
        place: usize,
    },
    /// 14: the line's end is used by another curve, or fixed.
    EndHeld,
    /// 15: the line, prolonged, lies along another curve.
    Overlap,
    /// 16: the line is too short to prolong, or a hit lies off it.
    Unresolved,
    /// 17: two curves are met equally near.
    Tie,
    /// 18: the line, prolonged, meets nothing.
    NothingMet,
    /// 19: a relation would not be met. It comes with the place of the first one in table order. Places
    /// count from 0 in the table that the edit would have left: the drawing's relations, and behind them
    /// the pin that the edit adds, so that the place may be the number of the drawing's relations.
    Conflict {
        /// The relation's place, which may be the pin's.
        place: usize,
    },
    /// 20: the coefficients are none, more than 15, or one is not finite, also in a derivative.
    Coefficients,
    /// 21: the budget ran out.
    Work,
    /// 22: a table has no room for another point, curve or relation.
    TableFull,
    /// 23: no id or edit number is left.
    Numbers,
    /// 24: a new coordinate is not finite or beyond 1,000,000.
    Coordinate,
    /// 25: memory that was lent to the engine is too short.
    Buffer,
    /// 26, of [`Desk::catch_up`](crate::Desk::catch_up): the wall is started again from the desk's
    /// present image and count ([`Wall::start_at`](crate::Wall::start_at)).
    LeftWindow,
    /// 27, of [`Desk::catch_up`](crate::Desk::catch_up): the desk was set back, and needs a new mark, its
    /// walls a new start.
    CountAbove,
    /// 28: a message has another mark than the wall: it is another desk's, or of another start.
    Foreign,
    /// A number that this crate does not know: the library is a later one.
    Other {
        /// The number.
        number: u16,
    },
}

impl Refusal {
    /// The refusal in a call's answer, which is 0 where there is none.
    pub(crate) fn of_answer(answer: u32) -> Result<(), Refusal> {
        let (number, place) = ((answer & 0xffff) as u16, (answer >> 16) as usize);
        match number {
            0 => Ok(()),
            number => Err(Refusal::new(number, place)),
        }
    }

    fn new(number: u16, place: usize) -> Refusal {
        match number {
            1 => Refusal::Length,
            2 => Refusal::Version,
            3 => Refusal::Count,
            4 => Refusal::Value,
            5 => Refusal::Reference,
            6 => Refusal::Operation,
            7 => Refusal::Ahead,
            8 => Refusal::NoCurve,
            9 => Refusal::Pick,
            10 => Refusal::Kind,
            11 => Refusal::Freeform,
            12 => Refusal::NoPlace,
            13 => Refusal::Unmet { place },
            14 => Refusal::EndHeld,
            15 => Refusal::Overlap,
            16 => Refusal::Unresolved,
            17 => Refusal::Tie,
            18 => Refusal::NothingMet,
            19 => Refusal::Conflict { place },
            20 => Refusal::Coefficients,
            21 => Refusal::Work,
            22 => Refusal::TableFull,
            23 => Refusal::Numbers,
            24 => Refusal::Coordinate,
            25 => Refusal::Buffer,
            26 => Refusal::LeftWindow,
            27 => Refusal::CountAbove,
            28 => Refusal::Foreign,
            number => Refusal::Other { number },
        }
    }

    /// The number in the engine's documents.
    ///
    /// ```
    /// use mulkefi::Refusal;
    ///
    /// assert_eq!(Refusal::Tie.number(), 17);
    /// assert_eq!(Refusal::Unmet { place: 4 }.number(), 13);
    /// assert_eq!(Refusal::LeftWindow.number(), 26);
    /// assert_eq!(Refusal::CountAbove.number(), 27);
    /// ```
    pub fn number(self) -> u16 {
        match self {
            Refusal::Length => 1,
            Refusal::Version => 2,
            Refusal::Count => 3,
            Refusal::Value => 4,
            Refusal::Reference => 5,
            Refusal::Operation => 6,
            Refusal::Ahead => 7,
            Refusal::NoCurve => 8,
            Refusal::Pick => 9,
            Refusal::Kind => 10,
            Refusal::Freeform => 11,
            Refusal::NoPlace => 12,
            Refusal::Unmet { .. } => 13,
            Refusal::EndHeld => 14,
            Refusal::Overlap => 15,
            Refusal::Unresolved => 16,
            Refusal::Tie => 17,
            Refusal::NothingMet => 18,
            Refusal::Conflict { .. } => 19,
            Refusal::Coefficients => 20,
            Refusal::Work => 21,
            Refusal::TableFull => 22,
            Refusal::Numbers => 23,
            Refusal::Coordinate => 24,
            Refusal::Buffer => 25,
            Refusal::LeftWindow => 26,
            Refusal::CountAbove => 27,
            Refusal::Foreign => 28,
            Refusal::Other { number } => number,
        }
    }

    /// The place of the first relation that is not met (13), or would not be (19);
    /// [`Refusal::relation`] looks it up.
    pub fn place(self) -> Option<usize> {
        match self {
            Refusal::Unmet { place } | Refusal::Conflict { place } => Some(place),
            _ => None,
        }
    }

    /// What it means, as the handbook has it.
    pub fn sentence(self) -> &'static str {
        match self {
            Refusal::Length => "The bytes end too soon or too late for their length field.",
            Refusal::Version => "The version byte is one that this engine does not read.",
            Refusal::Count => "A table is over its limit, or the tables don't fill the image.",
            Refusal::Value => "A field holds what it may not, or one not in use isn't zero.",
            Refusal::Reference => "An id is out of order or range, or leads to the wrong thing.",
            Refusal::Operation => "The operation is unknown, or the edit's number is 0.",
            Refusal::Ahead => "An earlier message has not arrived yet.",
            Refusal::NoCurve => "The drawing has no such curve.",
            Refusal::Pick => "The pick is no place in the drawing's bounds.",
            Refusal::Kind => "This kind of curve can't be edited in this way.",
            Refusal::Freeform => "With a freeform curve in the drawing this can't be cut.",
            Refusal::NoPlace => "There is no place to split it there.",
            Refusal::Unmet { .. } => "A relation is not met, so that nothing is extended.",
            Refusal::EndHeld => "The end is fixed, or another curve uses it.",
            Refusal::Overlap => "The line, prolonged, runs along another curve.",
            Refusal::Unresolved => "The line is too short, or where it meets a curve is not exact.",
            Refusal::Tie => "Two curves stop the line at one distance.",
            Refusal::NothingMet => "The line, prolonged, meets nothing.",
            Refusal::Conflict { .. } => "A relation would not be met any more.",
            Refusal::Coefficients => "The coefficients are none, too many, or not finite.",
            Refusal::Work => "The work limit is used up.",
            Refusal::TableFull => "A table has no room for what the edit adds.",
            Refusal::Numbers => "The ids, or the edits' numbers, are used up.",
            Refusal::Coordinate => "A new point would lie out of bounds.",
            Refusal::Buffer => "The buffer is too short.",
            Refusal::LeftWindow => "The message after the wall's count has left the window.",
            Refusal::CountAbove => "The wall's count is above the desk's.",
            Refusal::Foreign => "The message is another desk's, by its mark.",
            Refusal::Other { .. } => "The engine gave a number that this crate doesn't know.",
        }
    }
}

/// The number, the sentence and, if there is one, the place.
///
/// ```
/// use mulkefi::Refusal;
///
/// assert_eq!(Refusal::NoCurve.to_string(), "8: The drawing has no such curve.");
/// let refusal = Refusal::Conflict { place: 2 };
/// assert_eq!(refusal.to_string(), "19: A relation would not be met any more. (relation 2)");
/// ```
impl fmt::Display for Refusal {
    fn fmt(&self, f: &mut fmt::Formatter<'_>) -> fmt::Result {
        write!(f, "{}: {}", self.number(), self.sentence())?;
        self.place().map_or(Ok(()), |place| write!(f, " (relation {place})"))
    }
}

impl std::error::Error for Refusal {}

#[cfg(test)]
mod tests {
    use super::*;

    /// The numbers in use.
    fn numbers() -> impl Iterator<Item = u16> {
        1..=28
    }

    #[test]
    fn numbers_round_trip() {
        assert_eq!(Refusal::of_answer(0), Ok(()));
        for number in 1..=u16::MAX {
            let refusal = Refusal::of_answer(u32::from(number)).unwrap_err();
            assert_eq!(refusal.number(), number);
            let known = !matches!(refusal, Refusal::Other { .. });
            assert_eq!(known, numbers().any(|used| used == number));
        }
    }

    #[test]
    fn places_come_with_two_numbers() {
        for number in numbers() {
            let answer = u32::from(number) + 7 * 65_536;
            let place = Refusal::of_answer(answer).unwrap_err().place();
            assert_eq!(place, [13, 19].contains(&number).then_some(7));
        }
    }

    #[test]
    fn the_handbook_has_every_sentence_under_its_number() {
        let handbook = include_str!("../../../docs/HANDBOOK.md");
        for number in numbers() {
            let refusal = Refusal::new(number, 0);
            let heading = format!("### {number}. {}", refusal.sentence());
            assert!(handbook.lines().any(|line| line == heading), "{heading}");
        }
    }
}
