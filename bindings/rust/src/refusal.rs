//! Why a call was refused.

use std::error::Error;
use std::fmt;

/// The first question that was answered no. The number is the specification's.
#[derive(Clone, Copy, Debug, PartialEq, Eq, Hash)]
#[repr(u64)]
pub enum Refusal {
    /// The length is above 65,536 bits.
    Length = 1,
    /// The lent slice has fewer words than the length needs.
    Words = 2,
    /// A bit from the length up is set in the set's words.
    StrayBits = 3,
    /// The position is not below the length; of a renumbering, a new offset is not below the new length.
    Position = 4,
    /// The range is inverted or ends above the length.
    Range = 5,
    /// The new length is above 65,536 bits.
    NewLength = 6,
    /// The buffer to be written has too few words for the new length.
    Room = 7,
    /// The record of a walk is not within its set.
    Record = 8,
    /// The word has no bit.
    NoBit = 9,
    /// Two pairs share an old offset.
    SharedOld = 10,
    /// Two pairs share a new offset.
    SharedNew = 11,
    /// A member has no pair.
    NoPair = 12,
}

impl Refusal {
    /// The specification's number, 1 to 12.
    ///
    /// ```
    /// assert_eq!(lent_bit_sets::Refusal::Range.number(), 5);
    /// ```
    pub const fn number(self) -> u64 {
        self as u64
    }

    /// The refusal of a number; none for 0 and for numbers that name none.
    ///
    /// ```
    /// use lent_bit_sets::Refusal;
    /// assert_eq!(Refusal::from_number(7), Some(Refusal::Room));
    /// assert_eq!(Refusal::from_number(0), None);
    /// ```
    pub const fn from_number(number: u64) -> Option<Refusal> {
        Some(match number {
            1 => Refusal::Length,
            2 => Refusal::Words,
            3 => Refusal::StrayBits,
            4 => Refusal::Position,
            5 => Refusal::Range,
            6 => Refusal::NewLength,
            7 => Refusal::Room,
            8 => Refusal::Record,
            9 => Refusal::NoBit,
            10 => Refusal::SharedOld,
            11 => Refusal::SharedNew,
            12 => Refusal::NoPair,
            _ => return None,
        })
    }
}

impl fmt::Display for Refusal {
    fn fmt(&self, f: &mut fmt::Formatter<'_>) -> fmt::Result {
        f.write_str(match self {
            Refusal::Length => "the length is above 65,536 bits",
            Refusal::Words => "the lent slice has fewer words than the length needs",
            Refusal::StrayBits => "a bit from the length up is set",
            Refusal::Position => "the position is not below the length",
            Refusal::Range => "the range is inverted or ends above the length",
            Refusal::NewLength => "the new length is above 65,536 bits",
            Refusal::Room => "the buffer has too few words for the new length",
            Refusal::Record => "the record of the walk is not within its set",
            Refusal::NoBit => "the word has no bit",
            Refusal::SharedOld => "two pairs share an old offset",
            Refusal::SharedNew => "two pairs share a new offset",
            Refusal::NoPair => "a member has no pair",
        })
    }
}

impl Error for Refusal {}

/// The answer of a call, or its refusal.
#[inline]
pub(crate) fn accepted<T>(number: u64, answer: T) -> Result<T, Refusal> {
    if number == 0 {
        Ok(answer)
    } else {
        Err(refused(number))
    }
}

#[cold]
fn refused(number: u64) -> Refusal {
    Refusal::from_number(number).unwrap_or_else(|| panic!("the engine gave the number {number}, which names no refusal"))
}

/// Sets that passed questions 1 to 3 leave some calls nothing to refuse.
pub(crate) const UNREFUSED: &str = "a call on whole sets was refused";

/// The answer of such a call.
#[inline]
pub(crate) fn unrefused<T>(number: u64, answer: T) -> T {
    accepted(number, answer).expect(UNREFUSED)
}
