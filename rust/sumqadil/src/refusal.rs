//! Refusals.

use std::fmt;

/// A refusal. It leaves all lent columns as they were.
#[derive(Clone, Copy, Debug, PartialEq, Eq)]
pub struct Refusal {
    pub reason: Reason,
    /// Where in the octets given: for a frame, counted from its first octet.
    pub place: usize,
}

/// Why something is refused, by document 01's number, and where the place of the refusal is.
#[derive(Clone, Copy, Debug, PartialEq, Eq, PartialOrd, Ord)]
#[repr(u8)]
pub enum Reason {
    /// Octets end too soon: their count.
    Ended = 1,
    /// Over 65,535 octets: 0.
    TooLong = 2,
    /// Integer not shortest or not fitting: its first octet.
    BadInteger = 3,
    /// Type unknown, not carried, not allowed here: the identifier.
    BadType = 4,
    /// Negative size, length, version, identity or reference; index out of order or range: that integer.
    BadNumber = 5,
    /// Character misspelt, or cut by its string's end: its first octet.
    BadChar = 6,
    /// Date or time outside its ranges: its first data octet.
    BadTime = 7,
    /// Level 17: the value's start.
    TooDeep = 8,
    /// Identity given twice, or a 65th: the number; identity of identity: the inner identifier.
    BadIdentity = 9,
    /// Reference to no ended identity: the number.
    BadReference = 10,
    /// Octets left over: the first of them.
    LeftOver = 11,
    /// Fewer rows lent than needed: 0.
    FewRows = 12,
    /// Type unknown or not carried, or a number impossible for it: 0.
    BadRow = 14,
    /// Row can't be had as that type: 0.
    OtherType = 15,
    /// The frame's message isn't a user type: 0.
    NoUserType = 16,
}

impl Reason {
    /// The reason with a number of document 01; none for a number that no function here gives.
    ///
    /// ```
    /// use sumqadil::Reason;
    ///
    /// assert_eq!(Reason::of_number(3), Some(Reason::BadInteger));
    /// assert_eq!(Reason::of_number(0), None);
    /// ```
    pub fn of_number(number: u8) -> Option<Reason> {
        use Reason::*;
        Some(match number {
            1 => Ended,
            2 => TooLong,
            3 => BadInteger,
            4 => BadType,
            5 => BadNumber,
            6 => BadChar,
            7 => BadTime,
            8 => TooDeep,
            9 => BadIdentity,
            10 => BadReference,
            11 => LeftOver,
            12 => FewRows,
            14 => BadRow,
            15 => OtherType,
            16 => NoUserType,
            _ => return None,
        })
    }

    /// The number in document 01.
    pub fn number(self) -> u8 {
        self as u8
    }
}

impl fmt::Display for Refusal {
    fn fmt(&self, f: &mut fmt::Formatter<'_>) -> fmt::Result {
        write!(f, "refused: {} at {}", self.reason.number(), self.place)
    }
}

impl std::error::Error for Refusal {}

/// What a function of the boundary gave back: 0 for a result.
pub(crate) fn check(status: u8, place: usize) -> Result<(), Refusal> {
    if status == 0 {
        return Ok(());
    }
    let reason = Reason::of_number(status).expect("a number that the boundary gives");
    Err(Refusal { reason, place })
}
