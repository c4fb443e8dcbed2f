//! The types (01, "Types and their octets").

use crate::integer::Width;

/// The identifier of int32, the type of a date's or time's integers.
pub const INT32: i64 = -2;
/// The identifier of an identity.
pub const IDENTITY: i64 = -31;

/// What a carried type is.
#[derive(Clone, Copy, Debug, PartialEq, Eq)]
pub enum Kind {
    Integer(Width),
    /// A float of 4 or 8 octets.
    Float(usize),
    Boolean,
    Octet,
    OctetString,
    Char,
    CharString,
    /// A date, a time, or both.
    Moment {
        date: bool,
        time: bool,
    },
    /// A collection or an array.
    List {
        uniform: bool,
    },
    Sparse {
        uniform: bool,
    },
    Map {
        bare_keys: bool,
        bare_values: bool,
    },
    User,
    Identity,
    Reference,
    /// False or true.
    Truth(bool),
    Null,
    /// An integer in one octet.
    Small(i64),
    /// Empty string, empty collection, the infinities, NaN.
    Plain,
}

/// The kind of a type identifier; none if it is unknown or not carried.
pub fn kind(ty: i64) -> Option<Kind> {
    Some(match ty {
        0..=0x7FFF_FFFF => Kind::User,
        -1 => Kind::Integer(Width::Int16),
        -2 => Kind::Integer(Width::Int32),
        -3 => Kind::Integer(Width::Int64),
        -5 => Kind::Float(4),
        -6 => Kind::Float(8),
        -11 => Kind::Boolean,
        -12 => Kind::Octet,
        -13 => Kind::OctetString,
        -14 => Kind::Char,
        -15 => Kind::CharString,
        -16 => Kind::Moment { date: true, time: false },
        -18 => Kind::Moment { date: false, time: true },
        -20 => Kind::Moment { date: true, time: true },
        -22 | -24 => Kind::List { uniform: false },
        -23 | -25 => Kind::List { uniform: true },
        -26 => Kind::Sparse { uniform: false },
        -27 => Kind::Sparse { uniform: true },
        -28 => Kind::Map { bare_keys: false, bare_values: false },
        -29 => Kind::Map { bare_keys: true, bare_values: false },
        -30 => Kind::Map { bare_keys: true, bare_values: true },
        IDENTITY => Kind::Identity,
        -32 => Kind::Reference,
        -33 => Kind::Truth(false),
        -34 => Kind::Truth(true),
        -37 => Kind::Null,
        -40..=-35 => Kind::Plain,
        -64..=-41 => Kind::Small(-42 - ty),
        _ => return None,
    })
}

/// Whether a type may be the element, key or value type of a uniform form.
pub fn may_be_element(ty: i64) -> bool {
    ty > IDENTITY && kind(ty).is_some()
}

impl Kind {
    /// Whether it has a first and a second element type.
    pub fn element_types(self) -> (bool, bool) {
        match self {
            Kind::List { uniform } | Kind::Sparse { uniform } => (uniform, false),
            Kind::Map { bare_keys, bare_values } => (bare_keys, bare_values),
            _ => (false, false),
        }
    }

    /// Whether it has string contents.
    pub fn has_contents(self) -> bool {
        matches!(self, Kind::OctetString | Kind::CharString)
    }

    /// The number of every row of the type, where that is fixed.
    pub fn fixed_number(self) -> Option<i64> {
        match self {
            Kind::Moment { .. } | Kind::Null | Kind::Plain => Some(0),
            Kind::Truth(truth) => Some(truth.into()),
            Kind::Small(n) => Some(n),
            _ => None,
        }
    }
}
