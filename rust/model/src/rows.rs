//! Rows (01, "The rows").

/// One value of a message. Ten numbers, in 01's order; all are `i64` here, so that a test may give any.
#[derive(Clone, Copy, Debug, Default, PartialEq, Eq)]
pub struct Row {
    /// The type identifier.
    pub ty: i64,
    /// 1 if the identifier stands in the octets, 0 if the value is bare.
    pub own: i64,
    /// Position, pair position, index or property index.
    pub label: i64,
    /// What the value says as a number; 0 where it says none.
    pub number: i64,
    /// First element type, 0 where none.
    pub first: i64,
    /// Second element type, 0 where none.
    pub second: i64,
    /// Place of string contents, 0 for the others.
    pub contents: i64,
    /// All rows below this one.
    pub below: i64,
    /// The identifier, or the first data octet if bare. A message place.
    pub start: i64,
    /// Just past the value. A message place.
    pub end: i64,
}

impl Row {
    /// The ten numbers in 01's order.
    pub fn numbers(&self) -> [i64; 10] {
        [
            self.ty,
            self.own,
            self.label,
            self.number,
            self.first,
            self.second,
            self.contents,
            self.below,
            self.start,
            self.end,
        ]
    }

    /// The row with these ten numbers.
    pub fn from_numbers(n: [i64; 10]) -> Row {
        Row {
            ty: n[0],
            own: n[1],
            label: n[2],
            number: n[3],
            first: n[4],
            second: n[5],
            contents: n[6],
            below: n[7],
            start: n[8],
            end: n[9],
        }
    }
}
