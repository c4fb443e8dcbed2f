//! Asking a row for its value as a type, and looking up a label (01, "Asking a row", "The rows").

use crate::integer::Width;
use crate::refusal::{refuse, require, Answer};
use crate::rows::Row;
use crate::types::{self, Kind};

/// What a row may be asked for as.
#[derive(Clone, Copy, Debug, PartialEq, Eq)]
pub enum As {
    Int16,
    Int32,
    Int64,
    Octet,
    Char,
    Boolean,
}

/// The row's value as the type asked for. The row is judged first: 14, then 15.
pub fn ask(row: &Row, wanted: As) -> Answer<i64> {
    let Some(kind) = types::kind(row.ty) else {
        return refuse(14, 0);
    };
    require(possible(kind, row.number), 14, 0)?;
    match (kind, wanted) {
        (Kind::Null, _) => Ok(0),
        (Kind::Integer(_) | Kind::Small(_), _) => integer_as(row.number, wanted),
        (Kind::Octet, As::Octet) | (Kind::Char, As::Char) => Ok(row.number),
        (Kind::Boolean | Kind::Truth(_), As::Boolean) => Ok((row.number != 0).into()),
        _ => refuse(15, 0),
    }
}

/// The first row with a label is asked; 16 if there is none.
pub fn lookup(rows: &[Row], label: i64, wanted: As) -> Answer<i64> {
    match rows.iter().find(|row| row.label == label) {
        Some(row) => ask(row, wanted),
        None => refuse(16, 0),
    }
}

/// Whether a row of the kind can have this number.
fn possible(kind: Kind, number: i64) -> bool {
    match kind {
        Kind::Integer(width) => width.fits(number),
        Kind::Boolean => Width::Int32.fits(number),
        Kind::Octet => (0..=0xFF).contains(&number),
        Kind::Char => (0..=0xFFFF).contains(&number),
        Kind::Float(4) => (0..=0xFFFF_FFFF).contains(&number),
        Kind::Float(_) => true,
        Kind::OctetString | Kind::CharString => is_amount(number),
        Kind::List { .. } | Kind::Sparse { .. } | Kind::Map { .. } => is_amount(number),
        Kind::User | Kind::Identity | Kind::Reference => is_amount(number),
        Kind::Moment { .. } | Kind::Truth(_) | Kind::Null | Kind::Small(_) | Kind::Plain => {
            kind.fixed_number() == Some(number)
        }
    }
}

/// Whether it can be a length, size, version, identity or reference number.
fn is_amount(number: i64) -> bool {
    number >= 0 && Width::Int32.fits(number)
}

/// An integer row's value.
fn integer_as(value: i64, wanted: As) -> Answer<i64> {
    match wanted {
        As::Int16 => fitting(value, Width::Int16.fits(value)),
        As::Int32 => fitting(value, Width::Int32.fits(value)),
        As::Int64 => Ok(value),
        As::Octet => unsigned(value, 0xFF),
        As::Char => unsigned(value, 0xFFFF),
        As::Boolean => refuse(15, 0),
    }
}

fn fitting(value: i64, fits: bool) -> Answer<i64> {
    require(fits, 15, 0)?;
    Ok(value)
}

/// A value from 0 to `most`, which -1 stands for too.
fn unsigned(value: i64, most: i64) -> Answer<i64> {
    if value == -1 {
        return Ok(most);
    }
    fitting(value, (0..=most).contains(&value))
}

#[cfg(test)]
mod tests {
    use super::*;
    use crate::message::read_message;

    #[test]
    fn the_first_row_with_the_label() {
        let octets = [0x05, 0x00, 0x00, 0x41, 0xA3, 0x01, 0x02, 0x4E, 0x02, 0x61, 0x62, 0x40];
        let rows = read_message(&octets, 3).unwrap();
        assert_eq!(lookup(&rows, 0, As::Int32), refuse(15, 0));
        assert_eq!(lookup(&rows[1..], 0, As::Int32), Ok(99));
        assert_eq!(lookup(&rows[1..], 2, As::Int32), refuse(15, 0));
        assert_eq!(lookup(&rows, 1, As::Int32), refuse(16, 0));
        assert_eq!(lookup(&[], 0, As::Int32), refuse(16, 0));
    }

    #[test]
    fn minus_one_without_a_sign() {
        let row = Row { ty: -41, number: -1, ..Row::default() };
        assert_eq!(ask(&row, As::Octet), Ok(255));
        assert_eq!(ask(&row, As::Char), Ok(65_535));
        assert_eq!(ask(&row, As::Int16), Ok(-1));
    }
}
