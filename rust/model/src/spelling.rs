//! Spelling rows as octets, by the rules of their types (01, "Types and their octets").

use crate::chars;
use crate::integer;
use crate::rows::Row;
use crate::types::{self, Kind};

/// A row with its string contents, wherever they stood.
#[derive(Clone, Debug, PartialEq, Eq)]
pub struct Told {
    pub row: Row,
    pub contents: Vec<u8>,
}

/// Rows nested deeper than this are no message's, exchanged or not.
const DEEPEST: usize = 64;

/// The octets of rows, which are those of one value; none where the rules give no octets to a row, or the counts of rows below do not
/// add up. What is spelt need not be accepted.
pub fn spell(rows: &[Told]) -> Option<Vec<u8>> {
    let mut octets = Vec::new();
    let past = spell_value(rows, 0, 1, &mut octets)?;
    (past == rows.len()).then_some(octets)
}

/// Spells the value of a row and of all below it, and gives the index past them.
fn spell_value(rows: &[Told], index: usize, depth: usize, octets: &mut Vec<u8>) -> Option<usize> {
    let Told { row, contents } = rows.get(index)?;
    let kind = types::kind(row.ty)?;
    let past = index + 1 + usize::try_from(row.below).ok()?;
    if depth > DEEPEST || past > rows.len() {
        return None;
    }
    if row.own == 1 {
        octets.extend(integer::spell(row.ty));
    }
    let (first, second) = kind.element_types();
    if first {
        octets.extend(integer::spell(row.first));
    }
    if second {
        octets.extend(integer::spell(row.second));
    }
    spell_number(kind, row.number, octets)?;
    octets.extend(contents);
    spell_inside(kind, &rows[..past], index + 1, depth + 1, octets)?;
    Some(past)
}

/// The octets of a number.
fn spell_number(kind: Kind, number: i64, octets: &mut Vec<u8>) -> Option<()> {
    match kind {
        Kind::Octet => octets.push(u8::try_from(number).ok()?),
        Kind::Float(4) => octets.extend(u32::try_from(number).ok()?.to_be_bytes()),
        Kind::Float(_) => octets.extend(number.to_be_bytes()),
        Kind::Char => octets.extend(chars::spell(u16::try_from(number).ok()?)),
        _ if kind.fixed_number().is_some() => {}
        _ => octets.extend(integer::spell(number)),
    }
    Some(())
}

/// The values inside one, up to the end of `rows`; where they have indexes, each after its own and -1 after the last.
fn spell_inside(kind: Kind, rows: &[Told], mut index: usize, depth: usize, octets: &mut Vec<u8>) -> Option<()> {
    let indexed = matches!(kind, Kind::Sparse { .. } | Kind::User);
    while index < rows.len() {
        if indexed {
            octets.extend(integer::spell(rows[index].row.label));
        }
        index = spell_value(rows, index, depth, octets)?;
    }
    if indexed {
        octets.extend(integer::spell(-1));
    }
    Some(())
}
