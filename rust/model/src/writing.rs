//! Writing rows (01, "Numbers given back", on writing).

use crate::message::{read_message, MOST_OCTETS};
use crate::refusal::{refuse, require, Answer};
use crate::rows::Row;
use crate::spelling::{spell, Told};
use crate::types;

/// Ten columns in 01's order.
pub type Columns = [Vec<i64>; 10];

/// The octets of the rows in these columns, whose contents places point into `source`; `room` octets are lent for them.
pub fn write(columns: &Columns, source: &[u8], room: usize) -> Answer<Vec<u8>> {
    require(source.len() <= MOST_OCTETS, 2, 0)?;
    let Some(octets) = rows_of(columns).and_then(|rows| written(&rows, source)) else {
        return refuse(14, 0);
    };
    require(octets.len() <= room, 13, 0)?;
    Ok(octets)
}

/// The rows of columns of one length.
fn rows_of(columns: &Columns) -> Option<Vec<Row>> {
    let count = columns[0].len();
    if columns.iter().any(|column| column.len() != count) {
        return None;
    }
    let row = |i: usize| Row::from_numbers(std::array::from_fn(|c| columns[c][i]));
    Some((0..count).map(row).collect())
}

/// The accepted octets that have these rows: their spelling, if it is read as the same rows.
fn written(rows: &[Row], source: &[u8]) -> Option<Vec<u8>> {
    let given = told(rows, source)?;
    let octets = spell(&given)?;
    let read = read_message(&octets, rows.len()).ok()?;
    let read = told(&read, &octets)?;
    let same = read.iter().map(apart_from_places).eq(given.iter().map(apart_from_places));
    same.then_some(octets)
}

/// Rows with the contents that they point at; none if a contents place is not as it must be, or the contents alone are too long.
pub fn told(rows: &[Row], source: &[u8]) -> Option<Vec<Told>> {
    let mut total = 0;
    let mut all = Vec::new();
    for &row in rows {
        let contents = contents_of(&row, source)?.to_vec();
        total += contents.len();
        if total > MOST_OCTETS {
            return None;
        }
        all.push(Told { row, contents });
    }
    Some(all)
}

/// The contents of a row that has some; else none, and its place must be 0.
fn contents_of<'a>(row: &Row, source: &'a [u8]) -> Option<&'a [u8]> {
    if !types::kind(row.ty)?.has_contents() {
        return (row.contents == 0).then_some(&[]);
    }
    let place = usize::try_from(row.contents).ok()?;
    let length = usize::try_from(row.number).ok()?;
    source.get(place..place.checked_add(length)?)
}

/// A row without its places, and its contents.
fn apart_from_places(told: &Told) -> (Row, &[u8]) {
    (Row { contents: 0, start: 0, end: 0, ..told.row }, &told.contents)
}
