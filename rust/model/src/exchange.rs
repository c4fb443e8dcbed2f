//! Exchanging a property in a frame (01, "Exchanging a property").

use crate::integer;
use crate::message::{read_frame, read_message, Frame};
use crate::refusal::{refuse, require, Answer};
use crate::rows::Row;
use crate::spelling::{spell, Told};
use crate::writing::told;

/// The frame with property `index` exchanged for the replacement; `room` octets are lent for it.
pub fn exchange(frame: &[u8], replacement: &[u8], index: i64, room: usize) -> Answer<Vec<u8>> {
    let read = read_frame(frame, usize::MAX)?;
    let new = read_message(replacement, usize::MAX).map_err(|r| r.of_input(2))?;
    let property = find(&read.rows, index)?;
    let octets = afresh(&read, &frame[read.message..], property, &new, replacement);
    read_frame(&octets, usize::MAX).map_err(|r| r.of_input(3))?;
    require(octets.len() <= room, 13, 0)?;
    Ok(octets)
}

/// The row at level 2 with this label, else 16.
fn find(rows: &[Row], label: i64) -> Answer<usize> {
    let mut i = 1;
    while i < rows.len() {
        if rows[i].label == label {
            return Ok(i);
        }
        i = past(rows, i);
    }
    refuse(16, 0)
}

/// The index past a row and all rows below it.
fn past(rows: &[Row], i: usize) -> usize {
    i + 1 + rows[i].below as usize
}

/// The new frame: length, conversation number, exchanged rows, all spelt afresh.
fn afresh(old: &Frame, message: &[u8], property: usize, new: &[Row], replacement: &[u8]) -> Vec<u8> {
    let old_rows = told(&old.rows, message).expect("rows of an accepted message");
    let new_rows = told(new, replacement).expect("rows of an accepted message");
    let rows = exchanged(old_rows, property, past(&old.rows, property), new_rows);
    let mut body = integer::spell(old.conversation);
    body.extend(spell(&rows).expect("exchanged rows have a spelling"));
    let mut octets = integer::spell(body.len() as i64);
    octets.extend(body);
    octets
}

/// The rows from `from` up to `to` exchanged for new ones, whose outermost takes the label.
fn exchanged(mut old: Vec<Told>, from: usize, to: usize, mut new: Vec<Told>) -> Vec<Told> {
    new[0].row.label = old[from].row.label;
    old[0].row.below += new.len() as i64 - (to - from) as i64;
    old.splice(from..to, new);
    old
}

#[cfg(test)]
mod tests {
    use super::*;
    use crate::refusal::Refusal;

    const FRAME: [u8; 14] = [0x0D, 0x07, 0x05, 0x00, 0x00, 0x41, 0xA3, 0x01, 0x02, 0x4E, 0x02, 0x61, 0x62, 0x40];

    fn no(number: u8, place: usize, input: u8) -> Answer<Vec<u8>> {
        Err(Refusal { number, place, input })
    }

    #[test]
    fn papers_example() {
        let new = [0x0E, 0x07, 0x05, 0x00, 0x00, 0x41, 0x8F, 0x9C, 0x01, 0x02, 0x4E, 0x02, 0x61, 0x62, 0x40];
        assert_eq!(exchange(&FRAME, &[0x41, 0x8F, 0x9C, 0x01], 0, 15), Ok(new.to_vec()));
        assert_eq!(exchange(&FRAME, &[0x41, 0x8F, 0x9C, 0x01], 0, 14), no(13, 0, 1));
        assert_eq!(exchange(&FRAME, &[0x6A], 1, 15), no(16, 0, 1));
        assert_eq!(exchange(&FRAME, &[0x6A], -1, 15), no(16, 0, 1));
        assert_eq!(exchange(&FRAME, &[0x80, 0x00], 1, 15), no(3, 0, 2));
    }

    #[test]
    fn a_reference_left_without_an_aim() {
        let frame = [0x0B, 0x07, 0x05, 0x00, 0x00, 0x5E, 0x01, 0x6A, 0x01, 0x5F, 0x01, 0x40];
        assert_eq!(exchange(&frame, &[0x6A], 0, 100), no(10, 8, 3));
    }

    #[test]
    fn a_result_that_is_too_long() {
        let mut string = vec![0x4C];
        string.extend(integer::spell(65_530));
        string.resize(string.len() + 65_530, 0x20);
        assert_eq!(exchange(&FRAME, &string, 0, 100_000), no(2, 0, 3));
        string.extend([0, 0]);
        assert_eq!(exchange(&FRAME, &string, 0, 100_000), no(2, 0, 2));
    }
}
