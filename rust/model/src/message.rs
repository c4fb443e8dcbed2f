//! Messages, measuring and frames (01, "The frame" and the order in "Numbers given back").

use crate::reader::Reader;
use crate::refusal::{require, Answer};
use crate::rows::Row;

/// No input or result may have more octets.
pub const MOST_OCTETS: usize = 65_535;

/// An accepted frame.
#[derive(Clone, Debug, PartialEq, Eq)]
pub struct Frame {
    pub conversation: i64,
    /// Where its message begins in it.
    pub message: usize,
    /// The message's rows, with message places.
    pub rows: Vec<Row>,
}

/// The rows of a message, if they are at most `lent`.
pub fn read_message(octets: &[u8], lent: usize) -> Answer<Vec<Row>> {
    let mut reader = begin(octets)?;
    reader.outermost()?;
    require(reader.at == octets.len(), 11, reader.at)?;
    require(reader.rows.len() <= lent, 12, 0)?;
    Ok(reader.rows)
}

/// The length of the first value in a run of octets.
pub fn measure(octets: &[u8]) -> Answer<usize> {
    let mut reader = begin(octets)?;
    reader.outermost()?;
    Ok(reader.at)
}

/// A frame, if its message has at most `lent` rows.
pub fn read_frame(octets: &[u8], lent: usize) -> Answer<Frame> {
    let mut reader = begin(octets)?;
    let length = reader.amount()? as usize;
    let end = reader.at + length;
    require(end <= octets.len(), 1, octets.len())?;
    require(end == octets.len(), 11, end)?;
    let conversation = reader.int32()?;
    let message = reader.at;
    reader.outermost()?;
    require(reader.at == octets.len(), 11, reader.at)?;
    require(reader.rows[0].ty >= 0, 16, 0)?;
    require(reader.rows.len() <= lent, 12, 0)?;
    Ok(Frame { conversation, message, rows: reader.rows })
}

/// A reading of octets that are not too many.
fn begin(octets: &[u8]) -> Answer<Reader<'_>> {
    require(octets.len() <= MOST_OCTETS, 2, 0)?;
    Ok(Reader::new(octets))
}

#[cfg(test)]
mod tests {
    use super::*;
    use crate::refusal::refuse;

    #[test]
    fn too_many_octets() {
        let octets = vec![0x64; MOST_OCTETS + 1];
        assert_eq!(read_message(&octets, 1), refuse(2, 0));
        assert_eq!(measure(&octets), refuse(2, 0));
        assert_eq!(read_frame(&octets, 1), refuse(2, 0));
        assert_eq!(measure(&octets[1..]), Ok(1));
        assert_eq!(read_message(&octets[1..], 1), refuse(11, 1));
    }

    #[test]
    fn too_few_rows() {
        assert_eq!(read_message(&[0x55, 0x01, 0x6A], 1), refuse(12, 0));
        assert_eq!(read_message(&[0x55, 0x01, 0x6A], 2).unwrap().len(), 2);
        assert_eq!(read_frame(&[0x05, 0x07, 0x05, 0x00, 0x00, 0x6A], 1), refuse(1, 6));
        assert_eq!(read_frame(&[0x06, 0x07, 0x05, 0x00, 0x00, 0x6A, 0x40], 1), refuse(12, 0));
    }
}
