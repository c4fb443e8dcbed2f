//! Reading PIF-POF bench messages: safe functions over the boundary of the proved library, `libsumqadil.a` (see `build.rs` for where it lies).
//!
//! A message is one value. Its rows, one a value, are read into ten lent [`Columns`], or into a [`Table`] that owns them.
//!
//! ```
//! use sumqadil::{As, Table};
//!
//! // a length, the conversation number 7, and a message: a user type with two properties
//! let octets = [0x0D, 0x07, 0x05, 0x00, 0x00, 0x41, 0xA3, 0x01, 0x02, 0x4E, 0x02, 0x61, 0x62, 0x40];
//! let (frame, table) = Table::of_frame(&octets)?;
//! assert_eq!((frame.conversation, frame.rows), (7, 3));
//! let message = &octets[frame.message..];
//! assert_eq!(table.row(1).ask(As::Int32)?, 99);
//! assert_eq!(table.row(2).contents_in(message), Some(&b"ab"[..]));
//! # Ok::<(), sumqadil::Refusal>(())
//! ```

mod boundary;
mod refusal;
mod rows;

pub use refusal::{Reason, Refusal};
pub use rows::{Columns, Row, Table};

/// What a row may be asked for as.
#[derive(Clone, Copy, Debug, PartialEq, Eq)]
#[repr(u8)]
pub enum As {
    Int16 = 0,
    Int32 = 1,
    Int64 = 2,
    Octet = 3,
    Char = 4,
    Boolean = 5,
}

/// An accepted frame.
#[derive(Clone, Copy, Debug, PartialEq, Eq)]
pub struct Frame {
    /// The conversation number.
    pub conversation: i32,
    /// The place of the message in the frame. Places in rows count from there.
    pub message: usize,
    /// How many rows the message has.
    pub rows: usize,
}

/// The length of the first value; what follows it is not looked at.
///
/// ```
/// use sumqadil::{measure, Reason};
///
/// assert_eq!(measure(&[0x41, 0xA3, 0x01, 0xFF]), Ok(3));
/// let refusal = measure(&[0x41, 0xA3]).unwrap_err();
/// assert_eq!((refusal.reason, refusal.place), (Reason::Ended, 2));
/// ```
pub fn measure(octets: &[u8]) -> Result<usize, Refusal> {
    let (mut length, mut place) = (0, 0);
    // SAFETY: the slice and the two numbers are lent for the call.
    let status = unsafe { boundary::sumqadil_measure(octets.as_ptr(), octets.len(), &mut length, &mut place) };
    refusal::check(status, place)?;
    Ok(length)
}

/// How many rows reading a message needs.
///
/// ```
/// assert_eq!(sumqadil::count_rows(&[0x55, 0x03, 0x6A, 0x6B, 0x6C]), Ok(4));
/// ```
pub fn count_rows(message: &[u8]) -> Result<usize, Refusal> {
    let (mut rows, mut place) = (0, 0);
    // SAFETY: the slice and the two numbers are lent for the call.
    let status = unsafe { boundary::sumqadil_count_rows(message.as_ptr(), message.len(), &mut rows, &mut place) };
    refusal::check(status, place)?;
    Ok(rows)
}

/// Checks a frame, without columns.
///
/// ```
/// use sumqadil::{check_frame, Frame, Reason};
///
/// assert_eq!(check_frame(&[0x04, 0x07, 0x05, 0x00, 0x40]), Ok(Frame { conversation: 7, message: 2, rows: 1 }));
/// assert_eq!(check_frame(&[0x02, 0x07, 0x64]).unwrap_err().reason, Reason::NoUserType);
/// ```
pub fn check_frame(frame: &[u8]) -> Result<Frame, Refusal> {
    let (mut rows, mut conversation, mut message, mut place) = (0, 0, 0, 0);
    // SAFETY: the slice and the four numbers are lent for the call.
    let status = unsafe {
        boundary::sumqadil_check_frame(
            frame.as_ptr(),
            frame.len(),
            &mut rows,
            &mut conversation,
            &mut message,
            &mut place,
        )
    };
    refusal::check(status, place)?;
    Ok(Frame { conversation, message, rows })
}

/// The value of a row with this type and number, as the type asked for.
///
/// ```
/// use sumqadil::{ask, As, Reason};
///
/// assert_eq!(ask(-2, 300, As::Int16), Ok(300));
/// assert_eq!(ask(-2, -1, As::Octet), Ok(255));
/// assert_eq!(ask(-2, 300, As::Octet).unwrap_err().reason, Reason::OtherType);
/// assert_eq!(ask(-4, 300, As::Int64).unwrap_err().reason, Reason::BadRow);
/// ```
pub fn ask(ty: i32, number: i64, wanted: As) -> Result<i64, Refusal> {
    let mut value = 0;
    // SAFETY: the number is lent for the call.
    let status = unsafe { boundary::sumqadil_ask(ty, number, wanted as u8, &mut value) };
    refusal::check(status, 0)?;
    Ok(value)
}
