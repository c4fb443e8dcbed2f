//! Rows and columns.

use crate::{ask, boundary, check_frame, count_rows, refusal, As, Frame, Refusal};

/// What is told of one value of a message.
#[derive(Clone, Copy, Debug, Default, PartialEq, Eq)]
pub struct Row {
    /// Type identifier.
    pub ty: i32,
    /// 1 if the identifier stands in the octets, 0 if the value is bare.
    pub own: u8,
    /// Position, pair position, index or property index; 0 for the outermost value and under an identity.
    pub label: u32,
    /// What the value says as a number: an integer, bits of a float, a length, a size and so on.
    pub number: i64,
    /// First element type of a uniform form, 0 where none.
    pub first: i32,
    /// Second element type, 0 where none.
    pub second: i32,
    /// Place of string contents, 0 for the others.
    pub contents: u32,
    /// How many rows follow that are inside this one.
    pub below: u32,
    /// Place of the value.
    pub start: u32,
    /// Place just past it.
    pub end: u32,
}

impl Row {
    /// The value as the type asked for.
    ///
    /// ```
    /// use sumqadil::{As, Reason, Table};
    ///
    /// let table = Table::of_message(&[0x41, 0xA3, 0x01])?;
    /// assert_eq!(table.row(0).ask(As::Octet), Ok(99));
    /// assert_eq!(table.row(0).ask(As::Boolean).unwrap_err().reason, Reason::OtherType);
    /// # Ok::<(), sumqadil::Refusal>(())
    /// ```
    pub fn ask(&self, wanted: As) -> Result<i64, Refusal> {
        ask(self.ty, self.number, wanted)
    }

    /// The contents of an octet string (-13) or char string (-15) in its message; none for other types, or where they don't lie there.
    ///
    /// ```
    /// let message = [0x4E, 0x02, 0x6F, 0x6B];
    /// let table = sumqadil::Table::of_message(&message)?;
    /// assert_eq!(table.row(0).contents_in(&message), Some(&b"ok"[..]));
    /// # Ok::<(), sumqadil::Refusal>(())
    /// ```
    pub fn contents_in<'a>(&self, message: &'a [u8]) -> Option<&'a [u8]> {
        if self.ty != -13 && self.ty != -15 {
            return None;
        }
        let start = usize::try_from(self.contents).ok()?;
        let length = usize::try_from(self.number).ok()?;
        message.get(start..start.checked_add(length)?)
    }
}

/// Ten lent columns. As many rows may be used as the shortest has.
///
/// ```
/// use sumqadil::{Columns, Reason};
///
/// let mut columns = Columns {
///     ty: &mut [0; 4],
///     own: &mut [0; 4],
///     label: &mut [0; 4],
///     number: &mut [0; 4],
///     first: &mut [0; 4],
///     second: &mut [0; 4],
///     contents: &mut [0; 4],
///     below: &mut [0; 4],
///     start: &mut [0; 4],
///     end: &mut [0; 2],
/// };
/// assert_eq!(columns.read_message(&[0x55, 0x01, 0x6A]), Ok(2));
/// assert_eq!(columns.number[..3], [1, 1, 0]);
/// // three rows, and one column has two
/// assert_eq!(columns.read_message(&[0x55, 0x02, 0x6A, 0x6B]).unwrap_err().reason, Reason::FewRows);
/// ```
#[derive(Debug)]
pub struct Columns<'a> {
    pub ty: &'a mut [i32],
    pub own: &'a mut [u8],
    pub label: &'a mut [u32],
    pub number: &'a mut [i64],
    pub first: &'a mut [i32],
    pub second: &'a mut [i32],
    pub contents: &'a mut [u32],
    pub below: &'a mut [u32],
    pub start: &'a mut [u32],
    pub end: &'a mut [u32],
}

/// Calls a function of the boundary with octets, the ten columns, and the numbers that are lent for its answer.
macro_rules! lend {
    ($function:ident, $octets:expr, $columns:expr, $($number:expr),*) => {
        // SAFETY: the slices and the numbers are lent for the call, and none overlaps another.
        unsafe {
            boundary::$function(
                $octets.as_ptr(),
                $octets.len(),
                $columns.ty.as_mut_ptr(),
                $columns.ty.len(),
                $columns.own.as_mut_ptr(),
                $columns.own.len(),
                $columns.label.as_mut_ptr(),
                $columns.label.len(),
                $columns.number.as_mut_ptr(),
                $columns.number.len(),
                $columns.first.as_mut_ptr(),
                $columns.first.len(),
                $columns.second.as_mut_ptr(),
                $columns.second.len(),
                $columns.contents.as_mut_ptr(),
                $columns.contents.len(),
                $columns.below.as_mut_ptr(),
                $columns.below.len(),
                $columns.start.as_mut_ptr(),
                $columns.start.len(),
                $columns.end.as_mut_ptr(),
                $columns.end.len(),
                $($number),*
            )
        }
    };
}

impl Columns<'_> {
    /// Reads a message, and gives the count of its rows. Row i is element i of each column; what lies past the rows is left as it was.
    pub fn read_message(&mut self, message: &[u8]) -> Result<usize, Refusal> {
        let (mut rows, mut place) = (0, 0);
        let status = lend!(sumqadil_read_message, message, self, &mut rows, &mut place);
        refusal::check(status, place)?;
        Ok(rows)
    }

    /// Reads a frame, and its message's rows as above. Their places count from the message's first octet.
    ///
    /// ```
    /// let mut table = sumqadil::Table::with_rows(10);
    /// let frame = table.columns().read_frame(&[0x06, 0x07, 0x05, 0x00, 0x03, 0x64, 0x40])?;
    /// assert_eq!(frame.rows, 2);
    /// # Ok::<(), sumqadil::Refusal>(())
    /// ```
    pub fn read_frame(&mut self, frame: &[u8]) -> Result<Frame, Refusal> {
        let (mut rows, mut conversation, mut message, mut place) = (0, 0, 0, 0);
        let status = lend!(sumqadil_read_frame, frame, self, &mut rows, &mut conversation, &mut message, &mut place);
        refusal::check(status, place)?;
        Ok(Frame { conversation, message, rows })
    }
}

/// Ten columns that are owned. It may be used again for message after message.
#[derive(Clone, Debug, Default)]
pub struct Table {
    ty: Vec<i32>,
    own: Vec<u8>,
    label: Vec<u32>,
    number: Vec<i64>,
    first: Vec<i32>,
    second: Vec<i32>,
    contents: Vec<u32>,
    below: Vec<u32>,
    start: Vec<u32>,
    end: Vec<u32>,
}

impl Table {
    /// Columns of this many rows, all 0.
    ///
    /// ```
    /// use sumqadil::{Reason, Table};
    ///
    /// let mut table = Table::with_rows(4);
    /// assert_eq!(table.columns().read_message(&[0x55, 0x03, 0x6A, 0x6B, 0x6C]), Ok(4));
    /// assert_eq!(table.row(3).number, 3);
    /// let refusal = Table::with_rows(3).columns().read_message(&[0x55, 0x03, 0x6A, 0x6B, 0x6C]).unwrap_err();
    /// assert_eq!(refusal.reason, Reason::FewRows);
    /// ```
    pub fn with_rows(rows: usize) -> Table {
        Table {
            ty: vec![0; rows],
            own: vec![0; rows],
            label: vec![0; rows],
            number: vec![0; rows],
            first: vec![0; rows],
            second: vec![0; rows],
            contents: vec![0; rows],
            below: vec![0; rows],
            start: vec![0; rows],
            end: vec![0; rows],
        }
    }

    /// The rows of a message, in just as many.
    ///
    /// ```
    /// let table = sumqadil::Table::of_message(&[0x55, 0x02, 0x6A, 0x6B])?;
    /// let numbers: Vec<i64> = (0..table.len()).map(|i| table.row(i).number).collect();
    /// assert_eq!(numbers, [2, 1, 2]);
    /// # Ok::<(), sumqadil::Refusal>(())
    /// ```
    pub fn of_message(message: &[u8]) -> Result<Table, Refusal> {
        let mut table = Table::with_rows(count_rows(message)?);
        table.columns().read_message(message)?;
        Ok(table)
    }

    /// A frame, and the rows of its message, in just as many.
    ///
    /// ```
    /// let (frame, table) = sumqadil::Table::of_frame(&[0x06, 0x07, 0x05, 0x00, 0x03, 0x64, 0x40])?;
    /// assert_eq!((frame.conversation, frame.message), (7, 2));
    /// assert_eq!(table.row(1).label, 3);
    /// # Ok::<(), sumqadil::Refusal>(())
    /// ```
    pub fn of_frame(frame: &[u8]) -> Result<(Frame, Table), Refusal> {
        let mut table = Table::with_rows(check_frame(frame)?.rows);
        let read = table.columns().read_frame(frame)?;
        Ok((read, table))
    }

    /// The columns, lent.
    pub fn columns(&mut self) -> Columns<'_> {
        Columns {
            ty: &mut self.ty,
            own: &mut self.own,
            label: &mut self.label,
            number: &mut self.number,
            first: &mut self.first,
            second: &mut self.second,
            contents: &mut self.contents,
            below: &mut self.below,
            start: &mut self.start,
            end: &mut self.end,
        }
    }

    /// How many rows there are, used or not.
    pub fn len(&self) -> usize {
        self.ty.len()
    }

    pub fn is_empty(&self) -> bool {
        self.ty.is_empty()
    }

    /// Row i, which must be below `len`.
    pub fn row(&self, i: usize) -> Row {
        Row {
            ty: self.ty[i],
            own: self.own[i],
            label: self.label[i],
            number: self.number[i],
            first: self.first[i],
            second: self.second[i],
            contents: self.contents[i],
            below: self.below[i],
            start: self.start[i],
            end: self.end[i],
        }
    }
}
