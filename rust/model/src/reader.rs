//! Reading values into rows (01, "Types and their octets", "The rows"). Each step refuses as soon as 01's order lets it.

use crate::chars;
use crate::integer::{self, Width};
use crate::moment::{is_date, is_offset, is_time};
use crate::refusal::{refuse, require, Answer};
use crate::rows::Row;
use crate::types::{self, Kind};

/// Values are at level 1 to 16.
const LEVELS: usize = 16;
/// A message may give so many identities.
const IDENTITIES: usize = 64;

/// A reading in progress.
pub struct Reader<'a> {
    octets: &'a [u8],
    /// The place of the next octet.
    pub at: usize,
    /// Where the message begins: places in rows count from here.
    message: usize,
    /// The rows so far.
    pub rows: Vec<Row>,
    /// Numbers of the identities given, and of those whose value has ended.
    given: Vec<i64>,
    ended: Vec<i64>,
}

impl<'a> Reader<'a> {
    pub fn new(octets: &'a [u8]) -> Reader<'a> {
        Reader { octets, at: 0, message: 0, rows: Vec::new(), given: Vec::new(), ended: Vec::new() }
    }

    /// The message begins here; its outermost value is read.
    pub fn outermost(&mut self) -> Answer<()> {
        self.message = self.at;
        self.whole(0, 1)
    }

    // ---- octets and integers

    fn take(&mut self, count: usize) -> Answer<&'a [u8]> {
        let octets = self.octets;
        require(count <= octets.len() - self.at, 1, octets.len())?;
        self.at += count;
        Ok(&octets[self.at - count..self.at])
    }

    fn integer(&mut self, width: Width) -> Answer<i64> {
        let (value, past) = integer::read(self.octets, self.at, width)?;
        self.at = past;
        Ok(value)
    }

    /// A 32-bit integer.
    pub fn int32(&mut self) -> Answer<i64> {
        self.integer(Width::Int32)
    }

    /// A 32-bit integer of 0 or more, else 5.
    pub fn amount(&mut self) -> Answer<i64> {
        let place = self.at;
        let value = self.int32()?;
        require(value >= 0, 5, place)?;
        Ok(value)
    }

    // ---- values

    /// A value with its identifier.
    fn whole(&mut self, label: i64, level: usize) -> Answer<()> {
        let (start, ty, kind) = self.identifier()?;
        self.value(Row { ty, own: 1, label, ..Row::default() }, kind, start, level)
    }

    /// The value of an identity: any but an identity.
    fn identified(&mut self, level: usize) -> Answer<()> {
        let (start, ty, kind) = self.identifier()?;
        require(kind != Kind::Identity, 9, start)?;
        self.value(Row { ty, own: 1, ..Row::default() }, kind, start, level)
    }

    /// A value without its identifier.
    fn bare(&mut self, ty: i64, label: i64, level: usize) -> Answer<()> {
        let kind = types::kind(ty).expect("an element type is carried");
        self.value(Row { ty, label, ..Row::default() }, kind, self.at, level)
    }

    /// A value that is bare if it has an element type.
    fn element(&mut self, ty: Option<i64>, label: i64, level: usize) -> Answer<()> {
        match ty {
            Some(ty) => self.bare(ty, label, level),
            None => self.whole(label, level),
        }
    }

    fn identifier(&mut self) -> Answer<(usize, i64, Kind)> {
        let start = self.at;
        let ty = self.int32()?;
        match types::kind(ty) {
            Some(kind) => Ok((start, ty, kind)),
            None => refuse(4, start),
        }
    }

    /// The data of a value whose row is begun, and all rows below it.
    fn value(&mut self, row: Row, kind: Kind, start: usize, level: usize) -> Answer<()> {
        require(level <= LEVELS, 8, start)?;
        let index = self.rows.len();
        self.rows.push(row);
        self.data(index, kind, level)?;
        let (below, start, end) = (self.rows.len() - index - 1, self.place(start), self.place(self.at));
        let row = &mut self.rows[index];
        (row.below, row.start, row.end) = (below as i64, start, end);
        Ok(())
    }

    /// A place, counted from the message's first octet.
    fn place(&self, place: usize) -> i64 {
        (place - self.message) as i64
    }

    // ---- data

    fn data(&mut self, index: usize, kind: Kind, level: usize) -> Answer<()> {
        match kind {
            Kind::Integer(width) => self.rows[index].number = self.integer(width)?,
            Kind::Boolean => self.rows[index].number = self.int32()?,
            Kind::Octet => self.rows[index].number = self.take(1)?[0].into(),
            Kind::Float(octets) => self.rows[index].number = self.float(octets)?,
            Kind::Char => self.rows[index].number = self.char()?.into(),
            Kind::OctetString | Kind::CharString => self.string(index, kind)?,
            Kind::Moment { date, time } => self.moment(date, time)?,
            Kind::List { .. } => self.list(index, kind, level)?,
            Kind::Map { .. } => self.map(index, kind, level)?,
            Kind::Sparse { .. } => self.sparse(index, kind, level)?,
            Kind::User => self.user(index, level)?,
            Kind::Identity => self.identity(index, level)?,
            Kind::Reference => self.reference(index)?,
            Kind::Truth(_) | Kind::Null | Kind::Small(_) | Kind::Plain => {
                self.rows[index].number = kind.fixed_number().expect("no octets, so a fixed number")
            }
        }
        Ok(())
    }

    /// The bits of a float; those of eight octets as a signed number.
    fn float(&mut self, octets: usize) -> Answer<i64> {
        let bits = self.take(octets)?.iter().fold(0u64, |bits, &octet| bits << 8 | u64::from(octet));
        Ok(bits as i64)
    }

    /// A char alone: 6 for its first octet, then 1, then 6.
    fn char(&mut self) -> Answer<u16> {
        let place = self.at;
        let first = self.take(1)?[0];
        let Some(length) = chars::length(first) else {
            return refuse(6, place);
        };
        self.at = place;
        match chars::code(self.take(length)?) {
            Some(code) => Ok(code),
            None => refuse(6, place),
        }
    }

    /// Length, then contents: 1 if they are not all there, then 6.
    fn string(&mut self, index: usize, kind: Kind) -> Answer<()> {
        let length = self.amount()?;
        let place = self.at;
        let contents = self.take(length as usize)?;
        if kind == Kind::CharString {
            if let Some(fault) = chars::fault(contents) {
                return refuse(6, place + fault);
            }
        }
        self.rows[index].number = length;
        self.rows[index].contents = self.place(place);
        Ok(())
    }

    /// Date, time or both: all integers are read before 7, which stands at the value's first data octet.
    fn moment(&mut self, date: bool, time: bool) -> Answer<()> {
        let place = self.at;
        let mut label = 0;
        let mut fits = true;
        if date {
            let [year, month, day] = self.parts(&mut label)?;
            fits = is_date(year, month, day);
        }
        if time {
            let parts: [i64; 5] = self.parts(&mut label)?;
            fits = fits && is_time(parts);
            if parts[4] == 2 {
                let [hours, minutes] = self.parts(&mut label)?;
                fits = fits && is_offset(hours, minutes);
            }
        }
        require(fits, 7, place)
    }

    /// The next integers of a date or time, each a bare int32 row without a level.
    fn parts<const N: usize>(&mut self, label: &mut i64) -> Answer<[i64; N]> {
        let mut parts = [0; N];
        for part in &mut parts {
            let start = self.place(self.at);
            *part = self.int32()?;
            let end = self.place(self.at);
            self.rows.push(Row { ty: types::INT32, label: *label, number: *part, start, end, ..Row::default() });
            *label += 1;
        }
        Ok(parts)
    }

    /// The element types that a kind has, put into the row; 4 if one is not allowed.
    fn element_types(&mut self, index: usize, kind: Kind) -> Answer<(Option<i64>, Option<i64>)> {
        let (has_first, has_second) = kind.element_types();
        let first = if has_first { Some(self.element_type()?) } else { None };
        let second = if has_second { Some(self.element_type()?) } else { None };
        self.rows[index].first = first.unwrap_or(0);
        self.rows[index].second = second.unwrap_or(0);
        Ok((first, second))
    }

    fn element_type(&mut self) -> Answer<i64> {
        let place = self.at;
        let ty = self.int32()?;
        require(types::may_be_element(ty), 4, place)?;
        Ok(ty)
    }

    /// A collection or array: values labelled by position.
    fn list(&mut self, index: usize, kind: Kind, level: usize) -> Answer<()> {
        let (ty, _) = self.element_types(index, kind)?;
        let size = self.amount()?;
        self.rows[index].number = size;
        for position in 0..size {
            self.element(ty, position, level + 1)?;
        }
        Ok(())
    }

    /// A map: keys and values by turns, both labelled by their pair.
    fn map(&mut self, index: usize, kind: Kind, level: usize) -> Answer<()> {
        let (key, value) = self.element_types(index, kind)?;
        let size = self.amount()?;
        self.rows[index].number = size;
        for pair in 0..size {
            self.element(key, pair, level + 1)?;
            self.element(value, pair, level + 1)?;
        }
        Ok(())
    }

    /// A sparse array: values labelled by indexes below its size.
    fn sparse(&mut self, index: usize, kind: Kind, level: usize) -> Answer<()> {
        let (ty, _) = self.element_types(index, kind)?;
        let size = self.amount()?;
        self.rows[index].number = size;
        self.indexed(ty, size, level)
    }

    /// A user type: version, then properties. Any 32-bit index will do.
    fn user(&mut self, index: usize, level: usize) -> Answer<()> {
        self.rows[index].number = self.amount()?;
        self.indexed(None, i64::MAX, level)
    }

    /// Pairs of index and value, the indexes rising and below `size`, then -1.
    fn indexed(&mut self, ty: Option<i64>, size: i64, level: usize) -> Answer<()> {
        let mut least = 0;
        loop {
            let place = self.at;
            let index = self.int32()?;
            if index == -1 {
                return Ok(());
            }
            require(least <= index && index < size, 5, place)?;
            self.element(ty, index, level + 1)?;
            least = index + 1;
        }
    }

    /// An identity: its number counts as given at once, and as ended after its value.
    fn identity(&mut self, index: usize, level: usize) -> Answer<()> {
        let place = self.at;
        let number = self.amount()?;
        require(!self.given.contains(&number) && self.given.len() < IDENTITIES, 9, place)?;
        self.given.push(number);
        self.rows[index].number = number;
        self.identified(level + 1)?;
        self.ended.push(number);
        Ok(())
    }

    /// A reference: the number of an identity whose value has ended.
    fn reference(&mut self, index: usize) -> Answer<()> {
        let place = self.at;
        let number = self.amount()?;
        require(self.ended.contains(&number), 10, place)?;
        self.rows[index].number = number;
        Ok(())
    }
}
