//! Packed integers (01, "Packed integers").

use crate::refusal::{refuse, require, Answer};

/// How wide an integer may be.
#[derive(Clone, Copy, Debug, PartialEq, Eq)]
pub enum Width {
    Int16,
    Int32,
    Int64,
}

impl Width {
    /// At most so many octets. An int16 is read as a 32-bit integer.
    fn octets(self) -> usize {
        match self {
            Width::Int16 | Width::Int32 => 5,
            Width::Int64 => 10,
        }
    }

    /// The greatest value; the least is one below its negative.
    pub fn most(self) -> i64 {
        match self {
            Width::Int16 => i16::MAX.into(),
            Width::Int32 => i32::MAX.into(),
            Width::Int64 => i64::MAX,
        }
    }

    /// Whether a value fits.
    pub fn fits(self, value: i64) -> bool {
        -1 - self.most() <= value && value <= self.most()
    }
}

/// The integer at a place, and the place past it. Refusals: 1 where the octets end, 3 at its first octet.
pub fn read(octets: &[u8], at: usize, width: Width) -> Answer<(i64, usize)> {
    let mut n: u128 = 0;
    let mut bits = 0;
    for count in 0..width.octets() {
        let Some(&octet) = octets.get(at + count) else {
            return refuse(1, octets.len());
        };
        let used = if count == 0 { 6 } else { 7 };
        n |= u128::from(octet & ((1 << used) - 1)) << bits;
        bits += used;
        if octet & 0x80 == 0 {
            require(count == 0 || octet != 0, 3, at)?;
            require(n <= width.most() as u128, 3, at)?;
            let n = n as i64;
            let negative = octets[at] & 0x40 != 0;
            return Ok((if negative { -1 - n } else { n }, at + count + 1));
        }
    }
    refuse(3, at)
}

/// The octets of an integer, in the shortest form.
pub fn spell(value: i64) -> Vec<u8> {
    let (negative, mut n) = if value < 0 { (0x40, -1 - value) } else { (0, value) };
    let mut octets = vec![negative | (n & 0x3F) as u8];
    n >>= 6;
    while n > 0 {
        *octets.last_mut().unwrap() |= 0x80;
        octets.push((n & 0x7F) as u8);
        n >>= 7;
    }
    octets
}

#[cfg(test)]
mod tests {
    use super::*;

    #[test]
    fn papers_examples() {
        let spelt: [(i64, &[u8]); 10] = [
            (0, &[0x00]),
            (99, &[0xA3, 0x01]),
            (9999, &[0x8F, 0x9C, 0x01]),
            (-1, &[0x40]),
            (-2, &[0x41]),
            (-99, &[0xE2, 0x01]),
            (-9999, &[0xCE, 0x9C, 0x01]),
            (1_048_575, &[0xBF, 0xFF, 0x7F]),
            (1_048_576, &[0x80, 0x80, 0x80, 0x01]),
            (2_147_483_647, &[0xBF, 0xFF, 0xFF, 0xFF, 0x0F]),
        ];
        for (value, octets) in spelt {
            assert_eq!(spell(value), octets);
            assert_eq!(read(octets, 0, Width::Int32), Ok((value, octets.len())));
        }
        assert_eq!(read(&[0xBF, 0xFF, 0xFF, 0xFF, 0x1F], 0, Width::Int32), refuse(3, 0));
        assert_eq!(read(&[0x80, 0x00], 0, Width::Int32), refuse(3, 0));
        assert_eq!(read(&[0x80; 4], 0, Width::Int32), refuse(1, 4));
        assert_eq!(read(&[0x80; 5], 0, Width::Int32), refuse(3, 0));
    }

    #[test]
    fn extremes_are_read_back() {
        for value in [i64::MIN, i64::MIN + 1, -65, -64, 63, 64, 8191, 8192, i64::MAX] {
            let octets = spell(value);
            assert_eq!(read(&octets, 0, Width::Int64), Ok((value, octets.len())));
        }
    }
}
