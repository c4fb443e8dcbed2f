//! Characters: 16-bit codes in one to three octets (01, "Char").

/// The octets of a code.
pub fn spell(code: u16) -> Vec<u8> {
    let last = 0x80 | (code & 0x3F) as u8;
    match code {
        0x01..=0x7F => vec![code as u8],
        0 | 0x80..=0x7FF => vec![0xC0 | (code >> 6) as u8, last],
        _ => vec![0xE0 | (code >> 12) as u8, 0x80 | (code >> 6 & 0x3F) as u8, last],
    }
}

/// How many octets a character has, by its first; none if no character begins so.
pub fn length(first: u8) -> Option<usize> {
    match first {
        0x01..=0x7F => Some(1),
        0xC0..=0xDF => Some(2),
        0xE0..=0xEF => Some(3),
        _ => None,
    }
}

/// The code that these octets, and all of them, spell; none if they are not the spelling of a code.
pub fn code(octets: &[u8]) -> Option<u16> {
    let (&first, rest) = octets.split_first()?;
    if rest.len() + 1 != length(first)? {
        return None;
    }
    let high = match rest.len() {
        0 => first,
        1 => first & 0x1F,
        _ => first & 0x0F,
    };
    let code = rest.iter().fold(u16::from(high), |code, octet| code << 6 | u16::from(octet & 0x3F));
    (spell(code) == octets).then_some(code)
}

/// Where the first character that is misspelt or cut begins in string contents.
pub fn fault(contents: &[u8]) -> Option<usize> {
    let mut at = 0;
    while at < contents.len() {
        let Some(n) = length(contents[at]) else {
            return Some(at);
        };
        if contents.get(at..at + n).and_then(code).is_none() {
            return Some(at);
        }
        at += n;
    }
    None
}

#[cfg(test)]
mod tests {
    use super::*;

    #[test]
    fn every_code_is_read_back() {
        for c in 0..=u16::MAX {
            assert_eq!(code(&spell(c)), Some(c));
        }
    }

    #[test]
    fn misspelt() {
        let wrong: [&[u8]; 7] =
            [&[0x00], &[0x80], &[0xC1, 0xBF], &[0xC2, 0x00], &[0xE0, 0x80, 0x80], &[0xF0, 0x80], &[0xC3]];
        for octets in wrong {
            assert_eq!(code(octets), None);
            assert_eq!(fault(octets), Some(0));
        }
        assert_eq!(fault(&[0x61, 0xC3]), Some(1));
        assert_eq!(fault(&[0x61, 0xC0, 0x80]), None);
    }
}
