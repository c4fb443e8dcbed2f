//! The desk program's text (01, the whole example).

use crate::message::{read_frame, Frame};
use crate::refusal::{refuse, Answer};

/// At most so many rows are listed.
const MOST_ROWS: usize = 256;
/// A line has at most so many digits.
const MOST_DIGITS: usize = 8_192;

/// What the desk prints for all that comes in: an answer for each line. Octets after the last line feed are a line that lacks its own.
pub fn desk(input: &[u8]) -> String {
    input.split_inclusive(|&octet| octet == b'\n').map(|line| print(line_answer(line))).collect()
}

/// The frame on a line; 17 if it is not a line of digits in pairs with its line feed.
fn line_answer(line: &[u8]) -> Answer<Frame> {
    match line.strip_suffix(b"\n").and_then(octets) {
        Some(octets) => read_frame(&octets, MOST_ROWS),
        None => refuse(17, 0),
    }
}

/// The octets that 2 to 8,192 upper-case digits say.
fn octets(digits: &[u8]) -> Option<Vec<u8>> {
    if digits.is_empty() || digits.len() > MOST_DIGITS || digits.len() % 2 == 1 {
        return None;
    }
    digits.chunks(2).map(|pair| Some(digit(pair[0])? << 4 | digit(pair[1])?)).collect()
}

fn digit(octet: u8) -> Option<u8> {
    match octet {
        b'0'..=b'9' => Some(octet - b'0'),
        b'A'..=b'F' => Some(octet - b'A' + 10),
        _ => None,
    }
}

/// The text of an answer.
fn print(answer: Answer<Frame>) -> String {
    match answer {
        Ok(frame) => {
            let mut text = format!("ok {} {}\n", frame.conversation, frame.rows.len());
            for row in &frame.rows {
                text.push_str(&row.numbers().map(|n| n.to_string()).join(" "));
                text.push('\n');
            }
            text
        }
        Err(refusal) => format!("no {} {}\n", refusal.number, refusal.place),
    }
}

#[cfg(test)]
mod tests {
    use super::*;
    use crate::integer;

    #[test]
    fn papers_example() {
        let listing = "ok 7 3\n5 1 0 0 0 0 0 2 0 12\n-2 1 0 99 0 0 0 0 3 6\n-15 1 2 2 0 0 9 0 7 11\n";
        assert_eq!(desk(b"0D0705000041A301024E02616240\n"), listing);
        assert_eq!(desk(b"0D0705000041A301024E02616240"), "no 17 0\n");
        assert_eq!(desk(b"zz\n\n0007\n"), "no 17 0\nno 17 0\nno 11 1\n");
        assert_eq!(desk(b""), "");
    }

    #[test]
    fn long_lines_and_many_rows() {
        let line = |digits: usize| [vec![b'0'; digits], vec![b'\n']].concat();
        assert_eq!(desk(&line(8_192)), "no 11 1\n");
        assert_eq!(desk(&line(8_194)), "no 17 0\n");
        // nulls in a collection that is property 0
        let frame = |nulls: usize| {
            let message =
                [vec![0x05, 0x00, 0x00, 0x55], integer::spell(nulls as i64), vec![0x64; nulls], vec![0x40]].concat();
            let frame = [integer::spell(message.len() as i64 + 1), vec![0x07], message].concat();
            frame.iter().map(|octet| format!("{octet:02X}")).collect::<String>() + "\n"
        };
        assert!(desk(frame(254).as_bytes()).starts_with("ok 7 256\n"));
        assert_eq!(desk(frame(255).as_bytes()), "no 12 0\n");
    }
}
