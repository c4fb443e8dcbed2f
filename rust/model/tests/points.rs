//! Points of 01 that are settled only by a close reading, in octets.

use sumqadil_model::*;

fn octets(hexadecimal: &str) -> Vec<u8> {
    let pair = |i| u8::from_str_radix(&hexadecimal[i..i + 2], 16).unwrap();
    (0..hexadecimal.len()).step_by(2).map(pair).collect()
}

/// The number and place of a refused message; none if it is accepted.
fn message(hexadecimal: &str) -> Option<(u8, usize)> {
    read_message(&octets(hexadecimal), usize::MAX).err().map(|r| (r.number, r.place))
}

fn frame(hexadecimal: &str) -> Option<(u8, usize)> {
    read_frame(&octets(hexadecimal), usize::MAX).err().map(|r| (r.number, r.place))
}

#[test]
fn a_string_of_no_octets_has_a_place() {
    let place = |hexadecimal: &str| read_message(&octets(hexadecimal), 2).unwrap().last().unwrap().contents;
    assert_eq!(place("4E00"), 2);
    assert_eq!(place("564E0100"), 4);
    assert_eq!(place("62"), 0);
}

#[test]
fn a_moment_is_read_whole_before_7() {
    assert_eq!(message("53000D01"), Some((1, 4)));
    assert_eq!(message("53000D018000"), Some((3, 4)));
    assert_eq!(message("530001011800000000"), Some((7, 1)));
}

#[test]
fn frames() {
    assert_eq!(frame("06075E01050040"), Some((16, 0)));
    assert_eq!(frame("0440050040"), None);
    assert_eq!(frame("0107"), Some((1, 2)));
    assert_eq!(frame("0D07"), Some((1, 2)));
    assert_eq!(frame("00"), Some((1, 1)));
    assert_eq!(frame("0007"), Some((11, 1)));
}

#[test]
fn level_17() {
    let inside = |levels: usize, rest: &str| message(&("5501".repeat(levels) + rest));
    assert_eq!(inside(15, "564101"), Some((8, 33)));
    assert_eq!(inside(15, "564100"), None);
    assert_eq!(inside(16, ""), Some((1, 32)));
    assert_eq!(inside(15, "5E015E"), Some((9, 32)));
    assert_eq!(inside(15, "5E0143"), Some((4, 32)));
    assert_eq!(inside(15, "5E016A"), Some((8, 32)));
}

#[test]
fn faults_in_octet_order() {
    assert_eq!(message("5D5E"), Some((4, 1)));
    assert_eq!(message("55BFFFFFFF0F43"), Some((4, 6)));
    assert_eq!(message("0500C000"), Some((3, 2)));
}

#[test]
fn identities() {
    assert_eq!(message("5E0155015E016A"), Some((9, 5)));
    assert_eq!(message("565501015E016A"), None);
    assert_eq!(message(&given(64)), None);
    assert_eq!(message(&given(65)), Some((9, 3 + 3 * 64 + 1)));
}

/// A collection of null under so many identities.
fn given(count: u8) -> String {
    let identity = |n: u8| format!("5E{}64", integer(n));
    format!("55{}", integer(count)) + &(0..count).map(identity).collect::<String>()
}

fn integer(n: u8) -> String {
    let octets = integer::spell(n.into());
    octets.iter().map(|octet| format!("{octet:02X}")).collect()
}

#[test]
fn characters() {
    assert_eq!(message("4DE241"), Some((1, 3)));
    assert_eq!(message("4DF0"), Some((6, 1)));
    assert_eq!(message("4DC1"), Some((1, 2)));
    assert_eq!(message("4DC180"), Some((6, 1)));
    assert_eq!(message("4E0200"), Some((1, 3)));
    assert_eq!(message("4E0261C3"), Some((6, 3)));
}
