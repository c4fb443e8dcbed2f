//! Prints the messages of the benchmark, `bench/messages.txt`: a line each, a name and hexadecimal digits.

use sumqadil_model::{chars, integer};

/// Numbers of many sizes, the same in every run.
fn numbers(count: usize) -> impl Iterator<Item = i64> {
    (1..=count as u64).map(|i| {
        let z = i.wrapping_mul(0x9E37_79B9_7F4A_7C15);
        let n = (z >> 33 >> (z % 31)) as i64;
        if z & 64 == 0 {
            n
        } else {
            -1 - n
        }
    })
}

fn int(n: i64) -> Vec<u8> {
    integer::spell(n)
}

/// An identifier and data.
fn value(ty: i64, data: Vec<u8>) -> Vec<u8> {
    [int(ty), data].concat()
}

/// A length, and characters.
fn text(characters: impl IntoIterator<Item = u16>) -> Vec<u8> {
    let contents: Vec<u8> = characters.into_iter().flat_map(chars::spell).collect();
    [int(contents.len() as i64), contents].concat()
}

fn word(n: i64) -> Vec<u8> {
    text(format!("unit {n:07x}").bytes().map(u16::from))
}

/// A size, and values.
fn sized(values: Vec<Vec<u8>>) -> Vec<u8> {
    [int(values.len() as i64), values.concat()].concat()
}

fn collection(values: Vec<Vec<u8>>) -> Vec<u8> {
    value(-22, sized(values))
}

/// A container whose elements are bare.
fn uniform(ty: i64, element: i64, values: Vec<Vec<u8>>) -> Vec<u8> {
    value(ty, [int(element), sized(values)].concat())
}

/// Values with indexes, and the end.
fn indexed(values: impl IntoIterator<Item = (i64, Vec<u8>)>) -> Vec<u8> {
    let mut all: Vec<u8> = values.into_iter().flat_map(|(index, value)| [int(index), value].concat()).collect();
    all.extend(int(-1));
    all
}

fn date(n: i64) -> Vec<u8> {
    [int(2000 + n.rem_euclid(30)), int(1 + n.rem_euclid(12)), int(1 + n.rem_euclid(28))].concat()
}

/// What a box sends: a serial, a model's name, an address, a boolean, a date and time, a list of ports.
fn record(n: i64) -> Vec<u8> {
    let time = [int(n.rem_euclid(24)), int(n.rem_euclid(60)), int(30), int(0), int(1)].concat();
    let ports = collection((0..4).map(|port| int(-42 - port)).collect());
    let properties = [
        value(-2, int(1_000_000 + n.rem_euclid(1_000_000))),
        value(-15, text("AX-7 outdoor".bytes().map(u16::from))),
        value(-13, [int(6), n.to_be_bytes()[2..].to_vec()].concat()),
        int(-34),
        value(-20, [date(n), time].concat()),
        ports,
    ];
    [int(5), int(0), indexed((0..).zip(properties))].concat()
}

fn tree(levels: usize) -> Vec<u8> {
    if levels == 0 {
        return int(-43);
    }
    collection(vec![tree(levels - 1), tree(levels - 1)])
}

fn references() -> Vec<u8> {
    let identities = (0..32).map(|n| value(-31, [int(n), value(-15, word(n))].concat()));
    let references = (0..400).map(|n| value(-32, int(n * 7 % 32)));
    collection(identities.chain(references).collect())
}

fn main() {
    let ints = |count| numbers(count).map(int).collect::<Vec<_>>();
    let bits = |count| numbers(count).map(|n| (1.0 / n as f64).to_bits().to_be_bytes().to_vec()).collect();
    let cyrillic = |n: i64| text((0..30).map(|i| 0x410 + ((n + i * i).rem_euclid(64)) as u16));
    let messages = [
        (
            "example",
            [&int(5)[..], &int(0), &indexed([(0, value(-2, int(99))), (2, value(-15, text([0x61, 0x62])))])].concat(),
        ),
        ("record", record(123_456)),
        ("records", collection(numbers(32).map(record).collect())),
        ("integers", collection(numbers(480).map(|n| value(-2, int(n))).collect())),
        ("small-integers", collection((0..2_000).map(|n| int(-41 - n % 24)).collect())),
        ("integer-array", uniform(-25, -2, ints(640))),
        ("float-array", uniform(-25, -6, bits(250))),
        ("strings", collection(numbers(130).map(|n| value(-15, word(n % 100_000_000))).collect())),
        ("cyrillic", collection(numbers(32).map(|n| value(-15, cyrillic(n))).collect())),
        ("long-string", value(-15, text((0..2_000).map(|i| 0x20 + i % 90)))),
        ("octets", value(-13, [int(2_000), vec![0x55; 2_000]].concat())),
        (
            "map",
            value(
                -30,
                [int(-2), int(-15), sized(numbers(120).map(|n| [int(n), word(n % 100_000_000)].concat()).collect())]
                    .concat(),
            ),
        ),
        ("sparse", value(-26, [int(10_000), indexed((0..400).map(|i| (i * 7, value(-2, int(i * i)))))].concat())),
        ("dates", uniform(-25, -16, numbers(500).map(date).collect())),
        ("tree", tree(9)),
        ("references", references()),
    ];
    for (name, octets) in messages {
        let digits: String = octets.iter().map(|octet| format!("{octet:02X}")).collect();
        println!("{name} {digits}");
    }
}
