//! The library beside the plain model: the same answers, on inputs made at random.
//!
//! `INPUTS` says how many (200,000 if it doesn't), `SEED` which. Both are printed, and so is how many were accepted or refused, by number.

mod making;

use making::Random;
use std::collections::BTreeMap;
use sumqadil::{Columns, Frame, Refusal};
use sumqadil_model as model;

const INPUTS: usize = 200_000;
const SEED: u64 = 20_260_731;

fn setting<T: std::str::FromStr>(name: &str, otherwise: T) -> T {
    match std::env::var(name) {
        Ok(text) => text.parse().ok().unwrap_or_else(|| panic!("{name} is no number: {text}")),
        Err(_) => otherwise,
    }
}

// ---- answers in one form: a result, or the number and place of a refusal

type Told<T> = Result<T, (u8, usize)>;

fn told<T>(answer: Result<T, Refusal>) -> Told<T> {
    answer.map_err(|r| (r.reason.number(), r.place))
}

fn modelled<T>(answer: model::Answer<T>) -> Told<T> {
    answer.map_err(|r| (r.number, r.place))
}

// ---- columns

/// Ten columns, each of its own length, holding numbers that no reading would leave there by chance.
#[derive(Clone, PartialEq, Debug)]
struct Lent {
    ty: Vec<i32>,
    own: Vec<u8>,
    label: Vec<u32>,
    number: Vec<i64>,
    first: Vec<i32>,
    second: Vec<i32>,
    contents: Vec<u32>,
    below: Vec<u32>,
    start: Vec<u32>,
    end: Vec<u32>,
}

impl Lent {
    fn new(lengths: [usize; 10]) -> Lent {
        let signed = |n: usize| (0..n).map(|i| -0x5A5A_0000 - i as i32).collect::<Vec<i32>>();
        let unsigned = |n: usize| (0..n).map(|i| 0xA5A5_0000 + i as u32).collect::<Vec<u32>>();
        Lent {
            ty: signed(lengths[0]),
            own: vec![0xA5; lengths[1]],
            label: unsigned(lengths[2]),
            number: (0..lengths[3]).map(|i| -0x5A5A_5A5A_0000_0000 - i as i64).collect(),
            first: signed(lengths[4]),
            second: signed(lengths[5]),
            contents: unsigned(lengths[6]),
            below: unsigned(lengths[7]),
            start: unsigned(lengths[8]),
            end: unsigned(lengths[9]),
        }
    }

    fn columns(&mut self) -> Columns<'_> {
        Columns {
            ty: &mut self.ty,
            own: &mut self.own,
            label: &mut self.label,
            number: &mut self.number,
            first: &mut self.first,
            second: &mut self.second,
            contents: &mut self.contents,
            below: &mut self.below,
            start: &mut self.start,
            end: &mut self.end,
        }
    }

    /// Puts the model's row in.
    fn put(&mut self, i: usize, row: &model::Row) {
        self.ty[i] = row.ty.try_into().unwrap();
        self.own[i] = row.own.try_into().unwrap();
        self.label[i] = row.label.try_into().unwrap();
        self.number[i] = row.number;
        self.first[i] = row.first.try_into().unwrap();
        self.second[i] = row.second.try_into().unwrap();
        self.contents[i] = row.contents.try_into().unwrap();
        self.below[i] = row.below.try_into().unwrap();
        self.start[i] = row.start.try_into().unwrap();
        self.end[i] = row.end.try_into().unwrap();
    }

    /// These columns after the model has read its rows into them, or refused.
    fn with(&self, rows: &[model::Row]) -> Lent {
        let mut after = self.clone();
        rows.iter().enumerate().for_each(|(i, row)| after.put(i, row));
        after
    }
}

/// Lengths for columns about a count of rows: all the same, just enough or one too few; or each its own.
fn lengths(random: &mut Random, rows: usize) -> [usize; 10] {
    match random.below(5) {
        0 => [rows; 10],
        1 => [rows.saturating_sub(1); 10],
        2 => {
            let mut lengths = [rows + 2; 10];
            lengths[random.below(10)] = random.below(rows + 3);
            lengths
        }
        3 => std::array::from_fn(|_| rows + random.below(4)),
        _ => [rows + random.below(8); 10],
    }
}

// ---- comparing

/// Gives one input to every function that takes octets. How reading a message went, and reading a frame: 0, or the number of the refusal.
fn compare(random: &mut Random, octets: &[u8]) -> [u8; 2] {
    assert_eq!(told(sumqadil::measure(octets)), modelled(model::measure(octets)), "measuring");
    let rows = modelled(model::read_message(octets, usize::MAX));
    let count = rows.as_ref().map(Vec::len).map_err(|&r| r);
    assert_eq!(told(sumqadil::count_rows(octets)), count, "counting rows");
    if let Ok(rows) = &rows {
        compare_asking(rows);
    }
    let frame = modelled(model::read_frame(octets, usize::MAX));
    let checked = frame.as_ref().map(frame_of).map_err(|&r| r);
    assert_eq!(told(sumqadil::check_frame(octets)), checked, "checking a frame");
    let framed = checked.map(|f| f.rows);
    let about = count.or(framed).unwrap_or(random.below(4));
    let lengths = lengths(random, about);
    [compare_message(octets, lengths), compare_frame(octets, lengths)]
}

fn frame_of(frame: &model::Frame) -> Frame {
    Frame { conversation: frame.conversation.try_into().unwrap(), message: frame.message, rows: frame.rows.len() }
}

fn compare_message(octets: &[u8], lengths: [usize; 10]) -> u8 {
    let before = Lent::new(lengths);
    let expected = modelled(model::read_message(octets, *lengths.iter().min().unwrap()));
    let mut after = before.clone();
    let found = told(after.columns().read_message(octets));
    assert_eq!(found, expected.as_ref().map(Vec::len).map_err(|&r| r), "reading a message");
    assert!(after == before.with(&expected.unwrap_or_default()), "the rows of a message");
    found.map_or_else(|r| r.0, |_| 0)
}

fn compare_frame(octets: &[u8], lengths: [usize; 10]) -> u8 {
    let before = Lent::new(lengths);
    let expected = modelled(model::read_frame(octets, *lengths.iter().min().unwrap()));
    let mut after = before.clone();
    let found = told(after.columns().read_frame(octets));
    assert_eq!(found, expected.as_ref().map(frame_of).map_err(|&r| r), "reading a frame");
    assert!(after == before.with(&expected.map(|f| f.rows).unwrap_or_default()), "the rows of a frame");
    found.map_or_else(|r| r.0, |_| 0)
}

const ASKED: [(sumqadil::As, model::As); 6] = [
    (sumqadil::As::Int16, model::As::Int16),
    (sumqadil::As::Int32, model::As::Int32),
    (sumqadil::As::Int64, model::As::Int64),
    (sumqadil::As::Octet, model::As::Octet),
    (sumqadil::As::Char, model::As::Char),
    (sumqadil::As::Boolean, model::As::Boolean),
];

fn compare_asking(rows: &[model::Row]) {
    for row in rows.iter().take(8) {
        for (wanted, same) in ASKED {
            let found = told(sumqadil::ask(row.ty.try_into().unwrap(), row.number, wanted));
            assert_eq!(found, modelled(model::ask(row, same)), "asking {row:?} for {wanted:?}");
        }
    }
}

/// Gives one input, and names it if an answer differs.
fn compare_named(name: &str, random: &mut Random, octets: &[u8]) -> [u8; 2] {
    let named = std::panic::AssertUnwindSafe(|| compare(random, octets));
    std::panic::catch_unwind(named).unwrap_or_else(|_| {
        let digits: String = octets.iter().take(500).map(|octet| format!("{octet:02X}")).collect();
        panic!("{name}, {} octets: {digits}", octets.len())
    })
}

// ---- inputs

fn input(random: &mut Random, i: usize) -> Vec<u8> {
    let mut octets = match i % 8 {
        _ if i % 1_000 == 999 => {
            let length = random.one_of(&[5_000, 20_000, 65_535, 65_536]) + random.below(9) - 4;
            making::long(random, length)
        }
        0 | 1 => making::message(random, false, 100),
        2 | 3 => {
            let (user, enough) = (!random.once_in(16), random.one_of(&[20, 100, 400]));
            let message = making::message(random, user, enough);
            making::framed(random, message)
        }
        4 => {
            let deep = making::deep(random);
            if random.once_in(2) {
                deep
            } else {
                making::framed(random, deep)
            }
        }
        5 => making::message(random, false, 1_000),
        6 => making::octets(random, 12),
        _ => making::octets(random, 60),
    };
    let times = random.one_of(&[0, 0, 0, 0, 1, 1, 2, 4]);
    for _ in 0..times {
        making::damage(random, &mut octets);
    }
    octets
}

#[test]
fn random_inputs() {
    let (inputs, seed) = (setting("INPUTS", INPUTS), setting("SEED", SEED));
    println!("{inputs} inputs, seed {seed}");
    let mut random = Random(seed);
    let mut counts = [BTreeMap::new(), BTreeMap::new()];
    let mut octets_in_all = 0;
    for i in 0..inputs {
        let octets = input(&mut random, i);
        octets_in_all += octets.len();
        let answers = compare_named(&format!("seed {seed}, input {i}"), &mut random, &octets);
        for (answer, count) in answers.into_iter().zip(&mut counts) {
            *count.entry(answer).or_insert(0usize) += 1;
        }
    }
    println!("octets: {octets_in_all}");
    println!("as messages, 0 for accepted, else by refusal: {:?}", counts[0]);
    println!("as frames, 0 for accepted, else by refusal: {:?}", counts[1]);
    if inputs >= INPUTS {
        let missed = |count: &BTreeMap<u8, usize>, all: &[u8]| all.iter().any(|n| !count.contains_key(n));
        assert!(!missed(&counts[0], &[0, 1, 2, 3, 4, 5, 6, 7, 8, 9, 10, 11, 12]), "a refusal of messages never came");
        assert!(!missed(&counts[1], &[0, 1, 2, 3, 4, 5, 6, 7, 8, 9, 10, 11, 12, 16]), "a refusal of frames never came");
    }
}

/// Every input of at most two octets.
#[test]
fn all_short_inputs() {
    let mut random = Random(1);
    compare_named("none", &mut random, &[]);
    for a in 0..=255 {
        compare_named("one", &mut random, &[a]);
        for b in 0..=255 {
            compare_named("two", &mut random, &[a, b]);
        }
    }
}

/// The octets of the model's own cases: messages, frames and runs, by other hands.
#[test]
fn cases_of_the_model() {
    let text = include_str!("../../../model/tests/cases.txt");
    let mut random = Random(3);
    let mut count = 0;
    for line in text.lines() {
        let mut words = line.split(' ');
        let (Some("M" | "F" | "L"), Some(digits)) = (words.next(), words.next()) else {
            continue;
        };
        let pair = |i| u8::from_str_radix(&digits[i..i + 2], 16).expect("digits in pairs");
        let octets: Vec<u8> = if digits == "-" { Vec::new() } else { (0..digits.len()).step_by(2).map(pair).collect() };
        compare_named(line, &mut random, &octets);
        count += 1;
    }
    assert!(count > 100);
}

/// On both sides of the limits of levels and identities.
#[test]
fn limits() {
    let mut random = Random(2);
    for levels in 14..=18 {
        let octets = [[0x55, 0x01].repeat(levels), vec![0x6A]].concat();
        compare_named("levels", &mut random, &octets);
    }
    for identities in 62..=66 {
        let mut octets = vec![0x55];
        octets.extend(model::integer::spell(identities));
        for n in 0..identities {
            octets.push(0x5E);
            octets.extend(model::integer::spell(n));
            octets.push(0x6A);
        }
        compare_named("identities", &mut random, &octets);
    }
}

/// Types and numbers of all kinds, not only those that rows of messages have.
#[test]
fn asking() {
    let (inputs, seed) = (setting("INPUTS", INPUTS), setting("SEED", SEED));
    println!("{inputs} rows asked six ways, seed {seed}");
    let mut random = Random(seed);
    for _ in 0..inputs {
        let ty = match random.below(8) {
            0 => random.number() as i32,
            _ => random.below(72) as i32 - 68,
        };
        let mut row = model::Row { ty: ty.into(), number: random.number(), ..model::Row::default() };
        if let (true, Some(kind)) = (random.once_in(2), model::types::kind(row.ty)) {
            row.number = kind.fixed_number().unwrap_or(row.number);
        }
        compare_asking(&[row]);
    }
}
