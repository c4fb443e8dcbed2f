//! Inputs: messages and frames made at random, damaged or not, and octets that are none.

use sumqadil_model::{chars, integer};

/// Numbers that look random, the same for the same seed (splitmix64).
pub struct Random(pub u64);

impl Random {
    pub fn next(&mut self) -> u64 {
        self.0 = self.0.wrapping_add(0x9E37_79B9_7F4A_7C15);
        let mut z = self.0;
        z = (z ^ (z >> 30)).wrapping_mul(0xBF58_476D_1CE4_E5B9);
        z = (z ^ (z >> 27)).wrapping_mul(0x94D0_49BB_1331_11EB);
        z ^ (z >> 31)
    }

    /// From 0 up to `n`, without it.
    pub fn below(&mut self, n: usize) -> usize {
        (self.next() % n as u64) as usize
    }

    pub fn once_in(&mut self, n: usize) -> bool {
        self.below(n) == 0
    }

    pub fn one_of<T: Copy>(&mut self, all: &[T]) -> T {
        all[self.below(all.len())]
    }

    /// Any number, more often one near a limit or 0.
    pub fn number(&mut self) -> i64 {
        let near = [0, 1 << 6, 1 << 7, 1 << 8, 1 << 13, 1 << 15, 1 << 16, 1 << 20, 1 << 31, 1 << 32, i64::MAX];
        let n = match self.below(4) {
            0 => self.next() as i64,
            1 => (self.next() >> self.below(64)) as i64,
            _ => self.one_of(&near).wrapping_add(self.below(5) as i64 - 2),
        };
        if self.once_in(3) {
            n.wrapping_neg()
        } else {
            n
        }
    }
}

/// Carried types that may be an element's, and all those that hold values.
const LEAVES: [i64; 13] = [-1, -2, -3, -5, -6, -11, -12, -13, -14, -15, -16, -18, -20];
const HOLDERS: [i64; 11] = [-22, -23, -24, -25, -26, -27, -28, -29, -30, 0, 5];

/// A message in the making. What it makes is mostly valid.
pub struct Maker<'a> {
    random: &'a mut Random,
    octets: Vec<u8>,
    /// Identities given so far.
    given: Vec<i64>,
    /// No container is begun once there are so many octets.
    enough: usize,
}

impl Maker<'_> {
    fn int(&mut self, n: i64) {
        self.octets.extend(integer::spell(n));
    }

    /// A value with its identifier.
    fn value(&mut self, level: usize) {
        if self.random.once_in(8) {
            let compact = -33 - self.random.below(32) as i64;
            return self.int(compact);
        }
        let ty = match self.random.below(12) {
            0 => -31,
            1 if !self.given.is_empty() => -32,
            _ => self.ty(level),
        };
        self.int(ty);
        self.data(ty, level);
    }

    /// A type that may be an element's. Deep inside, or with octets enough, seldom one that holds values.
    fn ty(&mut self, level: usize) -> i64 {
        if self.random.below(16) > level && self.octets.len() < self.enough {
            return self.random.one_of(&HOLDERS);
        }
        self.random.one_of(&LEAVES)
    }

    fn data(&mut self, ty: i64, level: usize) {
        match ty {
            -1 => self.number_within(1 << 15),
            -2 | -11 => self.number_within(1 << 31),
            -3 => self.number_within(i64::MAX),
            -5 => self.any_octets(4),
            -6 => self.any_octets(8),
            -12 => self.any_octets(1),
            -13 => self.octet_string(),
            -14 => self.char(),
            -15 => self.char_string(),
            -16 => self.date(),
            -18 => self.time(),
            -20 => {
                self.date();
                self.time();
            }
            -31 => self.identity(level),
            -32 => {
                let n = self.random.one_of(&self.given.clone());
                self.int(n);
            }
            _ => self.holder(ty, level),
        }
    }

    fn number_within(&mut self, bound: i64) {
        let n = self.random.number();
        let any = self.random.once_in(64);
        self.int(if any { n } else { n % bound });
    }

    fn any_octets(&mut self, n: usize) {
        for _ in 0..n {
            let octet = self.random.next() as u8;
            self.octets.push(octet);
        }
    }

    fn length(&mut self) -> usize {
        let most = self.random.one_of(&[1, 4, 20, 100]);
        self.random.below(most)
    }

    fn octet_string(&mut self) {
        let n = self.length();
        self.int(n as i64);
        self.any_octets(n);
    }

    fn code(&mut self) -> u16 {
        let bits = self.random.one_of(&[7, 7, 7, 11, 16]);
        (self.random.next() & ((1 << bits) - 1)) as u16
    }

    fn char(&mut self) {
        let code = self.code();
        self.octets.extend(chars::spell(code));
    }

    fn char_string(&mut self) {
        let n = self.length();
        let contents: Vec<u8> = (0..n).flat_map(|_| chars::spell(self.code())).collect();
        self.int(contents.len() as i64);
        self.octets.extend(contents);
    }

    fn date(&mut self) {
        let year = self.random.one_of(&[0, 4, 1900, 2000, 2026, 9999]);
        let (month, day) = (1 + self.random.below(12) as i64, 1 + self.random.below(29) as i64);
        for n in [year, month, day] {
            self.int(n);
        }
    }

    fn time(&mut self) {
        let fraction = self.random.one_of(&[0, 1, 999, -1, -999_999_999]);
        let zone = self.random.below(3) as i64;
        for most in [24, 60, 60] {
            let n = self.random.below(most) as i64;
            self.int(n);
        }
        self.int(fraction);
        self.int(zone);
        if zone == 2 {
            let (hours, minutes) = (self.random.below(37) as i64 - 18, self.random.below(60) as i64);
            self.int(hours);
            self.int(minutes);
        }
    }

    fn identity(&mut self, level: usize) {
        let n = if self.random.once_in(16) { self.random.below(8) as i64 } else { self.given.len() as i64 };
        self.given.push(n);
        self.int(n);
        self.value(level + 1);
    }

    /// How many values a container holds.
    fn size(&mut self) -> usize {
        let most = self.random.one_of(&[1, 3, 6, 12]);
        self.random.below(most)
    }

    fn holder(&mut self, ty: i64, level: usize) {
        let first = matches!(ty, -23 | -25 | -27 | -29 | -30).then(|| self.element_type(level));
        let second = (ty == -30).then(|| self.element_type(level));
        let size = self.size();
        match ty {
            -26 | -27 => self.indexed(first, size, 3 * size, level),
            0.. => self.indexed(None, size, 0, level),
            _ => {
                self.int(size as i64);
                let paired = matches!(ty, -30..=-28);
                for _ in 0..size {
                    self.element(first, level);
                    if paired {
                        self.element(second, level);
                    }
                }
            }
        }
    }

    fn element_type(&mut self, level: usize) -> i64 {
        let ty = self.ty(level + 2);
        self.int(ty);
        ty
    }

    fn element(&mut self, ty: Option<i64>, level: usize) {
        match ty {
            Some(ty) => self.data(ty, level + 1),
            None => self.value(level + 1),
        }
    }

    /// A number (a size or a version), values with rising indexes, -1.
    fn indexed(&mut self, ty: Option<i64>, count: usize, number: usize, level: usize) {
        self.int(number as i64);
        let mut index = 0;
        for _ in 0..count {
            index += self.random.below(3) as i64;
            self.int(index);
            self.element(ty, level);
            index += 1;
        }
        self.int(-1);
    }
}

/// A message, mostly valid; of a user type if `user`.
pub fn message(random: &mut Random, user: bool, enough: usize) -> Vec<u8> {
    let mut maker = Maker { random, octets: Vec::new(), given: Vec::new(), enough };
    if user {
        let ty = maker.random.one_of(&[0, 5, 63, 64, i32::MAX.into()]);
        maker.int(ty);
        maker.data(ty, 1);
    } else {
        maker.value(1);
    }
    maker.octets
}

/// A message of a user type with a value inside others, at about level 16.
pub fn deep(random: &mut Random) -> Vec<u8> {
    let mut octets = message(random, false, 10);
    for _ in 0..10 + random.below(8) {
        let (before, after): (&[u8], &[u8]) = match random.below(4) {
            0 => (&[0x55, 0x01], &[]),
            1 => (&[0x57, 0x02, 0x64], &[]),
            2 => (&[0x5B, 0x01, 0x6A], &[]),
            _ => (&[0x05, 0x00, 0x03], &[0x40]),
        };
        octets = [before, &octets, after].concat();
    }
    [&[0x05, 0x00, 0x00], &octets[..], &[0x40]].concat()
}

/// A frame around a message.
pub fn framed(random: &mut Random, message: Vec<u8>) -> Vec<u8> {
    let mut body = integer::spell(random.number() % (1 << 31));
    body.extend(message);
    let mut frame = integer::spell(body.len() as i64);
    frame.extend(body);
    frame
}

/// A container with elements up to about `octets` octets, of which the last may be cut.
pub fn long(random: &mut Random, octets: usize) -> Vec<u8> {
    let (head, element): (Vec<u8>, Vec<u8>) = match random.below(5) {
        0 => (vec![0x55], vec![0x6A]),
        1 => (vec![0x56, 0x41], vec![0x8F, 0x9C, 0x01]),
        2 => (vec![0x4C], vec![0x00]),
        3 => (vec![0x4E], vec![0xC3, 0xA9]),
        _ => {
            let mut value = message(random, false, 40);
            if value.len() > 500 {
                value = vec![0x64];
            }
            (vec![0x55], value)
        }
    };
    let string = head == [0x4C] || head == [0x4E];
    let room = octets.saturating_sub(head.len() + 3);
    let count = room / element.len();
    let number = if string { count * element.len() } else { count };
    let mut all = head;
    all.extend(integer::spell(number as i64));
    for _ in 0..count {
        all.extend(&element);
    }
    all
}

/// Octets that begin types and numbers.
const TELLING: [u8; 24] = [
    0x00, 0x01, 0x02, 0x05, 0x40, 0x41, 0x42, 0x4C, 0x4D, 0x4E, 0x4F, 0x51, 0x53, 0x55, 0x56, 0x59, 0x5A, 0x5B, 0x5D,
    0x5E, 0x5F, 0x60, 0x64, 0x80,
];

/// Octets at random, many of which begin a type.
pub fn octets(random: &mut Random, most: usize) -> Vec<u8> {
    let n = random.below(most + 1);
    (0..n).map(|_| if random.once_in(3) { random.next() as u8 } else { random.one_of(&TELLING) }).collect()
}

/// One change: an octet changed, put in, taken out or doubled; an end cut off or put on.
pub fn damage(random: &mut Random, octets: &mut Vec<u8>) {
    if octets.is_empty() {
        return octets.push(random.next() as u8);
    }
    let at = random.below(octets.len());
    match random.below(8) {
        0 => octets[at] ^= 1 << random.below(8),
        1 => octets[at] = random.next() as u8,
        2 => octets[at] = random.one_of(&TELLING),
        3 => octets.insert(at, random.one_of(&TELLING)),
        4 => drop(octets.remove(at)),
        5 => octets.insert(at, octets[at]),
        6 => octets.truncate(at),
        _ => octets.push(random.next() as u8),
    }
}
