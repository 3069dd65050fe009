//! Keys, and how random ones are made so that they meet.
use crate::random::Random;

/// A key as one number, its first bit highest, with zeros after the width: the derived order is then the
/// paper's.
#[derive(Clone, Copy, PartialEq, Eq, PartialOrd, Ord, Hash, Debug)]
pub struct Key {
    pub bits: u128,
    pub width: u32,
}

pub const EMPTY: Key = Key { bits: 0, width: 0 };

impl Key {
    /// The first `width` bits of a number.
    pub fn of(bits: u128, width: u32) -> Key {
        let kept = if width == 0 { 0 } else { bits >> (128 - width) << (128 - width) };
        Key { bits: kept, width }
    }

    pub fn cut(self, width: u32) -> Key {
        Key::of(self.bits, width)
    }

    pub fn bit(self, i: u32) -> bool {
        self.bits >> (127 - i) & 1 == 1
    }

    pub fn begins(self, p: Key) -> bool {
        p.width <= self.width && self.cut(p.width) == p
    }

    pub fn common(self, other: Key) -> Key {
        let shared = (self.bits ^ other.bits).leading_zeros();
        self.cut(shared.min(self.width).min(other.width))
    }

    pub fn words(self) -> [u32; 4] {
        [(self.bits >> 96) as u32, (self.bits >> 64) as u32, (self.bits >> 32) as u32, self.bits as u32]
    }

    pub fn of_words(words: &[u32], width: u32) -> Key {
        Key { bits: words.iter().fold(0, |sum, word| sum << 32 | u128::from(*word)), width }
    }

    pub fn string(self) -> Vec<bool> {
        (0..self.width).map(|i| self.bit(i)).collect()
    }
}

/// How keys are made.
#[derive(Clone, Copy, Debug)]
pub enum Kind {
    /// At most so many bits.
    Short(u32),
    /// Nine times in ten a change of a key seen before: longer, shorter, another last bit.
    Extended,
    /// Cells of width 64 around a few places, and squares of them.
    Cells,
    /// Widths 16 to 64 under a few provider prefixes.
    Routes,
}

pub struct Maker {
    kind: Kind,
    seen: Vec<Key>,
}

impl Maker {
    pub fn new(kind: Kind) -> Maker {
        Maker { kind, seen: Vec::new() }
    }

    pub fn key(&mut self, random: &mut Random) -> Key {
        let key = self.made(random);
        if self.seen.len() < 20_000 {
            self.seen.push(key);
        } else {
            let i = random.below(self.seen.len());
            self.seen[i] = key;
        }
        key
    }

    fn made(&self, random: &mut Random) -> Key {
        if !self.seen.is_empty() && random.often(3, 10) {
            return self.seen[random.below(self.seen.len())];
        }
        match self.kind {
            Kind::Short(most) => Key::of(random.wide(), random.below(most as usize + 1) as u32),
            Kind::Extended => self.extended(random),
            Kind::Cells => cell(random),
            Kind::Routes => route(random),
        }
    }

    fn extended(&self, random: &mut Random) -> Key {
        if self.seen.is_empty() || random.often(1, 10) {
            return Key::of(random.wide(), random.below(129) as u32);
        }
        let old = self.seen[random.below(self.seen.len())];
        let most = if random.often(1, 8) { 64 } else { 6 };
        let more = 1 + random.below(most) as u32;
        match random.below(6) {
            0 => old.cut(old.width - more.min(old.width)),
            1 if old.width > 0 => {
                let at = random.below(old.width as usize) as u32;
                Key { bits: old.bits ^ 1 << (127 - at), width: old.width }
            }
            2 if old.width > 0 => Key { bits: old.bits ^ 1 << (128 - old.width), width: old.width },
            _ => longer(old, more, random),
        }
    }
}

/// Some more bits after a key, at most to 128.
fn longer(old: Key, more: u32, random: &mut Random) -> Key {
    let fill = if old.width == 128 { 0 } else { random.wide() >> old.width };
    Key::of(old.bits | fill, (old.width + more).min(128))
}

/// Bits of a cell near one of eight places, 64 of them or the first 34 to 63.
fn cell(random: &mut Random) -> Key {
    let place = Random::new(random.below(8) as u64).wide();
    let spread = random.wide() >> (34 + random.below(20));
    let width = if random.often(1, 2) { 64 } else { 34 + random.below(30) as u32 };
    Key::of(place ^ spread, width)
}

/// A route under one of forty provider prefixes of 28 bits.
fn route(random: &mut Random) -> Key {
    let provider = Random::new(1000 + random.below(40) as u64).wide();
    let width = [16, 24, 28, 32, 36, 40, 44, 48, 48, 48, 52, 56, 60, 64][random.below(14)];
    Key::of(0x2 << 124 | (provider >> 100 << 100) >> 4 | random.wide() >> 28, width)
}
