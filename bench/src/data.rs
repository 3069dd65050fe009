//! Keys, and the sets and questions that the peers are measured on, from fixed seeds.
use std::collections::BTreeSet;
use std::fs;

/// A key as one number, its first bit highest, with zeros after the width: the derived order is the paper's.
#[derive(Clone, Copy, PartialEq, Eq, PartialOrd, Ord, Debug)]
pub struct Key {
    pub bits: u128,
    pub width: u32,
}

impl Key {
    pub fn of(bits: u128, width: u32) -> Key {
        let kept = if width == 0 { 0 } else { bits >> (128 - width) << (128 - width) };
        Key { bits: kept, width }
    }

    pub fn cut(self, width: u32) -> Key {
        Key::of(self.bits, width)
    }

    /// How many first bits the two share.
    pub fn shared(self, other: Key) -> u32 {
        (self.bits ^ other.bits).leading_zeros().min(self.width).min(other.width)
    }

    /// The bit after the first `i`.
    pub fn bit(self, i: u32) -> usize {
        (self.bits >> (127 - i) & 1) as usize
    }

    pub fn words(self) -> [u32; 4] {
        [(self.bits >> 96) as u32, (self.bits >> 64) as u32, (self.bits >> 32) as u32, self.bits as u32]
    }
}

/// Random numbers from a seed (splitmix64).
pub struct Random(pub u64);

impl Random {
    pub fn next(&mut self) -> u64 {
        self.0 = self.0.wrapping_add(0x9E37_79B9_7F4A_7C15);
        let mut z = self.0;
        z = (z ^ (z >> 30)).wrapping_mul(0xBF58_476D_1CE4_E5B9);
        z = (z ^ (z >> 27)).wrapping_mul(0x94D0_49BB_1331_11EB);
        z ^ (z >> 31)
    }

    pub fn below(&mut self, n: usize) -> usize {
        (self.next() % n as u64) as usize
    }

    pub fn wide(&mut self) -> u128 {
        u128::from(self.next()) << 64 | u128::from(self.next())
    }
}

/// What the keys are.
#[derive(Clone, Copy, PartialEq, Debug)]
pub enum Kind {
    /// Squares of cells, widths 40 to 64, around 300 places.
    Cells,
    /// Widths 16 to 64 under 400 provider prefixes, half of them 48.
    Routes,
}

impl Kind {
    pub fn of(name: &str) -> Kind {
        match name {
            "cells" => Kind::Cells,
            "routes" => Kind::Routes,
            _ => panic!("cells or routes, and not {}", name),
        }
    }

    pub fn name(self) -> &'static str {
        match self {
            Kind::Cells => "cells",
            Kind::Routes => "routes",
        }
    }

    /// The width of a question.
    fn full(self) -> u32 {
        match self {
            Kind::Cells => 64,
            Kind::Routes => 128,
        }
    }

    fn key(self, random: &mut Random) -> Key {
        match self {
            Kind::Cells => {
                let place = Random(random.below(300) as u64).wide() >> 96 << 96;
                Key::of(place | random.wide() >> 32, 40 + random.below(25) as u32)
            }
            Kind::Routes => {
                let provider = Random(1000 + random.below(400) as u64).wide() >> 100 << 100;
                let widths = [16, 20, 24, 28, 29, 32, 32, 36, 40, 44, 48, 48, 48, 48, 48, 48, 48, 48, 56, 64];
                Key::of(0x2 << 124 | provider >> 4 | random.wide() >> 28, widths[random.below(20)])
            }
        }
    }
}

/// A set, keys that are not in it, and questions: 7 in 10 extend a stored prefix.
pub struct Data {
    pub stored: Vec<Key>,
    pub others: Vec<Key>,
    pub questions: Vec<Key>,
}

impl Data {
    pub fn new(kind: Kind, size: usize) -> Data {
        let mut random = Random(size as u64);
        let mut seen = BTreeSet::new();
        let mut draw = |random: &mut Random, n: usize| {
            let mut keys = Vec::new();
            while keys.len() < n {
                let key = kind.key(random);
                if seen.insert(key) {
                    keys.push(key);
                }
            }
            keys
        };
        let stored = draw(&mut random, size);
        let others = draw(&mut random, 1000);
        let questions = (0..16_384)
            .map(|_| {
                let bits = if random.below(10) < 7 {
                    let key = stored[random.below(size)];
                    key.bits | random.wide() >> key.width
                } else {
                    kind.key(&mut random).bits | random.wide() >> 64
                };
                Key::of(bits, kind.full())
            })
            .collect();
        Data { stored, others, questions }
    }

    /// Writes the keys for bench/patricia.c, 24 bytes each: width, zone number, bits. The numbers are those that the
    /// peers here store.
    pub fn write(&self, folder: &str) {
        let file = |name: &str, keys: &[Key], zone: &dyn Fn(usize) -> u32| {
            let bytes: Vec<u8> = (keys.iter().enumerate())
                .flat_map(|(i, k)| [&k.width.to_le_bytes()[..], &zone(i).to_le_bytes(), &k.bits.to_be_bytes()].concat())
                .collect();
            fs::write(format!("{}/{}", folder, name), bytes).expect("the folder is there");
        };
        file("stored", &self.stored, &|i| i as u32);
        file("others", &self.others, &|_| 1);
        file("questions", &self.questions, &|_| 0);
    }
}
