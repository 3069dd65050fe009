//! Numbers from a fixed seed, and the lists and addresses made of them.

use crate::image::{words, Bits, List};

/// Zone numbers at the edges of a data entry's sizes, and of what a writer may keep as marks.
pub const ZONES: [u32; 15] = [
    0,
    1,
    5,
    255,
    256,
    65_535,
    65_536,
    131_071,
    131_072,
    131_073,
    16_777_215,
    16_777_216,
    16_777_217,
    4_294_967_294,
    4_294_967_295,
];

/// Epochs at the edges of their sizes.
pub const EPOCHS: [u64; 8] =
    [0, 1, 255, 256, 4_294_967_295, 4_294_967_296, 1 << 56, 18_446_744_073_709_551_615];

/// SplitMix64: one sequence for each seed, on every machine.
pub struct Random(pub u64);

impl Random {
    pub fn any(&mut self) -> u64 {
        self.0 = self.0.wrapping_add(0x9E37_79B9_7F4A_7C15);
        let mut z = self.0;
        z = (z ^ z >> 30).wrapping_mul(0xBF58_476D_1CE4_E5B9);
        z = (z ^ z >> 27).wrapping_mul(0x94D0_49BB_1331_11EB);
        z ^ z >> 31
    }

    /// A number below n, which is not 0.
    pub fn below(&mut self, n: usize) -> usize {
        (self.any() % n as u64) as usize
    }

    pub fn bit(&mut self) -> bool {
        self.any() & 1 == 1
    }

    pub fn pick<T: Copy>(&mut self, from: &[T]) -> T {
        from[self.below(from.len())]
    }

    /// One bit more or a few, up to `width` bits in all.
    fn grow(&mut self, string: &mut Bits, width: usize) {
        for _ in 0..=self.below(4) {
            if string.len() < width {
                let bit = self.bit();
                string.push(bit);
            }
        }
    }

    /// A list of about `size` prefixes. Nine in ten extend, shorten or turn round another one, so that
    /// strings are prefixes of each other, halves are equal and numbers are hidden; now and then one is
    /// filled up to 128 bits.
    pub fn list(&mut self, size: usize) -> List {
        let mut strings: Vec<Bits> = vec![Bits::new()];
        let mut list = List::new();
        let few = self.bit();
        for _ in 0..size {
            let mut string = strings[self.below(strings.len())].clone();
            match self.below(20) {
                0 => string.clear(),
                1 => (string.len()..128).for_each(|_| string.push(self.bit())),
                2..=4 => string.truncate(self.below(string.len() + 1)),
                5..=8 => {
                    if let Some(last) = string.last_mut() {
                        *last = !*last;
                    }
                }
                _ => self.grow(&mut string, 128),
            }
            strings.push(string.clone());
            let zone = if few { self.pick(&ZONES[..3]) } else { self.zone() };
            list.insert(string, zone);
        }
        list
    }

    /// One of the edges, or any number.
    pub fn zone(&mut self) -> u32 {
        if self.bit() {
            self.pick(&ZONES)
        } else {
            (self.any() >> self.below(32)) as u32
        }
    }

    pub fn epoch(&mut self) -> u64 {
        if self.bit() {
            self.pick(&EPOCHS)
        } else {
            self.any() >> self.below(64)
        }
    }

    pub fn address(&mut self) -> [u32; 4] {
        [(); 4].map(|_| self.any() as u32)
    }

    /// The lowest and the highest address, and for each prefix the lowest and the highest under it, one
    /// somewhere under it, and the ones just beside it.
    pub fn addresses(&mut self, list: &List) -> Vec<[u32; 4]> {
        let mut found = vec![[0; 4], [u32::MAX; 4], self.address()];
        for prefix in list.keys() {
            let mut beside = prefix.clone();
            if let Some(last) = beside.last_mut() {
                *last = !*last;
            }
            for string in [prefix, &beside] {
                let fills: [Bits; 3] =
                    [vec![false; 128], vec![true; 128], (0..128).map(|_| self.bit()).collect()];
                for fill in fills {
                    let whole: Bits = string.iter().chain(&fill).copied().take(128).collect();
                    found.push(words(&whole));
                }
            }
        }
        found
    }
}
