//! Prefixes of at most 128 bits.
use crate::Refusal;
use std::fmt;
use std::str::FromStr;

/// A prefix: a width from 0 to 128, and four words with no bit set after the width. Bit 1 is the highest bit of
/// word 0. The order is the paper's: at the first differing bit 0 comes before 1, and a prefix comes before
/// everything that extends it.
#[derive(Clone, Copy, PartialEq, Eq, PartialOrd, Ord, Hash)]
pub struct Prefix {
    // The words before the width: with zeros after the width, that makes the derived order the paper's.
    words: [u32; 4],
    width: u32,
}

impl Prefix {
    /// The empty prefix, of width 0.
    pub const EMPTY: Prefix = Prefix { words: [0; 4], width: 0 };

    /// A prefix, or BadPrefix where the width is above 128 or a bit after it is set.
    ///
    /// ```
    /// use nalfipode::{Prefix, Refusal};
    /// assert!(Prefix::new(2, [0x4000_0000, 0, 0, 0]).is_ok());
    /// assert_eq!(Prefix::new(1, [0x4000_0000, 0, 0, 0]), Err(Refusal::BadPrefix));
    /// assert_eq!(Prefix::new(129, [0; 4]), Err(Refusal::BadPrefix));
    /// ```
    pub fn new(width: u32, words: [u32; 4]) -> Result<Prefix, Refusal> {
        if width > 128 || number(words).checked_shl(width).unwrap_or(0) != 0 {
            return Err(Refusal::BadPrefix);
        }
        Ok(Prefix { words, width })
    }

    /// How many bits it has.
    pub fn width(self) -> u32 {
        self.width
    }

    /// Its four words, zeros after the width.
    pub fn words(self) -> [u32; 4] {
        self.words
    }

    /// Bit `i`, the first being bit 0, or none past the width.
    ///
    /// ```
    /// let key: nalfipode::Prefix = "01".parse()?;
    /// assert_eq!((key.bit(0), key.bit(1), key.bit(2)), (Some(false), Some(true), None));
    /// # Ok::<(), nalfipode::Refusal>(())
    /// ```
    pub fn bit(self, i: u32) -> Option<bool> {
        if i < self.width {
            Some(number(self.words) >> (127 - i) & 1 == 1)
        } else {
            None
        }
    }
}

/// The words as one number, word 0 highest.
fn number(words: [u32; 4]) -> u128 {
    words.iter().fold(0, |sum, word| sum << 32 | u128::from(*word))
}

/// Bits as text, `"0110"`; BadPrefix where there are more than 128, or other letters.
impl FromStr for Prefix {
    type Err = Refusal;

    fn from_str(text: &str) -> Result<Prefix, Refusal> {
        let mut prefix = Prefix::EMPTY;
        for letter in text.bytes() {
            if prefix.width == 128 || (letter != b'0' && letter != b'1') {
                return Err(Refusal::BadPrefix);
            }
            if letter == b'1' {
                prefix.words[prefix.width as usize / 32] |= 0x8000_0000 >> (prefix.width % 32);
            }
            prefix.width += 1;
        }
        Ok(prefix)
    }
}

impl fmt::Display for Prefix {
    fn fmt(&self, f: &mut fmt::Formatter<'_>) -> fmt::Result {
        let text: String = (0..self.width).map(|i| if self.bit(i) == Some(true) { '1' } else { '0' }).collect();
        f.pad(&text)
    }
}

impl fmt::Debug for Prefix {
    fn fmt(&self, f: &mut fmt::Formatter<'_>) -> fmt::Result {
        write!(f, "Prefix({:?})", self.to_string())
    }
}

#[cfg(test)]
mod tests {
    use super::*;

    fn of(text: &str) -> Prefix {
        text.parse().unwrap()
    }

    #[test]
    fn text_goes_in_and_out() {
        for text in ["", "0", "1", "0110", &"10".repeat(64)] {
            assert_eq!(of(text).to_string(), text);
        }
        assert_eq!("0".repeat(129).parse::<Prefix>(), Err(Refusal::BadPrefix));
        assert_eq!("012".parse::<Prefix>(), Err(Refusal::BadPrefix));
    }

    #[test]
    fn every_width_takes_its_last_bit_and_no_bit_after_it() {
        for width in 1..=128u32 {
            let last = 1u128 << (128 - width);
            let words = |n: u128| [(n >> 96) as u32, (n >> 64) as u32, (n >> 32) as u32, n as u32];
            assert!(Prefix::new(width, words(last)).is_ok());
            assert_eq!(Prefix::new(width - 1, words(last)), Err(Refusal::BadPrefix));
        }
        assert_eq!(Prefix::new(129, [0; 4]), Err(Refusal::BadPrefix));
        assert_eq!(Prefix::new(u32::MAX, [0; 4]), Err(Refusal::BadPrefix));
    }

    #[test]
    fn order_is_the_papers() {
        let order = ["", "0", "00", "001", "01", "0110", "1", "10", "11"];
        for pair in order.windows(2) {
            assert!(of(pair[0]) < of(pair[1]), "{} before {}", pair[0], pair[1]);
        }
    }
}
