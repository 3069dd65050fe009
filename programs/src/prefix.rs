//! A prefix as people write it: hex digits of its leading bits, a slash, and its width.

use crate::counted::counted;
use std::fmt;
use std::str::FromStr;

/// A width from 0 to 128 and four words; every bit after the width is zero.
#[derive(Clone, Copy, Debug, PartialEq, Eq, PartialOrd, Ord)]
pub struct Prefix {
    words: [u32; 4],
    width: u32,
}

impl Prefix {
    /// None if the width is above 128 or a bit is set after it.
    pub fn new(width: u32, words: [u32; 4]) -> Option<Prefix> {
        (width <= 128 && kept(words, width) == words).then_some(Prefix { words, width })
    }

    /// The first bits of an address; a width above 128 counts as 128.
    pub fn first(width: u32, address: [u32; 4]) -> Prefix {
        let width = width.min(128);
        Prefix { words: kept(address, width), width }
    }

    pub fn words(&self) -> [u32; 4] {
        self.words
    }

    pub fn width(&self) -> u32 {
        self.width
    }
}

/// The address of a cell: its 64 bits first, then zeros.
pub fn address(cell: u64) -> [u32; 4] {
    [(cell >> 32) as u32, cell as u32, 0, 0]
}

fn number(words: [u32; 4]) -> u128 {
    words.iter().fold(0, |v, w| v << 32 | u128::from(*w))
}

fn words(v: u128) -> [u32; 4] {
    [96, 64, 32, 0].map(|shift| (v >> shift) as u32)
}

/// The first bits of four words, and zeros after them.
fn kept(given: [u32; 4], width: u32) -> [u32; 4] {
    words(number(given) & !u128::MAX.checked_shr(width).unwrap_or(0))
}

/// How many hex digits hold so many bits.
fn digits_of(width: u32) -> usize {
    (width as usize + 3) / 4
}

/// The digits that the width needs, at least one, in upper case.
impl fmt::Display for Prefix {
    fn fmt(&self, f: &mut fmt::Formatter) -> fmt::Result {
        let digits = digits_of(self.width).max(1);
        write!(f, "{}/{}", &format!("{:032X}", number(self.words))[..digits], self.width)
    }
}

impl FromStr for Prefix {
    type Err = String;

    fn from_str(text: &str) -> Result<Prefix, String> {
        let (digits, width) =
            text.split_once('/').ok_or_else(|| format!("\"{text}\" is no prefix: HEX/WIDTH is wanted"))?;
        let width = width_of(width)?;
        if !digits.bytes().all(|b| b.is_ascii_hexdigit()) {
            return Err(format!("\"{digits}\" is not a row of hex digits"));
        }
        if digits.len() > 32 {
            return Err(format!("{} hex digits, where 128 bits have 32", digits.len()));
        }
        let needed = digits_of(width);
        if digits.len() < needed {
            let needed = counted(needed, "hex digit", "hex digits");
            return Err(format!("width {width} needs at least {needed}, not {}", digits.len()));
        }
        let bits = u128::from_str_radix(&format!("{digits:0<32}"), 16).map_err(|e| e.to_string())?;
        Prefix::new(width, words(bits))
            .ok_or_else(|| format!("\"{text}\" has a bit set after the first {width}"))
    }
}

/// A width from 0 to 128.
pub fn width_of(text: &str) -> Result<u32, String> {
    let plain = !text.is_empty() && text.bytes().all(|b| b.is_ascii_digit());
    if !plain {
        return Err(format!("width \"{text}\" is not a whole number"));
    }
    match text.parse() {
        Ok(width) if width <= 128 => Ok(width),
        _ => Err(format!("width {text} is above 128")),
    }
}

#[cfg(test)]
mod tests {
    use super::*;

    #[test]
    fn read_and_written() {
        for (text, again) in [
            ("C0000000/20", "C0000/20"),
            ("c/2", "C/2"),
            ("8/1", "8/1"),
            ("/0", "0/0"),
            ("0/0", "0/0"),
            ("FFFFFFFFFFFFFFFFFFFFFFFFFFFFFFFF/128", "FFFFFFFFFFFFFFFFFFFFFFFFFFFFFFFF/128"),
            ("00000000000000000000000000000001/128", "00000000000000000000000000000001/128"),
            ("122/11", "122/11"),
        ] {
            assert_eq!(text.parse::<Prefix>().map(|prefix| prefix.to_string()), Ok(again.to_string()));
        }
    }

    #[test]
    fn refused() {
        for (text, message) in [
            ("C0000000", "\"C0000000\" is no prefix: HEX/WIDTH is wanted"),
            ("C0/", "width \"\" is not a whole number"),
            ("C0/-1", "width \"-1\" is not a whole number"),
            ("C0/129", "width 129 is above 128"),
            ("C0/99999999999999999999", "width 99999999999999999999 is above 128"),
            ("C0/9", "width 9 needs at least 3 hex digits, not 2"),
            ("/4", "width 4 needs at least 1 hex digit, not 0"),
            ("C0/1", "\"C0/1\" has a bit set after the first 1"),
            ("1/0", "\"1/0\" has a bit set after the first 0"),
            ("0x1/4", "\"0x1\" is not a row of hex digits"),
            ("+1/4", "\"+1\" is not a row of hex digits"),
            ("000000000000000000000000000000000/4", "33 hex digits, where 128 bits have 32"),
        ] {
            assert_eq!(text.parse::<Prefix>(), Err(message.to_string()));
        }
    }

    #[test]
    fn first_bits() {
        assert_eq!(Prefix::first(3, [u32::MAX; 4]).to_string(), "E/3");
        assert_eq!(Prefix::first(129, [1; 4]), Prefix::new(128, [1; 4]).unwrap());
        assert_eq!(Prefix::new(3, [u32::MAX, 0, 0, 0]), None);
        assert_eq!(address(0x0123_4567_89AB_CDEF), [0x0123_4567, 0x89AB_CDEF, 0, 0]);
    }
}
