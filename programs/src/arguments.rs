//! A program's arguments: its options, and the words that are left.

use std::ffi::{OsStr, OsString};
use std::ops::Range;
use std::os::unix::ffi::OsStrExt;

/// What a program is called and takes.
pub struct Program {
    pub name: &'static str,
    pub usage: &'static str,
    /// Its own options, beside those that every program has.
    pub options: &'static [&'static str],
    /// The places, from 0, of the words that may be numbers below 0, and so start as an option does.
    pub numbers: Range<usize>,
}

/// What a program is asked for.
#[derive(Debug, PartialEq, Eq)]
pub enum Asked {
    Help,
    Version,
    Work(Given),
}

/// The options and the words that were given, each in their order.
#[derive(Debug, Default, PartialEq, Eq)]
pub struct Given {
    pub options: Vec<&'static str>,
    pub words: Vec<OsString>,
}

impl Program {
    /// Parts arguments. `--` ends the options, and a lone `-` is a word.
    pub fn asked(&self, arguments: impl IntoIterator<Item = OsString>) -> Result<Asked, String> {
        let mut given = Given::default();
        let mut ended = false;
        for word in arguments {
            if ended || !self.is_option(&word, given.words.len()) {
                given.words.push(word);
                continue;
            }
            match word.to_str() {
                Some("--") => ended = true,
                Some("--help" | "-h") => return Ok(Asked::Help),
                Some("--version" | "-V") => return Ok(Asked::Version),
                text => match self.options.iter().find(|known| text == Some(known)) {
                    Some(known) => given.options.push(known),
                    None => return Err(self.unknown(&word)),
                },
            }
        }
        Ok(Asked::Work(given))
    }

    fn is_option(&self, word: &OsStr, place: usize) -> bool {
        match word.as_bytes() {
            [b'-', b'0'..=b'9' | b'.', ..] => !self.numbers.contains(&place),
            [b'-', _, ..] => true,
            _ => false,
        }
    }

    fn unknown(&self, word: &OsStr) -> String {
        format!("unknown option {}; {} --help tells the usage", word.to_string_lossy(), self.name)
    }
}

#[cfg(test)]
mod tests {
    use super::*;

    const PROGRAM: Program =
        Program { name: "program", usage: "usage", options: &["--most", "--least"], numbers: 1..2 };

    fn asked(words: &[&[u8]]) -> Result<Asked, String> {
        PROGRAM.asked(words.iter().map(|word| OsStr::from_bytes(word).to_owned()))
    }

    fn work(options: &[&'static str], words: &[&[u8]]) -> Result<Asked, String> {
        let words = words.iter().map(|word| OsStr::from_bytes(word).to_owned()).collect();
        Ok(Asked::Work(Given { options: options.to_vec(), words }))
    }

    #[test]
    fn options_and_words() {
        assert_eq!(asked(&[]), work(&[], &[]));
        assert_eq!(asked(&[b"a", b"--least", b"b", b"--most"]), work(&["--least", "--most"], &[b"a", b"b"]));
        assert_eq!(asked(&[b"-", b"\xFF", b""]), work(&[], &[b"-", b"\xFF", b""]));
        assert_eq!(asked(&[b"--", b"--most", b"--", b"-x"]), work(&[], &[b"--most", b"--", b"-x"]));
        assert_eq!(asked(&[b"a", b"--help", b"--none"]), Ok(Asked::Help));
        assert_eq!(asked(&[b"-h"]), Ok(Asked::Help));
        assert_eq!(asked(&[b"--version", b"a"]), Ok(Asked::Version));
        assert_eq!(asked(&[b"-V"]), Ok(Asked::Version));
    }

    #[test]
    fn numbers_below_0_in_their_places() {
        for number in [&b"-1"[..], b"-.5", b"-2.5", b"-7x"] {
            assert_eq!(asked(&[b"a", number]), work(&[], &[b"a", number]));
            assert!(asked(&[number]).is_err() && asked(&[b"a", b"b", number]).is_err());
        }
        assert!(asked(&[b"a", b"-x"]).is_err());
    }

    #[test]
    fn unknown_options() {
        for (word, printed) in
            [(&b"--mos"[..], "--mos"), (b"-m", "-m"), (b"--most=1", "--most=1"), (b"-\xFF", "-\u{FFFD}")]
        {
            let message = format!("unknown option {printed}; program --help tells the usage");
            assert_eq!(asked(&[b"a", word]), Err(message));
        }
    }
}
