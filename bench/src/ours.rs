//! The proved table, through the linked library.
use crate::data::Key;
use crate::peer::Peer;
use nalfipode::{raw, table_words, MOST_RECORDS};

/// A key as the library takes it.
#[derive(Clone, Copy)]
pub struct Words {
    pub width: u32,
    pub words: [u32; 4],
}

pub struct Ours {
    words: Vec<u32>,
}

impl Ours {
    pub fn words(&self) -> &[u32] {
        &self.words
    }

    /// How many nodes the path of a key has.
    pub fn nodes(&self, k: Words) -> u32 {
        let mut values = [0; 4];
        raw::longest_match(&self.words, k.width, &k.words, &mut [0; 129], &mut values);
        values[0]
    }
}

impl Peer for Ours {
    const NAME: &'static str = "nalfipode";

    type Key = Words;

    fn key(k: Key) -> Words {
        Words { width: k.width, words: k.words() }
    }

    fn new(size: usize) -> Ours {
        let mut words = vec![0; table_words(MOST_RECORDS.min(2 * size))];
        assert_eq!(raw::fresh(&mut words), 0);
        Ours { words }
    }

    fn store(&mut self, k: Words, zone: u32, trail: &mut [u8]) -> Option<u32> {
        let mut values = [0; 3];
        let number = raw::store(&mut self.words, k.width, &k.words, zone, trail, &mut values);
        assert_eq!(number, 0);
        if values[1] == 1 {
            Some(values[2])
        } else {
            None
        }
    }

    fn remove(&mut self, k: Words, trail: &mut [u8]) -> Option<u32> {
        let mut values = [0; 2];
        match raw::remove(&mut self.words, k.width, &k.words, trail, &mut values) {
            0 => Some(values[1]),
            _ => None,
        }
    }

    fn fetch(&self, k: Words, trail: &mut [u8]) -> Option<u32> {
        let mut values = [0; 2];
        match raw::fetch(&self.words, k.width, &k.words, trail, &mut values) {
            0 => Some(values[1]),
            _ => None,
        }
    }

    fn longest(&self, k: Words, trail: &mut [u8]) -> Option<(u32, u32)> {
        let mut values = [0; 4];
        raw::longest_match(&self.words, k.width, &k.words, trail, &mut values);
        if values[1] == 1 {
            Some((values[2], values[3]))
        } else {
            None
        }
    }

    fn slice(&self, resume: Option<Words>, out: &mut [u32]) -> usize {
        let mut values = [0; 3];
        let k = resume.unwrap_or(Words { width: 0, words: [0; 4] });
        let flag = u32::from(resume.is_some());
        let size = (out.len() / 6) as u32;
        assert_eq!(raw::slice(&self.words, flag, k.width, &k.words, size, out, &mut values), 0);
        values[0] as usize
    }

    fn check(&self) -> Option<bool> {
        let mut values = [0];
        assert_eq!(raw::audit(&self.words, &mut values), 0);
        Some(values[0] == 1)
    }
}
