//! One call on a table of which only some records are open.
use crate::calls::{answer, make, Answer};
use crate::layout::Layout;
use crate::memory::Memory;
use crate::rules::{edits, Ask};
use crate::set::Set;
use std::ops::Range;

/// A table in memory: the record l starts at the word `start` + 8l.
pub struct Placed<'a> {
    pub memory: &'a mut Memory,
    pub start: usize,
    pub set: &'a Set,
    pub layout: Layout,
    pub words: Vec<u32>,
}

impl Placed<'_> {
    pub fn write(&mut self) {
        let (from, to) = (self.start, self.start + self.words.len());
        self.memory.words()[from..to].copy_from_slice(&self.words);
    }

    /// Makes the call: its answer, or the first thing that it touched on shut memory.
    pub fn call(&mut self, ask: Ask) -> Result<Answer, String> {
        // SAFETY: all words of the table are mapped, and `Memory` lets what is touched through.
        let got = unsafe { make(ask, self.memory.lend(self.start), self.words.len()) };
        match self.memory.touched() {
            None => Ok(got),
            Some(word) => Err(format!("{} in {} touches {}", ask, self.set, self.name(word))),
        }
    }

    fn name(&self, word: usize) -> String {
        if word < self.start || self.start + self.words.len() <= word {
            return "memory outside the table".to_string();
        }
        let (l, field) = ((word - self.start) / 8, (word - self.start) % 8);
        format!("{}, which it may not read (record {}, its word {})", self.layout.name(self.set, l), l, field)
    }

    /// Makes the call, and fails where it touched shut memory, answers otherwise than the model, or wrote
    /// another record than those of `may`. The table is then as it was. `open` are the records on open pages.
    pub fn hold(&mut self, ask: Ask, may: &[usize], open: &[Range<usize>]) {
        match self.call(ask) {
            Err(touched) => panic!("{}", touched),
            Ok(got) => {
                assert_eq!(got, answer(ask, self.set, self.layout.records()), "{} in {}", ask, self.set)
            }
        }
        for records in open {
            self.restore(ask, may, records.clone());
        }
    }

    fn restore(&mut self, ask: Ask, may: &[usize], records: Range<usize>) {
        let now = &mut self.memory.words()[self.start + 8 * records.start..self.start + 8 * records.end];
        let before = &self.words[8 * records.start..8 * records.end];
        if now == before {
            return;
        }
        for (i, l) in records.enumerate() {
            let same = now[8 * i..8 * i + 8] == before[8 * i..8 * i + 8];
            let free = edits(ask) && (l == 0 || may.contains(&l));
            assert!(same || free, "{} in {} writes {}", ask, self.set, self.layout.name(self.set, l));
        }
        now.copy_from_slice(before);
    }
}
