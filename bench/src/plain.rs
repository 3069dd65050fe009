//! Peers without a tree of prefixes, and so without a trail: a BTreeMap that is asked width by width, and a
//! sorted array that is searched by halves.
use crate::data::Key;
use crate::peer::{put, Peer};
use std::collections::BTreeMap;
use std::ops::Bound::{Excluded, Unbounded};

pub struct Map(BTreeMap<Key, u32>);

impl Peer for Map {
    const NAME: &'static str = "BTreeMap";

    type Key = Key;

    fn key(k: Key) -> Key {
        k
    }

    fn new(_: usize) -> Map {
        Map(BTreeMap::new())
    }

    fn store(&mut self, k: Key, zone: u32, _: &mut [u8]) -> Option<u32> {
        self.0.insert(k, zone)
    }

    fn remove(&mut self, k: Key, _: &mut [u8]) -> Option<u32> {
        self.0.remove(&k)
    }

    fn fetch(&self, k: Key, _: &mut [u8]) -> Option<u32> {
        self.0.get(&k).copied()
    }

    /// By descending widths from 64, the widest that is stored.
    fn longest(&self, k: Key, _: &mut [u8]) -> Option<(u32, u32)> {
        (0..=k.width.min(64)).rev().find_map(|width| self.0.get(&k.cut(width)).map(|zone| (width, *zone)))
    }

    fn slice(&self, resume: Option<Key>, out: &mut [u32]) -> usize {
        let from = resume.map_or(Unbounded, Excluded);
        let given = self.0.range((from, Unbounded)).take(out.len() / 6);
        given.enumerate().map(|(i, (k, zone))| put(out, i, *k, *zone)).count()
    }

    fn check(&self) -> Option<bool> {
        None
    }
}

pub struct Sorted(Vec<(Key, u32)>);

impl Sorted {
    fn find(&self, k: Key) -> Result<usize, usize> {
        self.0.binary_search_by_key(&k, |(key, _)| *key)
    }
}

impl Peer for Sorted {
    const NAME: &'static str = "sorted array";

    type Key = Key;

    fn key(k: Key) -> Key {
        k
    }

    fn new(size: usize) -> Sorted {
        Sorted(Vec::with_capacity(size))
    }

    fn store(&mut self, k: Key, zone: u32, _: &mut [u8]) -> Option<u32> {
        match self.find(k) {
            Ok(i) => Some(std::mem::replace(&mut self.0[i].1, zone)),
            Err(i) => {
                self.0.insert(i, (k, zone));
                None
            }
        }
    }

    fn remove(&mut self, k: Key, _: &mut [u8]) -> Option<u32> {
        self.find(k).ok().map(|i| self.0.remove(i).1)
    }

    fn fetch(&self, k: Key, _: &mut [u8]) -> Option<u32> {
        self.find(k).ok().map(|i| self.0[i].1)
    }

    /// The last one not after k; where that is no prefix, the same for the part of k that it shares.
    fn longest(&self, k: Key, _: &mut [u8]) -> Option<(u32, u32)> {
        let mut part = k;
        loop {
            let i = match self.find(part) {
                Ok(i) => return Some((part.width, self.0[i].1)),
                Err(0) => return None,
                Err(i) => i - 1,
            };
            let (key, zone) = self.0[i];
            let shared = key.shared(part);
            if shared == key.width {
                return Some((key.width, zone));
            }
            part = part.cut(shared);
        }
    }

    fn slice(&self, resume: Option<Key>, out: &mut [u32]) -> usize {
        let from = match resume.map(|k| self.find(k)) {
            None => 0,
            Some(Ok(i)) => i + 1,
            Some(Err(i)) => i,
        };
        let given = self.0[from..].iter().take(out.len() / 6);
        given.enumerate().map(|(i, (k, zone))| put(out, i, *k, *zone)).count()
    }

    fn check(&self) -> Option<bool> {
        Some(self.0.windows(2).all(|pair| pair[0].0 < pair[1].0))
    }
}
