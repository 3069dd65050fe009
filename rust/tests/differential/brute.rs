//! The model by brute force: a map of bit strings, and the paper's definitions as they are written.
use crate::keys::Key;
use crate::run::{Model, Sliced};
use std::collections::{BTreeMap, BTreeSet};

type Bits = Vec<bool>;

#[derive(Default)]
pub struct Brute {
    stored: BTreeMap<Bits, u32>,
    nodes: BTreeSet<Bits>,
}

fn common(a: &[bool], b: &[bool]) -> Bits {
    a.iter().zip(b).take_while(|(x, y)| x == y).map(|(x, _)| *x).collect()
}

/// "the strings in S together with the longest common prefix of every two members"
fn nodes_of(stored: &BTreeMap<Bits, u32>) -> BTreeSet<Bits> {
    let mut nodes: BTreeSet<Bits> = stored.keys().cloned().collect();
    for a in stored.keys() {
        for b in stored.keys() {
            nodes.insert(common(a, b));
        }
    }
    nodes
}

fn key(bits: &[bool]) -> Key {
    let number = bits.iter().enumerate().fold(0, |sum, (i, bit)| sum | u128::from(*bit) << (127 - i));
    Key { bits: number, width: bits.len() as u32 }
}

impl Brute {
    fn shortest(&self, begin: &[bool]) -> Option<&Bits> {
        self.nodes.iter().filter(|node| node.starts_with(begin)).min_by_key(|node| node.len())
    }
}

impl Model for Brute {
    fn get(&self, k: Key) -> Option<u32> {
        self.stored.get(&k.string()).copied()
    }

    fn put(&mut self, k: Key, zone: u32) {
        self.stored.insert(k.string(), zone);
        self.nodes = nodes_of(&self.stored);
    }

    fn take(&mut self, k: Key) {
        self.stored.remove(&k.string());
        self.nodes = nodes_of(&self.stored);
    }

    fn nodes_with(&self, k: Key) -> usize {
        let mut stored = self.stored.clone();
        stored.insert(k.string(), 0);
        nodes_of(&stored).len()
    }

    fn path(&self, k: Key) -> Vec<Key> {
        let string = k.string();
        let mut path: Vec<Bits> = self.nodes.iter().filter(|node| string.starts_with(node)).cloned().collect();
        path.sort_by_key(|node| node.len());
        let last = match path.last() {
            None => self.shortest(&[]),
            Some(q) if q.len() == string.len() => None,
            Some(q) => {
                let d = &string[..q.len() + 1];
                if self.stored.keys().any(|member| member.starts_with(d)) {
                    self.shortest(d)
                } else {
                    None
                }
            }
        };
        path.extend(last.cloned());
        path.iter().map(|node| key(node)).collect()
    }

    fn longest(&self, k: Key) -> Option<(u32, u32)> {
        let string = k.string();
        let found = self.stored.iter().filter(|(member, _)| string.starts_with(member));
        found.max_by_key(|(member, _)| member.len()).map(|(member, zone)| (member.len() as u32, *zone))
    }

    fn slice(&self, resume: Option<Key>, size: usize) -> Sliced {
        let after = |string: &Bits| resume.map_or(true, |r| *string > r.string());
        let rest: Vec<&Bits> = self.stored.keys().filter(|member| after(member)).collect();
        let given = &rest[..size.min(rest.len())];
        let passed = match given.last() {
            None => 0,
            Some(last) => self.nodes.iter().filter(|node| after(node) && node <= last).count(),
        };
        let path = resume.map_or(0, |r| self.path(r).len());
        Sliced {
            given: given.iter().map(|member| (key(member), self.stored[*member])).collect(),
            more: rest.len() > size,
            count: (passed + path) as u32,
        }
    }
}
