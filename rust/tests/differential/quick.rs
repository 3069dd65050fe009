//! The model for large sets: the same definitions asked of a sorted map, one string at a time. A string p is a
//! node if it is stored, or if members begin with p0 and members begin with p1: these two have p as their
//! longest common prefix. The small runs hold it against the model by brute force.
use crate::keys::{Key, EMPTY};
use crate::run::{Model, Sliced};
use std::collections::{BTreeMap, BTreeSet};
use std::ops::Bound::{Excluded, Unbounded};

#[derive(Default)]
pub struct Quick {
    stored: BTreeMap<Key, u32>,
    count: usize,
}

impl Quick {
    pub fn len(&self) -> usize {
        self.stored.len()
    }

    pub fn nodes(&self) -> usize {
        self.count
    }

    /// The first and the last member that begins with p.
    fn under(&self, p: Key) -> Option<(Key, Key)> {
        let first = *self.stored.range(p..).next()?.0;
        if !first.begins(p) {
            return None;
        }
        let ones = if p.width == 128 { 0 } else { u128::MAX >> p.width };
        let last = *self.stored.range(..=Key { bits: p.bits | ones, width: 128 }).next_back()?.0;
        Some((first, last))
    }

    fn side(&self, p: Key, bit: bool) -> bool {
        let d = Key { bits: p.bits | u128::from(bit) << (127 - p.width), width: p.width + 1 };
        self.under(d).is_some()
    }

    fn is_node(&self, p: Key) -> bool {
        self.stored.contains_key(&p) || (p.width < 128 && self.side(p, false) && self.side(p, true))
    }

    /// The shortest node that begins with d, where members do.
    fn shortest(&self, d: Key) -> Option<Key> {
        self.under(d).map(|(first, last)| first.common(last))
    }

    /// How many nodes a store of k adds.
    fn added(&self, k: Key) -> usize {
        if self.is_node(k) {
            return 0;
        }
        let before = self.stored.range(..k).next_back().map(|(member, _)| member.common(k));
        let after = self.stored.range(k..).next().map(|(member, _)| member.common(k));
        match before.into_iter().chain(after).max_by_key(|shared| shared.width) {
            Some(branch) if branch != k && !self.is_node(branch) => 2,
            _ => 1,
        }
    }
}

impl Model for Quick {
    fn get(&self, k: Key) -> Option<u32> {
        self.stored.get(&k).copied()
    }

    fn put(&mut self, k: Key, zone: u32) {
        self.count += self.added(k);
        self.stored.insert(k, zone);
    }

    fn take(&mut self, k: Key) {
        self.stored.remove(&k);
        self.count -= self.added(k);
    }

    fn nodes_with(&self, k: Key) -> usize {
        self.count + self.added(k)
    }

    fn path(&self, k: Key) -> Vec<Key> {
        let mut path: Vec<Key> = (0..=k.width).map(|width| k.cut(width)).filter(|p| self.is_node(*p)).collect();
        let last = match path.last() {
            None => self.shortest(EMPTY),
            Some(q) if q.width == k.width => None,
            Some(q) => self.shortest(k.cut(q.width + 1)),
        };
        path.extend(last);
        path
    }

    fn longest(&self, k: Key) -> Option<(u32, u32)> {
        (0..=k.width).rev().find_map(|width| self.get(k.cut(width)).map(|zone| (width, zone)))
    }

    fn slice(&self, resume: Option<Key>, size: usize) -> Sliced {
        let from = resume.map_or(Unbounded, Excluded);
        let mut rest = self.stored.range((from, Unbounded));
        let given: Vec<(Key, u32)> = rest.by_ref().take(size).map(|(member, zone)| (*member, *zone)).collect();
        // every node passed is a prefix of a member given
        let mut passed = BTreeSet::new();
        for (member, _) in &given {
            for width in (0..=member.width).rev() {
                let p = member.cut(width);
                if resume.map_or(false, |r| p <= r) {
                    break;
                }
                if self.is_node(p) && !passed.insert(p) {
                    break;
                }
            }
        }
        let path = resume.map_or(0, |r| self.path(r).len());
        Sliced { more: rest.next().is_some(), count: (passed.len() + path) as u32, given }
    }
}
