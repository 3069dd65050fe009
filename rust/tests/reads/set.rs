//! A set with its zone numbers, and the nodes of its tree, all of them.
use crate::keys::Key;
use crate::quick::Quick;
use crate::run::Model;
use std::collections::{BTreeMap, BTreeSet};
use std::fmt;

pub struct Set {
    pub model: Quick,
    pub stored: BTreeMap<Key, u32>,
    /// In the paper's order.
    pub nodes: Vec<Key>,
}

/// A string as the papers write it.
pub fn text(k: Key) -> String {
    if k.width == 0 {
        return "the empty string".to_string();
    }
    k.string().iter().map(|bit| if *bit { '1' } else { '0' }).collect()
}

/// "the strings in S together with the longest common prefix of every two members"
fn nodes_of(stored: &BTreeMap<Key, u32>) -> Vec<Key> {
    let mut nodes: BTreeSet<Key> = stored.keys().copied().collect();
    for a in stored.keys() {
        for b in stored.keys() {
            nodes.insert(a.common(*b));
        }
    }
    nodes.into_iter().collect()
}

impl Set {
    pub fn of(members: &[(Key, u32)]) -> Set {
        let mut model = Quick::default();
        members.iter().for_each(|(k, zone)| model.put(*k, *zone));
        let stored: BTreeMap<Key, u32> = members.iter().copied().collect();
        let nodes = nodes_of(&stored);
        assert_eq!(model.nodes(), nodes.len(), "the model's nodes");
        Set { model, stored, nodes }
    }

    /// How many nodes a store of k adds.
    pub fn added(&self, k: Key) -> usize {
        self.model.nodes_with(k) - self.nodes.len()
    }

    /// The first node at or after d, where it begins with d: of the nodes that do it is the shortest.
    pub fn under(&self, d: Key) -> Option<usize> {
        let i = self.nodes.partition_point(|node| *node < d);
        self.nodes.get(i).filter(|node| node.begins(d)).map(|_| i)
    }

    /// "the nodes strictly after the resume prefix and not after the last one listed"
    pub fn passed(&self, resume: Option<Key>, size: usize) -> Vec<Key> {
        let after = |k: &Key| resume.map_or(true, |r| *k > r);
        match self.stored.keys().filter(|k| after(k)).take(size).last() {
            None => Vec::new(),
            Some(last) => self.nodes.iter().filter(|node| after(node) && *node <= last).copied().collect(),
        }
    }
}

impl fmt::Display for Set {
    fn fmt(&self, f: &mut fmt::Formatter) -> fmt::Result {
        let first: Vec<String> = self.stored.keys().take(12).map(|k| text(*k)).collect();
        let rest = self.stored.len() - first.len();
        write!(
            f,
            "{{{}{}}}",
            first.join(", "),
            if rest > 0 { format!(" and {} more", rest) } else { String::new() }
        )
    }
}
