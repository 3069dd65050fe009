//! The words of a table, as docs/LAYOUT.md has them, with every record where the test wants it.
use crate::keys::Key;
use crate::random::Random;
use crate::set::{text, Set};
use nalfipode::raw;

/// The tag of a spare record, and the header's last word in a fresh table.
pub const SPARE: u32 = u32::MAX;

/// The record of each node, in the nodes' order, and the spare records in the chain's order: together all
/// numbers from 1 on.
pub struct Layout {
    pub nodes: Vec<usize>,
    pub spares: Vec<usize>,
}

impl Layout {
    pub fn records(&self) -> usize {
        self.nodes.len() + self.spares.len()
    }

    /// The records of some nodes, and of the first spare ones.
    pub fn places(&self, set: &Set, nodes: &[Key], spares: usize) -> Vec<usize> {
        let of_node = |node: &Key| self.nodes[set.nodes.binary_search(node).expect("a node")];
        nodes.iter().map(of_node).chain(self.spares.iter().take(spares).copied()).collect()
    }

    /// What a record is, for a message.
    pub fn name(&self, set: &Set, record: usize) -> String {
        match self.nodes.iter().position(|l| *l == record) {
            Some(i) => format!("the node {}", text(set.nodes[i])),
            None => match self.spares.iter().position(|l| *l == record) {
                Some(i) => format!("the spare record {} of the chain", i + 1),
                None => "no record at all".to_string(),
            },
        }
    }

    fn link(&self, set: &Set, p: Key, bit: u128) -> u32 {
        if p.width == 128 {
            return 0;
        }
        let d = Key { bits: p.bits | bit << (127 - p.width), width: p.width + 1 };
        set.under(d).map_or(0, |i| self.nodes[i] as u32)
    }

    /// The table's words: what may hold anything holds random words, but the header's last is `tail`.
    pub fn words(&self, set: &Set, tail: u32, random: &mut Random) -> Vec<u32> {
        let mut words: Vec<u32> = (0..8 + 8 * self.records()).map(|_| random.word()).collect();
        words[0] = self.nodes.first().map_or(0, |l| *l as u32);
        words[1] = self.spares.first().map_or(0, |l| *l as u32);
        words[7] = tail;
        for (node, l) in set.nodes.iter().zip(&self.nodes) {
            let [w0, w1, w2, w3] = node.words();
            let zone = set.stored.get(node);
            words[8 * l..8 * l + 4].copy_from_slice(&[w1, w0, w3, w2]);
            words[8 * l + 4] = zone.copied().unwrap_or(words[8 * l + 4]);
            words[8 * l + 5] = self.link(set, *node, 0);
            words[8 * l + 6] = self.link(set, *node, 1);
            words[8 * l + 7] = 2 * node.width + u32::from(zone.is_some());
        }
        for (i, l) in self.spares.iter().enumerate() {
            words[8 * l + 5] = self.spares.get(i + 1).map_or(0, |next| *next as u32);
            words[8 * l + 7] = SPARE;
        }
        assert_eq!(audited(&words), 1, "the check refuses the words for {}", set);
        words
    }
}

fn audited(words: &[u32]) -> u32 {
    let mut values = [0];
    assert_eq!(raw::audit(words, &mut values), 0);
    values[0]
}
