//! A path-compressed radix tree in safe Rust: nodes of 32 bytes in a Vec, each with its whole string, freed
//! places used again, and the same trail as the table's. It trusts its own links.
use crate::data::Key;
use crate::peer::{put, Peer};

const NONE: u32 = u32::MAX;

#[derive(Clone, Copy)]
struct Node {
    bits: u128,
    number: u32,
    sides: [u32; 2],
    width: u8,
    stored: bool,
}

impl Node {
    fn new(key: Key, zone: Option<u32>, sides: [u32; 2]) -> Node {
        let (number, stored) = (zone.unwrap_or(0), zone.is_some());
        Node { bits: key.bits, number, sides, width: key.width as u8, stored }
    }

    fn key(&self) -> Key {
        Key { bits: self.bits, width: u32::from(self.width) }
    }

    fn zone(&self) -> Option<u32> {
        if self.stored {
            Some(self.number)
        } else {
            None
        }
    }
}

pub struct Tree {
    nodes: Vec<Node>,
    spare: Vec<u32>,
    top: u32,
}

/// Where a walk ends: the last two nodes that are prefixes of the key, and the one that is none.
struct End {
    over: u32,
    up: u32,
    at: u32,
    next: u32,
    length: usize,
}

impl Tree {
    fn walk(&self, k: Key, trail: &mut [u8], mut passed: impl FnMut(&Node)) -> End {
        let mut end = End { over: NONE, up: NONE, at: NONE, next: self.top, length: 0 };
        while end.next != NONE {
            let node = &self.nodes[end.next as usize];
            let key = node.key();
            trail[end.length] = node.width;
            end.length += 1;
            if k.width < key.width || (key.bits ^ k.bits).leading_zeros() < key.width {
                return end;
            }
            passed(node);
            end.over = end.up;
            end.up = end.at;
            end.at = end.next;
            end.next = if key.width < k.width { node.sides[k.bit(key.width)] } else { NONE };
        }
        end
    }

    fn made(&mut self, node: Node) -> u32 {
        match self.spare.pop() {
            Some(l) => {
                self.nodes[l as usize] = node;
                l
            }
            None => {
                self.nodes.push(node);
                self.nodes.len() as u32 - 1
            }
        }
    }

    /// Puts a link in the place of a node's side, or of the top.
    fn hang(&mut self, under: u32, k: Key, l: u32) {
        if under == NONE {
            self.top = l;
        } else {
            let parent = &mut self.nodes[under as usize];
            parent.sides[k.bit(u32::from(parent.width))] = l;
        }
    }

    fn sound(&self, l: u32, least: u32) -> bool {
        if l == NONE {
            return true;
        }
        let node = &self.nodes[l as usize];
        let top = node.key();
        let both = node.sides[0] != NONE && node.sides[1] != NONE;
        let begin = top.width >= least && (node.stored || both);
        begin
            && (0..2).all(|side| {
                let below = node.sides[side];
                below == NONE || {
                    let key = self.nodes[below as usize].key();
                    key.width > top.width
                        && key.shared(top) == top.width
                        && key.bit(top.width) == side
                        && self.sound(below, top.width + 1)
                }
            })
    }
}

impl Peer for Tree {
    const NAME: &'static str = "safe Rust tree";

    type Key = Key;

    fn key(k: Key) -> Key {
        k
    }

    fn new(size: usize) -> Tree {
        Tree { nodes: Vec::with_capacity(2 * size), spare: Vec::new(), top: NONE }
    }

    fn store(&mut self, k: Key, zone: u32, trail: &mut [u8]) -> Option<u32> {
        let end = self.walk(k, trail, |_| ());
        if end.at != NONE && self.nodes[end.at as usize].key().width == k.width {
            let node = &mut self.nodes[end.at as usize];
            let old = node.zone();
            node.number = zone;
            node.stored = true;
            return old;
        }
        let leaf = Node::new(k, Some(zone), [NONE; 2]);
        if end.next == NONE {
            let l = self.made(leaf);
            self.hang(end.at, k, l);
            return None;
        }
        let below = self.nodes[end.next as usize].key();
        let shared = below.shared(k);
        let l = self.made(leaf);
        if shared == k.width {
            self.nodes[l as usize].sides[below.bit(shared)] = end.next;
            self.hang(end.at, k, l);
            return None;
        }
        let mut sides = [l; 2];
        sides[below.bit(shared)] = end.next;
        let branch = self.made(Node::new(k.cut(shared), None, sides));
        self.hang(end.at, k, branch);
        None
    }

    fn remove(&mut self, k: Key, trail: &mut [u8]) -> Option<u32> {
        let end = self.walk(k, trail, |_| ());
        if end.at == NONE || self.nodes[end.at as usize].key().width != k.width {
            return None;
        }
        let node = self.nodes[end.at as usize];
        let zone = node.zone()?;
        let [left, right] = node.sides;
        if left != NONE && right != NONE {
            self.nodes[end.at as usize].stored = false;
            return Some(zone);
        }
        self.spare.push(end.at);
        let below = if left == NONE { right } else { left };
        if below == NONE && end.up != NONE && !self.nodes[end.up as usize].stored {
            let up = self.nodes[end.up as usize];
            let other = up.sides[1 - k.bit(u32::from(up.width))];
            self.spare.push(end.up);
            self.hang(end.over, k, other);
        } else {
            self.hang(end.up, k, below);
        }
        Some(zone)
    }

    fn fetch(&self, k: Key, trail: &mut [u8]) -> Option<u32> {
        let end = self.walk(k, trail, |_| ());
        if end.at == NONE {
            return None;
        }
        let node = &self.nodes[end.at as usize];
        if node.key().width == k.width {
            node.zone()
        } else {
            None
        }
    }

    fn longest(&self, k: Key, trail: &mut [u8]) -> Option<(u32, u32)> {
        let mut best = None;
        self.walk(k, trail, |node| {
            if let Some(zone) = node.zone() {
                best = Some((node.key().width, zone));
            }
        });
        best
    }

    fn slice(&self, resume: Option<Key>, out: &mut [u32]) -> usize {
        let mut open = Vec::with_capacity(129);
        let mut next = self.top;
        if let Some(k) = resume {
            while next != NONE {
                let node = &self.nodes[next as usize];
                let key = node.key();
                let shared = key.shared(k);
                if shared < key.width {
                    if shared < k.width && k.bit(shared) == 1 {
                        next = NONE;
                    }
                    break;
                }
                if key.width == k.width {
                    open.push(node.sides[1]);
                    next = node.sides[0];
                    break;
                }
                if k.bit(key.width) == 0 {
                    open.push(node.sides[1]);
                }
                next = node.sides[k.bit(key.width)];
            }
        }
        let mut given = 0;
        while given < out.len() / 6 {
            while next == NONE {
                match open.pop() {
                    None => return given,
                    Some(l) => next = l,
                }
            }
            let node = &self.nodes[next as usize];
            if let Some(zone) = node.zone() {
                put(out, given, node.key(), zone);
                given += 1;
            }
            open.push(node.sides[1]);
            next = node.sides[0];
        }
        given
    }

    fn check(&self) -> Option<bool> {
        Some(self.sound(self.top, 0))
    }
}
