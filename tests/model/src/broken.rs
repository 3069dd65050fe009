//! Images that a checker must refuse: at least one for each rule of paper 01, "The image", made by hand from
//! a good one.

use crate::image::{metadata, pairs, short, text, MARKER};

/// A broken image and the rule that it breaks.
pub type Broken = (String, Vec<u8>);

/// An image in its parts, each as it is to be written.
#[derive(Clone)]
struct Parts {
    tree: Vec<[u32; 2]>,
    zeros: Vec<u8>,
    data: Vec<u8>,
    marker: Vec<u8>,
    metadata: Vec<u8>,
}

impl Parts {
    fn new(tree: &[[u32; 2]], data: &[u8]) -> Parts {
        Parts {
            tree: tree.to_vec(),
            zeros: vec![0; 16],
            data: data.to_vec(),
            marker: MARKER.to_vec(),
            metadata: metadata(&short(tree.len() as u64), &[]),
        }
    }

    fn tree_bytes(&self) -> Vec<u8> {
        self.tree.iter().flatten().flat_map(|r| r.to_be_bytes()[1..].to_vec()).collect()
    }

    fn bytes(&self) -> Vec<u8> {
        [&self.tree_bytes(), &self.zeros, &self.data, &self.marker, &self.metadata].map(|p| &p[..]).concat()
    }
}

const N: u32 = 4;

/// The record of the data entry at an offset.
const fn at(offset: u32) -> u32 {
    N + 16 + offset
}

/// 000 -> 5, 001 -> 300, 01 -> 70,000, 11 -> 5: four nodes (empty, 0, 00, 1) and three entries, with no data
/// for 10.
fn whole() -> Parts {
    let tree = [[1, 3], [2, at(5)], [at(0), at(2)], [N, at(0)]];
    Parts::new(&tree, &[0xC1, 5, 0xC2, 0x01, 0x2C, 0xC3, 0x01, 0x11, 0x70])
}

/// The image that the broken ones are made from.
pub fn unbroken() -> Vec<u8> {
    whole().bytes()
}

struct Faults(Vec<Broken>);

impl Faults {
    fn add(&mut self, name: impl Into<String>, bytes: Vec<u8>) {
        self.0.push((name.into(), bytes));
    }

    /// The whole image with one thing changed.
    fn with(&mut self, name: impl Into<String>, change: impl Fn(&mut Parts)) {
        let mut parts = whole();
        change(&mut parts);
        self.add(name, parts.bytes());
    }
}

pub fn broken() -> Vec<Broken> {
    let mut faults = Faults(Vec::new());
    ends(&mut faults);
    between(&mut faults);
    fixed_bytes(&mut faults);
    counts(&mut faults);
    epochs(&mut faults);
    records(&mut faults);
    numbering(&mut faults);
    depth(&mut faults);
    entries(&mut faults);
    profile(&mut faults);
    faults.0
}

/// Too little, too much, nothing.
fn ends(f: &mut Faults) {
    let good = unbroken();
    f.add("empty input", vec![]);
    f.add("one byte", vec![0]);
    f.add("the marker alone", MARKER.to_vec());
    f.add("one byte short at the end", good[..good.len() - 1].to_vec());
    f.add("one byte short at the start", good[1..].to_vec());
    for b in [0, 2, 0xFF] {
        f.add(format!("one byte {b:02X} after"), [&good[..], &[b]].concat());
        f.add(format!("one byte {b:02X} before"), [&[b], &good[..]].concat());
    }
    f.add("a node before", [&[0; 6], &good[..]].concat());
    f.add("the image twice", [&good[..], &good[..]].concat());
    for part in 1..good.len() {
        f.add(format!("the first {part} bytes"), good[..part].to_vec());
    }
}

/// Bytes between the parts, or a part that is missing.
fn between(f: &mut Faults) {
    f.with("a zero byte between tree and separator", |p| p.zeros.push(0));
    f.with("a separator of 15 bytes", |p| p.zeros.truncate(15));
    f.with("no separator", |p| p.zeros.clear());
    f.with("a byte between separator and data", |p| p.data.insert(0, 0xC0));
    f.with("a byte between data and marker", |p| p.data.push(0));
    f.with("the marker twice", |p| p.marker.extend(MARKER));
    f.with("no marker", |p| p.marker.clear());
    f.with("a byte between marker and metadata", |p| p.marker.push(0));
    f.with("no metadata", |p| p.metadata.clear());
    f.with("no tree", |p| p.tree.clear());
}

/// Every byte of separator, marker and metadata, with the lowest bit, the highest bit and all bits turned.
fn fixed_bytes(f: &mut Faults) {
    for turn in [0x01, 0x80, 0xFF] {
        for i in 0..16 {
            f.with(format!("separator byte {i} turned by {turn:02X}"), |p| p.zeros[i] ^= turn);
        }
        for i in 0..MARKER.len() {
            f.with(format!("marker byte {i} turned by {turn:02X}"), |p| p.marker[i] ^= turn);
        }
        for i in 0..whole().metadata.len() {
            f.with(format!("metadata byte {i} turned by {turn:02X}"), |p| p.metadata[i] ^= turn);
        }
    }
}

/// node_count: "C0 + size, N", "Values without leading zero bytes."
fn counts(f: &mut Faults) {
    for n in [0, 1, 3, 5, 255, 256, 1 << 24, u64::from(u32::MAX)] {
        f.with(format!("a count of {n} for four nodes"), |p| p.metadata = metadata(&short(n), &[]));
    }
    f.with("N with a leading zero byte", |p| p.metadata = metadata(&[0, 4], &[]));
    f.with("N with three leading zero bytes", |p| p.metadata = metadata(&[0, 0, 0, 4], &[]));
    f.with("N of five bytes", |p| p.metadata = metadata(&[0, 0, 0, 0, 4], &[]));
    f.with("N's size one more than its bytes", |p| p.metadata[12] += 1);
    f.with("N's size one less than its bytes", |p| p.metadata[12] -= 1);
    let mut none = Parts::new(&[], &[]);
    f.add("no nodes at all", none.bytes());
    none.metadata = metadata(&[0], &[]);
    f.add("no nodes at all, N as a zero byte", none.bytes());
}

/// build_epoch: "size byte, 02, then the number"
fn epochs(f: &mut Faults) {
    let mut epoch = |name: &str, bytes: &[u8]| f.with(name, |p| p.metadata = metadata(&[4], bytes));
    epoch("an epoch of 0 as a zero byte", &[0]);
    epoch("an epoch with a leading zero byte", &[0, 1]);
    epoch("an epoch of eight bytes with a leading zero byte", &[0, 1, 2, 3, 4, 5, 6, 7]);
    epoch("an epoch of nine bytes", &[1, 2, 3, 4, 5, 6, 7, 8, 9]);
    epoch("an epoch of nine bytes that fits eight", &[0, 2, 3, 4, 5, 6, 7, 8, 9]);
    let last = whole().metadata.len() - 2;
    f.with("an epoch's size one more than its bytes", |p| p.metadata[last] = 1);
    f.with("an epoch's size one less than its bytes", |p| {
        p.metadata = metadata(&[4], &[1]);
        p.metadata[last] = 0;
    });
}

/// "A record below N is a node; equal to N is no data; N + 16 + d means the data entry at offset d. N + 1 to
/// N + 15 are bad."
fn records(f: &mut Faults) {
    for (node, side) in [(2, 0), (2, 1), (3, 0)] {
        for r in N + 1..=N + 15 {
            f.with(format!("record N + {} in node {node} side {side}", r - N), |p| p.tree[node][side] = r);
        }
        for (r, name) in
            [(at(9), "just past the data"), (at(10), "past the data"), ((1 << 24) - 1, "of 24 ones")]
        {
            f.with(format!("a record {name} in node {node} side {side}"), |p| p.tree[node][side] = r);
        }
        for r in [at(1), at(3), at(4), at(6), at(7), at(8)] {
            let d = r - at(0);
            f.with(format!("a record into an entry, offset {d}, in node {node} side {side}"), |p| {
                p.tree[node][side] = r
            });
        }
    }
    f.add("data after no data section", Parts::new(&[[17, 1]], &[]).bytes());
    // C1 C0 is one entry, of 192; its second byte alone would be an entry of 0
    f.add("a record into an entry that looks like one", Parts::new(&[[17, 18]], &[0xC1, 0xC0]).bytes());
}

/// "numbered from 0 in the order above", each node once, from the top.
fn numbering(f: &mut Faults) {
    f.with("nodes numbered level by level", |p| {
        p.tree = vec![[1, 2], [3, at(5)], [N, at(0)], [at(0), at(2)]]
    });
    f.with("right before left", |p| p.tree = vec![[2, 1], [N, at(0)], [3, at(5)], [at(0), at(2)]]);
    f.with("children before parents", |p| p.tree = vec![[at(0), at(2)], [0, at(5)], [N, at(0)], [1, 2]]);
    f.with("the right child's number one less", |p| p.tree[0][1] = 2);
    f.with("the left child's number one more", |p| p.tree[0][0] = 2);
    f.with("a node twice", |p| p.tree[2][1] = 3);
    f.with("a node on both sides", |p| p.tree[0] = [1, 1]);
    f.with("a node that leads to itself", |p| p.tree[3][0] = 3);
    f.with("a node that leads to the top", |p| p.tree[2][0] = 0);
    f.with("a node that leads to its parent", |p| p.tree[2][0] = 1);
    f.with("a node that nothing leads to", |p| p.tree[0][1] = N);
    f.with("a node with no data below", |p| p.tree[3] = [N, N]);
    f.with("two nodes with no data below", |p| {
        p.tree[1] = [2, N];
        p.tree[2] = [N, N];
        p.data = vec![0xC1, 5];
        p.tree[3] = [N, at(0)];
    });
    f.add("a second node, and no data at all", Parts::new(&[[1, 2], [2, 2]], &[]).bytes());
    let entry = 5 + 16;
    let tree = [[1, 2], [entry, entry], [3, entry], [entry, 5], [entry, entry]];
    f.add("a last node that nothing leads to", Parts::new(&tree, &[0xC1, 5]).bytes());
}

/// "a width from 0 to 128": the deepest node is a proper prefix of 128 bits.
fn depth(f: &mut Faults) {
    for n in [129u32, 130, 200, 256] {
        for side in [0, 1] {
            let mut tree: Vec<[u32; 2]> = (1..=n).map(|i| if side == 0 { [i, n] } else { [n, i] }).collect();
            tree[n as usize - 1][side] = n + 16;
            f.add(format!("depth {n}, side {side}"), Parts::new(&tree, &[0xC1, 5]).bytes());
        }
    }
}

/// "the different zone numbers that some record uses, ascending, each once, as MaxMind uint32: one byte C0 +
/// size, then the number without leading zero bytes (0 is C0 alone)"
fn entries(f: &mut Faults) {
    let one = |data: &[u8]| Parts::new(&[[17, 1]], data).bytes();
    let two = |second: u32, data: &[u8]| Parts::new(&[[17, 17 + second]], data).bytes();
    f.with("an unused entry before the others", |p| {
        p.data = [&[0xC1, 1], &p.data[..]].concat();
        p.tree.iter_mut().flatten().filter(|r| **r >= at(0)).for_each(|r| *r += 2);
    });
    f.with("an unused entry between the others", |p| p.tree[2][1] = at(0));
    f.with("an unused entry after the others", |p| p.data.extend([0xC4, 1, 0, 0, 0]));
    f.add("an unused entry alone", Parts::new(&[[1, 1]], &[0xC1, 5]).bytes());
    f.add("entries that descend", two(2, &[0xC1, 6, 0xC1, 5]));
    f.add("entries that descend in size", two(3, &[0xC2, 1, 0, 0xC1, 5]));
    f.add("equal entries", two(2, &[0xC1, 5, 0xC1, 5]));
    f.add("equal entries of 0", two(1, &[0xC0, 0xC0]));
    f.add("equal entries of four bytes", two(5, &[0xC4, 255, 255, 255, 255, 0xC4, 255, 255, 255, 255]));
    f.add("0 as C1 00", one(&[0xC1, 0]));
    f.add("0 as C4 00 00 00 00", one(&[0xC4, 0, 0, 0, 0]));
    f.add("5 as C2 00 05", one(&[0xC2, 0, 5]));
    f.add("5 as C4 00 00 00 05", one(&[0xC4, 0, 0, 0, 5]));
    f.add("an entry of five bytes", one(&[0xC5, 1, 0, 0, 0, 0]));
    f.add("an entry of five bytes, the first zero", one(&[0xC5, 0, 1, 0, 0, 0]));
    f.add("an entry that runs into the marker", one(&[0xC2, 5]));
    f.add("an entry of four bytes with none left", one(&[0xC4]));
    f.add("a zone number as uint16", one(&[0xA1, 5]));
    f.add("a zone number as uint64", one(&[0x01, 0x02, 5]));
    f.add("a zone number as a text", one(&[0x41, 0x35]));
    f.add("a zone number as a pointer", one(&[0x20, 0]));
    f.add("a zone number in a map", one(&[0xE0]));
    f.add("a size byte that says more follows", one(&[0xDD, 0]));
}

/// The metadata of a neighbour's profile.
fn profile(f: &mut Faults) {
    let names = pairs(&[4], &[]).map(|(key, _)| key);
    let join = |ps: &[(&str, Vec<u8>)]| -> Vec<u8> {
        ps.iter().flat_map(|(k, v)| [text(k), v.clone()].concat()).collect()
    };
    for (i, name) in names.iter().enumerate() {
        let mut ps = pairs(&[4], &[]).to_vec();
        ps.remove(i);
        f.with(format!("{name} missing"), |p| p.metadata = [&[0xE6], &join(&ps)[..]].concat());
        f.with(format!("{name} missing, the map's size kept"), |p| {
            p.metadata = [&[0xE7], &join(&ps)[..]].concat()
        });
        let mut ps = pairs(&[4], &[]).to_vec();
        ps.push(ps[i].clone());
        f.with(format!("{name} twice"), |p| p.metadata = [&[0xE8], &join(&ps)[..]].concat());
        if i > 0 {
            let mut ps = pairs(&[4], &[]).to_vec();
            ps.swap(i - 1, i);
            f.with(format!("{name} one place early"), |p| p.metadata = [&[0xE7], &join(&ps)[..]].concat());
        }
    }
    let others: [(usize, &str, &[u8]); 14] = [
        (0, "node_count as uint16", &[0xA1, 4]),
        (1, "record_size 28", &[0xA1, 0x1C]),
        (1, "record_size 32", &[0xA1, 0x20]),
        (1, "record_size as uint32", &[0xC1, 0x18]),
        (1, "record_size with a leading zero byte", &[0xA2, 0, 0x18]),
        (2, "ip_version 4", &[0xA1, 4]),
        (2, "ip_version as uint32", &[0xC1, 6]),
        (3, "another database type", b"\x4CGround-Cellz"),
        (3, "a shorter database type", b"\x4BGround-Cell"),
        (4, "major version 3", &[0xA1, 3]),
        (5, "minor version 1", &[0xA1, 1]),
        (5, "minor version 0 as A1 00", &[0xA1, 0]),
        (6, "build_epoch as uint32", &[0xC0]),
        (6, "build_epoch of another extended type", &[0, 3]),
    ];
    for (i, name, value) in others {
        let mut ps = pairs(&[4], &[]).to_vec();
        ps[i].1 = value.to_vec();
        f.with(name, |p| p.metadata = [&[0xE7], &join(&ps)[..]].concat());
    }
    let more = join(&[("description", vec![0xE0])]);
    f.with("an eighth pair", |p| {
        p.metadata[0] = 0xE8;
        p.metadata.extend(&more);
    });
}

#[cfg(test)]
mod tests {
    use super::*;
    use crate::good::list;
    use crate::image::{accepts, image};

    #[test]
    fn the_unbroken_one_is_an_image() {
        let entries = list(&[("000", 5), ("001", 300), ("01", 70_000), ("11", 5)]);
        assert_eq!(Some(unbroken()), image(&entries, 0));
    }

    #[test]
    fn depth_128_is_an_image() {
        let n = 128;
        let mut tree: Vec<[u32; 2]> = (1..=n).map(|i| [n, i]).collect();
        tree[n as usize - 1][1] = n + 16;
        assert!(accepts(&Parts::new(&tree, &[0xC1, 5]).bytes()).is_some());
    }

    #[test]
    fn each_is_broken_and_no_two_are_one() {
        let all = broken();
        for (name, bytes) in &all {
            assert!(accepts(bytes).is_none(), "{name}");
        }
        let names: std::collections::BTreeSet<&String> = all.iter().map(|(name, _)| name).collect();
        assert_eq!(names.len(), all.len());
    }
}
