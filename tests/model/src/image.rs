//! What an image is. Sentences in quotes are paper 01's, "The image". Nothing here is quick: strings are
//! lists of booleans, and every question is answered by looking through all of them.

use std::collections::{BTreeMap, BTreeSet};

/// A string of bits, first bit first. The order of `Vec<bool>` is the paper's: "at the first differing bit, 0
/// comes before 1; a prefix comes before everything that extends it."
pub type Bits = Vec<bool>;

/// "A list names each prefix at most once."
pub type List = BTreeMap<Bits, u32>;

/// "the 14 bytes AB CD EF 4D 61 78 4D 69 6E 64 2E 63 6F 6D"
pub const MARKER: [u8; 14] = *b"\xAB\xCD\xEFMaxMind.com";

/// The lookup "met bytes no image has".
#[derive(Clone, Copy, Debug, PartialEq, Eq)]
pub struct BadImage;

enum Side {
    Node(u32),
    NoData,
    Zone(u32),
}

/// The image of a list, or none where a record does not fit: "It has an image only if every record fits 24
/// bits".
pub fn image(list: &List, epoch: u64) -> Option<Vec<u8>> {
    image_below(list, epoch, 1 << 24)
}

/// The same with another limit for a record, so that the limit can be met by a small list.
fn image_below(list: &List, epoch: u64, limit: u32) -> Option<Vec<u8>> {
    let nodes = nodes(list);
    let n = u32::try_from(nodes.len()).ok()?;
    let sides: Vec<Side> =
        nodes.keys().flat_map(|p| [side(list, &nodes, p, false), side(list, &nodes, p, true)]).collect();
    // "the different zone numbers that some record uses, ascending, each once"
    let used: BTreeSet<u32> =
        sides.iter().filter_map(|s| if let Side::Zone(z) = s { Some(*z) } else { None }).collect();
    let mut data = Vec::new();
    let mut offsets = BTreeMap::new();
    for z in used {
        offsets.insert(z, u32::try_from(data.len()).ok()?);
        data.extend(uint32(&short(z.into())));
    }
    let mut bytes = Vec::new();
    for s in sides {
        // "A record below N is a node; equal to N is no data; N + 16 + d means the data entry at offset d."
        let record = match s {
            Side::Node(i) => i,
            Side::NoData => n,
            Side::Zone(z) => n.checked_add(16)?.checked_add(offsets[&z])?,
        };
        if record >= limit {
            return None;
        }
        bytes.extend(&record.to_be_bytes()[1..]);
    }
    // "search tree, 16 zero bytes, data section, the 14 bytes .., metadata"
    bytes.extend([0; 16]);
    bytes.extend(data);
    bytes.extend(MARKER);
    bytes.extend(metadata(&short(n.into()), &short(epoch)));
    Some(bytes)
}

/// "the empty string always, and every string that is a proper prefix of a stored one. They are numbered from
/// 0 in the order above."
fn nodes(list: &List) -> BTreeMap<Bits, u32> {
    let mut strings = BTreeSet::from([Bits::new()]);
    for p in list.keys() {
        for width in 0..p.len() {
            strings.insert(p[..width].to_vec());
        }
    }
    strings.into_iter().zip(0..).collect()
}

/// "Side x of node p: if p followed by x is a node, its number; else the entry of the longest stored prefix
/// of that string, or no data."
fn side(list: &List, nodes: &BTreeMap<Bits, u32>, p: &Bits, x: bool) -> Side {
    let mut string = p.clone();
    string.push(x);
    if let Some(i) = nodes.get(&string) {
        return Side::Node(*i);
    }
    longest(list, &string).map_or(Side::NoData, Side::Zone)
}

/// The zone number of the longest stored prefix of a string.
pub fn longest(list: &List, string: &[bool]) -> Option<u32> {
    (0..=string.len()).rev().find_map(|width| list.get(&string[..width]).copied())
}

/// The answer for a 128-bit address.
pub fn look(list: &List, address: [u32; 4]) -> Option<u32> {
    longest(list, &bits(address))
}

/// "Bit 1 is the highest bit of word 0; bit 128 is the lowest bit of word 3."
pub fn bits(words: [u32; 4]) -> Bits {
    words.iter().flat_map(|w| (0..32).rev().map(move |i| w >> i & 1 == 1)).collect()
}

/// The four words of a string of at most 128 bits; "Every bit after the width is zero."
pub fn words(string: &[bool]) -> [u32; 4] {
    let mut words = [0; 4];
    for (i, _) in string.iter().enumerate().filter(|(_, bit)| **bit) {
        words[i / 32] |= 1 << (31 - i % 32);
    }
    words
}

/// A number "without leading zero bytes".
pub fn short(v: u64) -> Vec<u8> {
    v.to_be_bytes().into_iter().skip_while(|b| *b == 0).collect()
}

/// "one byte C0 + size, then the number"
pub fn uint32(number: &[u8]) -> Vec<u8> {
    [&[0xC0 + number.len() as u8], number].concat()
}

/// "A text is 40 (hex) + its length, then its bytes."
pub fn text(t: &str) -> Vec<u8> {
    [&[0x40 + t.len() as u8], t.as_bytes()].concat()
}

/// "Metadata: byte E7, then seven pairs in this order", with the bytes of N and of the epoch as they are
/// given.
pub fn metadata(n: &[u8], epoch: &[u8]) -> Vec<u8> {
    let mut bytes = vec![0xE7];
    for (key, value) in pairs(n, epoch) {
        bytes.extend(text(key));
        bytes.extend(value);
    }
    bytes
}

/// The table of keys and values.
pub fn pairs(n: &[u8], epoch: &[u8]) -> [(&'static str, Vec<u8>); 7] {
    [
        ("node_count", uint32(n)),
        ("record_size", vec![0xA1, 0x18]),
        ("ip_version", vec![0xA1, 0x06]),
        ("database_type", text("Ground-Cells")),
        ("binary_format_major_version", vec![0xA1, 0x02]),
        ("binary_format_minor_version", vec![0xA0]),
        // "size byte, 02, then the number"
        ("build_epoch", [&[epoch.len() as u8, 2], epoch].concat()),
    ]
}

/// "The checker says yes exactly if the bytes are the image of some list of prefixes and some epoch." If they
/// are, the list of the data leaves and the epoch: read off as far as the bytes allow, and then the image of
/// what was read is made anew and compared byte for byte.
pub fn accepts(bytes: &[u8]) -> Option<(List, u64)> {
    let (n, epoch) = numbers(bytes)?;
    let mut list = List::new();
    let mut seen = 0;
    leaves(bytes, n, 0, &mut Vec::new(), &mut seen, &mut list)?;
    let again = image(&list, epoch)?;
    (again == bytes).then_some((list, epoch))
}

/// N and the epoch, from where they stand after the last marker.
pub fn numbers(bytes: &[u8]) -> Option<(u32, u64)> {
    let at = bytes.windows(MARKER.len()).rposition(|w| w == MARKER)? + MARKER.len();
    let count = at + 1 + text("node_count").len();
    let n = number(bytes.get(count + 1..)?, bytes[count].checked_sub(0xC0)?)?;
    let name = text("build_epoch");
    let epoch = at + bytes[at..].windows(name.len()).rposition(|w| w == name)? + name.len();
    Some((u32::try_from(n).ok()?, number(bytes.get(epoch + 2..)?, bytes[epoch])?))
}

fn number(bytes: &[u8], size: u8) -> Option<u64> {
    if size > 8 {
        return None;
    }
    Some(bytes.get(..size.into())?.iter().fold(0, |v, b| v << 8 | u64::from(*b)))
}

/// Puts the data leaves at or below a node into the list; none where the bytes give out, where a way is
/// longer than 128 bits, or where there are more ways than an image of n nodes has.
fn leaves(bytes: &[u8], n: u32, node: u32, way: &mut Bits, seen: &mut u32, list: &mut List) -> Option<()> {
    *seen += 1;
    if *seen > n || way.len() >= 128 {
        return None;
    }
    for bit in [false, true] {
        way.push(bit);
        match record(bytes, node, bit)? {
            r if r < n => leaves(bytes, n, r, way, seen, list)?,
            r if r == n => {}
            r => {
                list.insert(way.clone(), zone(bytes, n, r)?);
            }
        }
        way.pop();
    }
    Some(())
}

fn record(bytes: &[u8], node: u32, bit: bool) -> Option<u32> {
    let at = 6 * node as usize + if bit { 3 } else { 0 };
    number(bytes.get(at..)?, 3).map(|r| r as u32)
}

/// The zone number that a record above N means.
fn zone(bytes: &[u8], n: u32, record: u32) -> Option<u32> {
    let at = 6 * n as usize + record.checked_sub(n)? as usize;
    let size = bytes.get(at)?.checked_sub(0xC0)?;
    u32::try_from(number(&bytes[at + 1..], size)?).ok()
}

/// The search in the bytes of an accepted image, record by record; an error where the bytes give out.
pub fn walk(bytes: &[u8], address: [u32; 4]) -> Result<Option<u32>, BadImage> {
    let (n, _) = numbers(bytes).ok_or(BadImage)?;
    let mut node = 0;
    for bit in bits(address) {
        match record(bytes, node, bit).ok_or(BadImage)? {
            r if r < n => node = r,
            r if r == n => return Ok(None),
            r => return zone(bytes, n, r).map(Some).ok_or(BadImage),
        }
    }
    Err(BadImage)
}

#[cfg(test)]
mod tests {
    use super::*;

    fn string(s: &str) -> Bits {
        s.chars().map(|c| c == '1').collect()
    }

    fn list(entries: &[(&str, u32)]) -> List {
        entries.iter().map(|(s, z)| (string(s), *z)).collect()
    }

    /// "metadata of 141 bytes, E7 4A node_count C1 01 .. (names stand for their ASCII bytes)"
    fn paper_metadata() -> Vec<u8> {
        [
            b"\xE7\x4Anode_count\xC1\x01\x4Brecord_size\xA1\x18\x4Aip_version\xA1\x06".as_slice(),
            b"\x4Ddatabase_type\x4CGround-Cells\x5Bbinary_format_major_version\xA1\x02",
            b"\x5Bbinary_format_minor_version\xA0\x4Bbuild_epoch\x00\x02",
        ]
        .concat()
    }

    #[test]
    fn whole_example() {
        let tree = [0x00, 0x00, 0x11, 0x00, 0x00, 0x01];
        let expected = [&tree[..], &[0; 16], &[0xC1, 0x05], &MARKER, &paper_metadata()].concat();
        assert_eq!(paper_metadata().len(), 141);
        assert_eq!(expected.len(), 179);
        assert_eq!(image(&list(&[("0", 5)]), 0), Some(expected.clone()));
        assert_eq!(accepts(&expected), Some((list(&[("0", 5)]), 0)));
    }

    #[test]
    fn empty_set() {
        // "The empty set: N = 1, both records 1, no data section."
        let tree = [0, 0, 1, 0, 0, 1];
        let expected = [&tree[..], &[0; 16], &MARKER, &paper_metadata()].concat();
        assert_eq!(image(&List::new(), 0), Some(expected.clone()));
        assert_eq!(accepts(&expected), Some((List::new(), 0)));
    }

    #[test]
    fn set_a() {
        let a = list(&[("00", 10), ("01", 20), ("0110", 30)]);
        // nodes: empty, 0, 01, 011; 00 is no proper prefix of a stored string
        let tree = [[1, 4], [20, 2], [22, 3], [24, 22]];
        let bytes = image(&a, 0).unwrap();
        for (i, sides) in tree.iter().enumerate() {
            let found = [record(&bytes, i as u32, false), record(&bytes, i as u32, true)];
            assert_eq!(found, [Some(sides[0]), Some(sides[1])], "node {i}");
        }
        assert_eq!(bytes[40..46], [0xC1, 10, 0xC1, 20, 0xC1, 30]);
        // "Length = 6N + D + 170 + bytes of N + bytes of the epoch"
        assert_eq!(bytes.len(), 6 * 4 + 6 + 170 + 1);
    }

    #[test]
    fn equal_images_of_different_lists() {
        let one = list(&[("", 7), ("0", 5), ("1", 6)]);
        let two = list(&[("0", 5), ("1", 6)]);
        assert_eq!(image(&one, 9), image(&two, 9));
        assert_eq!(accepts(&image(&one, 9).unwrap()), Some((two, 9)));
    }

    #[test]
    fn records_that_do_not_fit() {
        // N = 1, its largest record 1 + 16 + 0
        assert!(image_below(&list(&[("0", 5)]), 0, 18).is_some());
        assert!(image_below(&list(&[("0", 5)]), 0, 17).is_none());
        // the empty set's largest record is N itself
        assert!(image_below(&List::new(), 0, 2).is_some());
        assert!(image_below(&List::new(), 0, 1).is_none());
    }

    #[test]
    fn words_and_bits() {
        assert_eq!(words(&string("11")), [0xC000_0000, 0, 0, 0]);
        assert_eq!(bits([0, 0, 0, 1]).iter().position(|b| *b), Some(127));
        let all = [0x8000_0001, 0x1234_5678, 0, 0xFFFF_FFFF];
        assert_eq!(words(&bits(all)), all);
    }
}
