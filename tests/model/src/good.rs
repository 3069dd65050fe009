//! Lists whose images a checker must accept, each with what it is for.

use crate::image::{Bits, List};
use crate::random::{EPOCHS, ZONES};

/// A named list and an epoch.
pub type Good = (String, List, u64);

/// The bits of a string of 0 and 1.
pub fn string(s: &str) -> Bits {
    s.chars().map(|c| c == '1').collect()
}

pub fn list(entries: &[(&str, u32)]) -> List {
    entries.iter().map(|(s, z)| (string(s), *z)).collect()
}

pub fn good() -> Vec<Good> {
    let mut all = vec![
        ("the paper's example".into(), list(&[("0", 5)]), 0),
        ("the empty set".into(), List::new(), 0),
        ("set A of the paper".into(), list(&[("00", 10), ("01", 20), ("0110", 30)]), 1),
        ("the empty prefix alone".into(), list(&[("", 7)]), 0),
        ("a hidden zone number".into(), list(&[("", 7), ("0", 5), ("1", 6)]), 0),
        ("a number hidden by deeper ones".into(), list(&[("0", 9), ("00", 1), ("01", 2), ("1", 3)]), 0),
        ("equal halves".into(), list(&[("10", 5), ("11", 5), ("0", 5)]), 0),
        ("equal halves under their own number".into(), list(&[("1", 5), ("10", 5), ("11", 5)]), 0),
        ("no data beside data".into(), list(&[("1111", 3)]), 0),
        ("zone number 0".into(), list(&[("01", 0)]), 0),
        ("every zone number of an edge".into(), fan(&ZONES), 0),
        ("all of four bits, one number each".into(), fan(&(0..16).collect::<Vec<_>>()), 0),
        ("all of eight bits, one number each".into(), fan(&(250..506).collect::<Vec<_>>()), 0),
    ];
    for side in ["0", "1", "01", "10"] {
        all.push((format!("width 128, {side} all the way"), list(&[(&side.repeat(128)[..128], 8)]), 0));
    }
    let chain: List = (0..=128).map(|width| (vec![true; width], width as u32)).collect();
    all.push(("a prefix of each width from 0 to 128".into(), chain, 0));
    let twins = list(&[(&"0".repeat(128), 1), (&format!("{}1", "0".repeat(127)), 2)]);
    all.push(("two that differ in bit 128".into(), twins, 0));
    for epoch in EPOCHS {
        all.push((format!("epoch {epoch}"), list(&[("0", 5)]), epoch));
    }
    for zone in ZONES {
        all.push((format!("zone number {zone}"), list(&[("110", zone)]), 0));
    }
    // N of one, two and three bytes
    for n in [255, 256, 65_535, 65_536] {
        all.push((format!("{n} nodes"), nodes(n), 0));
    }
    all
}

/// The prefixes of equal width, one for each zone number in turn, as many bits as they need.
fn fan(zones: &[u32]) -> List {
    let width = zones.len().next_power_of_two().trailing_zeros() as usize;
    zones.iter().enumerate().map(|(i, z)| ((0..width).rev().map(|b| i >> b & 1 == 1).collect(), *z)).collect()
}

/// A list whose image has exactly n nodes: prefixes of 128 bits that part at the top as the bits of a count
/// do, and one shorter one for what is left.
pub fn nodes(n: usize) -> List {
    let mut list = List::new();
    let mut count = 1; // the empty string
    for i in 0usize.. {
        // bits of i, lowest first, then ones: a new string shares with an earlier one at most the bits of i
        let mut string: Bits = (0..12).map(|b| i >> b & 1 == 1).collect();
        string.resize(128, true);
        let shared = list.keys().map(|k| common(k, &string)).max().unwrap_or(0);
        let left = n - count;
        let width = (shared + 1 + left).min(128);
        // the proper prefixes longer than what it shares are new; what it shares is one already
        let new = width - 1 - shared;
        string.truncate(width);
        list.insert(string, i as u32 % 7);
        count += new;
        if count == n {
            break;
        }
    }
    list
}

fn common(a: &[bool], b: &[bool]) -> usize {
    a.iter().zip(b).take_while(|(x, y)| x == y).count()
}

#[cfg(test)]
mod tests {
    use super::*;
    use crate::image::{image, numbers};

    #[test]
    fn nodes_are_as_many_as_asked() {
        for n in [1, 2, 128, 129, 255, 256, 257, 5_000, 65_536] {
            let bytes = image(&nodes(n), 0).unwrap();
            assert_eq!(numbers(&bytes).unwrap().0 as usize, n);
        }
    }
}
