//! Keys around the widths at which a word, a half or a key ends: there the code changes its way.
use crate::asks::{keyed, set_of, slices};
use crate::keys::{Key, EMPTY};
use crate::packed::Packed;
use crate::place::Place;
use crate::random::Random;
use crate::rules::Ask;
use crate::spread::Spread;

const WIDTHS: [u32; 11] = [31, 32, 33, 63, 64, 65, 95, 96, 97, 127, 128];
const LONG: [u128; 3] = [u128::MAX / 3, 0, u128::MAX];

/// At each width: the key's start, the same with its last bit changed, and all 128 bits with that changed.
fn around(long: u128) -> Vec<Key> {
    let at = |width: u32| {
        let other = long ^ 1 << (128 - width);
        [Key::of(long, width), Key::of(other, width), Key::of(other, 128)]
    };
    let mut keys: Vec<Key> = WIDTHS.iter().flat_map(|width| at(*width)).chain([EMPTY]).collect();
    keys.sort();
    keys.dedup();
    keys
}

/// All sets of one and of two of these keys and, `triples` in a thousand, of three.
fn groups(keys: &[Key], triples: usize, random: &mut Random) -> Vec<Vec<Key>> {
    let mut groups = Vec::new();
    for (i, a) in keys.iter().enumerate() {
        groups.push(vec![*a]);
        for (j, b) in keys.iter().enumerate().skip(i + 1) {
            groups.push(vec![*a, *b]);
            let third = keys[j + 1..].iter().filter(|_| random.often(triples, 1000));
            groups.extend(third.map(|c| vec![*a, *b, *c]));
        }
    }
    groups
}

/// Every call with every one of the keys, and with the strings one bit above the widths, on such sets.
fn sets_around(place: &mut dyn Place, seed: u64, triples: usize) {
    let mut random = Random::new(seed);
    let (mut sets, mut calls) = (0, 0);
    for long in LONG {
        let keys = around(long);
        let above: Vec<Key> = WIDTHS.iter().map(|width| Key::of(long, width - 1)).collect();
        let asked = [&keys[..], &above[..]].concat();
        let asks: Vec<Ask> = keyed(&asked).into_iter().chain(slices(&asked, &[1, 2])).collect();
        for group in groups(&keys, triples, &mut random) {
            sets += 1;
            calls += place.hold(&set_of(&group, &mut random), &asks);
        }
    }
    println!("{} sets around the widths, {} calls", sets, calls);
}

#[test]
fn widths_spread() {
    sets_around(&mut Spread::new(5, 3), 3, 10);
}

#[test]
fn widths_packed() {
    sets_around(&mut Packed::new(15, 4), 4, 40);
}

/// The longest path: a node of every width.
fn every_width(place: &mut dyn Place, seed: u64) {
    let mut random = Random::new(seed);
    let mut calls = 0;
    for long in LONG {
        let path: Vec<Key> = (0..=128).map(|width| Key::of(long, width)).collect();
        let aside: Vec<Key> = (1..=128).map(|width| Key::of(long ^ 1 << (128 - width), width)).collect();
        let asked = [&path[..], &aside[..]].concat();
        let asks: Vec<Ask> = keyed(&asked).into_iter().chain(slices(&asked, &[1, 5, 200])).collect();
        calls += place.hold(&set_of(&path, &mut random), &asks);
        let some: Vec<Key> = asked.into_iter().filter(|_| random.often(1, 3)).collect();
        calls += place.hold(&set_of(&some, &mut random), &asks);
    }
    println!("6 sets along one key, {} calls", calls);
}

#[test]
fn every_width_spread() {
    every_width(&mut Spread::new(260, 5), 5);
}

#[test]
fn every_width_packed() {
    every_width(&mut Packed::new(270, 6), 6);
}
