//! Random sets of some hundred nodes, with keys made so that they meet.
use crate::asks::{keyed, set_of};
use crate::keys::{Key, Kind, Maker};
use crate::packed::Packed;
use crate::place::Place;
use crate::random::Random;
use crate::rules::Ask;
use crate::set::Set;
use crate::spread::Spread;

/// As many nodes as a table has pages for.
const MOST: usize = 508;

fn filled(maker: &mut Maker, members: usize, random: &mut Random) -> Set {
    let keys: Vec<Key> = (0..members).map(|_| maker.key(random)).collect();
    set_of(&keys, random)
}

fn large_sets(place: &mut dyn Place, seed: u64) {
    let mut random = Random::new(seed);
    let (mut nodes, mut calls) = (0, 0);
    for i in 0..24 {
        let kind = [Kind::Extended, Kind::Extended, Kind::Cells, Kind::Routes, Kind::Short(9)][i % 5];
        let mut maker = Maker::new(kind);
        let members = 200 + random.below(220);
        let set = filled(&mut maker, members, &mut random);
        assert!(set.nodes.len() <= MOST);
        nodes += set.nodes.len();
        let keys: Vec<Key> = (0..120).map(|_| maker.key(&mut random)).collect();
        calls += place.hold(&set, &keyed(&keys));
        let slices: Vec<Ask> = keys.iter().map(|k| slice(*k, &mut random)).collect();
        calls += place.hold(&set, &slices);
    }
    println!("24 large sets, {} nodes in all, {} calls", nodes, calls);
}

fn slice(k: Key, random: &mut Random) -> Ask {
    let resume = if random.often(1, 20) { None } else { Some(k) };
    let most = if random.often(1, 10) { 300 } else { 12 };
    Ask::Slice(resume, 1 + random.below(most))
}

#[test]
fn large_sets_spread() {
    large_sets(&mut Spread::new(MOST, 7), 7);
}

#[test]
fn large_sets_packed() {
    large_sets(&mut Packed::new(MOST + 10, 8), 8);
}
