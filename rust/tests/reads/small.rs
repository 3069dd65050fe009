//! Small sets: of the strings of at most three bits every set of up to four, and one in a hundred of the
//! others.
use crate::asks::{keyed, picked, set_of, slices, strings};
use crate::packed::Packed;
use crate::place::Place;
use crate::random::Random;
use crate::rules::Ask;
use crate::spread::Spread;

fn small_sets(place: &mut dyn Place, seed: u64) {
    let members = strings(3);
    let keys = strings(4);
    let asks: Vec<Ask> = keyed(&keys).into_iter().chain(slices(&keys, &[1, 2, 3])).collect();
    let mut random = Random::new(seed);
    let (mut sets, mut calls) = (0, 0);
    for mask in 0..1usize << members.len() {
        if mask.count_ones() <= 4 || random.often(1, 100) {
            sets += 1;
            calls += place.hold(&set_of(&picked(&members, mask), &mut random), &asks);
        }
    }
    println!("{} small sets, {} calls", sets, calls);
}

#[test]
fn small_sets_spread() {
    small_sets(&mut Spread::new(15, 1), 1);
}

#[test]
fn small_sets_packed() {
    small_sets(&mut Packed::new(30, 2), 2);
}
