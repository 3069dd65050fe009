//! Reads that a run or a review has found, cut down by hand.
use crate::asks::keyed;
use crate::keys::Key;
use crate::packed::Packed;
use crate::place::Place;
use crate::set::Set;
use crate::spread::Spread;

/// The descent passed the key's own node, and then read the tag and the links of the node below it.
fn below_the_keys_own_node(place: &mut dyn Place) {
    let long = Key::of(0b0100 << 124, 4);
    let set = Set::of(&[(long.cut(2), 20), (long, 30)]);
    place.hold(&set, &keyed(&[long.cut(2)]));
}

#[test]
fn finds_spread() {
    below_the_keys_own_node(&mut Spread::new(2, 10));
}

#[test]
fn finds_packed() {
    below_the_keys_own_node(&mut Packed::new(20, 11));
}
