//! Strings, sets of them, and the calls to make on a set.
use crate::keys::Key;
use crate::random::Random;
use crate::rules::Ask;
use crate::run::Call;
use crate::set::Set;

/// All strings of at most so many bits.
pub fn strings(most: u32) -> Vec<Key> {
    let of_width = |width: u32| (0..1u128 << width).map(move |n| Key::of(n.rotate_right(width), width));
    (0..=most).flat_map(of_width).collect()
}

/// The four keyed calls with every key.
pub fn keyed(keys: &[Key]) -> Vec<Ask> {
    let calls = |k: &Key| {
        let k = *k;
        [Call::Fetch, Call::Match, Call::Remove, Call::Store(k.width)].map(|what| Ask::Keyed(what, k))
    };
    keys.iter().flat_map(calls).collect()
}

/// A slice of every size from the start, and after every key.
pub fn slices(keys: &[Key], sizes: &[usize]) -> Vec<Ask> {
    let resumes: Vec<Option<Key>> = [None].into_iter().chain(keys.iter().copied().map(Some)).collect();
    resumes.iter().flat_map(|resume| sizes.iter().map(move |size| Ask::Slice(*resume, *size))).collect()
}

/// The set of these keys, with random zone numbers of which some are 0.
pub fn set_of(keys: &[Key], random: &mut Random) -> Set {
    let zone = |random: &mut Random| if random.often(1, 8) { 0 } else { random.word() };
    Set::of(&keys.iter().map(|k| (*k, zone(random))).collect::<Vec<(Key, u32)>>())
}

/// The keys that a mask picks.
pub fn picked(keys: &[Key], mask: usize) -> Vec<Key> {
    (0..keys.len()).filter(|i| mask >> i & 1 == 1).map(|i| keys[i]).collect()
}
