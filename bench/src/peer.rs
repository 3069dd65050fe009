//! What each peer answers. Peers that keep no tree write no trail.
use crate::data::Key;

pub trait Peer {
    const NAME: &'static str;

    /// A key in the peer's own form, made before anything is measured.
    type Key: Copy;

    fn key(k: Key) -> Self::Key;

    /// Empty, with room for so many prefixes.
    fn new(size: usize) -> Self;

    /// The old number, if there was one.
    fn store(&mut self, k: Self::Key, zone: u32, trail: &mut [u8]) -> Option<u32>;

    /// The number taken out.
    fn remove(&mut self, k: Self::Key, trail: &mut [u8]) -> Option<u32>;

    fn fetch(&self, k: Self::Key, trail: &mut [u8]) -> Option<u32>;

    /// The width and the number of the longest stored prefix.
    fn longest(&self, k: Self::Key, trail: &mut [u8]) -> Option<(u32, u32)>;

    /// How many were given of the first `out.len() / 6` prefixes after the key.
    fn slice(&self, resume: Option<Self::Key>, out: &mut [u32]) -> usize;

    /// The whole structure is sound, where the peer has such a check.
    fn check(&self) -> Option<bool>;
}

/// A listed prefix in its six words.
pub fn put(out: &mut [u32], i: usize, k: Key, zone: u32) {
    out[6 * i..6 * i + 4].copy_from_slice(&k.words());
    out[6 * i + 4] = k.width;
    out[6 * i + 5] = zone;
}
