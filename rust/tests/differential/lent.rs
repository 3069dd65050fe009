//! Memory that is lent to a call, with guards around it: what lies outside must be as it was.
use crate::random::Random;

const GUARD: usize = 12;

/// Elements of type T between guards of random ones.
pub struct Lent<T> {
    space: Vec<T>,
    guards: Vec<T>,
    len: usize,
}

impl<T: Copy + PartialEq + std::fmt::Debug> Lent<T> {
    /// `len` elements, and the guards, made by `fill`.
    pub fn new(len: usize, mut fill: impl FnMut() -> T) -> Lent<T> {
        let space: Vec<T> = (0..len + 2 * GUARD).map(|_| fill()).collect();
        let mut guards = space[..GUARD].to_vec();
        guards.extend_from_slice(&space[GUARD + len..]);
        Lent { space, guards, len }
    }

    pub fn get(&self) -> &[T] {
        &self.space[GUARD..GUARD + self.len]
    }

    pub fn lend(&mut self) -> &mut [T] {
        &mut self.space[GUARD..GUARD + self.len]
    }

    /// The first elements as an array.
    pub fn array<const N: usize>(&mut self) -> &mut [T; N] {
        (&mut self.lend()[..N]).try_into().expect("as many elements")
    }

    /// Fails where something outside was written.
    pub fn guarded(&self) {
        assert_eq!(self.space[..GUARD], self.guards[..GUARD], "written before what was lent");
        assert_eq!(self.space[GUARD + self.len..], self.guards[GUARD..], "written past what was lent");
    }
}

pub fn words(len: usize, random: &mut Random) -> Lent<u32> {
    Lent::new(len, || random.word())
}
