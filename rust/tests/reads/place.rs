//! A way to lay tables out so that what a call may not read is shut. Each test goes through both ways.
use crate::random::Random;
use crate::rules::Ask;
use crate::set::Set;

pub trait Place {
    /// Makes each call on a table of the set, held against the model. Gives how many calls were made.
    fn hold(&mut self, set: &Set, asks: &[Ask]) -> usize;
}

pub fn shuffle(list: &mut [usize], random: &mut Random) {
    for i in (1..list.len()).rev() {
        list.swap(i, random.below(i + 1));
    }
}
