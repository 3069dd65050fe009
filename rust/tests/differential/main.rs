//! Differential tests: long runs of random calls on lent memory, held against models that are written from
//! paper 01's definitions alone. Seeds are fixed, so a failure comes again.
//!
//! After each call: the answer, its values, the trail and the bytes past it, the output and the words past it,
//! which words of the table changed, and the guards around everything lent.

mod brute;
mod cells;
mod damage;
mod images;
mod keys;
mod lent;
mod listings;
mod quick;
mod random;
mod refusals;
mod rests;
mod run;
mod runs;
