//! The image of paper 01, written from its text alone and by brute force, to hold the proved library against.
//!
//! - `image`: what the bytes of an image are, what a lookup answers, and which bytes are images
//! - `calls`: the three image calls as a trait; the model is one implementation, the library another
//! - `good`, `broken`: images that a checker must accept, and one that it must refuse for each rule
//! - `random`: numbers from a fixed seed, lists whose strings collide
//! - `suite`: the tests, over any implementation of the trait

pub mod broken;
pub mod calls;
pub mod good;
pub mod image;
pub mod random;
pub mod suite;
