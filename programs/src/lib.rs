//! What the programs share. Each program of `src/bin` is a few lines over these.
//!
//! - `library`: the calls of the library; no other file knows where they come from
//! - `prefix`, `position`: prefixes and positions as people write them
//! - `lines`, `zones`: numbered lines of a text, and the list of zones that `zonemap` reads
//! - `faults`, `counted`: what is told of a text's faults, and numbers with what they count
//! - `maps`: map images from files
//! - `picture`: a picture of zones, its palette, and its files
//! - `shapes`, `links`: ground drawn in metres and covered with cells, and the sample course
//! - `arguments`, `run`: options and words, messages and exit statuses
//! - `standard`, `input`, `output`: standard input and output, files that are read, files that are written
//! - `replace`, `lock`: a file replaced whole or not at all, and how a run is known to be alive

pub mod arguments;
pub mod counted;
pub mod faults;
pub mod input;
pub mod library;
pub mod lines;
pub mod links;
mod lock;
pub mod maps;
pub mod output;
pub mod picture;
pub mod position;
pub mod prefix;
mod replace;
pub mod run;
pub mod shapes;
pub mod standard;
pub mod zones;
