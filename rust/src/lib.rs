//! The zone table of a handheld golf rangefinder, for Rust: a map from prefixes of at most 128 bits to zone
//! numbers, in memory that the caller lends. The work is done by a library written in Rattle and proved whole;
//! this crate gives it Rust's types. Nothing is allocated, and no call panics. [`Table::image_write`] ships what is
//! stored as an image, which [`image_verify`] checks and [`image_look`] reads.
//!
//! ```
//! use nalfipode::{Prefix, Table, Zone, TRAIL_BYTES};
//!
//! let mut words = [0u32; nalfipode::table_words(8)];
//! let mut trail = [0u8; TRAIL_BYTES];
//! let mut table = Table::fresh(&mut words)?;
//! for (bits, zone) in [("00", 10), ("01", 20), ("0110", 30)] {
//!     let key: Prefix = bits.parse()?;
//!     table.store(key, Zone(zone), &mut trail)?;
//! }
//!
//! let answer = table.longest_match("0111".parse()?, &mut trail)?;
//! let found = answer.found.expect("01 is a prefix of 0111");
//! assert_eq!((found.width, found.zone), (2, Zone(20)));
//! assert_eq!(trail[..answer.nodes], [1, 2, 4]);
//! # Ok::<(), nalfipode::Refusal>(())
//! ```
#![warn(missing_docs)]

mod cells;
mod image;
mod prefix;
pub mod raw;
mod refusal;
mod table;

pub use cells::cell;
pub use image::{image_describe, image_look, image_verify, Facts, NotWritten};
pub use prefix::Prefix;
pub use refusal::{Refusal, Refused};
pub use table::{Entry, Fetched, Match, Matched, Removed, Slice, Stored, Table};

/// The bytes that a trail has at least: a path has at most 129 nodes.
pub const TRAIL_BYTES: usize = 129;

/// The most records of a table.
pub const MOST_RECORDS: usize = 65_535;

/// The most prefixes of a slice.
pub const MOST_SLICE: u32 = 4_096;

/// The words that a listed prefix takes: four key words, the width, the zone number.
pub const ENTRY_WORDS: usize = 6;

/// The words of a table of `records` records, from 1 to 65,535.
///
/// ```
/// assert_eq!(nalfipode::table_words(1), 16);
/// assert_eq!(nalfipode::table_words(nalfipode::MOST_RECORDS), 524_288);
/// ```
pub const fn table_words(records: usize) -> usize {
    8 + 8 * records
}

/// A zone's number: any unsigned number of 32 bits, 0 included.
#[derive(Clone, Copy, PartialEq, Eq, PartialOrd, Ord, Hash, Debug)]
pub struct Zone(pub u32);
