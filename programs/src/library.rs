//! The calls of the library that the programs use. This file alone says where they come from.

use crate::prefix::Prefix;
use nalfipode::{
    image_describe, image_look, image_verify, table_words, Facts, NotWritten, Refusal, Zone, MOST_RECORDS,
    TRAIL_BYTES,
};

/// The node records of the largest table.
pub const RECORDS: usize = MOST_RECORDS;

/// A table would have more nodes than records.
#[derive(Debug, PartialEq, Eq)]
pub struct Full;

/// The lookup met bytes that no image has.
#[derive(Debug, PartialEq, Eq)]
pub struct BadImage;

/// A table of some node records.
pub struct Table(Vec<u32>);

/// Why no other refusal can come.
const OWN_TABLE: &str = "the words are a table's, and the trail is long enough";

impl Table {
    /// An empty table of 1 to `RECORDS` records.
    pub fn fresh(records: usize) -> Table {
        let mut words = vec![0; table_words(records)];
        nalfipode::Table::fresh(&mut words).expect(OWN_TABLE);
        Table(words)
    }

    /// Adds a prefix or replaces its zone number; gives the old number if there was one.
    pub fn store(&mut self, prefix: Prefix, zone: u32) -> Result<Option<u32>, Full> {
        let key = nalfipode::Prefix::new(prefix.width(), prefix.words()).expect("a prefix is valid");
        let mut table = nalfipode::Table::open(&mut self.0);
        match table.store(key, Zone(zone), &mut [0; TRAIL_BYTES]) {
            Ok(stored) => Ok(stored.old.map(|old| old.0)),
            Err(refused) if refused.refusal == Refusal::Full => Err(Full),
            Err(refused) => panic!("{OWN_TABLE}: {refused}"),
        }
    }

    /// Writes the image of what is stored and gives its length.
    pub fn write(&mut self, epoch: u64, out: &mut [u8]) -> Result<usize, NotWritten> {
        nalfipode::Table::open(&mut self.0).image_write(epoch, out)
    }

    /// The image of what is stored.
    pub fn image(&mut self, epoch: u64) -> Result<Vec<u8>, Refusal> {
        grown(|out| self.write(epoch, out))
    }
}

/// What a writer writes when it is given the length that it asks for. One that asks again is refused, so that
/// this ends.
fn grown(mut write: impl FnMut(&mut [u8]) -> Result<usize, NotWritten>) -> Result<Vec<u8>, Refusal> {
    let mut bytes = Vec::new();
    if let Err(first) = write(&mut bytes) {
        if first.refusal != Refusal::ShortOut {
            return Err(first.refusal);
        }
        bytes.resize(first.needed, 0);
    }
    let length = write(&mut bytes).map_err(|second| second.refusal)?;
    bytes.truncate(length);
    Ok(bytes)
}

/// The cell of a position in ten-millionths of a degree; none outside the range.
pub fn cell(longitude: i32, latitude: i32) -> Option<u64> {
    let words = nalfipode::cell(longitude, latitude).ok()?.words();
    Some(u64::from(words[0]) << 32 | u64::from(words[1]))
}

/// Whether the checker says yes.
pub fn verify(image: &[u8]) -> bool {
    image_verify(image).is_ok()
}

/// How many nodes and data entries an image has, and its epoch; none where the bytes give out.
pub fn facts(image: &[u8]) -> Option<Facts> {
    image_describe(image).ok()
}

/// The zone number for 128 bits, or none for no data.
pub fn look(image: &[u8], address: [u32; 4]) -> Result<Option<u32>, BadImage> {
    image_look(image, address).map(|found| found.map(|zone| zone.0)).map_err(|_| BadImage)
}

#[cfg(test)]
mod tests {
    use super::*;

    #[test]
    fn cells_of_the_paper() {
        // M12
        assert_eq!(cell(0, 0), Some(0xC000_0000_0000_0000));
        // the ends: the last column and row take the half turn and the quarter turn too
        assert_eq!(cell(-1_800_000_000, -900_000_000), Some(0));
        assert_eq!(cell(1_800_000_000, 900_000_000), Some(u64::MAX));
        for (longitude, latitude) in [
            (1_800_000_001, 0),
            (-1_800_000_001, 0),
            (0, 900_000_001),
            (0, -900_000_001),
            (i32::MIN, i32::MIN),
            (i32::MAX, i32::MAX),
        ] {
            assert_eq!(cell(longitude, latitude), None);
        }
        // M10 and M11: the column's bits are the odd ones, the row's the even ones
        let lines = |c: u64| {
            (0..32).rev().fold((0u32, 0u32), |(x, y), i| {
                (x << 1 | (c >> (2 * i + 1) & 1) as u32, y << 1 | (c >> (2 * i) & 1) as u32)
            })
        };
        assert_eq!(lines(cell(-1, -1).unwrap()), (2_147_483_646, 2_147_483_645));
        assert_eq!(lines(cell(1, 1).unwrap()), (2_147_483_649, 2_147_483_650));
    }

    #[test]
    fn a_map_stored_written_and_looked_up() {
        let mut table = Table::fresh(RECORDS);
        let zero: Prefix = "0/1".parse().unwrap();
        assert_eq!(table.store(zero, 4), Ok(None));
        assert_eq!(table.store(zero, 5), Ok(Some(4)));
        let image = table.image(0).unwrap();
        assert_eq!(image.len(), 179);
        assert!(verify(&image));
        assert_eq!(look(&image, [0; 4]), Ok(Some(5)));
        assert_eq!(look(&image, [u32::MAX; 4]), Ok(None));
        assert!(!verify(&image[1..]));
        assert_eq!(look(&image[..10], [0; 4]), Err(BadImage));
    }

    #[test]
    fn a_table_is_full_at_its_records() {
        let mut table = Table::fresh(RECORDS);
        // 16 bits: with each second one of a pair a branch comes too
        let mut stored = 0;
        let full = (0..65_536u32).find(|i| {
            let prefix = Prefix::new(16, [i << 16, 0, 0, 0]).unwrap();
            stored += 1;
            table.store(prefix, *i) == Err(Full)
        });
        // the first 32,768 are half of a whole tree, of 65,535 nodes
        assert_eq!(full, Some(32_768));
        assert_eq!(stored, 32_769);
        let again = Prefix::new(16, [0; 4]).unwrap();
        assert_eq!(table.store(again, 9), Ok(Some(0)));
    }

    #[test]
    fn a_refused_image_is_no_image() {
        for number in [1, 6, 9, 10, u32::MAX] {
            let refusal = Refusal::of(number).unwrap();
            assert_eq!(grown(|_| Err(NotWritten { refusal, needed: 0 })), Err(refusal));
        }
        // what asks for more again and again is not asked for ever
        let short = |out: &mut [u8]| NotWritten { refusal: Refusal::ShortOut, needed: out.len() + 1 };
        assert_eq!(grown(|out| Err(short(out))), Err(Refusal::ShortOut));
        assert_eq!(grown(|out| if out.len() == 1 { Ok(1) } else { Err(short(out)) }), Ok(vec![0]));
    }

    #[test]
    fn facts_of_images() {
        let mut table = Table::fresh(RECORDS);
        assert_eq!(facts(&table.image(0).unwrap()), Some(Facts { nodes: 1, entries: 0, epoch: 0 }));
        for (prefix, zone) in [("0/2", 0), ("4/2", 70_000), ("6/4", 30), ("FFFFFFFF/32", 30)] {
            table.store(prefix.parse().unwrap(), zone).unwrap();
        }
        for epoch in [0, 1, 256, u64::MAX] {
            assert_eq!(facts(&table.image(epoch).unwrap()), Some(Facts { nodes: 35, entries: 3, epoch }));
        }
        assert_eq!(facts(b""), None);
    }
}
