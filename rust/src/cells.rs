//! Ground cells.
use crate::{raw, Prefix, Refusal};

/// The cell of a position, a prefix of width 64. Both numbers are ten-millionths of a degree: a longitude from
/// -1,800,000,000 to 1,800,000,000, and a latitude from -900,000,000 to 900,000,000, else BadPosition.
///
/// ```
/// use nalfipode::{cell, Refusal};
/// assert_eq!(cell(0, 0)?.words(), [0xC000_0000, 0, 0, 0]);
/// assert_eq!(cell(1_800_000_001, 0), Err(Refusal::BadPosition));
/// # Ok::<(), Refusal>(())
/// ```
pub fn cell(longitude: i32, latitude: i32) -> Result<Prefix, Refusal> {
    let mut values = [0; 5];
    Refusal::or_accepted(raw::cell(longitude, latitude, &mut values))?;
    Prefix::new(values[4], [values[0], values[1], values[2], values[3]])
}

#[cfg(test)]
mod tests {
    use super::*;

    #[test]
    fn a_cell_is_64_bits() {
        let found = cell(1_800_000_000, -900_000_000).unwrap();
        assert_eq!((found.width(), found.words()), (64, [0xAAAA_AAAA, 0xAAAA_AAAA, 0, 0]));
    }

    #[test]
    fn one_past_each_edge_is_refused() {
        for (longitude, latitude) in [(1_800_000_001, 0), (-1_800_000_001, 0), (0, 900_000_001), (0, -900_000_001)] {
            assert_eq!(cell(longitude, latitude), Err(Refusal::BadPosition));
        }
    }
}
