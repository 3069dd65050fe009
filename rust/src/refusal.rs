//! The numbered refusals.
use std::error::Error;
use std::fmt;

/// Why a call was refused, with the number of paper 01. Where several apply, the one with the lowest number is
/// given. Every refusal leaves the table's words alone. More may be named in time.
#[derive(Clone, Copy, PartialEq, Eq, PartialOrd, Ord, Hash, Debug)]
#[non_exhaustive]
pub enum Refusal {
    /// The table has another number of words than 8 + 8c, c from 1 to 65,535.
    BadLength,
    /// A width above 128, or a bit set after the width.
    BadPrefix,
    /// A longitude or a latitude outside its range.
    BadPosition,
    /// A slice of no prefix, or of more than 4,096.
    BadSize,
    /// A trail of fewer than 129 bytes, or an output that is too short.
    ShortOut,
    /// The call met words that no table has; never on a table that [`Table::audit`](crate::Table::audit) accepts.
    Damaged,
    /// Remove or fetch of a prefix that is not stored.
    Absent,
    /// A store whose tree would have more nodes than the table has records.
    Full,
    /// The bytes are no image.
    BadImage,
    /// A number that no refusal named here has, as a library of another version may give. Only
    /// [`Refusal::of`] makes it, so that no refusal has two values.
    #[non_exhaustive]
    Unknown {
        /// The number.
        number: u32,
    },
}

/// The named refusals, each at the place of its number: number 1 first.
const NAMED: [Refusal; 9] = [
    Refusal::BadLength,
    Refusal::BadPrefix,
    Refusal::BadPosition,
    Refusal::BadSize,
    Refusal::ShortOut,
    Refusal::Damaged,
    Refusal::Absent,
    Refusal::Full,
    Refusal::BadImage,
];

impl Refusal {
    /// The paper's number; of an unknown refusal the number that the call gave.
    ///
    /// ```
    /// assert_eq!(nalfipode::Refusal::Full.number(), 8);
    /// ```
    pub fn number(self) -> u32 {
        match self {
            Refusal::BadLength => 1,
            Refusal::BadPrefix => 2,
            Refusal::BadPosition => 3,
            Refusal::BadSize => 4,
            Refusal::ShortOut => 5,
            Refusal::Damaged => 6,
            Refusal::Absent => 7,
            Refusal::Full => 8,
            Refusal::BadImage => 9,
            Refusal::Unknown { number } => number,
        }
    }

    /// The refusal that a call's number stands for; none for 0 alone, which is accepted.
    ///
    /// ```
    /// use nalfipode::Refusal;
    /// assert_eq!(Refusal::of(0), None);
    /// assert_eq!(Refusal::of(6), Some(Refusal::Damaged));
    /// let unknown = Refusal::of(u32::MAX).expect("only 0 is accepted");
    /// assert!(matches!(unknown, Refusal::Unknown { .. }));
    /// assert_eq!(unknown.number(), u32::MAX);
    /// ```
    pub fn of(number: u32) -> Option<Refusal> {
        let place = number.checked_sub(1)?;
        Some(NAMED.get(place as usize).copied().unwrap_or(Refusal::Unknown { number }))
    }

    /// A call's number as a result: 0 alone is accepted.
    pub(crate) fn or_accepted(number: u32) -> Result<(), Refusal> {
        match Refusal::of(number) {
            None => Ok(()),
            Some(refusal) => Err(refusal),
        }
    }
}

impl fmt::Display for Refusal {
    fn fmt(&self, f: &mut fmt::Formatter<'_>) -> fmt::Result {
        match self {
            Refusal::Unknown { number } => write!(f, "unknown refusal ({})", number),
            named => write!(f, "{:?} ({})", named, named.number()),
        }
    }
}

impl Error for Refusal {}

/// The refusal of a keyed call, with the number of nodes on the key's path: their widths stand at the start of
/// the trail. The number is 0, and the trail as it was, but for Absent and Full.
#[derive(Clone, Copy, PartialEq, Eq, Hash, Debug)]
pub struct Refused {
    /// Why.
    pub refusal: Refusal,
    /// How many nodes the path has, for Absent and Full.
    pub nodes: usize,
}

impl fmt::Display for Refused {
    fn fmt(&self, f: &mut fmt::Formatter<'_>) -> fmt::Result {
        self.refusal.fmt(f)
    }
}

impl Error for Refused {}

/// The refusal alone.
impl From<Refused> for Refusal {
    fn from(refused: Refused) -> Refusal {
        refused.refusal
    }
}

#[cfg(test)]
mod tests {
    use super::*;

    #[test]
    fn numbers_are_the_papers() {
        let numbers: Vec<u32> = NAMED.iter().map(|refusal| refusal.number()).collect();
        assert_eq!(numbers, [1, 2, 3, 4, 5, 6, 7, 8, 9]);
        for refusal in NAMED {
            assert_eq!(Refusal::of(refusal.number()), Some(refusal));
        }
    }

    #[test]
    fn only_0_is_accepted() {
        assert_eq!((Refusal::of(0), Refusal::or_accepted(0)), (None, Ok(())));
        for number in (1..=300).chain([u32::MAX - 1, u32::MAX]) {
            let refusal = Refusal::or_accepted(number).unwrap_err();
            assert_eq!((Refusal::of(number), refusal.number()), (Some(refusal), number));
        }
        assert_eq!(Refusal::of(10), Some(Refusal::Unknown { number: 10 }));
        assert_eq!(Refusal::of(u32::MAX), Some(Refusal::Unknown { number: u32::MAX }));
    }

    #[test]
    fn a_refusal_reads_as_its_name_and_number() {
        assert_eq!(Refusal::ShortOut.to_string(), "ShortOut (5)");
        assert_eq!(Refusal::Unknown { number: 10 }.to_string(), "unknown refusal (10)");
    }
}
