//! Images: the writer, the checker and the lookup.
use crate::{raw, Refusal, Table, Zone};
use std::error::Error;
use std::fmt;

/// Why no image was written. For ShortOut the output is as it was, and `needed` is the length of the image; for
/// other refusals it is 0.
#[derive(Clone, Copy, PartialEq, Eq, Hash, Debug)]
pub struct NotWritten {
    /// Why.
    pub refusal: Refusal,
    /// The bytes that the image takes, for ShortOut.
    pub needed: usize,
}

impl fmt::Display for NotWritten {
    fn fmt(&self, f: &mut fmt::Formatter<'_>) -> fmt::Result {
        self.refusal.fmt(f)
    }
}

impl Error for NotWritten {}

impl Table<'_> {
    /// Writes the image of what is stored, and gives its length; the bytes past it stay. Refused: BadLength,
    /// Damaged, and ShortOut with the length needed.
    ///
    /// ```
    /// use nalfipode::{image_look, image_verify, Refusal, Table, Zone, TRAIL_BYTES};
    /// let mut words = [0; 16];
    /// let mut table = Table::fresh(&mut words).unwrap();
    /// table.store("0".parse().unwrap(), Zone(5), &mut [0; TRAIL_BYTES]).unwrap();
    ///
    /// let refused = table.image_write(0, &mut []).unwrap_err();
    /// assert_eq!((refused.refusal, refused.needed), (Refusal::ShortOut, 179));
    ///
    /// let mut image = [0; 179];
    /// assert_eq!(table.image_write(0, &mut image), Ok(179));
    /// assert_eq!(image_verify(&image), Ok(()));
    /// assert_eq!(image_look(&image, [0; 4]), Ok(Some(Zone(5))));
    /// assert_eq!(image_look(&image, [u32::MAX; 4]), Ok(None));
    /// ```
    pub fn image_write(&self, epoch: u64, out: &mut [u8]) -> Result<usize, NotWritten> {
        let mut values = [0; 1];
        let number = raw::image_write(self.words(), epoch, out, &mut values);
        let length = values[0] as usize;
        match Refusal::or_accepted(number) {
            Ok(()) => Ok(length),
            Err(refusal) => Err(NotWritten { refusal, needed: length }),
        }
    }
}

/// Accepted exactly where some list of prefixes and some epoch give these bytes, else BadImage.
///
/// ```
/// assert_eq!(nalfipode::image_verify(b"no image"), Err(nalfipode::Refusal::BadImage));
/// ```
pub fn image_verify(image: &[u8]) -> Result<(), Refusal> {
    Refusal::or_accepted(raw::image_verify(image))
}

/// What an image says of itself.
#[derive(Clone, Copy, PartialEq, Eq, Hash, Debug)]
pub struct Facts {
    /// The nodes of the search tree.
    pub nodes: u64,
    /// The data entries, one for each different zone number that some record uses.
    pub entries: u64,
    /// The build epoch.
    pub epoch: u64,
}

/// What an image that [`image_verify`] accepts says of itself. Of other bytes the numbers are of no use; BadImage
/// where they do not end as an image does, or have no room for the nodes.
///
/// ```
/// use nalfipode::{image_describe, Facts, Refusal, Table};
/// let mut words = [0; 16];
/// let table = Table::fresh(&mut words).unwrap();
/// let mut image = [0; 178];
/// assert_eq!(table.image_write(9, &mut image), Ok(178));
/// assert_eq!(image_describe(&image), Ok(Facts { nodes: 1, entries: 0, epoch: 9 }));
/// assert_eq!(image_describe(b"no image"), Err(Refusal::BadImage));
/// ```
pub fn image_describe(image: &[u8]) -> Result<Facts, Refusal> {
    let mut values = [0; 3];
    Refusal::or_accepted(raw::image_describe(image, &mut values))?;
    Ok(Facts { nodes: values[0], entries: values[1], epoch: values[2] })
}

/// The zone number of an address, 128 bits in four words, or none where there is no data. In an image that
/// [`image_verify`] accepts that is the longest match of its list, and no address is refused. Other bytes are safe;
/// BadImage where the lookup met what no image has.
///
/// ```
/// assert_eq!(nalfipode::image_look(b"no image", [0; 4]), Err(nalfipode::Refusal::BadImage));
/// ```
pub fn image_look(image: &[u8], address: [u32; 4]) -> Result<Option<Zone>, Refusal> {
    let mut values = [0; 2];
    Refusal::or_accepted(raw::image_look(image, &address, &mut values))?;
    Ok(if values[0] == 1 { Some(Zone(values[1])) } else { None })
}
