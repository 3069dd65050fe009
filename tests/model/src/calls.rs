//! The image calls, as the tests use them.

use crate::image::{self, BadImage, List};

/// The writer, the checker and the lookup. The model implements it below; the proved library is to be held
/// against it.
pub trait Calls {
    /// Writes the image of a table of these prefixes and gives its length; ShortOut gives the length needed.
    fn write(&self, list: &List, epoch: u64, out: &mut [u8]) -> Result<usize, usize>;

    /// Whether the checker says yes.
    fn verify(&self, bytes: &[u8]) -> bool;

    /// A zone number or no data; or BadImage.
    fn look(&self, bytes: &[u8], address: [u32; 4]) -> Result<Option<u32>, BadImage>;
}

/// The model's own calls.
pub struct Model;

impl Calls for Model {
    fn write(&self, list: &List, epoch: u64, out: &mut [u8]) -> Result<usize, usize> {
        let bytes = image::image(list, epoch).expect("every table's list fits");
        let place = out.get_mut(..bytes.len()).ok_or(bytes.len())?;
        place.copy_from_slice(&bytes);
        Ok(bytes.len())
    }

    fn verify(&self, bytes: &[u8]) -> bool {
        image::accepts(bytes).is_some()
    }

    fn look(&self, bytes: &[u8], address: [u32; 4]) -> Result<Option<u32>, BadImage> {
        image::walk(bytes, address)
    }
}
