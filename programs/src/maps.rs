//! Map images from files.

use crate::input::Input;
use crate::library;

/// The bytes of a map that the checker accepts.
pub fn read(input: &mut Input) -> Result<Vec<u8>, String> {
    let image = input.bytes()?;
    if !library::verify(&image) {
        return Err(format!("{}: not a map: the image checker refuses it", input.name));
    }
    Ok(image)
}
