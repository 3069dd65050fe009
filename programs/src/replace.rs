//! A file replaced whole or not at all. The bytes go into a part file beside it, are read back and checked,
//! and only then the part gets the file's name; until then an older file of that name is as it was.
//!
//! A part is locked as long as its run lives. One that is not locked was left by a run that was killed, and
//! goes away; one that is locked is never touched. A part is removed or renamed only by who has its lock, so
//! the name of a part that one has locked stays that part's own.

use crate::input::Which;
use crate::lock::lock;
use std::fs::{self, File};
use std::io::{self, ErrorKind, Read, Seek, SeekFrom, Write};
use std::os::unix::ffi::OsStrExt;
use std::path::{Path, PathBuf};

/// Writes a file. An older one keeps its mode; on any error it is left as it was.
pub fn replace(path: &Path, bytes: &[u8], check: impl Fn(&[u8]) -> bool) -> io::Result<()> {
    let mut part = Part::beside(path)?;
    if let Ok(older) = fs::metadata(path) {
        part.file.set_permissions(older.permissions())?;
    }
    part.file.write_all(bytes)?;
    part.file.sync_all()?;
    let mut again = Vec::with_capacity(bytes.len());
    part.file.seek(SeekFrom::Start(0))?;
    part.file.read_to_end(&mut again)?;
    if !check(&again) {
        return Err(io::Error::new(ErrorKind::Other, "read back, it is not what was to be written"));
    }
    fs::rename(&part.place, path)?;
    part.renamed = true;
    Ok(())
}

/// A locked, empty part file; it goes away with this value unless it was renamed.
struct Part {
    place: PathBuf,
    file: File,
    renamed: bool,
}

/// How often a part is made anew where another run takes it away between its making and its locking.
const TRIES: u32 = 100;

impl Part {
    fn beside(path: &Path) -> io::Result<Part> {
        let place = place(path);
        for _ in 0..TRIES {
            match File::options().read(true).write(true).create_new(true).open(&place) {
                Ok(file) if lock(&file)? && names(&place, &file)? => {
                    return Ok(Part { place, file, renamed: false });
                }
                Ok(_) => {}
                Err(e) if e.kind() == ErrorKind::AlreadyExists => clear(&place)?,
                Err(e) => return Err(e),
            }
        }
        Err(at_work())
    }
}

impl Drop for Part {
    fn drop(&mut self) {
        if !self.renamed {
            let _ = fs::remove_file(&self.place);
        }
    }
}

/// The name of a file's part: of one length, so that it is never longer than a name may be.
fn place(path: &Path) -> PathBuf {
    let name = path.file_name().map_or(&b""[..], |name| name.as_bytes());
    // FNV-1a; of two names with one sum only one is written at a time
    let sum = name.iter().fold(0xCBF2_9CE4_8422_2325u64, |sum, byte| {
        (sum ^ u64::from(*byte)).wrapping_mul(0x0000_0100_0000_01B3)
    });
    path.with_file_name(format!(".nalfipode-{sum:016x}.part"))
}

/// Removes a part that a killed run left.
fn clear(place: &Path) -> io::Result<()> {
    let in_the_way = || io::Error::new(ErrorKind::Other, format!("{} is in the way", place.display()));
    match fs::symlink_metadata(place) {
        Ok(metadata) if metadata.is_file() => {}
        Ok(_) => return Err(in_the_way()),
        Err(e) => return gone(e),
    }
    let file = match File::open(place) {
        Ok(file) => file,
        Err(e) => return gone(e).map_err(|_| in_the_way()),
    };
    if !lock(&file)? {
        return Err(at_work());
    }
    if names(place, &file)? {
        fs::remove_file(place)?;
    }
    Ok(())
}

/// Well, where the error says that a file is gone.
fn gone(error: io::Error) -> io::Result<()> {
    if error.kind() == ErrorKind::NotFound {
        Ok(())
    } else {
        Err(error)
    }
}

/// Whether this open file still has this name.
fn names(place: &Path, file: &File) -> io::Result<bool> {
    match fs::symlink_metadata(place) {
        Ok(metadata) => Ok(metadata.is_file() && Which::of(&metadata) == Which::of(&file.metadata()?)),
        Err(e) => gone(e).map(|()| false),
    }
}

fn at_work() -> io::Error {
    io::Error::new(ErrorKind::Other, "another run is writing it")
}

#[cfg(test)]
mod tests {
    use super::*;

    /// A folder of its own with an older file; what is in it is given by `files`.
    fn older(name: &str) -> PathBuf {
        let folder = std::env::temp_dir().join(format!("nalfipode-{name}-{}", std::process::id()));
        fs::create_dir_all(&folder).unwrap();
        fs::write(folder.join("file"), "older").unwrap();
        folder
    }

    fn files(folder: &Path) -> Vec<String> {
        let name = |entry: io::Result<fs::DirEntry>| entry.unwrap().file_name().into_string().unwrap();
        fs::read_dir(folder).unwrap().map(name).collect()
    }

    #[test]
    fn what_the_check_refuses_goes_away() {
        let folder = older("refused");
        let path = folder.join("file");
        let refused = replace(&path, b"newer", |again| again != b"newer").unwrap_err();
        assert_eq!(refused.to_string(), "read back, it is not what was to be written");
        assert_eq!((fs::read(&path).unwrap(), files(&folder)), (b"older".to_vec(), vec!["file".to_string()]));
        fs::remove_dir_all(&folder).unwrap();
    }

    #[test]
    fn one_writes_at_a_time() {
        let folder = older("twice");
        let path = folder.join("file");
        let seen = |again: &[u8]| {
            // at this time the part has no name of a file yet, and is locked
            let second = replace(&path, b"second", |_| true).unwrap_err();
            assert_eq!(second.to_string(), "another run is writing it");
            assert_eq!((fs::read(&path).unwrap(), files(&folder).len()), (b"older".to_vec(), 2));
            replace(&folder.join("other"), b"other", |_| true).unwrap();
            again == b"first"
        };
        replace(&path, b"first", seen).unwrap();
        assert_eq!((fs::read(&path).unwrap(), files(&folder).len()), (b"first".to_vec(), 2));
        fs::remove_dir_all(&folder).unwrap();
    }

    #[test]
    fn names_of_parts() {
        assert_eq!(place(Path::new("a/b")), Path::new("a/.nalfipode-af63df4c8601f1a5.part"));
        assert_eq!(place(Path::new(&"n".repeat(255))).as_os_str().len(), 32);
        assert_ne!(place(Path::new("b")), place(Path::new("c")));
    }
}
