//! Files that are read. A lone `-` is standard input.

use crate::standard;
use std::ffi::OsStr;
use std::fs::{self, File, Metadata};
use std::io::{self, Read};
use std::os::unix::fs::MetadataExt;
use std::path::{Path, PathBuf};

/// Which file it is, under any name.
#[derive(Clone, Copy, Debug, PartialEq, Eq)]
pub struct Which {
    device: u64,
    inode: u64,
}

impl Which {
    pub fn of(metadata: &Metadata) -> Which {
        Which { device: metadata.dev(), inode: metadata.ino() }
    }
}

/// An open file.
pub struct Input {
    /// As it is printed.
    pub name: String,
    pub file: File,
    which: Which,
    path: Option<PathBuf>,
}

impl Input {
    pub fn open(name: &OsStr) -> Result<Input, String> {
        if name == "-" {
            return Input::standard();
        }
        let printed = name.to_string_lossy().into_owned();
        File::open(name)
            .and_then(|file| Input::of(printed.clone(), file, fs::canonicalize(name).ok()))
            .map_err(|e| unread(&printed, e))
    }

    pub fn standard() -> Result<Input, String> {
        let name = "standard input".to_string();
        standard::input().and_then(|file| Input::of(name.clone(), file, None)).map_err(|e| unread(&name, e))
    }

    fn of(name: String, file: File, path: Option<PathBuf>) -> io::Result<Input> {
        let which = Which::of(&file.metadata()?);
        Ok(Input { name, file, which, path })
    }

    /// All that is left to read.
    pub fn bytes(&mut self) -> Result<Vec<u8>, String> {
        let mut bytes = Vec::new();
        self.file.read_to_end(&mut bytes).map_err(|e| unread(&self.name, e))?;
        Ok(bytes)
    }

    /// Whether it is the file that these are the facts and the name of. The name counts too, since some file
    /// systems make up numbers anew.
    pub fn is(&self, metadata: &Metadata, name: &Path) -> bool {
        let named = || self.path.is_some() && self.path == fs::canonicalize(name).ok();
        self.which == Which::of(metadata) || named()
    }
}

/// The message for a file that cannot be read.
pub fn unread(name: &str, error: io::Error) -> String {
    format!("{name}: cannot be read: {error}")
}
