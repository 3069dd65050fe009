//! Files that are written, so that none is lost: a regular file is replaced whole or not at all, an input is
//! never written over, and what is no regular file is never replaced.

use crate::input::{Input, Which};
use crate::replace::replace;
use crate::run;
use crate::standard;
use std::ffi::OsStr;
use std::fs::{self, File, Metadata};
use std::io::{self, ErrorKind, Write};
use std::os::unix::ffi::OsStrExt;
use std::os::unix::fs::FileTypeExt;
use std::path::{Path, PathBuf};

/// Where a program's file goes.
pub struct Output {
    /// As it is printed.
    pub name: String,
    way: Way,
}

enum Way {
    /// It is standard output itself, under some name.
    Standard,
    /// A character device or a pipe.
    Straight(PathBuf),
    /// A regular file, or none so far.
    Replaced(PathBuf),
}

impl Output {
    /// The output of a name; an error where it is the input, or nothing that can be written.
    pub fn of(name: &OsStr, input: &Input) -> Result<Output, String> {
        let printed = name.to_string_lossy().into_owned();
        let path = Path::new(name);
        let way = match fs::metadata(path) {
            _ if name == "-" => Err(other("standard output is /dev/stdout")),
            Ok(metadata) => known(path, &metadata, input),
            Err(e) if e.kind() == ErrorKind::NotFound => unborn(path).map(Way::Replaced),
            Err(e) => Err(e),
        };
        match way {
            Ok(way) => Ok(Output { name: printed, way }),
            Err(e) => Err(unwritten(&printed, e)),
        }
    }

    /// Writes it. `check` is asked about the bytes as they are read back, or, where that cannot be, before
    /// they are written.
    pub fn write(&self, bytes: &[u8], check: impl Fn(&[u8]) -> bool) -> Result<(), String> {
        let done = match &self.way {
            Way::Replaced(path) => replace(path, bytes, check),
            _ if !check(bytes) => Err(other("it is not what was to be written")),
            Way::Standard => standard::write(bytes),
            Way::Straight(path) => {
                File::options().write(true).open(path).and_then(|mut file| file.write_all(bytes))
            }
        };
        done.map_err(|e| unwritten(&self.name, e))
    }

    /// Prints a line about it on standard output, or on standard error where the bytes themselves go there.
    pub fn say(&self, line: &str) -> Result<(), String> {
        match self.way {
            Way::Standard => {
                run::warn(line);
                Ok(())
            }
            _ => run::say(line),
        }
    }
}

/// The way to what is there.
fn known(path: &Path, metadata: &Metadata, input: &Input) -> io::Result<Way> {
    let kind = metadata.file_type();
    if kind.is_dir() {
        return Err(other("it is a folder"));
    }
    // two names of one device are two streams
    if !kind.is_char_device() && input.is(metadata, path) {
        return Err(other(&format!("it is the input, {}", input.name)));
    }
    let standard = standard::output().and_then(|out| out.metadata());
    if standard.map_or(false, |out| Which::of(&out) == Which::of(metadata)) {
        // bytes after others would be no map, and those before them none any more
        if kind.is_file() && metadata.len() > 0 {
            return Err(other("it is standard output, and not empty"));
        }
        Ok(Way::Standard)
    } else if kind.is_file() {
        fs::canonicalize(path).map(Way::Replaced)
    } else if kind.is_char_device() || kind.is_fifo() {
        Ok(Way::Straight(path.to_path_buf()))
    } else {
        Err(other("it is no file, no character device and no pipe"))
    }
}

/// The path of a file that is not there yet: where a link leads to nothing, the file that it names.
fn unborn(path: &Path) -> io::Result<PathBuf> {
    let mut path = path.to_path_buf();
    // a link that leads in a circle has been refused before, so this ends
    while let Ok(link) = fs::read_link(&path) {
        path = path.with_file_name("").join(link);
    }
    if path.file_name().is_none() || path.as_os_str().as_bytes().ends_with(b"/") {
        return Err(other("it is no name of a file"));
    }
    Ok(path)
}

fn other(message: &str) -> io::Error {
    io::Error::new(ErrorKind::Other, message)
}

fn unwritten(name: &str, error: io::Error) -> String {
    format!("{name}: cannot be written: {error}")
}
