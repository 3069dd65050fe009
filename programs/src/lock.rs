//! Locks on open files, by which a run is known to be alive. The standard library has them from Rust 1.89 on;
//! the programs ask for less.

use std::fs::File;
use std::io::{self, ErrorKind};
use std::os::unix::io::AsRawFd;

extern "C" {
    fn flock(descriptor: i32, operation: i32) -> i32;
}

/// LOCK_EX | LOCK_NB: alone, or not at all.
const ALONE: i32 = 2 | 4;

/// Locks a file until it is closed, which the end of the program does in any case; false where some other
/// opening of it has the lock.
pub fn lock(file: &File) -> io::Result<bool> {
    // SAFETY: two numbers, of which one is an open descriptor; no memory is touched
    if unsafe { flock(file.as_raw_fd(), ALONE) } == 0 {
        return Ok(true);
    }
    match io::Error::last_os_error() {
        e if e.kind() == ErrorKind::WouldBlock => Ok(false),
        e => Err(e),
    }
}
