//! Standard input and standard output as they were given. The standard library's own handles hide two faults
//! of an output: a closed one has become /dev/null before `main`, and a write to one that is open only for
//! reading counts as done.

use std::fs::File;
use std::io::{self, Write};
use std::os::unix::io::AsFd;
use std::sync::atomic::{AtomicBool, Ordering};

static CLOSED: AtomicBool = AtomicBool::new(false);

extern "C" {
    fn fcntl(descriptor: i32, command: i32, ...) -> i32;
}

const OUTPUT: i32 = 1;
const F_GETFD: i32 = 1;

extern "C" fn look() {
    // SAFETY: asks for a descriptor's flags, which fails exactly where it is not open, and touches no memory
    if unsafe { fcntl(OUTPUT, F_GETFD) } == -1 {
        CLOSED.store(true, Ordering::Relaxed);
    }
}

// what is listed in this section runs before the standard library's start
#[used]
#[link_section = ".init_array"]
static LOOK: extern "C" fn() = look;

/// Standard input as a file.
pub fn input() -> io::Result<File> {
    Ok(File::from(io::stdin().as_fd().try_clone_to_owned()?))
}

/// Standard output as a file; an error where it was closed.
pub fn output() -> io::Result<File> {
    if CLOSED.load(Ordering::Relaxed) {
        return Err(io::Error::new(io::ErrorKind::Other, "it is closed"));
    }
    Ok(File::from(io::stdout().as_fd().try_clone_to_owned()?))
}

/// Writes all of it to standard output.
pub fn write(bytes: &[u8]) -> io::Result<()> {
    output()?.write_all(bytes)
}
