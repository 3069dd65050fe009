//! Messages and exit statuses, alike in all programs: 0 when all is well, 1 where the input has faults, 2
//! where it could not be done (wrong arguments, a file that cannot be read, output that cannot be written, a
//! map that is refused).

use crate::arguments::{Asked, Given, Program};
use crate::standard;
use std::io::{self, Write};
use std::process::ExitCode;

pub const FAULTS: u8 = 1;
pub const NOT_DONE: u8 = 2;

/// Runs a program: `job` takes what was given and gives the exit status, or a message for standard error; an
/// empty message stands for wrong arguments.
pub fn main(program: &Program, job: impl FnOnce(&Given) -> Result<u8, String>) -> ExitCode {
    let done = match program.asked(std::env::args_os().skip(1)) {
        Ok(Asked::Help) => say(program.usage).map(|()| 0),
        Ok(Asked::Version) => say(&format!("{} {}", program.name, env!("CARGO_PKG_VERSION"))).map(|()| 0),
        Ok(Asked::Work(given)) => job(&given),
        Err(message) => Err(message),
    };
    match done {
        Ok(status) => ExitCode::from(status),
        Err(message) => {
            warn(if message.is_empty() { program.usage } else { &message });
            ExitCode::from(NOT_DONE)
        }
    }
}

/// For arguments that are not as the usage says.
pub fn wrong_arguments<T>() -> Result<T, String> {
    Err(String::new())
}

/// Prints a line on standard output.
pub fn say(line: &str) -> Result<(), String> {
    standard::write(format!("{line}\n").as_bytes()).map_err(|e| format!("standard output: {e}"))
}

/// Prints a line on standard error; where even that fails there is no one to tell.
pub fn warn(line: &str) {
    let _ = writeln!(io::stderr(), "{line}");
}
