//! The faults of a text that people wrote: the first twenty are told, each with its line, and then how many
//! more there are.

use crate::counted::counted;
use crate::run::{warn, FAULTS};
use std::fmt::Display;

const MOST_TOLD: u64 = 20;

pub struct Faults<'a> {
    /// The text's name.
    name: &'a str,
    met: u64,
}

impl<'a> Faults<'a> {
    pub fn of(name: &'a str) -> Faults<'a> {
        Faults { name, met: 0 }
    }

    pub fn tell(&mut self, line: impl Display, fault: &str) {
        self.met += 1;
        if self.met <= MOST_TOLD {
            warn(&format!("{}:{line}: {fault}", self.name));
        }
    }

    /// Tells how many were not told, and gives the exit status.
    pub fn end(self) -> u8 {
        let more = self.met.saturating_sub(MOST_TOLD);
        if more > 0 {
            warn(&format!("{}: and {}", self.name, counted(more, "more fault", "more faults")));
        }
        if self.met == 0 {
            0
        } else {
            FAULTS
        }
    }
}
