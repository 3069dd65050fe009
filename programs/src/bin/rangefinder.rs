//! rangefinder MAP.mmdb [FIXES]: for each fix its cell and its zone.

use programs::arguments::Program;
use programs::faults::Faults;
use programs::input::{unread, Input};
use programs::library;
use programs::lines::{said, without_mark};
use programs::maps;
use programs::position::position;
use programs::prefix::address;
use programs::run;
use std::ffi::OsStr;
use std::io::{BufRead, BufReader};
use std::process::ExitCode;

const USAGE: &str = "\
usage: rangefinder MAP.mmdb [FIXES]
Prints for each fix its cell (16 hex digits) and its zone number, or - where the map has no data.
A fix is a line with longitude and latitude, blanks or a comma between them, as decimal degrees with a
point (-3.1882670 55.9532520) or as ten-millionths of a degree (-31882670 559532520). What follows a #
is a comment. Without FIXES, or where it is -, fixes are read from standard input.
Exit status: 0, 1 if a line was bad (the others are answered, and at most twenty are told), 2 if the map or a
file was, or the answers cannot be printed.";

const PROGRAM: Program = Program { name: "rangefinder", usage: USAGE, options: &[], numbers: 0..0 };

fn main() -> ExitCode {
    run::main(&PROGRAM, |given| match &given.words[..] {
        [map] => answers(map, OsStr::new("-")),
        [map, fixes] => answers(map, fixes),
        _ => run::wrong_arguments(),
    })
}

fn answers(map: &OsStr, fixes: &OsStr) -> Result<u8, String> {
    if map == "-" && fixes == "-" {
        return Err("standard input cannot be both the map and the fixes".into());
    }
    let map = maps::read(&mut Input::open(map)?)?;
    find(&map, Input::open(fixes)?)
}

/// Answers each line; bad ones are told of with their number.
fn find(map: &[u8], fixes: Input) -> Result<u8, String> {
    let name = fixes.name;
    let mut faults = Faults::of(&name);
    let mut fixes = BufReader::new(fixes.file);
    let mut line = Vec::new();
    for number in 1u64.. {
        line.clear();
        if fixes.read_until(b'\n', &mut line).map_err(|e| unread(&name, e))? == 0 {
            break;
        }
        let text = if number == 1 { without_mark(&line) } else { &line };
        match said(text).and_then(|text| text.map(|text| answer(map, text)).transpose()) {
            Ok(None) => {}
            Ok(Some(answer)) => run::say(&answer)?,
            Err(fault) => faults.tell(number, &fault),
        }
    }
    Ok(faults.end())
}

fn answer(map: &[u8], text: &str) -> Result<String, String> {
    let fix = position(text)?;
    let cell = library::cell(fix.longitude, fix.latitude).ok_or("a position outside the range")?;
    // the checker has accepted the map, so a lookup is not refused
    let zone = library::look(map, address(cell)).map_err(|_| "the lookup met bytes that no map has")?;
    Ok(format!("{cell:016X} {}", zone.map_or("-".to_string(), |z| z.to_string())))
}
