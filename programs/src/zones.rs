//! The list of zones that `zonemap` reads, one to a line:
//!
//! ```text
//! HEX/WIDTH ZONE [NAME]              a prefix: hex digits of its leading bits, and its width
//! cell LON LAT WIDTH ZONE [NAME]     the first WIDTH bits of the cell of a position
//! ```

use crate::library;
use crate::lines::{said, without_mark};
use crate::position::pair;
use crate::prefix::{address, width_of, Prefix};
use std::collections::BTreeMap;

/// A prefix, the zone number for it, and a name for people; the name is not part of a map.
#[derive(Debug, PartialEq, Eq)]
pub struct Zone {
    pub line: usize,
    pub prefix: Prefix,
    pub number: u32,
    pub name: String,
}

/// A line's number and what is wrong with it.
pub type Fault = (usize, String);

/// The zones of a text, or what is wrong in it, line by line.
pub fn read(text: &[u8]) -> Result<Vec<Zone>, Vec<Fault>> {
    let mut zones = Vec::new();
    let mut faults = Vec::new();
    let mut seen = BTreeMap::new();
    for (line, bytes) in (1..).zip(without_mark(text).split(|b| *b == b'\n')) {
        match said(bytes).and_then(|text| text.map(zone).transpose()) {
            Ok(None) => {}
            Ok(Some((prefix, number, name))) => match *seen.entry(prefix).or_insert(line) {
                first if first == line => zones.push(Zone { line, prefix, number, name }),
                first => {
                    faults.push((line, format!("{prefix} is named a second time, first in line {first}")))
                }
            },
            Err(fault) => faults.push((line, fault)),
        }
    }
    if faults.is_empty() {
        Ok(zones)
    } else {
        Err(faults)
    }
}

fn zone(line: &str) -> Result<(Prefix, u32, String), String> {
    let fields: Vec<&str> = line.split_whitespace().collect();
    match fields[..] {
        ["cell", longitude, latitude, width, number, ref name @ ..] => {
            let at = pair(longitude, latitude)?;
            let width = width_of(width)?;
            if width > 64 {
                return Err(format!("width {width} is above 64, the bits of a cell"));
            }
            let cell = library::cell(at.longitude, at.latitude).ok_or("a position outside the range")?;
            Ok((Prefix::first(width, address(cell)), number_of(number)?, name.join(" ")))
        }
        ["cell", ..] => Err("a line of a cell is: cell LON LAT WIDTH ZONE [NAME]".into()),
        [prefix, number, ref name @ ..] => Ok((prefix.parse()?, number_of(number)?, name.join(" "))),
        _ => Err("a line is: HEX/WIDTH ZONE [NAME]".into()),
    }
}

fn number_of(text: &str) -> Result<u32, String> {
    if text.is_empty() || !text.bytes().all(|b| b.is_ascii_digit()) {
        return Err(format!("zone \"{text}\" is not a whole number"));
    }
    text.parse().map_err(|_| format!("zone {text} is above 4294967295"))
}

#[cfg(test)]
mod tests {
    use super::*;

    #[test]
    fn good_lines() {
        let text = "# a course\n\nC0000000/20 7 seventh hole # outline\r\ncell 0.0 0.0 4 8\n0/0 4294967295";
        let zones = read(text.as_bytes()).unwrap();
        assert_eq!(read(format!("\u{FEFF}{text}").as_bytes()).as_ref(), Ok(&zones));
        let lines: Vec<String> =
            zones.iter().map(|z| format!("{} {} {} {}", z.line, z.prefix, z.number, z.name)).collect();
        assert_eq!(lines, ["3 C0000/20 7 seventh hole", "4 C/4 8 ", "5 0/0 4294967295 "]);
    }

    #[test]
    fn bad_lines() {
        for (line, message) in [
            ("C0/8", "a line is: HEX/WIDTH ZONE [NAME]"),
            ("C0/8 x", "zone \"x\" is not a whole number"),
            ("C0/8 -1", "zone \"-1\" is not a whole number"),
            ("C0/8 4294967296", "zone 4294967296 is above 4294967295"),
            ("C0/129 1", "width 129 is above 128"),
            ("C1/7 1", "\"C1/7\" has a bit set after the first 7"),
            ("green 1", "\"green\" is no prefix: HEX/WIDTH is wanted"),
            ("cell 0.0 0.0 4", "a line of a cell is: cell LON LAT WIDTH ZONE [NAME]"),
            ("cell 0.0 91.0 4 1", "latitude 91.0 is outside -90 to 90 degrees"),
            ("cell 0.0 0.0 65 1", "width 65 is above 64, the bits of a cell"),
        ] {
            assert_eq!(read(line.as_bytes()), Err(vec![(1, message.to_string())]), "{line}");
        }
        let twice = "C0/8 1\nC000/8 1\n\nC1/8 1\ncell 0.0 0.0 8 1\n\u{FFFF}";
        let faults = read(twice.as_bytes()).unwrap_err();
        assert_eq!(faults[0], (2, "C0/8 is named a second time, first in line 1".to_string()));
        assert_eq!(faults[1], (5, "C0/8 is named a second time, first in line 1".to_string()));
        assert_eq!(faults[2].0, 6);
    }
}
