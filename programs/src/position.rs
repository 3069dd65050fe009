//! A position as people write it: decimal degrees with a point, or ten-millionths of a degree as whole
//! numbers. Every step is in whole numbers, so that no fix is moved by rounding.

use crate::counted::counted;

/// Longitude and latitude in ten-millionths of a degree.
#[derive(Clone, Copy, Debug, PartialEq, Eq)]
pub struct Position {
    pub longitude: i32,
    pub latitude: i32,
}

pub const LONGITUDE: Axis = Axis { name: "longitude", degrees: 180 };
pub const LATITUDE: Axis = Axis { name: "latitude", degrees: 90 };

/// How many ten-millionths a degree has.
const UNITS: i64 = 10_000_000;
const DECIMALS: usize = 7;

/// Which of the two a number is, and how far it goes from 0.
#[derive(Clone, Copy)]
pub struct Axis {
    name: &'static str,
    degrees: i64,
}

/// A number as it was written.
#[derive(Clone, Copy, PartialEq, Eq)]
enum Written {
    Degrees(i32),
    Units(i32),
}

impl Axis {
    /// A number in either form, in ten-millionths.
    pub fn number(&self, text: &str) -> Result<i32, String> {
        match self.read(text)? {
            Written::Degrees(v) | Written::Units(v) => Ok(v),
        }
    }

    fn read(&self, text: &str) -> Result<Written, String> {
        let name = self.name;
        let digits = text.strip_prefix(['-', '+']).unwrap_or(text);
        let (whole, part) = match digits.split_once('.') {
            Some((whole, part)) => (whole, Some(part)),
            None => (digits, None),
        };
        let number = |s: &str| !s.is_empty() && s.bytes().all(|b| b.is_ascii_digit());
        if !number(whole) || !part.map_or(true, number) {
            return Err(format!("{name} \"{text}\" is not a number"));
        }
        if part.map_or(false, |p| p.len() > DECIMALS) {
            return Err(format!("{name} {text} has more than seven decimals"));
        }
        let scaled = match part {
            Some(part) => format!("{whole}{part:0<DECIMALS$}"),
            None => whole.to_string(),
        };
        // what is too long for 64 bits is outside any range
        let size = scaled.parse::<i64>().ok().filter(|v| *v <= self.degrees * UNITS);
        let sign = if text.starts_with('-') { -1 } else { 1 };
        let value = size.and_then(|v| i32::try_from(sign * v).ok()).ok_or_else(|| match part {
            Some(_) => format!("{name} {text} is outside -{0} to {0} degrees", self.degrees),
            None => format!("{name} {text} is outside -{0} to {0} ten-millionths", self.degrees * UNITS),
        })?;
        Ok(if part.is_some() { Written::Degrees(value) } else { Written::Units(value) })
    }
}

/// Two numbers with blanks or one comma between them. Both have a point, or none has: `55` beside `-3.5`
/// would be 55 ten-millionths, and is surely not meant so.
pub fn position(line: &str) -> Result<Position, String> {
    let fields: Vec<&str> = match line.contains(',') {
        true => line.split(',').map(str::trim).collect(),
        false => line.split_whitespace().collect(),
    };
    match fields[..] {
        [longitude, latitude] => pair(longitude, latitude),
        _ => {
            let fields = counted(fields.len(), "field", "fields");
            Err(format!("{fields} where longitude and latitude are wanted"))
        }
    }
}

/// A position from its two numbers.
pub fn pair(longitude: &str, latitude: &str) -> Result<Position, String> {
    match (LONGITUDE.read(longitude)?, LATITUDE.read(latitude)?) {
        (Written::Degrees(longitude), Written::Degrees(latitude))
        | (Written::Units(longitude), Written::Units(latitude)) => Ok(Position { longitude, latitude }),
        _ => Err(format!("{longitude} and {latitude}: only one of the two has a decimal point")),
    }
}

#[cfg(test)]
mod tests {
    use super::*;

    #[test]
    fn read() {
        for (line, longitude, latitude) in [
            ("-3.1882670 55.9532520", -31_882_670, 559_532_520),
            ("-3.188267,55.953252", -31_882_670, 559_532_520),
            ("  -3.1882670 ,\t55.9532520 ", -31_882_670, 559_532_520),
            ("-31882670 559532520", -31_882_670, 559_532_520),
            ("+1 -1", 1, -1),
            ("0.0000001 -0.0000001", 1, -1),
            ("-0.0 -0.0", 0, 0),
            ("180.0 90.0", 1_800_000_000, 900_000_000),
            ("-180.0000000 -90.0000000", -1_800_000_000, -900_000_000),
            ("1800000000 -900000000", 1_800_000_000, -900_000_000),
            ("007.5 000000000000000000000000001.5", 75_000_000, 15_000_000),
        ] {
            assert_eq!(position(line), Ok(Position { longitude, latitude }), "{line}");
        }
    }

    #[test]
    fn refused() {
        for (line, message) in [
            ("1.0", "1 field where longitude and latitude are wanted"),
            ("1.0 2.0 3.0", "3 fields where longitude and latitude are wanted"),
            ("1.0,,2.0", "3 fields where longitude and latitude are wanted"),
            ("1.0 2.0, 3.0", "longitude \"1.0 2.0\" is not a number"),
            ("west 2.0", "longitude \"west\" is not a number"),
            ("1.0 2,5", "longitude \"1.0 2\" is not a number"),
            ("1. 2.0", "longitude \"1.\" is not a number"),
            ("1.0 .5", "latitude \".5\" is not a number"),
            ("--1.0 2.0", "longitude \"--1.0\" is not a number"),
            ("1e2 2.0", "longitude \"1e2\" is not a number"),
            ("1.0.0 2.0", "longitude \"1.0.0\" is not a number"),
            (", 2.0", "longitude \"\" is not a number"),
            ("1.00000000 2.0", "longitude 1.00000000 has more than seven decimals"),
            ("1.0 2.12345678", "latitude 2.12345678 has more than seven decimals"),
            ("180.0000001 2.0", "longitude 180.0000001 is outside -180 to 180 degrees"),
            ("1.0 -90.0000001", "latitude -90.0000001 is outside -90 to 90 degrees"),
            ("1800000001 0", "longitude 1800000001 is outside -1800000000 to 1800000000 ten-millionths"),
            ("0 -900000001", "latitude -900000001 is outside -900000000 to 900000000 ten-millionths"),
            (
                "99999999999999999999 0",
                "longitude 99999999999999999999 is outside -1800000000 to 1800000000 ten-millionths",
            ),
            ("-3.5 55", "-3.5 and 55: only one of the two has a decimal point"),
        ] {
            assert_eq!(position(line), Err(message.to_string()), "{line}");
        }
    }
}
