//! draw MAP.mmdb WEST SOUTH EAST NORTH WIDTH HEIGHT OUT: a picture of a map.

use programs::arguments::Program;
use programs::counted::counted;
use programs::input::Input;
use programs::library;
use programs::maps;
use programs::output::Output;
use programs::picture::{colour, Picture, PALETTE};
use programs::position::{pair, Position};
use programs::prefix::address;
use programs::run;
use std::collections::BTreeMap;
use std::ffi::{OsStr, OsString};
use std::os::unix::ffi::OsStrExt;
use std::process::ExitCode;

const USAGE: &str = "\
usage: draw MAP.mmdb WEST SOUTH EAST NORTH WIDTH HEIGHT OUT.ppm|OUT.png
Draws the zones of a map between two positions, WIDTH by HEIGHT pixels (1 to 4096 each): a pixel has the
colour of the zone at the position in its middle. Positions are as in rangefinder. The file's ending says
whether it is a plain PPM or a PNG. Prints how many pixels each zone has, and its colour. Where MAP.mmdb is -
it is standard input.
Exit status: 0, 2 if the map or a file was bad, OUT is the map itself, or the counts cannot be printed.";

const PROGRAM: Program = Program { name: "draw", usage: USAGE, options: &[], numbers: 1..5 };

/// The most pixels of a side.
const LARGEST: u32 = 4_096;

/// The south-west and the north-east corner.
type Corners = (Position, Position);

/// How many pixels each zone has, and no data.
type Counts = BTreeMap<Option<u32>, u64>;

fn main() -> ExitCode {
    run::main(&PROGRAM, |given| match &given.words[..] {
        [map, west, south, east, north, width, height, out] => {
            let corners = corners([west, south, east, north])?;
            let size = (pixels("width", width)?, pixels("height", height)?);
            draw(map, corners, size, out)
        }
        _ => run::wrong_arguments(),
    })
}

fn corners(words: [&OsString; 4]) -> Result<Corners, String> {
    let [west, south, east, north] = words.map(|word| word.to_string_lossy());
    let (low, high) = (pair(&west, &south)?, pair(&east, &north)?);
    if low.longitude >= high.longitude || low.latitude >= high.latitude {
        return Err("WEST must be west of EAST, and SOUTH south of NORTH".into());
    }
    Ok((low, high))
}

fn pixels(name: &str, word: &OsStr) -> Result<u32, String> {
    let text = word.to_string_lossy();
    let digits = text.bytes().all(|b| b.is_ascii_digit());
    text.parse()
        .ok()
        .filter(|n| digits && (1..=LARGEST).contains(n))
        .ok_or_else(|| format!("{name} \"{text}\" is not a whole number from 1 to {LARGEST}"))
}

fn draw(map: &OsStr, corners: Corners, size: (u32, u32), out: &OsStr) -> Result<u8, String> {
    let encode = match out.as_bytes() {
        [.., b'.', b'p', b'p', b'm'] => Picture::ppm,
        [.., b'.', b'p', b'n', b'g'] => Picture::png,
        _ => return Err(format!("{}: its ending is neither .ppm nor .png", out.to_string_lossy())),
    };
    let mut map = Input::open(map)?;
    let out = Output::of(out, &map)?;
    let (picture, counts) = drawn(&maps::read(&mut map)?, corners, size)?;
    let bytes = encode(&picture);
    out.write(&bytes, |again| again == bytes)?;
    for (zone, count) in counts {
        let zone_is = zone.map_or("no data".to_string(), |z| format!("zone {z}"));
        let [r, g, b] = PALETTE[usize::from(colour(zone))].1;
        let pixels = counted(count, "pixel", "pixels");
        out.say(&format!("{zone_is}: {pixels}, #{r:02X}{g:02X}{b:02X}"))?;
    }
    Ok(0)
}

fn drawn(map: &[u8], (low, high): Corners, size: (u32, u32)) -> Result<(Picture, Counts), String> {
    let mut counts = Counts::new();
    let mut picture = Picture { width: size.0, height: size.1, pixels: Vec::new() };
    for row in (0..size.1).rev() {
        for column in 0..size.0 {
            let longitude = middle(low.longitude, high.longitude, column, size.0);
            let latitude = middle(low.latitude, high.latitude, row, size.1);
            let cell = library::cell(longitude, latitude).ok_or("a position outside the range")?;
            let zone =
                library::look(map, address(cell)).map_err(|_| "the lookup met bytes that no map has")?;
            *counts.entry(zone).or_default() += 1;
            picture.pixels.push(colour(zone));
        }
    }
    Ok((picture, counts))
}

/// The middle of the place-th of `count` equal parts.
fn middle(from: i32, to: i32, place: u32, count: u32) -> i32 {
    let span = i64::from(to) - i64::from(from);
    let offset = (2 * i64::from(place) + 1) * span / (2 * i64::from(count));
    (i64::from(from) + offset) as i32
}
