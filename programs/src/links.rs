//! The sample course: one hole of links golf on a made-up coast, some 400 metres from its west end to its
//! east end. The sea is to the south and has no data.

use crate::shapes::{cover, Frame, Ground, Shape};

/// The south-west corner at longitude -2.5 and latitude 56.5.
pub const FRAME: Frame = Frame {
    longitude: -25_000_000,
    latitude: 565_000_000,
    size: (420.0, 130.0),
    degree: (61_440.0, 111_360.0),
};

/// Bits of column and row of the smallest block: 0.7 metres by 0.6.
pub const LEVEL: u32 = 25;

/// The zones from the widest to the smallest, each within or apart from each before it.
pub fn grounds() -> Vec<Ground> {
    let one = |number, name, shape| Ground { number, name, shapes: vec![shape], without: vec![] };
    vec![
        one(1, "hole", Shape::round(&HOLE)),
        one(2, "rough", Shape::round(&ROUGH)),
        Ground { number: 3, name: "fairway", shapes: vec![Shape::round(&FAIRWAY)], without: vec![water()] },
        one(4, "green", Shape::Ellipse { middle: (361.0, 73.0), long: (15.0, 3.0), short: 11.0 }),
        one(5, "left bunker", Shape::Ellipse { middle: (336.0, 82.0), long: (7.0, -3.0), short: 4.0 }),
        one(6, "right bunker", Shape::Ellipse { middle: (350.0, 45.0), long: (9.0, 1.5), short: 4.5 }),
        one(7, "water", water()),
        Ground {
            number: 8,
            name: "tee",
            shapes: vec![Shape::rectangle(40.0, 58.0, 56.0, 67.0), Shape::rectangle(70.0, 56.0, 80.0, 63.0)],
            without: vec![],
        },
    ]
}

fn water() -> Shape {
    Shape::Ellipse { middle: (236.0, 46.0), long: (25.0, 5.0), short: 9.0 }
}

const HOLE: [(f64, f64); 15] = [
    (6.0, 38.0),
    (10.0, 98.0),
    (70.0, 120.0),
    (180.0, 126.0),
    (300.0, 128.0),
    (395.0, 122.0),
    (418.0, 85.0),
    (412.0, 42.0),
    (372.0, 16.0),
    (318.0, 30.0),
    (262.0, 14.0),
    (205.0, 22.0),
    (160.0, 4.0),
    (90.0, 14.0),
    (30.0, 10.0),
];

const ROUGH: [(f64, f64); 13] = [
    (20.0, 42.0),
    (24.0, 88.0),
    (80.0, 106.0),
    (190.0, 113.0),
    (300.0, 115.0),
    (380.0, 108.0),
    (402.0, 80.0),
    (396.0, 50.0),
    (350.0, 33.0),
    (300.0, 38.0),
    (240.0, 28.0),
    (165.0, 22.0),
    (60.0, 30.0),
];

const FAIRWAY: [(f64, f64); 12] = [
    (112.0, 52.0),
    (122.0, 74.0),
    (180.0, 84.0),
    (240.0, 92.0),
    (300.0, 96.0),
    (365.0, 98.0),
    (392.0, 80.0),
    (386.0, 56.0),
    (340.0, 52.0),
    (285.0, 56.0),
    (220.0, 48.0),
    (150.0, 36.0),
];

/// The list of zones that `zonemap` reads.
pub fn list() -> Result<String, String> {
    let grounds = grounds();
    let cover = cover(&FRAME, LEVEL, &grounds)?;
    let mut text = String::from(HEAD);
    for ground in &grounds {
        text += &format!("#   {} {}\n", ground.number, ground.name);
    }
    for (prefix, place) in cover {
        text += &format!("{prefix} {} {}\n", grounds[place].number, grounds[place].name);
    }
    Ok(text)
}

const HEAD: &str = "\
# The sample course: one hole on a made-up coast, as the program `links` prints it.
# A line: a prefix (hex digits of its leading bits, a slash, its width), the zone number, its name.
# Zones lie within each other: green in fairway in rough in hole; the longest prefix is the smallest zone.
";

#[cfg(test)]
mod tests {
    use super::*;
    use crate::library::{self, Table, RECORDS};
    use crate::prefix::address;
    use crate::shapes::grid;
    use crate::zones;

    /// The shipped list is the one printed now.
    #[test]
    fn shipped_list() {
        let shipped = include_str!("../../samples/links/zones.txt");
        assert!(list().unwrap() == shipped, "run: links > samples/links/zones.txt");
    }

    /// In the middle of every small block the map gives the last zone whose shapes hold that point.
    #[test]
    fn every_block_has_its_zone() {
        let grounds = grounds();
        let mut table = Table::fresh(RECORDS);
        for zone in zones::read(list().unwrap().as_bytes()).unwrap() {
            table.store(zone.prefix, zone.number).unwrap();
        }
        let image = table.image(0).unwrap();
        let grid = grid(&FRAME, LEVEL);
        assert!(grid.len() > 30_000);
        for block in grid {
            let (longitude, latitude) = block.middle();
            let point = FRAME.metres(longitude, latitude);
            let expected = grounds.iter().rev().find(|g| g.holds(point)).map(|g| g.number);
            let cell = library::cell(longitude as i32, latitude as i32).unwrap();
            assert_eq!(library::look(&image, address(cell)), Ok(expected), "{point:?}");
        }
    }
}
