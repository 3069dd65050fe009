//! Ground drawn in metres and covered with cells: a zone is a few shapes, and its cover is the fewest blocks
//! of cells that hold exactly the small cells whose middle lies in it.

use crate::library;
use crate::prefix::{address, Prefix};
use std::collections::{BTreeMap, BTreeSet};

/// Metres east and north of the frame's corner.
pub type Point = (f64, f64);

pub enum Shape {
    /// Corners in turn.
    Polygon(Vec<Point>),
    /// Its middle, the way from there to the end of its long side, and half its short side.
    Ellipse { middle: Point, long: Point, short: f64 },
}

impl Shape {
    /// A polygon with its corners cut twice, a quarter of each side at a time, so that it looks drawn by
    /// hand.
    pub fn round(corners: &[Point]) -> Shape {
        let cut = |points: Vec<Point>| -> Vec<Point> {
            let next = points.iter().cycle().skip(1);
            let quarter = |a: &Point, b: &Point| (0.75 * a.0 + 0.25 * b.0, 0.75 * a.1 + 0.25 * b.1);
            points.iter().zip(next).flat_map(|(a, b)| [quarter(a, b), quarter(b, a)]).collect()
        };
        Shape::Polygon(cut(cut(cut(corners.to_vec()))))
    }

    /// A rectangle from its south-west to its north-east corner.
    pub fn rectangle(west: f64, south: f64, east: f64, north: f64) -> Shape {
        Shape::Polygon(vec![(west, south), (east, south), (east, north), (west, north)])
    }

    pub fn holds(&self, (x, y): Point) -> bool {
        match self {
            Shape::Polygon(corners) => {
                let next = corners.iter().cycle().skip(1);
                // sides that a ray to the east meets
                let met = corners.iter().zip(next).filter(|(a, b)| {
                    (a.1 > y) != (b.1 > y) && x < a.0 + (y - a.1) / (b.1 - a.1) * (b.0 - a.0)
                });
                met.count() % 2 == 1
            }
            Shape::Ellipse { middle, long, short } => {
                let (dx, dy) = (x - middle.0, y - middle.1);
                let square = long.0 * long.0 + long.1 * long.1;
                let along = (dx * long.0 + dy * long.1) / square;
                let across = (dx * long.1 - dy * long.0) / (square.sqrt() * short);
                along * along + across * across <= 1.0
            }
        }
    }
}

/// A zone: what lies in one of its shapes and in none of those taken away.
pub struct Ground {
    pub number: u32,
    pub name: &'static str,
    pub shapes: Vec<Shape>,
    pub without: Vec<Shape>,
}

impl Ground {
    pub fn holds(&self, point: Point) -> bool {
        self.shapes.iter().any(|s| s.holds(point)) && !self.without.iter().any(|s| s.holds(point))
    }
}

/// Where the frame lies: its south-west corner in ten-millionths of a degree, its size in metres, and how
/// many metres a degree has there.
pub struct Frame {
    pub longitude: i32,
    pub latitude: i32,
    pub size: Point,
    pub degree: Point,
}

impl Frame {
    pub fn metres(&self, longitude: i64, latitude: i64) -> Point {
        let part = |value: i64, from: i32, degree: f64| (value - i64::from(from)) as f64 * degree / 1e7;
        (part(longitude, self.longitude, self.degree.0), part(latitude, self.latitude, self.degree.1))
    }

    /// The position of a point, in ten-millionths.
    pub fn position(&self, (x, y): Point) -> (i32, i32) {
        let part = |metres: f64, from: i32, degree: f64| from + (metres / degree * 1e7).round() as i32;
        (part(x, self.longitude, self.degree.0), part(y, self.latitude, self.degree.1))
    }
}

/// A block of cells: how many bits of column and row it fixes, and which.
#[derive(Clone, Copy, Debug, PartialEq, Eq, PartialOrd, Ord)]
pub struct Block {
    pub level: u32,
    pub column: u32,
    pub row: u32,
}

impl Block {
    /// Its middle, in ten-millionths of a degree.
    pub fn middle(&self) -> (i64, i64) {
        let part = |line: u32, half: i64| (((2 * i64::from(line) + 1) * 2 * half) >> (self.level + 1)) - half;
        (part(self.column, 1_800_000_000), part(self.row, 900_000_000))
    }

    /// The first bits, column bit before row bit, of the cell of its middle.
    pub fn prefix(&self) -> Prefix {
        let (longitude, latitude) = self.middle();
        let cell = library::cell(longitude as i32, latitude as i32).expect("a block lies in the range");
        Prefix::first(2 * self.level, address(cell))
    }

    fn around(&self) -> Block {
        Block { level: self.level - 1, column: self.column / 2, row: self.row / 2 }
    }
}

/// The blocks of one level that touch the frame.
pub fn grid(frame: &Frame, level: u32) -> Vec<Block> {
    let line = |units: i32, half: i64| ((i64::from(units) + half) << level) / (2 * half);
    let (east, north) = frame.position(frame.size);
    let columns = line(frame.longitude, 1_800_000_000)..=line(east, 1_800_000_000);
    let rows = line(frame.latitude, 900_000_000)..=line(north, 900_000_000);
    columns
        .flat_map(|c| rows.clone().map(move |r| Block { level, column: c as u32, row: r as u32 }))
        .collect()
}

/// The blocks of the grid whose middle lies in a zone.
fn raster(frame: &Frame, grid: &[Block], ground: &Ground) -> BTreeSet<Block> {
    let inside = |block: &&Block| {
        let (longitude, latitude) = block.middle();
        ground.holds(frame.metres(longitude, latitude))
    };
    grid.iter().filter(inside).copied().collect()
}

/// The fewest blocks that hold the same ground: four that make up a larger one become it, level by level.
fn merged(mut blocks: BTreeSet<Block>) -> BTreeSet<Block> {
    let mut whole = BTreeSet::new();
    while !blocks.is_empty() {
        let mut parts = BTreeMap::<Block, u32>::new();
        for block in &blocks {
            *parts.entry(block.around()).or_default() += 1;
        }
        let larger: BTreeSet<Block> = parts.into_iter().filter(|(_, n)| *n == 4).map(|(b, _)| b).collect();
        whole.extend(blocks.into_iter().filter(|b| !larger.contains(&b.around())));
        blocks = larger;
    }
    whole
}

/// A zone number for each block that has one: the zones in turn, where a later one takes a block that an
/// earlier one has too. Each zone must lie within each earlier one or apart from it; then the longest prefix
/// of a cell is that of the last zone that holds it. An error names two zones of which that is not so.
pub fn cover(frame: &Frame, level: u32, grounds: &[Ground]) -> Result<BTreeMap<Prefix, usize>, String> {
    let grid = grid(frame, level);
    let rasters: Vec<BTreeSet<Block>> = grounds.iter().map(|g| raster(frame, &grid, g)).collect();
    let mut cover = BTreeMap::new();
    for (i, inner) in rasters.iter().enumerate() {
        for (j, outer) in rasters[..i].iter().enumerate() {
            let shared = inner.intersection(outer).count();
            if shared != 0 && shared != inner.len() {
                return Err(format!("{} lies partly in {}", grounds[i].name, grounds[j].name));
            }
        }
        cover.extend(merged(inner.clone()).iter().map(|block| (block.prefix(), i)));
    }
    Ok(cover)
}

#[cfg(test)]
mod tests {
    use super::*;

    const FRAME: Frame =
        Frame { longitude: 0, latitude: 0, size: (40.0, 40.0), degree: (111_320.0, 111_320.0) };

    fn ground(number: u32, shape: Shape) -> Ground {
        Ground { number, name: "ground", shapes: vec![shape], without: vec![] }
    }

    #[test]
    fn points_in_shapes() {
        let square = Shape::rectangle(0.0, 0.0, 4.0, 2.0);
        assert!(square.holds((1.0, 1.0)) && !square.holds((5.0, 1.0)) && !square.holds((-1.0, 1.0)));
        let round = Shape::round(&[(0.0, 0.0), (4.0, 0.0), (4.0, 4.0), (0.0, 4.0)]);
        assert!(round.holds((2.0, 2.0)) && !round.holds((0.1, 0.1)));
        let ellipse = Shape::Ellipse { middle: (0.0, 0.0), long: (3.0, 3.0), short: 1.0 };
        assert!(ellipse.holds((2.9, 2.9)) && !ellipse.holds((3.1, 3.1)));
        assert!(ellipse.holds((0.7, -0.7)) && !ellipse.holds((0.8, -0.8)));
    }

    #[test]
    fn blocks_and_their_prefixes() {
        // the north-east quarter of the globe, and the block of four cells at its corner
        assert_eq!(Block { level: 1, column: 1, row: 1 }.prefix().to_string(), "C/2");
        assert_eq!(Block { level: 2, column: 2, row: 2 }.prefix().to_string(), "C/4");
        assert_eq!(Block { level: 2, column: 2, row: 3 }.prefix().to_string(), "D/4");
        assert_eq!(Block { level: 2, column: 3, row: 2 }.prefix().to_string(), "E/4");
    }

    #[test]
    fn four_become_one() {
        let four: BTreeSet<Block> = [(4, 6), (4, 7), (5, 6), (5, 7), (6, 6)]
            .map(|(column, row)| Block { level: 3, column, row })
            .into();
        let expected = [Block { level: 2, column: 2, row: 3 }, Block { level: 3, column: 6, row: 6 }];
        assert_eq!(merged(four), expected.into());
    }

    #[test]
    fn zones_that_only_partly_lie_in_another_are_refused() {
        let one = || ground(1, Shape::rectangle(0.0, 0.0, 20.0, 20.0));
        let inside = ground(2, Shape::rectangle(5.0, 5.0, 10.0, 10.0));
        let apart = ground(3, Shape::rectangle(30.0, 30.0, 35.0, 35.0));
        let across = ground(4, Shape::rectangle(15.0, 15.0, 25.0, 25.0));
        assert!(cover(&FRAME, 24, &[one(), inside, apart]).is_ok());
        assert_eq!(cover(&FRAME, 24, &[one(), across]), Err("ground lies partly in ground".into()));
    }
}
