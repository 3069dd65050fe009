//! Cells against the paper's formulas in wide signed arithmetic.
use crate::lent::Lent;
use crate::random::Random;
use nalfipode::raw;

const HALF: i64 = 1_800_000_000;
const QUARTER: i64 = 900_000_000;

/// "floor((z + half) x 4,294,967,296 / (2 x half))", at most 4,294,967,295.
fn line(z: i64, half: i64) -> u32 {
    let product = (i128::from(z) + i128::from(half)) * 4_294_967_296;
    product.div_euclid(2 * i128::from(half)).min(4_294_967_295) as u32
}

/// "interleaves the two, highest bits first, column bit before row bit"
fn woven(column: u32, row: u32) -> u64 {
    (0..32).rev().fold(0, |cell, i| cell << 2 | u64::from(column >> i & 1) << 1 | u64::from(row >> i & 1))
}

fn holds(longitude: i64, latitude: i64) {
    let mut values: Lent<u32> = Lent::new(5, || 0xA5A5_A5A5);
    let number = raw::cell(longitude as i32, latitude as i32, values.array());
    values.guarded();
    if longitude.abs() > HALF || latitude.abs() > QUARTER {
        assert_eq!((number, values.get()), (3, &[0; 5][..]), "{} {}", longitude, latitude);
        return;
    }
    let cell = woven(line(longitude, HALF), line(latitude, QUARTER));
    assert_eq!(number, 0, "{} {}", longitude, latitude);
    assert_eq!(values.get(), [(cell >> 32) as u32, cell as u32, 0, 0, 64], "{} {}", longitude, latitude);
}

#[test]
fn cells_at_the_edges() {
    let edges = |half: i64| {
        let near = [0, half, -half, half / 2, -half / 2, i64::from(i32::MAX), i64::from(i32::MIN)];
        let mut all: Vec<i64> = near.iter().flat_map(|z| (-40..=40).map(move |d| z + d)).collect();
        all.retain(|z| i64::from(i32::MIN) <= *z && *z <= i64::from(i32::MAX));
        all
    };
    for longitude in edges(HALF) {
        for latitude in edges(QUARTER) {
            holds(longitude, latitude);
        }
    }
}

#[test]
fn cells_at_random() {
    let mut random = Random::new(5);
    for _ in 0..500_000 {
        holds(random.within(-HALF, HALF), random.within(-QUARTER, QUARTER));
        holds(i64::from(random.word() as i32), i64::from(random.word() as i32));
        holds(random.within(-1000, 1000), random.within(-1000, 1000));
    }
}
