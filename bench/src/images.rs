//! Images: the writer, the checker and the lookup, by size; and the files that bench/reader.c reads.
use crate::data::{Data, Key, Kind, Random};
use crate::ours::Ours;
use crate::peer::Peer;
use nalfipode::raw;
use std::collections::BTreeSet;
use std::fs;
use std::hint::black_box;
use std::time::Instant;

const SIZES: [usize; 3] = [1_000, 8_000, 30_000];
const NESTED: [usize; 3] = [1_000, 8_000, 60_000];
const ROUNDS: usize = 25;
/// A reader of the format may refuse an epoch of 0.
const EPOCH: u64 = 1_794_700_800;

/// Which zone numbers a table has: what the writer sorts.
#[derive(Clone, Copy)]
enum Zones {
    /// The numbers below 500, again and again.
    Few,
    /// 0, 1, 2, ..
    Dense,
    /// All different too, at random among all 32-bit numbers.
    Spread,
}

impl Zones {
    const ALL: [Zones; 3] = [Zones::Few, Zones::Dense, Zones::Spread];

    fn name(self) -> &'static str {
        match self {
            Zones::Few => "500",
            Zones::Dense => "all different",
            Zones::Spread => "all different, spread over 32 bits",
        }
    }

    fn numbers(self, size: usize) -> Vec<u32> {
        match self {
            Zones::Few => (0..size as u32).map(|i| i % 500).collect(),
            Zones::Dense => (0..size as u32).collect(),
            Zones::Spread => {
                let mut random = Random(size as u64);
                let mut seen = BTreeSet::new();
                let all = std::iter::repeat_with(|| random.next() as u32);
                all.filter(|zone| seen.insert(*zone)).take(size).collect()
            }
        }
    }
}

fn filled(keys: &[Key], zones: Zones) -> Ours {
    let mut table = Ours::new(keys.len());
    for (key, zone) in keys.iter().zip(zones.numbers(keys.len())) {
        table.store(Ours::key(*key), zone, &mut [0; 129]);
    }
    table
}

fn written(table: &Ours) -> Vec<u8> {
    let mut length = [0];
    assert_eq!(raw::image_write(table.words(), EPOCH, &mut [], &mut length), 5);
    let mut image = vec![0; length[0] as usize];
    assert_eq!(raw::image_write(table.words(), EPOCH, &mut image, &mut length), 0);
    image
}

/// The least time of a call, of some rounds, in microseconds.
fn least(mut call: impl FnMut()) -> f64 {
    (0..ROUNDS).fold(f64::MAX, |least, _| {
        let start = Instant::now();
        call();
        least.min(start.elapsed().as_nanos() as f64 / 1000.0)
    })
}

fn row(name: &str, keys: &[Key], zones: Zones, questions: &[Key]) {
    let table = filled(keys, zones);
    let mut image = written(&table);
    let mut length = [0];
    let write = least(|| assert_eq!(raw::image_write(table.words(), EPOCH, &mut image, &mut length), 0));
    let check = least(|| assert_eq!(raw::image_verify(&image), 0));
    let look = least(|| {
        for k in questions {
            black_box(raw::image_look(&image, &k.words(), &mut [0; 2]));
        }
    });
    let look = 1000.0 * look / questions.len() as f64;
    println!("| {} | {} | {} | {:.0} | {:.0} | {:.0} |", name, zones.name(), image.len(), write, check, look);
}

/// A table of each kind and size, and of prefixes that are all nodes of one tree.
pub fn table() {
    println!("| prefixes | zone numbers | bytes | write, µs | check, µs | look, ns |");
    println!("|---|---|---|---|---|---|");
    for kind in [Kind::Cells, Kind::Routes] {
        for size in SIZES {
            let data = Data::new(kind, size);
            for zones in Zones::ALL {
                row(&format!("{} {}", size, kind.name()), &data.stored, zones, &data.questions);
            }
        }
    }
    for size in NESTED {
        let nested = nested(size);
        for zones in Zones::ALL {
            row(&format!("{} nested", size), &nested, zones, &nested[..size.min(16_384)]);
        }
    }
}

/// All strings of at most 15 bits, the shortest first: each is a node, so that the largest table holds them.
fn nested(size: usize) -> Vec<Key> {
    let all = (0..16).flat_map(|width| (0..1u128 << width).map(move |i| (i, width)));
    all.take(size).map(|(i, width)| Key::of(if width == 0 { 0 } else { i << (128 - width) }, width)).collect()
}

/// Writes an image and its questions for the outside reader, whose metadata wants two more pairs.
pub fn files(kind: Kind, size: usize, folder: &str) {
    let data = Data::new(kind, size);
    let image = written(&filled(&data.stored, Zones::Dense));
    let mut wider = image.clone();
    let marker = b"\xAB\xCD\xEFMaxMind.com";
    let at = wider.windows(14).rposition(|w| w == marker).expect("an image has it") + 14;
    wider[at] = 0xE9;
    wider.extend(b"\x49languages\x00\x04\x4Bdescription\xE0");
    let bytes: Vec<u8> = data.questions.iter().flat_map(|k| k.bits.to_be_bytes()).collect();
    for (name, bytes) in [("image", image), ("wider", wider), ("questions", bytes)] {
        fs::write(format!("{}/{}", folder, name), bytes).expect("the folder is there");
    }
}
