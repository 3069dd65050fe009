//! The refusals in their order, for calls with several things wrong at once, and what they leave.
use crate::keys::Key;
use crate::lent::{self, Lent};
use crate::random::Random;
use crate::run::{call, Call};
use nalfipode::raw;

const LENGTHS: [usize; 12] = [0, 1, 8, 15, 16, 17, 20, 24, 72, 100, 524_288, 524_296];

fn is_table(words: usize) -> bool {
    words % 8 == 0 && (16..=524_288).contains(&words)
}

fn is_prefix(width: u32, key: [u32; 4]) -> bool {
    width <= 128 && (width == 128 || Key::of_words(&key, width).bits << width == 0)
}

/// A width and words, often bad by a little.
fn some_key(random: &mut Random) -> (u32, [u32; 4]) {
    let width = [0, 1, 31, 32, 33, 63, 64, 65, 96, 127, 128, 129, 255, u32::MAX][random.below(14)];
    let mut key = Key::of(random.wide(), width.min(128));
    if random.often(1, 3) {
        key.bits |= 1 << random.below(128);
    }
    (width, key.words())
}

#[test]
fn keyed_calls() {
    let mut random = Random::new(8);
    for length in LENGTHS {
        let mut table = lent::words(length, &mut random);
        raw::fresh(table.lend());
        let before = table.get().to_vec();
        for _ in 0..if length > 1000 { 60 } else { 1500 } {
            let (width, key) = some_key(&mut random);
            let room = [0, 1, 128, 129, 200][random.below(5)];
            let trail: Vec<u8> = (0..room).map(|_| random.word() as u8).collect();
            let wanted = match (is_table(length), is_prefix(width, key), room < 129) {
                (false, _, _) => 1,
                (_, false, _) => 2,
                (_, _, true) => 5,
                _ => 0,
            };
            for what in [Call::Store(3), Call::Remove, Call::Fetch, Call::Match] {
                if wanted == 0 {
                    continue;
                }
                let got = call(what, &mut table, width, key, &trail);
                assert_eq!(got.number, wanted, "{:?}, {} words, width {}, {} bytes", what, length, width, room);
                assert!(got.values.iter().all(|value| *value == 0), "{:?}: {:?}", what, got.values);
                assert_eq!(got.trail, trail);
            }
        }
        assert_eq!(table.get(), before, "a refusal leaves the words");
    }
}

#[test]
fn slices() {
    let mut random = Random::new(9);
    for length in LENGTHS {
        let mut table = lent::words(length, &mut random);
        raw::fresh(table.lend());
        for _ in 0..300 {
            let (width, key) = some_key(&mut random);
            let flag = random.below(3) as u32;
            let size = [0, 1, 2, 4096, 4097, u32::MAX][random.below(6)];
            let room = [0, 5, 6, 11, 12, 24_575, 24_576][random.below(7)];
            let mut out = lent::words(room, &mut random);
            let before = out.get().to_vec();
            let mut values: Lent<u32> = Lent::new(3, || 0xA5A5_A5A5);
            let got = raw::slice(table.get(), flag, width, &key, size, out.lend(), values.array());
            let wanted = match (is_table(length), flag == 0 || is_prefix(width, key), (1..=4096).contains(&size)) {
                (false, _, _) => 1,
                (_, false, _) => 2,
                (_, _, false) => 4,
                _ if room < 6 * size as usize => 5,
                _ => 0,
            };
            assert_eq!(got, wanted, "{} words, width {}, size {}, room {}", length, width, size, room);
            assert_eq!(values.get(), [0; 3], "an empty table, or refused");
            assert_eq!(out.get(), before);
            out.guarded();
            values.guarded();
        }
    }
}

#[test]
fn fresh_and_audit() {
    let mut random = Random::new(10);
    for length in (0..200).chain([524_280, 524_287, 524_288, 524_289, 524_296]) {
        let mut table = lent::words(length, &mut random);
        let before = table.get().to_vec();
        let number = raw::fresh(table.lend());
        table.guarded();
        assert_eq!(number, u32::from(!is_table(length)));
        if number == 1 {
            assert_eq!(table.get(), before);
        }
        let mut values = [7];
        assert_eq!(raw::audit(table.get(), &mut values), number);
        assert_eq!(values, [1 - number]);
    }
}
