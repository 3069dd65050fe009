//! The tests of image calls, over any implementation. Each panics with what differs. Seeds are fixed.

use crate::broken::{broken, unbroken};
use crate::calls::Calls;
use crate::good::{good, list};
use crate::image::{accepts, image, look, numbers, short, List};
use crate::random::Random;

/// All of them; about `rounds` random lists and ten times as many damaged images.
pub fn all(calls: &dyn Calls, rounds: usize) {
    good_images(calls);
    broken_images(calls);
    every_byte(calls);
    many_entries(calls);
    random_lists(calls, 1, rounds);
    damaged(calls, 2, 10 * rounds);
    mixed_records(calls, 3, 10 * rounds);
    any_bytes(calls, 4, rounds);
}

/// The good list: written byte for byte, accepted, and looked up as the list answers.
pub fn good_images(calls: &dyn Calls) {
    let mut random = Random(10);
    for (name, list, epoch) in good() {
        written(calls, &name, &list, epoch, &mut random);
    }
}

/// The broken list: refused, and looked up without harm.
pub fn broken_images(calls: &dyn Calls) {
    let mut random = Random(11);
    for (name, bytes) in broken() {
        assert!(!calls.verify(&bytes), "accepted: {name}");
        searched(calls, &bytes, &mut random);
    }
}

/// Every byte of three small images, changed to every other value.
pub fn every_byte(calls: &dyn Calls) {
    let mut random = Random(12);
    let small = [image(&list(&[("0", 5)]), 0), image(&List::new(), 300), Some(unbroken())];
    for good in small.into_iter().flatten() {
        for place in 0..good.len() {
            let mut bytes = good.clone();
            for value in 0..=255 {
                bytes[place] = value;
                checked(calls, &bytes, &mut random, || format!("byte {place} set to {value:02X}"));
            }
        }
    }
}

/// Thousands of entries, and records that lead elsewhere all over the tree: a checker or a writer that goes
/// block by block meets its blocks' edges.
pub fn many_entries(calls: &dyn Calls) {
    let mut random = Random(13);
    let list = |zone: fn(u32) -> u32| -> List {
        (0..6_000u32).map(|i| ((0..13).map(|b| i >> b & 1 == 1).collect(), zone(i))).collect()
    };
    written(calls, "6,000 numbers from 0 on", &list(|i| i), 1, &mut random);
    written(calls, "6,000 numbers around 131,072", &list(|i| 128_072 + i), 1, &mut random);
    written(calls, "6,000 numbers, most of them above 131,072", &list(|i| 130_972 + i), 1, &mut random);
    written(calls, "6,000 numbers up to the highest", &list(|i| u32::MAX - i), 1, &mut random);
    // where the library's first window of numbers ends, in a table of 12,000 records
    written(calls, "3,000 numbers below a window's end", &list(|i| 1_466_024_418 - 3_000 + i), 1, &mut random);
    written(calls, "600 numbers below a window's end", &list(|i| 1_466_024_418 - 600 + i), 1, &mut random);
    let thinner = list(|i| if i < 4_500 { 200_000 + i } else { 800_000_000 + (i - 4_500) * 2_000_003 });
    written(calls, "4,500 numbers in a row, and 1,500 spread above them", &thinner, 1, &mut random);
    written(calls, "6,000 numbers spread below 131,072", &list(|i| 33 * i % 131_072), 1, &mut random);
    let list = list(|i| i * 700_001);
    written(calls, "6,000 entries", &list, 1, &mut random);
    let good = image(&list, 1).expect("it fits");
    let (n, _) = numbers(&good).expect("an image has them");
    for place in (0..6 * n as usize).step_by(3 * 211) {
        for more in [1, 4, 5, 0xFF_FFFF] {
            let mut bytes = good.clone();
            let record = u32::from_be_bytes([0, bytes[place], bytes[place + 1], bytes[place + 2]]);
            bytes[place..place + 3].copy_from_slice(&record.wrapping_add(more).to_be_bytes()[1..]);
            checked(calls, &bytes, &mut random, || format!("record at byte {place} of many, by {more} more"));
        }
    }
}

/// Lists whose strings collide.
pub fn random_lists(calls: &dyn Calls, seed: u64, rounds: usize) {
    let mut random = Random(seed);
    for round in 0..rounds {
        let size = [1, 2, 3, 5, 8, 20, 60][round % 7];
        let list = random.list(size);
        let epoch = random.epoch();
        written(calls, &format!("seed {seed}, list {round}"), &list, epoch, &mut random);
    }
}

/// Images with a few bytes turned, taken out, put in, copied or cut off.
pub fn damaged(calls: &dyn Calls, seed: u64, rounds: usize) {
    let mut random = Random(seed);
    for round in 0..rounds {
        let size = 1 + random.below(12);
        let mut bytes = image(&random.list(size), random.epoch()).expect("a short list fits");
        for _ in 0..=random.below(3) {
            let place = random.below(bytes.len());
            match random.below(6) {
                0..=2 => bytes[place] ^= 1 << random.below(8),
                3 => drop(bytes.remove(place)),
                4 => bytes.insert(place, random.any() as u8),
                _ => bytes[place] = random.pick(&[0, 1, 2, 0x7F, 0x80, 0xC0, 0xC1, 0xFF]),
            }
        }
        checked(calls, &bytes, &mut random, || format!("seed {seed}, damage {round}"));
    }
}

/// Images with a record or two set to another number that might stand there, and the count now and then too.
pub fn mixed_records(calls: &dyn Calls, seed: u64, rounds: usize) {
    let mut random = Random(seed);
    for round in 0..rounds {
        let size = 1 + random.below(10);
        let mut bytes = image(&random.list(size), random.epoch()).expect("a short list fits");
        let (n, _) = numbers(&bytes).expect("an image has them");
        for _ in 0..=random.below(2) {
            let place = 3 * random.below(2 * n as usize);
            let some = random.below(24) as u32;
            let record = random.pick(&[n, n + 16, n + 16 + some, n + some, some % n, n - 1]);
            bytes[place..place + 3].copy_from_slice(&record.to_be_bytes()[1..]);
        }
        if random.below(8) == 0 {
            let count = short(u64::from(n) + random.below(3) as u64 - 1);
            let at = bytes.windows(10).rposition(|w| w == b"node_count").expect("an image has it") + 11;
            if count.len() == usize::from(bytes[at - 1] - 0xC0) {
                bytes[at..at + count.len()].copy_from_slice(&count);
            }
        }
        checked(calls, &bytes, &mut random, || format!("seed {seed}, records {round}"));
    }
}

/// Bytes of no image, of any length up to some hundreds.
pub fn any_bytes(calls: &dyn Calls, seed: u64, rounds: usize) {
    let mut random = Random(seed);
    for round in 0..rounds {
        let bytes: Vec<u8> = (0..random.below(400)).map(|_| random.any() as u8).collect();
        checked(calls, &bytes, &mut random, || format!("seed {seed}, bytes {round}"));
    }
}

/// A list is written as the model writes it, with the bytes past it left, into as much room as it needs and
/// no less; it is accepted, and answers as the list does.
fn written(calls: &dyn Calls, name: &str, list: &List, epoch: u64, random: &mut Random) {
    let expected = image(list, epoch).expect("a list of these tests fits");
    let length = expected.len();
    for (room, answer) in
        [(0, Err(length)), (length - 1, Err(length)), (length, Ok(length)), (length + 9, Ok(length))]
    {
        let mut out = vec![0xA5; room];
        assert_eq!(calls.write(list, epoch, &mut out), answer, "{name}, room for {room} bytes");
        let whole = if answer.is_ok() { &expected[..] } else { &[] };
        assert!(out.starts_with(whole), "another image: {name}, room for {room} bytes");
        let past = &out[whole.len()..];
        assert!(past.iter().all(|b| *b == 0xA5), "written past the image: {name}, room for {room} bytes");
    }
    assert!(calls.verify(&expected), "refused: {name}");
    answers(calls, name, &expected, list, random);
}

/// Bytes are accepted exactly if they are an image, and answer then as its list does.
fn checked(calls: &dyn Calls, bytes: &[u8], random: &mut Random, name: impl Fn() -> String) {
    let found = accepts(bytes);
    assert_eq!(calls.verify(bytes), found.is_some(), "{}: {bytes:02X?}", name());
    match found {
        Some((list, _)) => answers(calls, &name(), bytes, &list, random),
        None => searched(calls, bytes, random),
    }
}

fn answers(calls: &dyn Calls, name: &str, bytes: &[u8], list: &List, random: &mut Random) {
    // of a long list every so manyth address, some thousands in all
    let addresses = random.addresses(list);
    let step = 1 + addresses.len() / 4_000;
    for address in addresses.into_iter().step_by(step) {
        let expected = Ok(look(list, address));
        assert_eq!(calls.look(bytes, address), expected, "{name}, address {address:08X?}");
    }
}

/// The lookup of some addresses in bytes of which nothing is known: any answer will do.
fn searched(calls: &dyn Calls, bytes: &[u8], random: &mut Random) {
    for address in [[0; 4], [u32::MAX; 4], random.address()] {
        let _ = calls.look(bytes, address);
    }
}
