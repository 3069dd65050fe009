//! Making a call on memory that is partly shut, and what the model has it answer. The calls are declared
//! again, with plain pointers: a Rust slice may not lie on memory that can't be read.
use crate::keys::EMPTY;
use crate::rules::Ask;
use crate::run::{wanted, Call, Model};
use crate::set::Set;

extern "C" {
    fn nalfipode_store(
        table: *mut u32,
        words: usize,
        width: u32,
        key: *const u32,
        zone: u32,
        trail: *mut u8,
        bytes: usize,
        values: *mut u32,
    ) -> u32;
    fn nalfipode_remove(
        table: *mut u32,
        words: usize,
        width: u32,
        key: *const u32,
        trail: *mut u8,
        bytes: usize,
        values: *mut u32,
    ) -> u32;
    fn nalfipode_fetch(
        table: *const u32,
        words: usize,
        width: u32,
        key: *const u32,
        trail: *mut u8,
        bytes: usize,
        values: *mut u32,
    ) -> u32;
    fn nalfipode_longest_match(
        table: *const u32,
        words: usize,
        width: u32,
        key: *const u32,
        trail: *mut u8,
        bytes: usize,
        values: *mut u32,
    ) -> u32;
    fn nalfipode_slice(
        table: *const u32,
        words: usize,
        resume: u32,
        width: u32,
        key: *const u32,
        size: u32,
        out: *mut u32,
        out_words: usize,
        values: *mut u32,
    ) -> u32;
}

const TRAIL: [u8; 130] = [0xA5; 130];
const FILL: u32 = 0xA5A5_A5A5;

/// What a call gave and left beside the table.
#[derive(PartialEq, Debug)]
pub struct Answer {
    number: u32,
    values: Vec<u32>,
    trail: Vec<u8>,
    out: Vec<u32>,
}

fn room(size: usize) -> usize {
    6 * size + 1
}

/// Makes the call on so many words. They must be mapped, and reads on shut pages be let through.
pub unsafe fn make(ask: Ask, table: *mut u32, words: usize) -> Answer {
    let mut trail = Vec::new();
    let mut out = Vec::new();
    let mut values = [FILL; 4];
    let v = values.as_mut_ptr();
    let (number, count) = match ask {
        Ask::Keyed(what, k) => {
            trail = TRAIL.to_vec();
            let (key, t, bytes) = (k.words(), trail.as_mut_ptr(), trail.len());
            let key = key.as_ptr();
            match what {
                Call::Store(zone) => (nalfipode_store(table, words, k.width, key, zone, t, bytes, v), 3),
                Call::Remove => (nalfipode_remove(table, words, k.width, key, t, bytes, v), 2),
                Call::Fetch => (nalfipode_fetch(table, words, k.width, key, t, bytes, v), 2),
                Call::Match => (nalfipode_longest_match(table, words, k.width, key, t, bytes, v), 4),
            }
        }
        Ask::Slice(resume, size) => {
            out = vec![FILL; room(size)];
            let k = resume.unwrap_or(EMPTY);
            let (key, flag) = (k.words(), u32::from(resume.is_some()));
            let (o, n) = (out.as_mut_ptr(), out.len());
            (nalfipode_slice(table, words, flag, k.width, key.as_ptr(), size as u32, o, n, v), 3)
        }
    };
    Answer { number, values: values[..count].to_vec(), trail, out }
}

/// What the paper has the call give for a set in a table of so many records.
pub fn answer(ask: Ask, set: &Set, records: usize) -> Answer {
    match ask {
        Ask::Keyed(what, k) => {
            let outcome = wanted(what, &set.model, records, k, &TRAIL);
            Answer { number: outcome.number, values: outcome.values, trail: outcome.trail, out: Vec::new() }
        }
        Ask::Slice(resume, size) => {
            let sliced = set.model.slice(resume, size);
            let entry = |(k, zone): &(crate::keys::Key, u32)| [&k.words()[..], &[k.width, *zone]].concat();
            let mut out: Vec<u32> = sliced.given.iter().flat_map(entry).collect();
            out.resize(room(size), FILL);
            let values = vec![sliced.given.len() as u32, u32::from(sliced.more), sliced.count];
            Answer { number: 0, values, trail: Vec::new(), out }
        }
    }
}
