//! The library's image calls held against the model of paper 01 (tests/model): written byte for byte,
//! accepted exactly if some list and epoch give the bytes, and looked up as the longest match of the list.

use model::calls::Calls;
use model::image::{words, BadImage, List};
use model::suite;
use nalfipode::Refusal;
use programs::library::{self, Table, RECORDS};
use programs::prefix::Prefix;

struct Library;

impl Calls for Library {
    fn write(&self, list: &List, epoch: u64, out: &mut [u8]) -> Result<usize, usize> {
        // with n prefixes come at most n - 1 branches: just enough records, or the most there are
        let mut table = Table::fresh((2 * list.len()).clamp(1, RECORDS));
        for (string, zone) in list {
            let prefix = Prefix::new(string.len() as u32, words(string)).expect("at most 128 bits");
            assert_eq!(table.store(prefix, *zone), Ok(None));
        }
        table.write(epoch, out).map_err(|refused| {
            assert_eq!(refused.refusal, Refusal::ShortOut);
            refused.needed
        })
    }

    fn verify(&self, bytes: &[u8]) -> bool {
        library::verify(bytes)
    }

    fn look(&self, bytes: &[u8], address: [u32; 4]) -> Result<Option<u32>, BadImage> {
        library::look(bytes, address).map_err(|_| BadImage)
    }
}

#[test]
fn good_images() {
    suite::good_images(&Library);
}

#[test]
fn broken_images() {
    suite::broken_images(&Library);
}

#[test]
fn every_byte_of_small_images() {
    suite::every_byte(&Library);
}

#[test]
fn many_entries() {
    suite::many_entries(&Library);
}

#[test]
fn random_lists() {
    suite::random_lists(&Library, 21, 700);
}

#[test]
fn damaged_images() {
    suite::damaged(&Library, 22, 7_000);
}

#[test]
fn mixed_records() {
    suite::mixed_records(&Library, 23, 7_000);
}

#[test]
fn any_bytes() {
    suite::any_bytes(&Library, 24, 1_000);
}
