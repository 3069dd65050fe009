//! The tests over the model itself: they hold at least of what they were written from.

use model::calls::{Calls, Model};
use model::image::{accepts, BadImage, List};
use model::suite;

#[test]
fn good_images() {
    suite::good_images(&Model);
}

#[test]
fn broken_images() {
    suite::broken_images(&Model);
}

#[test]
fn every_byte() {
    suite::every_byte(&Model);
}

#[test]
fn many_entries() {
    suite::many_entries(&Model);
}

#[test]
fn random_lists() {
    suite::random_lists(&Model, 1, 500);
}

#[test]
fn damaged_images() {
    suite::damaged(&Model, 2, 5_000);
    suite::mixed_records(&Model, 3, 5_000);
    suite::any_bytes(&Model, 4, 500);
}

/// Calls with one fault each, which the tests must find.
struct Faulty(&'static str);

impl Calls for Faulty {
    fn write(&self, list: &List, epoch: u64, out: &mut [u8]) -> Result<usize, usize> {
        match self.0 {
            "wrote one byte wrong" => {
                let length = Model.write(list, epoch, out)?;
                out[length - 1] ^= 1;
                Ok(length)
            }
            "wrote past the image" => {
                let length = Model.write(list, epoch, out)?;
                out.iter_mut().skip(length).for_each(|b| *b = 0);
                Ok(length)
            }
            "wrote where there is no room" => Model.write(list, epoch, out).map_err(|length| {
                out.iter_mut().for_each(|b| *b = 0);
                length
            }),
            "needs one byte more than it says" => Model.write(list, epoch, out).map_err(|length| length - 1),
            _ => Model.write(list, epoch, out),
        }
    }

    fn verify(&self, bytes: &[u8]) -> bool {
        match self.0 {
            "yes to all" => true,
            "no to all" => false,
            _ => accepts(bytes).is_some(),
        }
    }

    fn look(&self, bytes: &[u8], address: [u32; 4]) -> Result<Option<u32>, BadImage> {
        let answer = Model.look(bytes, address)?;
        Ok(if self.0 == "no data for zone 0" { answer.filter(|z| *z != 0) } else { answer })
    }
}

#[test]
fn faults_are_found() {
    for fault in [
        "wrote one byte wrong",
        "wrote past the image",
        "wrote where there is no room",
        "needs one byte more than it says",
        "yes to all",
        "no to all",
        "no data for zone 0",
    ] {
        let found = std::panic::catch_unwind(|| suite::all(&Faulty(fault), 10));
        assert!(found.is_err(), "not found: {fault}");
    }
}
