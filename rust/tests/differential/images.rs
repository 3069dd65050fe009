//! Images of aged tables: the bytes are those of a fresh table with the same list, the checker accepts them, and
//! a lookup gives the number of the model's longest match. What the bytes are is for programs/tests/images.rs.
use crate::keys::{Key, Kind, Maker};
use crate::lent::Lent;
use crate::quick::Quick;
use crate::run::{Call, Model, Run};
use nalfipode::raw;

/// The image of a table, into as much room as it says that it needs.
fn image(table: &Lent<u32>, epoch: u64) -> Vec<u8> {
    let mut values: Lent<u64> = Lent::new(1, || 0xA5A5_A5A5_A5A5_A5A5);
    assert_eq!(raw::image_write(table.get(), epoch, &mut [], values.array()), 5);
    let length = values.get()[0] as usize;
    let mut out: Lent<u8> = Lent::new(length, || 0xA5);
    assert_eq!(raw::image_write(table.get(), epoch, out.lend(), values.array()), 0);
    assert_eq!(values.get()[0] as usize, length);
    values.guarded();
    out.guarded();
    out.get().to_vec()
}

/// The zone number of an address in an image.
fn look(bytes: &[u8], k: Key) -> Option<u32> {
    let mut values: Lent<u32> = Lent::new(2, || 0xA5A5_A5A5);
    assert_eq!(raw::image_look(bytes, &k.words(), values.array()), 0);
    values.guarded();
    match *values.get() {
        [1, zone] => Some(zone),
        [0, 0] => None,
        _ => panic!("the values {:?}", values.get()),
    }
}

/// A fresh table of as many records, with what the model lists.
fn anew(run: &Run<Quick>, seed: u64) -> Run<Quick> {
    let mut fresh = Run::<Quick>::new(run.records, seed, 1000);
    for (k, zone) in run.model.slice(None, usize::MAX).given {
        assert_eq!(fresh.call(Call::Store(zone), k), 0);
    }
    fresh
}

#[test]
fn an_aged_table_s_image_is_a_fresh_one_s() {
    for seed in 0..160u64 {
        let kind = [Kind::Short(9), Kind::Extended, Kind::Cells, Kind::Routes][seed as usize % 4];
        let mut run = Run::<Quick>::new([3, 30, 300, 2000][seed as usize / 4 % 4], 77_000 + seed, 1000);
        let mut maker = Maker::new(kind);
        for _ in 0..600 {
            let k = maker.key(&mut run.random);
            let zone = run.random.word() >> (8 * run.random.below(5)).min(31);
            let what = if run.random.often(3, 5) { Call::Store(zone) } else { Call::Remove };
            run.call(what, k);
        }
        let epoch = run.random.next() >> (8 * run.random.below(8));
        let bytes = image(&run.table, epoch);
        assert_eq!(bytes, image(&anew(&run, seed).table, epoch), "seed {}", seed);
        assert_eq!(raw::image_verify(&bytes), 0, "seed {}", seed);
        for _ in 0..300 {
            let near = maker.key(&mut run.random);
            let fill = if near.width == 128 { 0 } else { run.random.wide() >> near.width };
            let k = Key::of(near.bits | fill, 128);
            assert_eq!(look(&bytes, k), run.model.longest(k).map(|(_, zone)| zone), "seed {}, {:?}", seed, k);
        }
    }
}
