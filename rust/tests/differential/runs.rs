//! Long runs of calls: small tables and large ones, nearly full, and ageing.
use crate::brute::Brute;
use crate::keys::{Key, Kind, Maker};
use crate::quick::Quick;
use crate::run::{Call, Model, Run, Sliced};

/// Both models at once: they must agree with each other too.
#[derive(Default)]
struct Both {
    brute: Brute,
    quick: Quick,
}

fn agreed<T: PartialEq + std::fmt::Debug>(a: T, b: T) -> T {
    assert_eq!(a, b, "the models differ");
    a
}

impl Model for Both {
    fn get(&self, k: Key) -> Option<u32> {
        agreed(self.brute.get(k), self.quick.get(k))
    }

    fn put(&mut self, k: Key, zone: u32) {
        self.brute.put(k, zone);
        self.quick.put(k, zone);
    }

    fn take(&mut self, k: Key) {
        self.brute.take(k);
        self.quick.take(k);
    }

    fn nodes_with(&self, k: Key) -> usize {
        agreed(self.brute.nodes_with(k), self.quick.nodes_with(k))
    }

    fn path(&self, k: Key) -> Vec<Key> {
        agreed(self.brute.path(k), self.quick.path(k))
    }

    fn longest(&self, k: Key) -> Option<(u32, u32)> {
        agreed(self.brute.longest(k), self.quick.longest(k))
    }

    fn slice(&self, resume: Option<Key>, size: usize) -> Sliced {
        agreed(self.brute.slice(resume, size), self.quick.slice(resume, size))
    }
}

/// `calls` calls, of which stores are `stores` in ten and removes four less than the rest.
fn phase<M: Model + Default>(run: &mut Run<M>, maker: &mut Maker, calls: usize, stores: usize, slices: usize) {
    for _ in 0..calls {
        let k = maker.key(&mut run.random);
        let zone = if run.random.often(1, 8) { 0 } else { run.random.word() };
        let what = match run.random.below(14) {
            n if n < stores => Call::Store(zone),
            n if n < 10 => Call::Remove,
            n if n < 12 => Call::Fetch,
            _ => Call::Match,
        };
        run.call(what, k);
        if slices > 0 && run.random.often(1, slices) {
            let resume = if run.random.often(1, 4) { None } else { Some(maker.key(&mut run.random)) };
            let size = 1 + run.random.below(7);
            run.slice(resume, size);
        }
    }
}

/// Growing, nearly full for long, shrinking, and full again.
fn life<M: Model + Default>(run: &mut Run<M>, kind: Kind, calls: usize, slices: usize) {
    let mut maker = Maker::new(kind);
    phase(run, &mut maker, calls, 8, slices);
    phase(run, &mut maker, calls, 5, slices);
    phase(run, &mut maker, calls / 2, 2, slices);
    phase(run, &mut maker, calls, 9, slices);
}

#[test]
fn small_tables_of_short_keys() {
    for seed in 0..120 {
        let records = 1 + seed as usize % 12;
        life(&mut Run::<Both>::new(records, seed, 1), Kind::Short(1 + seed as u32 % 7), 60, 5);
    }
}

#[test]
fn small_tables_of_keys_that_extend_each_other() {
    for seed in 0..24 {
        life(&mut Run::<Both>::new(6 + 2 * seed as usize, 1000 + seed, 1), Kind::Extended, 90, 9);
    }
}

#[test]
fn small_tables_of_cells_and_routes() {
    for seed in 0..8 {
        let kind = if seed % 2 == 0 { Kind::Cells } else { Kind::Routes };
        life(&mut Run::<Both>::new(24, 2000 + seed, 1), kind, 120, 9);
    }
}

#[test]
fn every_width_on_one_path() {
    let mut run = Run::<Quick>::new(129, 7, 1);
    for width in 0..=128 {
        run.call(Call::Store(width), Key::of(u128::MAX / 3, width));
    }
    assert_eq!(run.model.path(Key::of(u128::MAX / 3, 128)).len(), 129);
    run.call(Call::Match, Key::of(u128::MAX / 3, 128));
    run.slice(Some(Key::of(u128::MAX / 3, 128)), 4);
    run.slice(None, 4096);
    for width in (0..=128).step_by(2).chain((1..=128).step_by(2)) {
        run.call(Call::Remove, Key::of(u128::MAX / 3, width));
        run.call(Call::Fetch, Key::of(u128::MAX / 3, 128));
    }
}

/// The whole-table check asks nothing of the header's words 2 to 7, so no answer may depend on them. Where the
/// last is a tag that a node may have, the walk takes every step by itself.
#[test]
fn any_words_in_the_rest_of_the_header() {
    for seed in 0..24 {
        let kind = [Kind::Short(7), Kind::Extended, Kind::Cells, Kind::Routes][seed as usize % 4];
        let mut run = Run::<Quick>::new(40, 5000 + seed, 1);
        for i in 2..8 {
            run.table.lend()[i] = run.random.word();
        }
        if seed % 3 > 0 {
            run.table.lend()[7] = run.random.below(if seed % 3 == 1 { 128 } else { 260 }) as u32;
        }
        life(&mut run, kind, 90, 9);
    }
}

#[test]
fn large_tables() {
    for (seed, kind) in [Kind::Extended, Kind::Cells, Kind::Routes, Kind::Short(14)].iter().enumerate() {
        let mut run = Run::<Quick>::new(3000, 3000 + seed as u64, 16);
        life(&mut run, *kind, 9_000, 200);
        assert!(run.model.nodes() > 2000, "{:?}: {} nodes", kind, run.model.nodes());
    }
}

#[test]
fn the_largest_table_to_full_and_back() {
    let mut run = Run::<Quick>::new(65_535, 4000, 4096);
    let mut maker = Maker::new(Kind::Extended);
    let mut full = 0;
    while full < 200 {
        let k = maker.key(&mut run.random);
        if run.call(Call::Store(k.width), k) == 8 {
            full += 1;
            let gone = maker.key(&mut run.random);
            run.call(Call::Remove, gone);
        }
    }
    assert!(run.model.nodes() > 65_500, "{} nodes", run.model.nodes());
    let last = run.slice(None, 4096).given[4095].0;
    run.slice(Some(last), 4096);
    phase(&mut run, &mut maker, 20_000, 4, 2000);
    assert!(run.model.len() > 30_000);
}
