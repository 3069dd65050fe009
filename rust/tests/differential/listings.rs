//! Whole listings: over an unchanged table the counts add up, and with edits between the slices whatever stays
//! stored is listed exactly once.
use crate::brute::Brute;
use crate::keys::{Key, Kind, Maker};
use crate::quick::Quick;
use crate::run::{Call, Model, Run};
use std::collections::BTreeMap;

#[test]
fn counts_of_a_whole_listing_add_up() {
    for seed in 0..40 {
        let mut run = Run::<Quick>::new(400, 6000 + seed, 64);
        let mut maker = Maker::new(if seed % 2 == 0 { Kind::Extended } else { Kind::Short(9) });
        for _ in 0..300 {
            let k = maker.key(&mut run.random);
            run.call(Call::Store(1), k);
        }
        let size = 1 + run.random.below(30);
        let (mut resume, mut counts, mut paths) = (None, 0, 0);
        loop {
            let slice = run.slice(resume, size);
            counts += slice.count as usize;
            if !slice.more {
                break;
            }
            resume = slice.given.last().map(|(key, _)| *key);
            paths += resume.map_or(0, |key| run.model.path(key).len());
        }
        assert_eq!(counts, run.model.nodes() + paths, "slices of {}", size);
    }
}

#[test]
fn what_stays_stored_is_listed_exactly_once() {
    for seed in 0..60 {
        let mut run = Run::<Brute>::new(40, 7000 + seed, 8);
        let mut maker = Maker::new(if seed % 2 == 0 { Kind::Extended } else { Kind::Short(6) });
        let mut stays: BTreeMap<Key, u32> = BTreeMap::new();
        for zone in 0..30 {
            let k = maker.key(&mut run.random);
            if run.call(Call::Store(zone), k) == 0 {
                stays.insert(k, 0);
            }
        }
        let mut resume = None;
        loop {
            let size = 1 + run.random.below(4);
            let slice = run.slice(resume, size);
            for (key, _) in &slice.given {
                stays.entry(*key).and_modify(|times| *times += 1);
            }
            if !slice.more {
                break;
            }
            resume = slice.given.last().map(|(key, _)| *key);
            for _ in 0..run.random.below(4) {
                let k = maker.key(&mut run.random);
                if run.random.often(1, 2) {
                    run.call(Call::Store(9), k);
                } else if run.call(Call::Remove, k) == 0 {
                    stays.remove(&k);
                }
            }
        }
        assert!(stays.values().all(|times| *times == 1), "{:?}", stays);
    }
}
