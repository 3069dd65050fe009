//! "A call rests on no more than it reports": on memory that agrees in the header, in the records of the path's
//! nodes and, for a store, in the first two spare records (docs/LAYOUT.md), a call answers the same, and writes
//! the same words in the same places.
use crate::keys::{Kind, Maker};
use crate::lent::Lent;
use crate::quick::Quick;
use crate::run::{call, Call, Model, Run};
use std::collections::BTreeSet;

/// The records that a call for these nodes may look at.
fn reported(table: &[u32], nodes: &[(u32, [u32; 4])], spares: usize) -> BTreeSet<usize> {
    let mut kept = BTreeSet::from([0]);
    for (l, record) in table.chunks_exact(8).enumerate().skip(1) {
        let key = [record[1], record[0], record[3], record[2]];
        let node = nodes.iter().any(|(width, words)| record[7] / 2 == *width && key == *words);
        if node {
            kept.insert(l);
        }
    }
    let mut spare = table[1] as usize;
    for _ in 0..spares {
        if spare != 0 {
            kept.insert(spare);
            spare = table[8 * spare + 5] as usize;
        }
    }
    kept
}

#[test]
fn scrambled_elsewhere() {
    for seed in 0..300 {
        let kind = [Kind::Short(7), Kind::Extended, Kind::Routes][seed as usize % 3];
        let mut run = Run::<Quick>::new(30, 8000 + seed, 1000);
        let mut maker = Maker::new(kind);
        for _ in 0..40 {
            let k = maker.key(&mut run.random);
            let what = if run.random.often(3, 4) { Call::Store(k.width) } else { Call::Remove };
            run.call(what, k);
        }
        for what in [Call::Store(77), Call::Remove, Call::Fetch, Call::Match] {
            let k = maker.key(&mut run.random);
            let nodes: Vec<_> = run.model.path(k).iter().map(|node| (node.width, node.words())).collect();
            let words = run.table.get().to_vec();
            let kept = reported(&words, &nodes, if let Call::Store(_) = what { 2 } else { 0 });
            let mut one = copy(&words);
            let mut other = copy(&words);
            for (l, record) in other.lend().chunks_exact_mut(8).enumerate() {
                if !kept.contains(&l) {
                    record.iter_mut().for_each(|word| *word = run.random.word() >> run.random.below(32));
                }
            }
            let scrambled = other.get().to_vec();
            let trail = [3; 130];
            assert_eq!(
                call(what, &mut one, k.width, k.words(), &trail),
                call(what, &mut other, k.width, k.words(), &trail),
                "{:?} of {:?}",
                what,
                k
            );
            for i in 0..words.len() {
                let written = one.get()[i] != words[i] || other.get()[i] != scrambled[i];
                assert!(!written || one.get()[i] == other.get()[i], "word {} of {:?}", i, what);
            }
        }
    }
}

fn copy(words: &[u32]) -> Lent<u32> {
    let mut table = Lent::new(words.len(), || 0xA5A5_A5A5);
    table.lend().copy_from_slice(words);
    table
}
